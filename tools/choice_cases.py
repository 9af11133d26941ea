#!/usr/bin/env python3
"""Writes the cases of the choice at the prompt, from choice_cases.json beside it, as theorems that
the check computes: crates/model_cases/proofs/ChoiceCases*.antt. Run tools/model_cases.py after it, which
lists the files.

In the data each character of a text is one byte. A list of keys is a list of texts that are typed
and of numbers of ticks.
"""

import json
import pathlib
import re
import sys

from case_files import flag, maybe, write_or_check

HERE = pathlib.Path(__file__).resolve().parent
PROOFS = HERE.parent / 'crates' / 'model_cases' / 'proofs'
CASES_PER_FILE = 60
RUN = 24                    # so many equal bytes in a row are written by their number
NAMED = {'\b \b': 'erasing_text', '\n': 'newline'}

HEAD = '''-- Cases of the choice at the prompt, part {part}; tools/choice_cases.py writes this file.
use Rattle.std.proofs.Common.{{{names}}}
use Rattle.lilo_model.specs.DefaultLine.{{Empty, Once, Kept}}
use Rattle.lilo_model.specs.LineEdits.{{erasing_text}}
use Rattle.lilo_model.specs.LineWords.{{words_of, meaning}}
use Rattle.lilo_model.specs.Choice.{{newline, course_of}}
use Rattle.model_cases.specs.Cases.{{typing, waiting, settings, listed, chosen, answers, expected, opened}}
'''
NAMES = '◌≡◌, [], ◌∷◌, ◌++◌, replicate, true, false, None, Some, codes, refl'


def short_terms(value):
    """The parts of a text as terms: names for what is often there, and texts and numbers. A `?` is a
    number, so that a search for holes finds none."""
    terms = []
    for found in re.finditer(r'\x08 \x08|\n|[ !#->@-\[\]-~]+|.', value, re.DOTALL):
        part = found.group()
        if part in NAMED:
            terms.append(NAMED[part])
        elif re.fullmatch(r'[ !#->@-\[\]-~]+', part):
            terms.append('codes "%s"' % part)
        else:
            terms.append('(%d ∷ [])' % ord(part))
    return terms


def text(value):
    """A text as a term that can be an argument."""
    terms, at = [], 0
    for found in re.finditer(r'(.)\1{%d,}' % (RUN - 1), value, re.DOTALL):
        terms += short_terms(value[at:found.start()])
        terms.append('replicate %d %d' % (len(found.group()), ord(found.group(1))))
        at = found.end()
    terms += short_terms(value[at:])
    term = ' ++ '.join(terms) or '[]'
    return term if len(terms) < 2 and term[:1] in '(ne[' else '(%s)' % term


def keys(value, inner=True):
    terms = [('waiting %d' % part if isinstance(part, int) else 'typing ' + text(part))
             for part in value]
    term = ' ++ '.join(terms) or '[]'
    return '(%s)' % term if inner and ' ' in term else term


def number(value):
    return str(value)


def line(value):
    return 'Empty' if value is None else '(%s %s)' % (value[0], text(value[1]))


def entry(value):
    return 'listed %s %s %s %s %s' % (
        text(value['name']), maybe(value.get('password'), text),
        flag(value.get('restricted')), flag(value.get('lock')),
        maybe(value.get('fallback'), text))


def picked(value):
    return '(chosen %d %s %s %s)' % (value['entry'], text(value['words']),
                                     flag(value['automatic']), maybe(value['vga'], number))


def opening(value):
    return '(opened %s %s)' % (text(value['before']), keys(value['left']))


def case(value):
    given = value['settings']
    entries = ' ∷ '.join([entry(one) for one in value['entries']] + ['[]'])
    wanted = value['expected']
    return '''
-- {about}
{name} : answers (settings {prompt} {delay} {timeout} {default} {capacity})
    ({entries})
    {line} {message}
    {keys}
    ≡ expected {picked}
    {shown}
    {new_line} {left}
    {opening}
unfolding words_of meaning course_of
{name} = refl
'''.format(about=value['about'], name=value['name'], prompt=flag(given['prompt']),
           delay=given['delay'], timeout=maybe(given['timeout'], number),
           default=given['default_entry'], capacity=given['capacity'], entries=entries,
           line=line(value['line']), message=maybe(value['message'], text),
           keys=keys(value['keys']), picked=maybe(wanted['picked'], picked),
           shown=text(wanted['shown']), new_line=line(wanted['line']),
           left=keys(wanted['left']), opening=maybe(wanted['opening'], opening))


def needed(body):
    """The names of the library that a file's cases use."""
    words = set(re.findall(r'\w+|\S', re.sub(r'"[^"]*"|--[^\n]*', ' ', body)))
    return [name for name in NAMES.split(', ') if '◌' in name or name == '[]' or name in words]


def used(head, body):
    """The head with the names that the body uses."""
    words = set(re.findall(r'\w+', re.sub(r'"[^"]*"|--[^\n]*', ' ', body)))
    rows = []
    for row in head.splitlines():
        found = re.fullmatch(r'(use Rattle\.(?:lilo|model)\S*\.\{)(.*)\}', row)
        if found:
            names = [name for name in found.group(2).split(', ') if name in words]
            if not names:
                continue
            row = found.group(1) + ', '.join(names) + '}'
        rows.append(row)
    return '\n'.join(rows) + '\n'


def main(arguments):
    cases = json.loads((HERE / 'choice_cases.json').read_text())
    assert len({value['name'] for value in cases}) == len(cases)
    files = {}
    for part, at in enumerate(range(0, len(cases), CASES_PER_FILE), 1):
        body = ''.join(case(value) for value in cases[at:at + CASES_PER_FILE])
        head = HEAD.format(part=part, names=', '.join(needed(body)))
        files[PROOFS / ('ChoiceCases%d.antt' % part)] = used(head, body) + body
    return write_or_check('choice_cases.py', {PROOFS: ['ChoiceCases']}, files, arguments)


if __name__ == '__main__':
    sys.exit(main(sys.argv[1:]))
