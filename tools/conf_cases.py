#!/usr/bin/env python3
"""Writes the cases of lilo.conf, from conf_cases.json beside it, as theorems that the check computes:
crates/model_cases/proofs/ConfCases*.antt. Each such file has a line in Lib.antt beside them. With --check it
compares them with what is there.

In the data each character of a text is one byte. A case has what its text says, or its refusal with the line
that says so.
"""

import json
import pathlib
import re
import sys

from case_files import flag, listed, maybe, write_or_check

HERE = pathlib.Path(__file__).resolve().parent
SPECS = HERE.parent / 'crates' / 'lilo_model' / 'specs'
PROOFS = HERE.parent / 'crates' / 'model_cases' / 'proofs'
CASES_PER_FILE = 20
FILES = ['Conf', 'ConfJudge', 'ConfOptions', 'ConfRefusal', 'ConfSettings', 'ConfTokens', 'ConfValues', 'Devices']

HEAD = '''-- Cases of lilo.conf, part {part}; tools/conf_cases.py writes this file.
use Rattle.std.specs.Prelude.{{◌≡◌, [], ◌∷◌, ◌++◌, true, false, None, Some, Ok, Err, codes}}
use Rattle.std.proofs.Common.{{refl}}
use Rattle.std.specs.Fmt.{{digits}}
use Rattle.lilo_model.specs.Slots.{{ChsMode, LinearMode, Lba32Mode}}
use Rattle.lilo_model.specs.ConfOptions as options
use Rattle.lilo_model.specs.ConfTokens as tokens
use Rattle.lilo_model.specs.ConfRefusal as reasons
'''
MODES = {'1': 'ChsMode', '2': 'LinearMode', '3': 'Lba32Mode'}
MOUNTS = {None: 'Unsaid', 'ro': 'ReadOnlyMount', 'rw': 'ReadWriteMount'}


def text(value):
    """A text as a term that can be an argument."""
    terms = []
    for part in re.findall(r'[ !#-\[\]-~\n]+|[^ !#-\[\]-~\n]', value):
        if re.fullmatch(r'[ !#->@-\[\]-~\n]+', part):
            terms.append('codes "%s"' % part.replace('\n', '\\n'))
        else:
            terms.append('(%s[])' % ''.join('%d ∷ ' % ord(byte) for byte in part))
    return '(%s)' % ' ++ '.join(terms) if terms else '[]'


def device(value):
    return '(record { disk = %d; partition = %d })' % tuple(value)


def option(name):
    special = {'other': 'OtherDevice', 'text': 'Other'}
    return 'options.' + special.get(name, ''.join(part.capitalize() for part in name.split('-')))


def reason(kind, extra):
    if kind in ('Excludes', 'Needs'):
        return '(reasons.%s %s)' % (kind, option(extra))
    if kind in ('OpenQuote', 'BadByte'):
        return '(reasons.Text (tokens.%s %d))' % (kind, extra)
    return 'reasons.' + kind


def disk(value):
    number, bios, sectors, heads, line = value
    return '(record { device = %s; bios = %s; sectors = %s; heads = %s; line = %d })' % (
        device([number, 0]), maybe(bios, str), maybe(sectors, str), maybe(heads, str), line)


def optional(value):
    return maybe(value, text)


def fields(value, terms):
    return '(record { %s })' % '; '.join('%s = %s' % (name, term(value[name])) for name, term in terms)


SECTION = [
    ('other', lambda one: maybe(one, device)), ('path', text), ('label', text), ('alias', optional),
    ('initrd', optional), ('root', lambda one: maybe(one, str)), ('mount', MOUNTS.get),
    ('append', optional), ('literal', optional), ('vga', lambda one: maybe(one, str)),
    ('password', optional), ('restricted', flag), ('optional', flag), ('lock', flag),
    ('fallback', optional), ('table', lambda one: maybe(one, device)), ('line', str)]
CONFIG = [
    ('boot', lambda one: maybe(one, device)), ('map', text), ('install', optional), ('backup', optional),
    ('force_backup', optional), ('compact', flag), ('mode', MODES.get), ('default_name', optional),
    ('delay', str), ('timeout', lambda one: maybe(one, str)), ('prompt', flag), ('message', optional),
    ('disks', lambda some: listed([disk(one) for one in some])),
    ('sections', lambda some: listed([fields(one, SECTION) for one in some]))]


def config(value):
    return fields(value, CONFIG)


def named(about):
    return 'conf_' + re.sub(r'\W+', '_', about.lower())


def words():
    """The names that a case has to open."""
    found = []
    for name in FILES:
        source = (SPECS / (name + '.antt')).read_text()
        found.append((name, re.findall(r'^unfoldable pub (\S+) :', source, re.MULTILINE)))
    return found


def case(value, opened):
    name, given = named(value['name']), text(value['text'])
    if 'config' in value:
        return '\n-- %s\npub %s : conf_at %s ≡ Ok %s\nunfolding %s\n%s = refl\n' % (
            value['name'], name, given, config(value['config']), opened, name)
    kind, about, line, extra = value['refusal']
    refusal = '(record { reason = %s; option = %s; line = %d })' % (reason(kind, extra), option(about), line)
    told = value['line'].removeprefix('config: ')
    return ('\n-- %s\npub %s : (conf_at %s ≡ Err %s) × (config_line %s ≡ %s)\nunfolding %s\n%s = (refl, refl)\n'
            % (value['name'], name, given, refusal, refusal, text(told), opened, name))


def used(head, body):
    """The head with the names that the body uses."""
    words = set(re.findall(r'[^\s(){};.]+', re.sub(r'"[^"]*"|--[^\n]*', ' ', body)))
    rows = []
    for row in head.splitlines():
        found = re.fullmatch(r'(use \S+\.\{)(.*)\}', row)
        if found:
            names = [name for name in found.group(2).split(', ') if name.strip('◌') in words or name == '[]']
            if not names:
                continue
            row = found.group(1) + ', '.join(names) + '}'
        if ' as ' not in row or row.split(' as ')[1] in words:
            rows.append(row)
    return '\n'.join(rows) + '\n'


def main(arguments):
    cases = json.loads((HERE / 'conf_cases.json').read_text())
    assert len({named(value['name']) for value in cases}) == len(cases)
    opened = 'digits ' + ' '.join(name for _, names in words() for name in names)
    imports = ''.join('use Rattle.lilo_model.specs.%s.{%s}\n' % (name, ', '.join(
        names + (['Unsaid', 'ReadOnlyMount', 'ReadWriteMount'] if name == 'Conf' else []))) for name, names in words())
    files = {}
    for part, at in enumerate(range(0, len(cases), CASES_PER_FILE), 1):
        body = ''.join(case(value, opened) for value in cases[at:at + CASES_PER_FILE])
        files[PROOFS / ('ConfCases%d.antt' % part)] = used(HEAD.format(part=part) + imports, body) + body
    return write_or_check('conf_cases.py', {PROOFS: ['ConfCases']}, files, arguments)


if __name__ == '__main__':
    sys.exit(main(sys.argv[1:]))
