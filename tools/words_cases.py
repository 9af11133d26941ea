#!/usr/bin/env python3
"""Writes the cases of command lines, from words_cases.json beside it, as theorems that the check computes:
crates/model_cases/proofs/WordsCases*.antt. With --check it writes nothing, and fails where a file isn't as it would be
written.

A case has words, and the parts that they ask for, or the place of the first word that is wrong (null at the end)
with the line that is printed. A device is its disk and its partition.
"""

import json
import pathlib
import re
import sys

from case_files import flag, listed, theorem_names, unfoldable, write_cases
from model_cases import PROOFS, SPECS, option, raw

DATA = pathlib.Path(__file__).resolve().parent / 'words_cases.json'
A_FILE = 40             # cases a file
FILES = ['Devices', 'Words']
WORDS = ['Install', 'Test', 'Query', 'SetLine', 'Restore', 'Boot']


def text(value):
    """A text as an argument."""
    term = raw(value.encode())
    return term if term == '[]' else '(%s)' % term


def texts(values):
    return listed([text(value) for value in values])


def device(value):
    return '(record { disk = %d; partition = %d })' % tuple(value)


COMMANDS = {
    'Install': lambda: 'Install', 'Test': lambda: 'Test',
    'Query': lambda found: '(Query %s)' % option(found, device),
    'SetLine': lambda words: '(SetLine %s)' % texts(words),
    'Restore': lambda found: '(Restore %s)' % device(found),
    'Boot': lambda found, dump: '(Boot %s %s)' % (device(found), flag(dump)),
}


def part(value):
    return '(record { config = %s; root = %s; verbose = %s; command = %s })' % (
        option(value['config'], text), option(value['root'], device), flag(value['verbose']),
        COMMANDS[value['command'][0]](*value['command'][1:]))


def unfolded():
    """The definitions of each file that a proof unfolds."""
    found = {name: unfoldable(SPECS / (name + '.antt')) for name in FILES}
    found['Devices'] = [name for name in found['Devices'] if name not in ('disk_number', 'device_number')]
    return found


def theorems(name, case):
    """The theorems of a case: each its name, and what is equal."""
    words = texts(case['words'])
    if 'parts' in case:
        return [(name, 'run_at %s' % words, 'Ok %s' % listed([part(each) for each in case['parts']]))]
    return [(name, 'run_at %s' % words, 'Err %s' % option(case['wrong'], str)),
            (name + '_text', 'usage_text %s' % words, raw(case['text'].encode()))]


def cases_text(named_cases):
    found = unfolded()
    names = ' '.join([name for file in FILES for name in found[file]] + ['digits'])
    body = []
    for name, case in named_cases:
        head = ['', '-- ' + case['shows']]
        for theorem, left, right in theorems(name, case):
            body += head + ['pub %s : %s ≡ %s' % (theorem, left, right), 'unfolding ' + names, '%s = refl' % theorem]
            head = ['']
    used = set(re.findall(r'\w+', re.sub(r'"[^"]*"', '', '\n'.join(line for line in body if not line.startswith('--')))))
    signs = [name for name in ('true', 'false', 'None', 'Some', 'Ok', 'Err', 'codes') if name in used]
    lines = ['-- Cases of command lines; tools/words_cases.py writes this file.',
             'use Rattle.std.proofs.Common.{%s}' % ', '.join(['◌≡◌', '[]', '◌∷◌'] + signs + ['refl']),
             'use Rattle.std.specs.Fmt.{digits}',
             'use Rattle.lilo_model.specs.Devices.{%s}' % ', '.join(found['Devices']),
             'use Rattle.lilo_model.specs.Words.{%s}' % ', '.join([word for word in WORDS if word in used] + found['Words'])]
    if 'hex' in used:
        lines.append('use Rattle.model_cases.specs.Sparse.{hex}')
    return '\n'.join(lines + body) + '\n'


def main(arguments):
    cases = json.loads(DATA.read_text())
    named_cases = list(zip(theorem_names('words', [case['shows'].replace("'", '') for case in cases]), cases))
    return write_cases('words_cases.py', PROOFS, 'WordsCases', named_cases, A_FILE, cases_text, arguments)


if __name__ == '__main__':
    sys.exit(main(sys.argv[1:]))
