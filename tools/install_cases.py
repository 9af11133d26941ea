#!/usr/bin/env python3
"""Writes the cases of what an installation and `-t` answer, from install_cases.json beside it, as theorems that the
check computes: crates/map_cases/proofs/InstallCases*.antt. With --check it writes nothing, and fails where a file isn't
as it would be written.

A case has its disks as those of plan_cases.json; the device that is named for the volume, and the path of the
configuration, where they are; and of each command the status, the text, and the places that are chosen for the map or
why there is no room (nothing, where that isn't come to). Where it has what settling changes, these places are computed
too.
"""

import json
import pathlib
import sys

import conf_cases
import model_cases
import plan_cases
from case_files import theorem, unfoldable, write_cases
from model_cases import option, sectors

HERE = pathlib.Path(__file__).resolve().parent
DATA = HERE / 'install_cases.json'
PROOFS = plan_cases.LAWS
CRATES = HERE.parent / 'crates'
VERDICT = CRATES / 'install_laws' / 'specs' / 'InstallVerdict.antt'
A_FILE = 8              # theorems a file
plan_cases.FILES['Install'] = list(dict.fromkeys(
    plan_cases.FILES['Lies'] + plan_cases.FILES['Refused'] + plan_cases.FILES['Names']
    + ['MinixSurvey', 'Mapped', 'Refusal', 'ConfRefusal', 'VolumeSearch', 'ConfVerdict', 'Verdict']))
OWN = {path.parent.parent.name + '.specs.' + path.stem: unfoldable(path)
       for path in [VERDICT] + sorted((CRATES / 'write_model' / 'specs').glob('*.antt'))}

TAKEN = {'install_laws.specs.InstallVerdict': ['verdict_by', 'NoRoom'],
         'write_model.specs.Wish': ['NoSpace', 'NoInode', 'NameTooLong'],
         'map_cases.specs.InstallCase': ['case_answer', 'both_verdicts', 'settled_room', 'looked_room']}


def room(item, refused='%s'):
    if item is None:
        return '(Ok [])'
    if item[0] == 'Ok':
        return '(Ok %s)' % sectors(item[1])
    words = ' '.join(str(part) for part in item[1:])
    return '(Err %s)' % refused % ('(%s)' % words if len(item) > 2 else words)


def verdict(item):
    return 'record { status = %d; text = %s }' % (item[0], conf_cases.text(item[1]))


def equations(case):
    begun = plan_cases.disks(case['disks'])
    others = '%s %s %s' % (model_cases.machine(case['machine']), option(case['root'], conf_cases.device),
                           option(case['path'], conf_cases.text))
    rooms = [case['install_room'], case['test_room']]
    answers = ['case_answer %s %s %s' % (begun, others, room(item)) for item in rooms]
    if rooms[0] == rooms[1]:
        pairs = [('both_verdicts (%s)' % answers[0], '(%s, %s)' % (verdict(case['install']), verdict(case['test'])))]
    else:
        pairs = [('verdict_by answer_text (%s)' % answers[0], verdict(case['install'])),
                 ('verdict_by test_text (%s)' % answers[1], verdict(case['test']))]
    if 'settling' in case:
        settling = plan_cases.patches(case['settling'])
        pairs += [('settled_room %s %s %s' % (begun, settling, others), room(rooms[0], '(NoRoom %s)')),
                  ('looked_room %s %s' % (begun, others), room(rooms[1], '(NoRoom %s)'))]
    return pairs


def own(known):
    """The definitions of other crates that a proof unfolds, by file; one whose name is taken gets another."""
    found, seen = {}, set(known)
    for source, words in OWN.items():
        found[source] = [(word, word if word not in seen else '%s_%s' % (source.split('.')[-1].lower(), word))
                         for word in words]
        seen |= set(words)
    return found


def file_text(theorems, fixed):
    terms = [side for _, _, pairs in theorems for pair in pairs for side in pair]
    model = [name for found in plan_cases.unfolded('Install').values() for _, name in found]
    others = own(model)
    unfolding = model + [name for found in others.values() for _, name in found] + ['digits']
    rows = ['-- What an installation and its test answer, written by tools/install_cases.py.']
    rows += plan_cases.imports('Install', terms, fixed)
    rows += ['use Rattle.std.specs.Fmt.{digits}']
    rows += ['use Rattle.%s.{%s}' % (source, ', '.join(
        word if word == name else '%s as %s' % (word, name) for word, name in found))
             for source, found in sorted(others.items()) if found]
    words = model_cases.words_in(terms)
    for source, names in TAKEN.items():
        taken = [name for name in names if name in words]
        rows += ['use Rattle.%s.{%s}' % (source, ', '.join(taken))] if taken else []
    for name, shows, pairs in theorems:
        rows += theorem(name, shows, pairs, ' '.join(unfolding))
    return '\n'.join(rows) + '\n'


def main(arguments):
    cases = json.loads(DATA.read_text())
    fixed = plan_cases.fixed_names(plan_cases.fixtures(json.loads(plan_cases.DATA.read_text())))
    theorems = plan_cases.named('Install', [(case['shows'], equations(case)) for case in cases])
    return write_cases('install_cases.py', PROOFS, 'InstallCases', theorems, A_FILE,
                       lambda some: file_text(some, fixed), arguments)


if __name__ == '__main__':
    sys.exit(main(sys.argv[1:]))
