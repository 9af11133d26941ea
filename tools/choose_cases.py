#!/usr/bin/env python3
"""Writes the cases of what is chosen for a new file of a Minix volume, from choose_cases.json beside it, as theorems
that the check computes: crates/model_cases/proofs/ChooseCases*.antt. With --check it writes nothing, and fails where a
file isn't as it would be written.

A volume is given as in survey_cases.py; a zone may be full of entries. What is taken: zones, inodes, promises
(directory, place, growth), names that are overlooked. A wish has its bytes and its holes, or the blocks that it has
(`total`) with those that aren't holes (`made`); where the place is given, the search for it is left out. The answer is
the first refusal, or what is chosen.
"""

import json
import pathlib
import sys

from case_files import cases_text, listed, numbers, opened, theorem_names, unfoldable, use, write_cases
from model_cases import CRATE, TOP, text, words_in
from survey_cases import MODEL, fault, helpers, volume

DATA = pathlib.Path(__file__).resolve().parent / 'choose_cases.json'
PROOFS = CRATE / 'proofs'
A_FILE = 40             # cases a file
LOW = {'Bytes': None, 'MinixLayout': ['kind_of', 'inode_of'], 'MinixParts': None, 'MinixEntries': None}
FILES = ['Wish', 'FileZones', 'Places', 'Growth', 'Choice']
CLOSED = {'with_bit', 'parts_of', 'volume_at', 'entries_in', 'entries_at', 'is_dots', 'bit', 'content_at', 'is_zero'}
VARIANTS = {
    MODEL + 'MinixLayout': ['BadSize', 'FileSize', 'V1Short', 'V1Long', 'V2Short', 'V2Long'],
    MODEL + 'MinixParts': ['Layout', 'ZoneOutside'],
    MODEL + 'MinixFind': ['Zone'],
    'write_model.specs.Wish': ['NameTooLong', 'Exists', 'NoInode', 'NoSpace', 'Tree'],
}
PLAIN = ['Ok', 'Err', 'true', 'false', 'codes', 'replicate', '◌++◌']
WORDS = ['choose_on', 'blocks_on', 'zones_on', 'taken_by', 'promise', 'overlook', 'wish', 'choice', 'made_at', 'up_from']


def runs(items):
    """Numbers as an argument. A text says some in a row, as "9 from, 519", or the same some times, as "0 is, 65799"."""
    terms, plain = [], []
    for item in items + ['']:
        if not isinstance(item, str):
            plain.append(item)
            continue
        if plain:
            terms.append(numbers(plain))
        plain = []
        if item:
            number, word, count = item.replace(',', '').split()
            terms.append('up_from %s %s' % (number, count) if word == 'from' else 'replicate %s %s' % (count, number))
    if not terms:
        return '[]'
    joined = terms[-1]
    for term in reversed(terms[:-1]):
        joined = '%s ++ (%s)' % (term, joined)
    return joined if joined.startswith('(') and len(terms) == 1 else '(%s)' % joined


def taken_by(item):
    promises = ['promise %d %d %s' % (directory, place, numbers(growth)) for directory, place, growth in item['promises']]
    names = ['overlook %d %s' % (directory, text(name)) for directory, name in item['overlooked']]
    return 'taken_by %s %s %s %s' % (runs(item['zones']), numbers(item['inodes']), listed(promises), listed(names))


def asked(case):
    """What is asked, with the definition that answers it."""
    if 'inode' in case:
        return 'zones_on', '%d %d %d %d' % (case['directory'], case['length'], case['inode'], case['place'])
    if 'total' in case:
        return 'blocks_on', '%d %s (made_at %d %s)' % (case['directory'], text(case['name']), case['total'], numbers(case['made']))
    return 'choose_on', '(wish %d %s %d %s)' % (case['length'], runs(case['holes']), case['directory'], text(case['name']))


def answer(gives):
    if gives[0] == 'Err':
        return 'Err %s' % fault(gives[1])
    chosen = gives[1]
    lists = ' '.join(runs(chosen[key]) for key in ('zones', 'blocks', 'indirect', 'growth'))
    return 'Ok (choice %d %d %s)' % (chosen['inode'], chosen['place'], lists)


def unfolded():
    """The definitions that a case unfolds, by their module."""
    found = {}
    for crate, names in (('lilo_model', list(LOW)), ('write_model', FILES)):
        for name in names:
            words = LOW.get(name) or unfoldable(TOP / 'crates' / crate / 'specs' / (name + '.antt'))
            found['%s.specs.%s' % (crate, name)] = [word for word in words if word not in CLOSED]
    found[MODEL + 'MinixWalk'] = ['branch_of']
    del found[MODEL + 'MinixLayout']
    return found


def text_of(named_cases):
    taken = unfolded()
    pairs = []
    for _, case in named_cases:
        word, rest = asked(case)
        pairs.append(('%s (%s) (%s) %s' % (word, volume(case), taken_by(case['taken']), rest), answer(case['gives'])))
    words = words_in([side for pair in pairs for side in pair]) | {'◌++◌'}
    uses = use('std.proofs.Common', ['◌≡◌', '[]', '◌∷◌'] + [word for word in PLAIN if word in words] + ['refl'])
    uses += opened(taken, VARIANTS, words) + helpers(words)
    uses += use('model_cases.specs.Choices', [word for word in WORDS if word in words])
    return cases_text('Cases of what is chosen for a new file of a Minix volume, written by tools/choose_cases.py.', uses,
                      named_cases, pairs, ' '.join(word for names in taken.values() for word in names))


def main(arguments):
    cases = json.loads(DATA.read_text())['cases']
    named_cases = list(zip(theorem_names('minix_choose', [case['shows'].replace(',', '') for case in cases]), cases))
    return write_cases('choose_cases.py', PROOFS, 'ChooseCases', named_cases, A_FILE, text_of, arguments)


if __name__ == '__main__':
    sys.exit(main(sys.argv[1:]))
