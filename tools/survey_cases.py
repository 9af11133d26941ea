#!/usr/bin/env python3
"""Writes the cases of surveys of Minix volumes, from survey_cases.json beside it, as theorems that the check
computes: crates/model_cases/proofs/SurveyCases*.antt. With --check it writes nothing, and fails where a file
isn't as it would be written.

A volume is given by its superblock, its inodes from 1 on (mode, links, size, zones), the pieces of its zones that
aren't zeros (offset and hexadecimal bytes), and the bitmap bits that are set. The answer is the first refusal, or the zones
that have an owner (zone, inode, whether it has numbers of zones) and the number of names of each inode. Every case
is in the data; those that say "checked" are written.
"""

import json
import pathlib
import sys

from case_files import cases_text, listed, numbers, opened, theorem_names, unfoldable, use, write_cases
from model_cases import CRATE, SPECS, text, words_in

DATA = pathlib.Path(__file__).resolve().parent / 'survey_cases.json'
PROOFS = CRATE / 'proofs'
A_FILE = 40             # cases a file
FILES = ['Bytes', 'MinixLayout', 'MinixParts', 'MinixEntries', 'MinixNames', 'MinixSurvey']
CLOSED = {'with_counts', 'super_bytes', 'v1_inode_bytes', 'v2_inode_bytes', 'inode_bytes', 'kept_inode', 'volume_at',
          'IsSound', 'entries_in', 'survey'}
MODEL = 'lilo_model.specs.'
FAULTS = {
    MODEL + 'MinixSurvey': ['Crossed', 'Unmarked', 'UnmarkedInode', 'BadLink', 'FewLinks', 'TooDeep', 'Tree'],
    MODEL + 'MinixFind': ['NotDirectory', 'Zone'],
    MODEL + 'MinixParts': ['Layout', 'ZoneOutside'],
    MODEL + 'MinixLayout': ['BadSize', 'FileSize', 'V1Short', 'V1Long', 'V2Short', 'V2Long'],
}


def fault(item):
    """A refusal, which may have another inside."""
    if isinstance(item, list):
        parts = [fault(part) for part in item]
        return parts[0] if len(parts) == 1 else '(%s)' % ' '.join(parts)
    return str(item)


def node(item):
    mode, links, size, zones = item
    return 'node %d %d %d %s' % (mode, links, size, numbers(zones))


def zone(item):
    """A zone with pieces of bytes, or one that is full of entries."""
    number, pieces = item
    if pieces == 'full':
        return 'zone_with %d (replicate 1024 1)' % number
    return 'zone_with %d (file 1024 %s)' % (number, listed(['piece %d %s' % (at, text(data)) for at, data in pieces]))


def volume(case):
    layout = 'super_with %s %d %d %d %d %d' % tuple(case[key] for key in ('kind', 'inodes', 'zones', 'imap', 'zmap', 'first'))
    return 'volume_by (%s) %s %s %s %s' % (layout, listed([node(item) for item in case['nodes']]), listed([zone(item) for item in case['bytes']]),
                                           numbers(case['imarks']), numbers(case['zmarks']))


def answer(gives):
    if gives[0] == 'Err':
        return 'Err %s' % fault(gives[1])
    owned = ['owned %d %d %s' % (at, inode, str(indirect).lower()) for at, inode, indirect in sorted(gives[1]['zones'])]
    return 'Ok (found %s %s)' % (listed(owned), numbers(gives[1]['names']))


def unfolded():
    """The definitions that a case unfolds, by their module."""
    return {MODEL + name: [word for word in unfoldable(SPECS / (name + '.antt')) if word not in CLOSED] for name in FILES}


def helpers(words):
    """The lines that take what volumes are written with."""
    volumes = ['super_with', 'volume_by', 'node', 'zone_with', 'survey_found', 'found', 'owned']
    return (use('model_cases.specs.Sparse', [word for word in ('file', 'piece', 'hex') if word in words])
            + use('model_cases.specs.Surveys', [word for word in volumes if word in words]))


def text_of(named_cases):
    taken = unfolded()
    pairs = [('survey_found (%s)' % volume(case), answer(case['gives'])) for _, case in named_cases]
    words = words_in([side for pair in pairs for side in pair])
    plain = [word for word in ('Ok', 'Err', 'true', 'false', 'codes', 'replicate') if word in words]
    uses = use('std.proofs.Common', ['◌≡◌', '[]', '◌∷◌'] + plain + ['refl']) + opened(taken, FAULTS, words) + helpers(words)
    return cases_text('Cases of surveys of Minix volumes, written by tools/survey_cases.py.', uses, named_cases, pairs,
                      ' '.join(word for names in taken.values() for word in names))


def main(arguments):
    cases = [case for case in json.loads(DATA.read_text())['cases'] if case['checked']]
    shown = [case['shows'].lower().replace('..', 'dotdot').replace('. ', 'dot ') for case in cases]
    named_cases = list(zip(theorem_names('minix_survey', shown), cases))
    return write_cases('survey_cases.py', PROOFS, 'SurveyCases', named_cases, A_FILE, text_of, arguments)


if __name__ == '__main__':
    sys.exit(main(sys.argv[1:]))
