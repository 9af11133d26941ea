#!/usr/bin/env python3
"""Writes the cases of Minix volumes, from minix_cases.json beside it, as theorems that the check computes:
crates/model_cases/proofs/Minix*Cases*.antt, and the volumes that they begin with:
crates/model_cases/specs/MinixFixtures.antt. With --check it writes nothing, and fails where a file isn't as it
would be written.

A text, a name and the bytes of a file are hexadecimal in the data. A case changes bytes of its volume by
patches: disk, sector, offset, bytes.
"""

import json
import pathlib
import re
import sys

from case_files import cases_text, definition, in_files, listed, numbers, theorem_names, unfoldable, write_or_check
from model_cases import CRATE, SPECS, option, patches, raw, words_in

DATA = pathlib.Path(__file__).resolve().parent / 'minix_cases.json'
PROOFS = CRATE / 'proofs'
A_FILE = 40             # cases a file
# The files whose definitions a kind of case unfolds.
LAYOUTS = ['Bytes', 'MinixLayout']
ZONES = LAYOUTS + ['MinixParts']
TREES = ZONES + ['MinixEntries', 'MinixFind']
FILES = {'super': LAYOUTS, 'inode': LAYOUTS, 'place': LAYOUTS, 'zone': ZONES, 'content': ZONES,
         'entries': ZONES + ['MinixEntries'], 'names': ZONES + ['MinixEntries', 'MinixNames']}
RUN = 24                # so many equal bytes in a row are written by their number
TITLES = {
    'super': 'superblocks', 'inode': 'the fields of inodes', 'place': 'where inodes lie',
    'find': 'the inode that a path leads to', 'find_name': 'the same, where a last link stays',
    'content': 'the bytes of an inode', 'file': 'the bytes of a file', 'zone': 'the zone of a block',
    'block': 'the bytes of a block', 'names': 'what a name is', 'entries': 'the entries of a directory',
}
# Definitions that a case names and that aren't unfolded.
OTHERS = {
    'MinixFind': ['find', 'find_name', 'NotFound', 'NotDirectory', 'NotFile', 'TooManyLinks', 'BadEntry', 'PathTooLong', 'Zone'],
    'MinixParts': ['Layout', 'ZoneOutside'],
    'MinixLayout': ['BadMagic', 'ZoneSize', 'BadSize', 'Inodes', 'Zones', 'InodeMap', 'ZoneMap', 'FirstZone', 'FileSize',
                    'V1Short', 'V1Long', 'V2Short', 'V2Long'],
    'MinixEntries': ['entry_with'],
    'MinixNames': ['File', 'Link', 'Directory', 'Other'],
}
# What stays closed: it isn't computed.
CLOSED = {'with_counts', 'super_bytes', 'v1_inode_bytes', 'v2_inode_bytes', 'inode_bytes', 'kept_inode', 'volume_at',
          'IsSound', 'entries_in'}


def text(data):
    """Bytes as an argument, equal ones in a row by their number."""
    data, terms, at = bytes.fromhex(data), [], 0
    for found in re.finditer(rb'(.)\1{%d,}' % (RUN - 1), data, re.DOTALL):
        if found.start() > at:
            terms.append(raw(data[at:found.start()]))
        terms.append('replicate %d %d' % (len(found.group()), found.group(1)[0]))
        at = found.end()
    if at < len(data):
        terms.append(raw(data[at:]))
    term = ' ++ '.join(terms) or '[]'
    return term if term == '[]' else '(%s)' % term


def answer(item, term):
    return '%s %s' % (item[0], term(item[1]) if item[0] == 'Ok' else faults(item[1]))


def faults(item):
    """A refusal, which may have another inside."""
    parts = [faults(part) if isinstance(part, list) else str(part) for part in item[1:]]
    return item[0] if not parts else '(%s)' % ' '.join([item[0]] + parts)


def volume(case):
    return 'volume_' + case['volume']


def parts(case):
    image = 'minix_' + case['volume']
    if case['changes']:
        image = '(%s ++ %s)' % (image, patches(case['changes']))
    return '(parts_of %s (disks_of %s))' % (volume(case), image)


def on_parts(word, case):
    return '%s %s.layout %s' % (word, volume(case), parts(case))


def on_node(word, case):
    return '%s (%s.node %d)' % (on_parts(word, case), parts(case), case['inode'])


THINGS = {'dir': 'Directory', 'other': 'Other', 'file': 'File', 'link': 'Link'}


def thing(item):
    words = [THINGS[item[0]]] + [text(part) for part in item[1:]]
    return words[0] if len(words) == 1 else '(%s)' % ' '.join(words)


def entry(item):
    return 'entry_with %d %s' % (item[0], text(item[1]))


def layout(item):
    return 'record { %s }' % '; '.join('%s = %s' % field for field in item.items())


def inode(item):
    fields = {key: numbers(value) if isinstance(value, list) else value for key, value in item.items()}
    return '(%s)' % layout(fields)


KINDS = {
    'super': lambda case: ('super_at (file 512 (piece 0 %s ∷ [])) %d' % (text(case['bytes']), case['sectors']),
                           answer(case['gives'], lambda item: '(%s)' % layout(item))),
    'inode': lambda case: ('inode_at %s %s' % (case['kind'], text(case['bytes'])), answer(case['gives'], inode)),
    'place': lambda case: ('inode_place %s.layout %d' % (volume(case), case['inode']),
                           'record { sector = %d; at = %d }' % tuple(case['gives'])),
    'find': lambda case: ('%s %s' % (on_parts('find', case), text(case['path'])), answer(case['gives'], str)),
    'find_name': lambda case: ('%s %s' % (on_parts('find_name', case), text(case['path'])), answer(case['gives'], str)),
    'content': lambda case: (on_node('content_at', case), answer(case['gives'], text)),
    'file': lambda case: ('%s %s' % (on_parts('file_at', case), text(case['path'])), answer(case['gives'], text)),
    'zone': lambda case: ('%s %d' % (on_node('zone_at', case), case['index']), answer(case['gives'], str)),
    'block': lambda case: ('%s %d' % (on_node('file_block', case), case['index']), answer(case['gives'], text)),
    'names': lambda case: ('names %s.layout %s %s' % (volume(case), parts(case), listed([text(name) for name in reversed(case['path'])])),
                           option(case['gives'], thing)),
    'entries': lambda case: (on_node('entries_at', case), answer(case['gives'], lambda items: listed([entry(item) for item in items]))),
}


def unfolded(what):
    """The definitions that a proof of this kind unfolds, by their file."""
    found = {}
    for name in FILES.get(what, TREES):
        words = unfoldable(SPECS / (name + '.antt'))
        found[name] = [word for word in words if word not in CLOSED]
    return found


def imports(what, terms, fixtures):
    words, joined = words_in(terms), ' '.join(terms)
    signs = [name for sign, name in ((' ∷ ', '◌∷◌'), ('++', '◌++◌'), ('[]', '[]')) if sign in joined]
    plain = [word for word in ('None', 'Some', 'Ok', 'Err', 'codes', 'replicate') if word in words]
    lines = ['use Rattle.std.proofs.Common.{%s}' % ', '.join(['◌≡◌'] + signs + plain + ['refl'])]
    taken = unfolded(what)
    for name, names in OTHERS.items():
        taken.setdefault(name, []).extend(word for word in names if word in words)
    for name in sorted(taken):
        if taken[name]:
            lines.append('use Rattle.lilo_model.specs.%s.{%s}' % (name, ', '.join(dict.fromkeys(taken[name]))))
    used = [word for word in ('disks_of', 'patch_at', 'file', 'piece', 'hex') if word in words]
    if used:
        lines.append('use Rattle.model_cases.specs.Sparse.{%s}' % ', '.join(used))
    used = [word for name in fixtures for word in ('minix_' + name, 'volume_' + name) if word in words]
    if used:
        lines.append('use Rattle.model_cases.specs.MinixFixtures.{%s}' % ', '.join(used))
    return lines


def text_of(what, named_cases, fixtures):
    pairs = [KINDS[what](case) for _, case in named_cases]
    unfolding = ' '.join(word for words in unfolded(what).values() for word in words)
    return cases_text('Cases of Minix volumes, written by tools/minix_cases.py: %s.' % TITLES[what],
                      imports(what, [side for pair in pairs for side in pair], fixtures), named_cases, pairs, unfolding)


def fixtures_text(data):
    lines = ['-- Volumes that many cases begin with, written by tools/minix_cases.py.',
             'use Rattle.std.specs.Prelude.{[], ◌∷◌, ◌++◌, List, codes, replicate}',
             'use Rattle.lilo_model.specs.MinixLayout.{V1Short, V1Long, V2Short, V2Long}',
             'use Rattle.lilo_model.specs.MinixParts.{Volume}',
             'use Rattle.model_cases.specs.Sparse.{Patch, patch_at, hex}']
    for name, fixture in data.items():
        span = 'record { disk = %d; start = %d; count = %d }' % tuple(fixture['span'])
        lines += definition(fixture['shows'], 'minix_' + name, 'List Patch', patches(fixture['patches'], text)[1:-1])
        lines += definition('where it lies, and its superblock', 'volume_' + name, 'Volume',
                            'record { span = %s; layout = %s }' % (span, layout(fixture['layout'])))
    return '\n'.join(lines) + '\n'


def stem_of(what):
    return 'Minix' + ''.join(word.capitalize() for word in what.split('_')) + 'Cases'


def main(arguments):
    data = json.loads(DATA.read_text())
    files = {}
    for what in KINDS:
        cases = [case for case in data['cases'] if case['what'] == what]
        named_cases = list(zip(theorem_names('minix_' + what, [case['shows'] for case in cases]), cases))
        files |= in_files(PROOFS, stem_of(what), named_cases, A_FILE,
                          lambda some: text_of(what, some, data['fixtures']))
    files[CRATE / 'specs' / 'MinixFixtures.antt'] = fixtures_text(data['fixtures'])
    return write_or_check('minix_cases.py', {PROOFS: [stem_of(what) for what in KINDS]}, files, arguments)


if __name__ == '__main__':
    sys.exit(main(sys.argv[1:]))
