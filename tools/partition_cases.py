#!/usr/bin/env python3
"""Writes the cases of partition tables and of names of devices, from partition_cases.json beside it, as theorems
that the check computes: crates/model_cases/proofs/PartitionCases1.antt, and its line in proofs/Lib.antt. With
--check it writes nothing and reports whether the files are as it would write them.

In the data a table is a sector, its entries by status, type, start and count, and whether it ends in 55 AA.
"""

import json
import pathlib
import struct
import sys

from case_files import listed, unfoldable, write_or_check

HERE = pathlib.Path(__file__).resolve().parent
PROOFS = HERE.parent / 'crates' / 'model_cases' / 'proofs'
SPECS = HERE.parent / 'crates' / 'lilo_model' / 'specs'
STEM = 'PartitionCases'
FAULTS = ['NoSignature', 'OutsideDisk', 'LoopedChain', 'TooMany', 'NoPartition', 'NoDisk']

HEAD = '''-- Cases of partition tables and of names of devices; tools/partition_cases.py writes this file.
use Rattle.std.proofs.Common.{{◌≡◌, ◌∷◌, [], None, Some, Ok, Err, codes, refl}}
use Rattle.std.specs.Fmt.{{digits}}
use Rattle.lilo_model.specs.BootSector.{{is_bootable}}
use Rattle.lilo_model.specs.Bytes.{{number32}}
use Rattle.lilo_model.specs.Devices.{{{devices}}}
use Rattle.lilo_model.specs.Partitions.{{{partitions}}}
use Rattle.model_cases.specs.Sparse.{{hex, patch_at, disks_of, disk_with, machine_of}}
'''


def image(tables):
    patches = []
    for sector, entries, signed in tables:
        data = b''.join(struct.pack('<BxxxBxxxII', *entry) for entry in entries)
        if data:
            patches.append('patch_at 0 %d 446 (hex %d 0x%s)' % (sector, len(data), data.hex()))
        if signed:
            patches.append('patch_at 0 %d 510 (hex 2 0x55aa)' % sector)
    return '(disks_of %s)' % listed(patches)


def machine(size):
    return '(machine_of (disk_with %d 16 63 ∷ []))' % size


def span(disk, start, count):
    return 'record { disk = %d; start = %d; count = %d }' % (disk, start, count)


def partition(disk, item):
    number, kind, start, count = item
    return 'record { number = %d; kind = 0x%02x; span = %s }' % (number, kind, span(disk, start, count))


def disk_case(case):
    """What is computed over a disk, and what it must be."""
    over = '%s %s' % (image(case['tables']), machine(case['size']))
    gives, asked = case['gives'], case['asked']
    if gives[0] == 'Err':
        wanted = 'Err %s' % (gives[1] if len(gives) == 2 else '(%s %d)' % (gives[1], gives[2]))
    elif case['of'] == 'partitions':
        wanted = 'Ok %s' % listed([partition(asked, item) for item in gives[1]])
    else:
        wanted = 'Ok (%s)' % span(*gives[1])
    if case['of'] == 'partitions':
        return 'partitions_of %s %d' % (over, asked), wanted
    return 'span_of %s (record { disk = %d; partition = %d })' % (over, *asked), wanted


def name_cases(case):
    """What is computed of a name and of its device, and what it must be."""
    text = 'codes "%s"' % case['name'] if case['name'] else '[]'
    if case['gives'] is None:
        return [('the name "%s"' % case['name'], 'device_at (%s)' % text, 'None')]
    device = '(record { disk = %d; partition = %d })' % tuple(case['gives'])
    return [('the name "%s"' % case['name'], 'device_at (%s)' % text, 'Some %s' % device),
            ('the number of "%s"' % case['name'], 'device_number %s' % device, '0x%x' % case['number'])]


def cases_text():
    data = json.loads((HERE / 'partition_cases.json').read_text())
    cases = [(case['about'], *disk_case(case)) for case in data['disks']]
    cases += [each for case in data['names'] for each in name_cases(case)]
    names = {name: unfoldable(SPECS / (name + '.antt')) for name in ('Devices', 'Partitions')}
    unfolding = ' '.join(names['Devices'] + names['Partitions'] + ['is_bootable', 'number32', 'digits'])
    text = HEAD.format(devices=', '.join(names['Devices']), partitions=', '.join(FAULTS + names['Partitions']))
    for number, (about, term, wanted) in enumerate(cases, 1):
        text += '\n-- %s\npub case_%d : %s ≡ %s\nunfolding %s\ncase_%d = refl\n' % (
            about, number, term, wanted, unfolding, number)
    return text


def main(arguments):
    files = {PROOFS / (STEM + '1.antt'): cases_text()}
    return write_or_check('partition_cases.py', {PROOFS: [STEM]}, files, arguments)


if __name__ == '__main__':
    sys.exit(main(sys.argv[1:]))
