#!/usr/bin/env python3
"""Writes the cases of the model: theorems that the checker computes, from the data in tools/model_cases/.

Each file NAME.json there has a list of cases of one kind. This script writes them to
crates/model_cases/proofs/, some cases a file, and the disks that the data names to
crates/model_cases/specs/Fixtures.antt. With --check it writes nothing, and fails where a file isn't as it
would be written.
"""

import json
import re
import sys
from pathlib import Path

from case_files import cases_text, definition, in_files, listed, theorem_names, unfoldable, write_or_check

TOP = Path(__file__).resolve().parent.parent
DATA = TOP / 'tools' / 'model_cases'
CRATE = TOP / 'crates' / 'model_cases'
PROOFS = CRATE / 'proofs'
SPECS = TOP / 'crates' / 'lilo_model' / 'specs'
HOMES = {'State': 'session_model'}      # the files of definitions that aren't lilo_model's
A_FILE = 40             # cases a file
WRITERS = {'field_bytes', 'merged_sector', 'descriptor_bytes', 'options_bytes', 'extra_bytes', 'section_bytes'}

# The definitions that a kind of case unfolds, by the file that has them.
SLOTS = ['Bytes', 'Slots']
FILES = SLOTS + ['Section']
TEXTS = ['Bytes', 'Options', 'LineSector']
KERNELS = ['Bytes', 'Header', 'Place']
MAPS = FILES + ['BootSector', 'Table']
BOOTS = MAPS + ['Options', 'LineSector', 'Header', 'Place', 'Boot', 'Choice', 'LineWords']
VERDICTS = BOOTS + ['Reason', 'Refusal', 'Verdict']
STATES = MAPS + ['Mapped', 'LineSector', 'Boot', 'State']


# Terms.

def is_plain(data):
    """Whether bytes can be written as a text. One with a `?` is written in hexadecimal, so that a search for holes finds none."""
    return all(32 <= byte < 127 or byte == 10 for byte in data) and not set(data) & set(b'"\\?')


def raw(data):
    """Bytes as one term without parentheses around it."""
    if not data:
        return '[]'
    if len(data) > 4 and len(set(data)) == 1:
        return 'replicate %d %d' % (len(data), data[0])
    if is_plain(data):
        return 'codes "%s"' % data.decode().replace('\n', '\\n')
    return 'hex %d 0x%s' % (len(data), data.hex())


def text(data):
    """Bytes as an argument."""
    term = raw(bytes.fromhex(data))
    return term if term == '[]' else '(%s)' % term


def pieces(items):
    return listed(['piece %d %s' % (at, text(data)) for at, data in items])


def content(item):
    """A file: its size, and the pieces that aren't zero."""
    size, parts = item
    if len(parts) == 1 and parts[0][0] == 0 and len(parts[0][1]) == 2 * size:
        return text(parts[0][1])
    return '(file %d %s)' % (size, pieces(parts))


def option(item, term):
    return 'None' if item is None else '(Some %s)' % term(item)


def number(item):
    return str(item)


def address(item):
    return '(%s)' % ' '.join(str(part) for part in item)


def slot(item):
    disk, count, at = item
    return '(record { disk = %d; count = %d; address = %s })' % (disk, count, address(at)[1:-1])


def fault(item):
    """A refusal with its numbers."""
    if item[0] == 'Header':
        return '(Header %s)' % fault(item[1])
    return '(%s)' % ' '.join(str(part) for part in item) if len(item) > 1 else item[0]


def sectors(items):
    """Places, grouped by disk."""
    groups = []
    for disk, sector in items:
        if groups and groups[-1][0] == disk:
            groups[-1][1].append(str(sector))
        else:
            groups.append((disk, [str(sector)]))
    terms = ['on %d %s' % (disk, listed(group)) for disk, group in groups]
    return '[]' if not terms else '(%s)' % ' ++ '.join(terms)


def geometry(item):
    return '(record { heads = %d; sectors = %d })' % tuple(item)


def machine(item):
    return '(machine_of %s)' % listed(['disk_with %d %d %d' % tuple(disk) for disk in item])


def patches(items, term=text):
    return listed(['patch_at %d %d %d %s' % (disk, sector, at, term(data)) for disk, sector, at, data in items])


def image(item):
    base, changes = item
    if base is None:
        return '(disks_of %s)' % patches(changes)
    if not changes:
        return '(disks_of %s)' % base
    return '(disks_of (%s ++ %s))' % (base, patches(changes))


def keys(items):
    terms = ['typed %s' % text(part) if kind == 'typed' else 'waited %d' % part for kind, part in items]
    return '[]' if not terms else '(%s)' % ' ++ '.join(terms)


def span(item):
    return '(record { disk = %d; start = %d; count = %d })' % tuple(item)


def region(item):
    return 'record { address = 0x%x; size = %d }' % tuple(item)


def layout(item):
    return '(record { real = %s; protected = %s; initrd = %s; line = %s })' % (
        region(item['real']), region(item['protected']),
        option(item['initrd'], lambda part: '(%s)' % region(part)), region(item['line']))


def written(items):
    return listed(['record { address = 0x%x; bytes = %s }' % (at, content(part)) for at, part in items])


def line(item):
    return item[0] if len(item) == 1 else '(%s %s)' % (item[0], text(item[1]))


def outcome(item):
    if item[0] == 'Loaded':
        return 'Loaded %s' % layout(item[1])
    return 'Handed' if item[0] == 'Handed' else 'Refused %s' % fault(item[1])


def result(item, term):
    return 'Ok %s' % term(item[1]) if item[0] == 'Ok' else 'Err %s' % fault(item[1])


# Kinds of cases: what is computed, and what it must be.

def sectors_of(case):
    return ('sectors_of %s %s' % (geometry(case['geometry']), slot(case['slot'])),
            listed([result(item, number) for item in case['gives']])[1:-1] if case['gives'] else '[]')


def could_be_one(case):
    return ('could_be_one %s %s %s' % (geometry(case['geometry']), slot(case['slot']), slot(case['other'])),
            str(case['gives']).lower())


def slot_make(case):
    return ('slot_make %s %s %d %d %d' % (case['mode'], geometry(case['geometry']), case['disk'],
                                          case['sector'], case['count']),
            result(case['gives'], slot))


def slot_at(case):
    return 'slot_at %s' % text(case['bytes']), result(case['gives'], lambda item: option(item, slot))


def slot_bytes(case):
    return 'slot_bytes %s' % slot(case['slot']), raw(bytes.fromhex(case['gives']))


def section(case):
    return ('section %s %s %s %d %d' % (image(case['image']), machine(case['machine']), slot(case['slot']),
                                        case['sectors'], case['chain']),
            'record { places = %s; looked = %s; refusal = %s }' % (
                sectors(case['places']), sectors(case['looked']), option(case['refusal'], fault)))


def place(case):
    return ('place %s %s %s %s %d' % (content(case['kernel']), option(case['initrd'], content),
                                      text(case['line']), option(case['video'], number), case['memory']),
            result(case['gives'], lambda item: '(record { layout = %s; written = %s })' % (
                layout(item['layout']), written(item['written']))))


def layout_for(case):
    return ('layout_for %s %d %s %d %d' % (content(case['header']), case['size'],
                                           option(case['initrd'], number), case['line'], case['memory']),
            result(case['gives'], layout))


def booted(case):
    return '%s %s %s' % (image(case['image']), machine(case['machine']), span(case['span']))


def whole_boot(case):
    return ('whole_boot %s %s %d' % (booted(case), keys(case['keys']), case['memory']),
            'record { outcome = %s; shown = %s; line = %s; written = %s; left = %s }' % (
                outcome(case['outcome']), text(case['shown']), option(case['default_line'], line),
                written(case['written']), keys(case['left'])))


def mapped_sectors(case):
    return 'mapped_sectors %s' % booted(case), sectors(case['gives'])[1:-1]


def held(items):
    return listed(['held %d %d %s' % (disk, sector, content([512, parts])) for disk, sector, parts in items])


def state(case):
    there = '%s %s' % (image_site(case), image(case['image']))
    return [('line_place ' + there, option(case['place'], lambda item: '(record { disk = %d; sector = %d })' % tuple(item))),
            ('line_in ' + there, option(case['line'], line)), ('body_in ' + there, held(case['body'])[1:-1])]


def image_site(case):
    return '(site_on %s %s)' % (machine(case['machine']), span(case['span']))


def boot_fields(item):
    return ('(record { version = %d; time = %d; prompt = %s; delay = %d; timeout = %s; names = %d; '
            'default_entry = %d; message_length = %d; message_chain = %d; line = %s; zero_sector = %s; '
            'message = %s; table = %s })') % (
        item['version'], item['time'], str(item['prompt']).lower(), item['delay'],
        option(item['timeout'], number), item['names'], item['default_entry'], item['message_length'],
        item['message_chain'], slot(item['line']), slot(item['zero_sector']), option(item['message'], slot),
        listed([slot(each) for each in item['table']]))


def descriptor(item):
    return ('(record { name = %s; flags = 0x%x; vga = %d; main_length = %d; initrd_length = %d; options = %s; '
            'first = %s; initrd = %s; chain = %d; initrd_chain = %d; extra = %s })') % (
        text(item['name']), item['flags'], item['vga'], item['main_length'], item['initrd_length'],
        slot(item['options']), slot(item['first']), option(item['initrd'], slot), item['chain'],
        item['initrd_chain'], option(item['extra'], slot))


def boot_sector(case):
    return 'boot_at %s' % content(case['bytes']), result(case['gives'], boot_fields)


def table(case):
    return ('table_at %d %s' % (case['names'], listed([content(each) for each in case['tables']])),
            result(case['gives'], lambda item: listed([descriptor(each) for each in item])))


def extra(item):
    return '(record { fallback = %s; password = %s })' % (text(item['fallback']), text(item['password']))


READERS = {'options_at': text, 'extra_at': extra, 'line_at': line}


def texts(case):
    return ('%s %s' % (case['reader'], content(case['bytes'])), result(case['gives'], READERS[case['reader']]))


SOURCES = {
    'merged_sector': lambda item: '%s %s %s' % (boot_fields(item[0]), content(item[1]), content(item[2])),
    'descriptor_bytes': descriptor, 'options_bytes': text, 'extra_bytes': extra, 'line_bytes': line,
    'section_bytes': lambda item: '%s %s' % (listed([slot(each) for each in item[0]]), option(item[1], slot)),
}


def writers(case):
    return '%s %s' % (case['writer'], SOURCES[case['writer']](case['source'])), content(case['gives'])[1:-1]


def device(case):
    return '(Ok %s)' % span(case['span']) if case['span'] else '(Err NoDisk)'


def verdict(case):
    return 'record { status = %d; text = %s }' % (case['status'], text(case['text']))


def query(case):
    return 'query_verdict %s %s %s' % (image(case['image']), machine(case['machine']), device(case)), verdict(case)


def boot_verdict(case):
    return ('boot_verdict %s %s %s %s %s %d' % (image(case['image']), machine(case['machine']), device(case),
                                                str(case['dump']).lower(), keys(case['keys']), case['memory']),
            verdict(case))


KINDS = {
    'boot_sector': (boot_sector, SLOTS + ['BootSector']), 'table': (table, SLOTS + ['BootSector', 'Table']),
    'texts': (texts, TEXTS), 'writers': (writers, MAPS + TEXTS[1:]),
    'sectors_of': (sectors_of, SLOTS), 'could_be_one': (could_be_one, SLOTS), 'slot_make': (slot_make, SLOTS),
    'slot_at': (slot_at, SLOTS), 'slot_bytes': (slot_bytes, SLOTS), 'section': (section, FILES),
    'place': (place, KERNELS), 'layout': (layout_for, KERNELS), 'boot': (whole_boot, BOOTS),
    'mapped': (mapped_sectors, MAPS + ['Mapped']), 'state': (state, STATES), 'query': (query, VERDICTS), 'boot_verdict': (boot_verdict, VERDICTS),
}


# Files.

def unfolded(kind, files):
    """The definitions of these files that a proof of this kind has to unfold."""
    found = {}
    for name in files:
        names = unfoldable(TOP / 'crates' / HOMES.get(name, 'lilo_model') / 'specs' / (name + '.antt'))
        found[name] = [each for each in names if kind == 'writers' or each not in WRITERS]
    return found


def text_words(files):
    """The word of std that writes a number, where a text has one."""
    return ['digits'] if 'Verdict' in files else []


def words_in(terms):
    return set(re.findall(r"[A-Za-z_][A-Za-z_0-9']*", re.sub(r'"[^"]*"', '', ' '.join(terms))))


EXPORTS = {
    'Slots': ['Slot', 'Chs', 'Linear', 'Lba32', 'ChsMode', 'LinearMode', 'Lba32Mode'],
    'Boot': ['Loaded', 'Handed', 'Refused'],
    'DefaultLine': ['Empty', 'Once', 'Kept'],
    'Refusal': ['NoDisk'],
}
FAULTS = {
    'sectors_of': ('Slots', ['NotFound']), 'slot_make': ('Slots', ['Cylinder', 'TooFar']),
    'slot_at': ('Slots', ['BadSlot']),
    'boot_sector': ('BootSector', ['NotOurs', 'BadVersion', 'BadTable']), 'table': ('BootSector', ['BadTable']),
    'texts': ('BootSector', ['BadTable', 'BadLine']),
    'section': ('Section', ['BadSlot', 'ChainTooLong', 'ShortChain', 'NotFound']),
    'boot': ('Reason', ['NotBootable', 'BadTable', 'BadLine', 'BadSlot', 'ChainTooLong', 'ShortChain',
                        'NotFound', 'Header', 'Idle']),
}
SETUP = ['TooShort', 'NoBootFlag', 'SetupTooLarge', 'LowTooLarge', 'NoInitrd', 'NoRoom', 'LineTooLong']
PLAIN = ['true', 'false', 'None', 'Some', 'Ok', 'Err', 'codes', 'replicate']
SPARSE = ['hex', 'piece', 'patch_at', 'file', 'disks_of', 'disk_with', 'machine_of', 'on', 'layout_for', 'typed',
          'waited', 'held', 'site_on']


def imports(kind, files, terms, fixtures):
    words = words_in(terms)
    taken = {name: list(names) for name, names in unfolded(kind, files).items()}
    for name, names in EXPORTS.items():
        taken.setdefault(name, []).extend(each for each in names if each in words)
    if kind in FAULTS:
        name, names = FAULTS[kind]
        taken.setdefault(name, []).extend(each for each in names if each in words)
    if kind in ('place', 'layout', 'boot'):
        taken.setdefault('Header', []).extend(each for each in SETUP if each in words)
    lines = ['use Rattle.std.proofs.Common.{%s}' % ', '.join(
        ['◌≡◌'] + [name for sign, name in (('∷', '◌∷◌'), ('++', '◌++◌'), ('[]', '[]')) if sign in ' '.join(terms)]
        + [word for word in PLAIN if word in words] + ['refl'])]
    if text_words(files):
        lines.append('use Rattle.std.specs.Fmt.{%s}' % ', '.join(text_words(files)))
    for name in sorted(taken):
        if taken[name]:
            lines.append('use Rattle.%s.specs.%s.{%s}' % (HOMES.get(name, 'lilo_model'), name, ', '.join(taken[name])))
    used = [name for name in SPARSE if name in words]
    if used:
        lines.append('use Rattle.model_cases.specs.Sparse.{%s}' % ', '.join(used))
    used = [name for name in fixtures if name in words]
    if used:
        lines.append('use Rattle.model_cases.specs.Fixtures.{%s}' % ', '.join(used))
    return lines


def text_of(title, kind, named_cases, fixtures):
    term, files = KINDS[kind]
    found = [term(case) for _, case in named_cases]
    pairs = [pair if isinstance(pair, list) else [pair] for pair in found]
    unfolding = ' '.join([name for names in unfolded(kind, files).values() for name in names] + text_words(files))
    return cases_text('Cases of the model, written by tools/model_cases.py: %s.' % title,
                      imports(kind, files, [side for some in pairs for pair in some for side in pair], fixtures), named_cases, pairs, unfolding)


def fixtures_text(data):
    lines = ['-- Disks that many cases begin with, written by tools/model_cases.py.',
             'use Rattle.std.specs.Prelude.{[], ◌∷◌, ◌++◌, List, codes, replicate}',
             'use Rattle.model_cases.specs.Sparse.{Patch, patch_at, hex}']
    for name, fixture in data.items():
        lines += definition(fixture['shows'], name, 'List Patch', patches(fixture['patches'])[1:-1])
    return '\n'.join(lines) + '\n'


def stem_of(path):
    return ''.join(word.capitalize() for word in path.stem.split('_')) + 'Cases'


def main(arguments):
    fixtures = json.loads((DATA / 'fixtures.json').read_text())
    files, stems = {CRATE / 'specs' / 'Fixtures.antt': fixtures_text(fixtures)}, []
    for path in sorted(DATA.glob('*.json')):
        if path.stem == 'fixtures':
            continue
        data = json.loads(path.read_text())
        kind, cases = data['kind'], data['cases']
        named_cases = list(zip(theorem_names(kind, [case['shows'].replace("'", '') for case in cases]), cases))
        stems.append(stem_of(path))
        files |= in_files(PROOFS, stems[-1], named_cases, A_FILE,
                          lambda some: text_of(data['title'], kind, some, fixtures))
    return write_or_check('model_cases.py', {PROOFS: stems}, files, arguments)


if __name__ == '__main__':
    sys.exit(main(sys.argv[1:]))
