#!/usr/bin/env python3
"""Writes the cases of what configurations mean and plan, from plan_cases.json beside it, as theorems that the check
computes: crates/model_cases/proofs/Meant*, Plan*, Boots*, Refused* and NamesCases*.antt, and the disks, volumes and
configurations that they begin with: crates/model_cases/specs/PlanDisks, PlanVolumes, PlanNames and Plan*Confs.antt. Of
some it writes that the premises of the law on planned maps are met: crates/map_cases/proofs/LiesCases*.antt. With
--check it writes nothing, and fails where a file isn't as it would be written.

Bytes are hexadecimal in the data, a run of equal ones as the byte, `*` and its length, and parts are joined by `+`. A
disk is a base with changes, each of them disk, sector, offset and bytes.
"""

import json
import pathlib
import re
import sys

import conf_cases
import model_cases
from case_files import definition, in_files, listed, theorem, theorem_names, unfoldable, write_or_check
from model_cases import CRATE, PROOFS, SETUP, SPECS, sectors, words_in

DATA = pathlib.Path(__file__).resolve().parent / 'plan_cases.json'
A_FILE = 8              # theorems a file
LAWS = CRATE.parent / 'map_cases' / 'proofs'
FIXED = {}              # the names of what the cases begin with, and the file of each
MODULES = {'TreeFault': 'MinixFind', 'SetupFault': 'Header', 'AddressFault': 'Slots', 'TableFault': 'Partitions'}
ALIASES = {'MinixFind': 'trees', 'Header': 'headers', 'Slots': 'slots', 'Partitions': 'tables',
           'ConfOptions': 'options'}
TREES = ['MinixLayout', 'MinixParts', 'MinixEntries', 'MinixFind', 'MinixNames', 'MinixFindNames']
DISKS = ['Bytes', 'Slots', 'Partitions', 'Devices'] + TREES
MAPS = ['Section', 'BootSector', 'Table', 'Options', 'LineSector']
KERNELS = ['Header', 'Place']
LINES = ['Choice', 'LineWords']
# The files whose definitions a kind of case unfolds.
FILES = {
    'Meant': ['Bytes', 'MinixFind', 'MinixFindNames', 'ConfLawful', 'Meant'] + KERNELS + LINES,
    'Plan': DISKS + MAPS + ['ConfLawful', 'Meant', 'Plan', 'Planned'],
    'Boots': DISKS + MAPS + KERNELS + LINES + ['Boot', 'ConfLawful', 'Meant', 'Plan', 'Planned'],
    'Lies': DISKS + MAPS + ['ConfLawful', 'Meant', 'Plan', 'Planned', 'Conf', 'ConfJudge', 'ConfOptions',
                            'ConfSettings', 'ConfTokens', 'ConfValues'],
    'Refused': DISKS + ['BootSector', 'ConfLawful', 'Meant', 'Plan', 'Planned', 'PlanRefusal', 'ConfOptions'] + KERNELS,
    'Names': DISKS + ['BootSector', 'NamePlaces', 'Apart', 'Settled'],
}
TITLES = {
    'Meant': 'what a boot does as configurations say', 'Plan': 'the sectors of planned maps, and their boot sectors',
    'Boots': 'planned maps boot as is meant', 'Refused': 'why no map is planned',
    'Names': 'whether what a configuration names is apart, and which path is refused',
}
# Definitions that a case names and that aren't unfolded.
OTHERS = {
    'Std': ['true', 'false', 'codes', 'replicate', 'None', 'Some', 'Ok', 'Err'],
    'Header': SETUP,
    'Boot': ['Loaded', 'Handed', 'Refused'], 'Reason': ['Idle', 'Header'], 'DefaultLine': ['Empty', 'Once', 'Kept'],
    'PlanRefusal': ['Missing', 'NoImagesLeft', 'Address', 'TooManySlots', 'GeometryDiffers', 'OtherIsBoot',
                    'NoSignature', 'MessageTooLong', 'Table', 'Tree', 'plan_status'],
}
HELPERS = {
    'Sparse': ['hex', 'piece', 'patch_at', 'file', 'disks_of', 'disk_with', 'machine_of', 'on', 'typed', 'waited'],
    'Volumes': ['with_sectors'],
}


# Terms.

def raw(data):
    """Bytes as one term."""
    terms = []
    for part in filter(None, data.split('+')):
        byte, star, length = part.partition('*')
        terms.append('replicate %s %d' % (length, int(byte, 16)) if star else model_cases.raw(bytes.fromhex(byte)))
    return ' ++ '.join(terms) or '[]'


def text(data):
    term = raw(data)
    return term if term == '[]' else '(%s)' % term


def content(item):
    """A file: its size, and the pieces that aren't zero."""
    size, pieces = item
    if not size:
        return '[]'
    return '(file %d %s)' % (size, listed(['piece %d %s' % (at, text(data)) for at, data in pieces]))


def patches(items):
    return listed(['patch_at %d %d %d %s' % (disk, sector, at, text(data)) for disk, sector, at, data in items])


def disks(item):
    base, changes = item
    if base is None:
        return patches(changes)
    return '(disk_%s ++ %s)' % (base, patches(changes)) if changes else 'disk_' + base


def volume(item):
    number, start, count = item['span']
    kinds = {'v1-14': 'V1Short', 'v1-30': 'V1Long', 'v2-14': 'V2Short', 'v2-30': 'V2Long'}
    layout = dict(item['layout'])
    layout['kind'] = kinds.get(layout['kind'], layout['kind'])
    fields = ['kind', 'inodes', 'zones', 'imap', 'zmap', 'first', 'max_size', 'state']
    return 'record { span = record { disk = %d; start = %d; count = %d }; layout = record { %s } }' % (
        number, start, count, '; '.join('%s = %s' % (name, layout[name]) for name in fields))


def thing(item):
    if item[0] == 'File':
        return '(File %s)' % content(item[1])
    return '(Link %s)' % text(item[1]) if item[0] == 'Link' else item[0]


def names(items):
    return 'things_at %s' % listed(
        ['named %s %s' % (listed([text(part) for part in path]), thing(what)) for path, what in items])


def devices(items):
    return 'sectors_of_devices %s' % listed(
        ['sector_of_device %s %s' % (conf_cases.device(device), content(data)) for device, data in items])


def keys(items):
    terms = ['typed %s' % text(part) if kind == 'typed' else 'waited %d' % part for kind, part in items]
    return '[]' if not terms else '(%s)' % ' ++ '.join(terms)


def line(item):
    return item[0] if len(item) == 1 else '(%s %s)' % (item[0], text(item[1]))


def outcome(item):
    if item[0] == 'Loaded':
        return 'Loaded %s' % model_cases.layout(item[1])
    return 'Handed' if item[0] == 'Handed' else 'Refused %s' % model_cases.fault(item[1])


def boot(item):
    written = listed(['record { address = 0x%x; bytes = %s }' % (at, content(data)) for at, data in item['written']])
    return 'record { outcome = %s; shown = %s; line = Some %s; written = %s; left = %s }' % (
        outcome(item['outcome']), text(item['shown']), line(item['default_line']), written, keys(item['left']))


def fault_part(item):
    kind, value = item[0], item[1]
    if kind == 'text':
        return conf_cases.text(value)
    if kind == 'option':
        return conf_cases.option(value)
    if kind == 'number':
        return str(value)
    parts = [fault_part(part) for part in item[3]]
    name = '%s.%s' % (ALIASES[MODULES[value]], item[2])
    return '(%s)' % ' '.join([name] + parts) if parts else name


def refusal(item):
    """A refusal of a plan."""
    name = 'headers_of' if item[0] == 'Header' else item[0]
    return ' '.join([name] + [fault_part(part) for part in item[1:]])


# Theorems: a name, what it shows, and the equations.

def scenario(case):
    """The names of what a case begins with: its own configuration, and disks that may be another's."""
    words = ['disk', 'machine', 'names', 'devices', 'volume']
    return dict({word: '%s_%s' % (word, case.get('uses', case['name'])) for word in words}, conf='conf_' + case['name'])


def meant(case):
    fields = scenario(case)
    return [('meant %s %s %s %s %s %d' % (
        fields['conf'], fields['names'], fields['devices'], line(one['line']), keys(one['keys']), one['memory']),
             boot(one['gives'])) for one in case['meant']]


def planned(case):
    fields = scenario(case)
    return '(planned (disks_of %s) %s %s %s %d)' % (
        fields['disk'], fields['machine'], fields['volume'], fields['conf'], case['plan']['time'])


def at_places(case):
    """What is planned, its machine, and the places of its sectors."""
    return '%s %s %s' % (planned(case), scenario(case)['machine'], sectors(case['plan']['places']))


def boot_sector(case):
    disk, start, _ = case['plan']['span']
    return 'plan_boot_sector %s (disks_of %s %d %d)' % (at_places(case), scenario(case)['disk'], disk, start)


def installed(case, changes=()):
    """The disks with these changes, and with what was planned."""
    disk, start, _ = case['plan']['span']
    places = '(record { disk = %d; sector = %d } ∷ %s)' % (disk, start, sectors(case['plan']['places']))
    begun = scenario(case)['disk']
    if changes:
        begun = '(%s ++ %s)' % (begun, patches(changes))
    return 'with_sectors (disks_of %s) %s (%s ∷ plan_sectors %s)' % (begun, places, boot_sector(case), at_places(case))


def plan(case):
    what = case['plan']
    return [('plan_sectors ' + at_places(case), listed([content(one) for one in what['sectors']])[1:-1]),
            (boot_sector(case), content(what['boot'])[1:-1]),
            ('map_size %s %s' % (planned(case), scenario(case)['machine']), str(len(what['sectors'])))]


def boots(case):
    fields, span = scenario(case), model_cases.span(case['plan']['span'])
    disks_there = '(disks_of %s)' % fields['disk']
    named = '(names_in %s %s) (devices_in %s %s)' % (fields['volume'], disks_there, disks_there, fields['machine'])
    begun = 'whole_boot (%s) %s %s' % (installed(case), fields['machine'], span)
    return [('%s %s %d' % (begun, keys(one['keys']), one['memory']),
             'meant %s %s Empty %s %d' % (fields['conf'], named, keys(one['keys']), one['memory']))
            for one in case['boots']]


def placed(case):
    return '(disks_of %s) %s (%s)' % (
        disks(case['disks']), model_cases.machine(case['machine']), volume(case['volume']))


def refused(case):
    given = 'plan_at %s %s %s 0' % (placed(case), model_cases.span(case['span']), conf_cases.config(case['config']))
    if case['gives'] is None:
        return [passes(given)]
    fault = refusal(case['gives'])
    return [(given, 'Err (%s)' % fault), ('plan_status (%s)' % fault, str(case['status'])),
            ('plan_text (%s)' % fault, text(case['text'].split(': ', 1)[1].encode('latin-1').hex()))]


def passes(given):
    return 'is_ok (%s)' % given, 'true'


def apart(case):
    config, boot_device = conf_cases.config(case['config']), conf_cases.device(case['config']['boot'])
    checks = 'apart_checks %s %s %s' % (placed(case), config, boot_device)
    names_there = 'own_names (names_in (%s) (disks_of %s)) %s %s (is_foreign (disks_of %s 0 0))' % (
        volume(case['volume']), disks(case['disks']), config, boot_device, disks(case['disks']))
    first, second = passes(checks), passes(names_there)
    if case['apart'] is not None:
        first = checks, 'Err %s' % conf_cases.option(case['apart'])
    if case['path'] is not None:
        path, kind, numbers = case['path']
        fault = 'trees.%s' % ' '.join([kind] + [str(number) for number in numbers])
        second = names_there, 'Err (record { path = %s; fault = %s })' % (conf_cases.text(path), fault)
    return [first, second]


# That a planned map lies: the premises of the law on what it boots.

SLOT = ('record { one = record { whole = record { disk = omega arith; some = omega arith; few = omega arith; '
        'address = lit< tt }; one = refl }; names = refl }')


def nested(terms):
    """Terms as facts of a list, one after the other."""
    return '(%s, %s)' % (terms[0], nested(terms[1:])) if terms else 'tt'


def others(count):
    return nested(['other-sector _ _ refl'] * count)


def file_lies(count):
    return ('record { size = refl; some = lit≤ tt; few = lit< tt; slots = lit≤ tt; count = refl; named = %s; '
            'apart = %s; lies = refl }' % (nested([SLOT] * count), others(count)))


def target_lies(item, image):
    count = len(item['places'])
    if not item['other']:
        initrd = 'tt' if item['initrd'] is None else file_lies(item['initrd'])
        return '(refl, refl, refl, %s, %s)' % (file_lies(count), initrd)
    bytes_there = 'concat (map (bytes_at %s) %s)' % (image, sectors(item['places']))
    return '(refl, refl, refl, record { bytes = %s; lies = %s; long = refl; prefix = refl; suffix = %s })' % (
        bytes_there, file_lies(count), 'refl' if item['table'] else 'tt')


def files_lie(sections, image):
    term = 'tt'
    for one in reversed(sections):
        term = '(lit≤ tt, %s, %s)' % (target_lies(one, image), term)
    return term


def lies_proof(case, image):
    given, count = case['lies'], len(case['plan']['places'])
    message = 'tt' if given['message'] is None else file_lies(given['message'])
    fields = [
        ('lawful', 'lawful_law %s %s refl' % (conf_cases.text(given['text']), scenario(case)['conf'])),
        ('time_fits', 'lit< tt'), ('present_long', 'refl'), ('boot', 'refl'), ('line_is', 'refl'),
        ('lies', nested(['refl'] * (count - 1))), ('named', nested([SLOT] * count)), ('apart', others(count - 1)),
        ('left', 'λ none. no-section _ _ none'), ('message_few', 'tt' if given['message'] is None else 'lit≤ tt'),
        ('message', message), ('files', files_lie(given['sections'], image))]
    return 'record {\n%s}' % ''.join('  %s = %s;\n' % field for field in fields)


def map_places(places):
    place = ['record { disk = %d; sector = %d }' % tuple(one) for one in places]
    named = ['%s = %s' % one for one in zip(('line', 'one', 'two', 'three', 'zero_place'), place)]
    return '(record { %s })' % '; '.join(named + ['rest = ' + listed(['(%s)' % one for one in place[5:]])])


def lies(case, name):
    """The theorem that one case's map lies, and its proof; the line of what is unfolded comes between."""
    fields, what, image = scenario(case), case['plan'], 'image_' + case['name']
    disks_there = '(disks_of %s)' % fields['disk']
    statement = 'PlannedLies %s %s %s %s %s %s %d (devices_in %s %s) Empty %s (disks_of %s %d %d)' % (
        disks_there, image, fields['machine'], fields['volume'], model_cases.span(what['span']), fields['conf'],
        what['time'], disks_there, fields['machine'], map_places(what['places']), fields['disk'], *what['span'][:2])
    changes = case['lies'].get('file', {}).get('changes', [])
    return ['', '-- the disks with what was planned', 'abbrev %s : Image' % image,
            '%s = %s' % (image, installed(case, changes)), '', '-- ' + case['shows'], 'pub %s : %s' % (name, statement),
            None, '%s = %s' % (name, lies_proof(case, image))] + holds(case, image)


def holds(case, image):
    """The theorem that the map's places are those of a file."""
    if 'file' not in case['lies']:
        return []
    given, fields, name = case['lies']['file'], scenario(case), 'holds_' + case['name']
    statement = 'HoldsMap %s %s %s %s %s %s' % (
        image, fields['machine'], fields['volume'], planned(case), listed([text(part) for part in given['path']]),
        sectors(case['plan']['places']))
    proof = [('holder', given['number']), ('leads', 'inr refl' if given['tilde'] else 'inl refl'),
             ('regular', 'refl'), ('solid', 'refl'), ('size_is', 'refl'),
             ('odd', 'λ odd. %s' % ('refl' if len(case['plan']['places']) % 2 else 'absurd (not-odd 0 refl odd)'))]
    return ['', '-- %s: its map is a file, at its path%s' % (case['shows'], ' with `~`' if given['tilde'] else ''),
            'pub %s : %s' % (name, statement), None,
            '%s = record {\n%s}' % (name, ''.join('  %s = %s;\n' % field for field in proof))]


LIES_HEAD = '''-- The premises of the law on what planned maps boot are met, written by tools/plan_cases.py.
use Rattle.std.proofs.Common.{◌≡◌, ◌≢◌, ◌==◌, ℕ, List, [], ◌∷◌, ◌++◌, map, length, None, Some, true, false}
use Rattle.std.proofs.Common.{codes, replicate, refl, ap, arith, lit<, lit≤, inl, inr}
use Rattle.std.specs.List.{concat}
use Rattle.std.specs.Fmt.{digits}
use Rattle.std.proofs.lemmas.Bool.Decides.{nat_tests}
use Rattle.lilo_model.specs.Disks.{Image, DiskSector, bytes_at}
use Rattle.conf_laws.proofs.Lawful.{lawful_law}
use Rattle.map_laws.specs.PlannedLies.{PlannedLies}
use Rattle.map_laws.specs.MapLays.{HoldsMap}
'''
LIES_LEMMAS = '''
other-sector : (place other : DiskSector) → (place.sector == other.sector) ≡ false → place ≢ other
other-sector place other test same =
    let same_sector : place.sector ≡ other.sector = ap (λ (place : DiskSector). place.sector) same in
    let differs : place.sector ≢ other.sector = grind (arith, nat_tests) in
    differs same_sector

no-section : {A : Type 0} → (first : A) (others : List A) → first ∷ others ≡ [] → ⊥
no-section first others none = let long = ap length none in omega (arith, long)

not-odd : (rest : ℕ) → rest ≡ 0 → rest ≡ 1 → ⊥
not-odd rest even odd = omega (arith, even, odd)
'''


def lies_text(case):
    name = 'lies_' + case['name']
    rows = lies(case, name)
    unfolding = 'unfolding ' + ' '.join([own for found in unfolded('Lies').values() for _, own in found] + ['digits'])
    body = '\n'.join(unfolding if row is None else row for row in rows)
    head = conf_cases.used(LIES_HEAD, LIES_LEMMAS + body) + '\n'.join(imports('Lies', [body], FIXED)[1:]) + '\n'
    return head + LIES_LEMMAS + body + '\n'


# Files.

def unfolded(kind):
    """The definitions that a proof of this kind has to unfold, by file; one whose name is taken gets another."""
    found, seen = {}, {word for words in HELPERS.values() for word in words}
    for name in dict.fromkeys(FILES[kind]):
        words = unfoldable(SPECS / (name + '.antt'))
        found[name] = [(word, word if word not in seen else '%s_%s' % (name.lower(), word)) for word in words]
        seen |= set(words)
    return found


SPECIAL = {'Conf': ['Unsaid', 'ReadOnlyMount', 'ReadWriteMount'], 'Slots': ['ChsMode', 'LinearMode', 'Lba32Mode'],
           'MinixLayout': ['V1Short', 'V1Long', 'V2Short', 'V2Long']}


def opened(kind, words):
    """The names of the model that are taken, by file."""
    taken = {name: [word if word == own else '%s as %s' % (word, own) for word, own in found]
             for name, found in unfolded(kind).items()}
    for source in (OTHERS, SPECIAL):
        for name, others_there in source.items():
            if name != 'Std':
                taken[name] = taken.get(name, []) + [word for word in others_there if word in words]
    if kind == 'Refused' and 'headers_of' in words:
        taken['PlanRefusal'].append('Header as headers_of')
    return taken


def imports(kind, terms, fixed):
    both = ' '.join(terms)
    words = words_in(terms)
    common = ['◌≡◌'] + [name for sign, name in (('∷', '◌∷◌'), ('++', '◌++◌'), ('[]', '[]')) if sign in both]
    common += [word for word in OTHERS['Std'] if word in words] + ['refl']
    rows = ['use Rattle.std.proofs.Common.{%s}' % ', '.join(common)]
    if 'is_ok' in words:
        rows.append('use Rattle.std.specs.Prelude.{is_ok}')
    if kind == 'Refused':
        rows.append('use Rattle.std.specs.Fmt.{digits}')
    taken = opened(kind, words)
    rows += ['use Rattle.lilo_model.specs.%s.{%s}' % (name, ', '.join(taken[name])) for name in sorted(taken)
             if taken[name]]
    rows += ['use Rattle.lilo_model.specs.%s as %s' % (name, alias) for name, alias in ALIASES.items()
             if alias + '.' in both]
    for name, helpers in HELPERS.items():
        used = [word for word in helpers if word in words]
        if used:
            rows.append('use Rattle.model_cases.specs.%s.{%s}' % (name, ', '.join(used)))
    for file in sorted(set(fixed.values())):
        used = sorted(word for word in words if fixed.get(word) == file)
        rows += ['use Rattle.model_cases.specs.%s.{%s}' % (file, ', '.join(used))] if used else []
    return rows


def file_text(kind, theorems, fixed):
    unfolding = ' '.join([own for found in unfolded(kind).values() for _, own in found])
    unfolding += ' digits' if kind == 'Refused' else ''
    rows = ['-- Cases of the model, written by tools/plan_cases.py: %s.' % TITLES[kind]]
    rows += imports(kind, [side for _, _, pairs in theorems for pair in pairs for side in pair], fixed)
    for name, shows, pairs in theorems:
        rows += theorem(name, shows, pairs, unfolding)
    return '\n'.join(rows) + '\n'


HEAD = '''use Rattle.std.specs.Prelude.{ℕ, true, false, List, [], ◌∷◌, ◌++◌, None, Some, codes, replicate}
use Rattle.lilo_model.specs.Conf.{Config, Unsaid, ReadOnlyMount, ReadWriteMount}
use Rattle.lilo_model.specs.Devices.{Device}
use Rattle.lilo_model.specs.Slots.{ChsMode, LinearMode, Lba32Mode}
use Rattle.lilo_model.specs.Disks.{Machine}
use Rattle.lilo_model.specs.MinixLayout.{V1Short, V1Long, V2Short, V2Long}
use Rattle.lilo_model.specs.MinixParts.{Volume}
use Rattle.lilo_model.specs.MinixNames.{File, Link, Directory, Other}
use Rattle.lilo_model.specs.MinixFindNames.{Names}
use Rattle.model_cases.specs.Configs.{plain_config, section_at}
use Rattle.model_cases.specs.Sparse.{Patch, patch_at, hex, piece, file, disk_with, machine_of}
use Rattle.model_cases.specs.Volumes.{named, things_at, sector_of_device, sectors_of_devices}
'''
# What cases of plans begin with, by file, so that none is long. Configurations are told apart by the disks that they are on.
HOLDINGS = {
    'PlanDisks': 'disks', 'PlanVolumes': 'machines, volumes, and the first sectors of devices',
    'PlanNames': 'what has a name on volumes', 'PlanConfs': 'configurations that are alone on their disks',
    'PlanChanceConfs1': 'configurations by chance', 'PlanChanceConfs2': 'more configurations by chance',
    'PlanTracksConfs': 'configurations where tracks have 32 sectors',
    'PlanLogicalConfs': 'configurations where the volume is a logical partition',
}
# What `plain_config` and `section_at` say, where it is something. A record that is whole doesn't fit on a line, and over lines
# it has one for each field: so a configuration and a section are written by what they say beyond these.
LEAST = {'boot': [0, 0], 'map': '/boot/map', 'mode': '1', 'delay': 0, 'disks': []}


def bare(term):
    """A term without parentheses around it."""
    return term[1:-1] if term.startswith('(') else term


def beyond(base, value, terms):
    """A record, as another and the fields in which it differs."""
    said = ['%s = %s' % (name, bare(term(value[name]))) for name, term in terms
            if value[name] is not False and value[name] != LEAST.get(name)]
    return 'record (%s) { %s }' % (base, '; '.join(said)) if said else base


def section(value):
    opened = [('line', str), ('path', conf_cases.text), ('label', conf_cases.text)]
    base = ' '.join(['section_at'] + [term(value[name]) for name, term in opened])
    return beyond(base, value, [field for field in conf_cases.SECTION if field[0] not in dict(opened)])


def config(value):
    sections = ('sections', lambda some: listed([section(one) for one in some]))
    return beyond('plain_config', value, conf_cases.CONFIG[:-1] + [sections])


def conf_file(case):
    """The file that has the configuration of a case."""
    if case.get('uses') == 'many':
        return 'PlanChanceConfs%d' % (1 if int(case['name'].removeprefix('r')) <= 30 else 2)
    return 'Plan%sConfs' % case.get('uses', '').capitalize()


def fixtures(data):
    """The text of each file that has what cases begin with."""
    bodies = {name: [] for name in HOLDINGS}

    def abbrev(file, shows, name, kind, term):
        bodies[file] += definition(shows, name, kind, term)

    for base in data['bases']:
        abbrev('PlanDisks', base['shows'], 'disk_' + base['name'], 'List Patch', bare(disks(base['disks'])))
    for case in data['plans']:
        fields = scenario(case)
        if case['config'] is not None:
            abbrev(conf_file(case), case['shows'], fields['conf'], 'Config', config(case['config']))
        if 'uses' in case:
            continue
        shows = case['shows'] + ': '
        abbrev('PlanDisks', shows + 'its disks', fields['disk'], 'List Patch', bare(disks(case['disks'])))
        abbrev('PlanVolumes', shows + 'its machine', fields['machine'], 'Machine',
               bare(model_cases.machine(case['machine'])))
        abbrev('PlanVolumes', shows + 'its volume', fields['volume'], 'Volume', volume(case['volume']))
        abbrev('PlanVolumes', shows + 'the first sectors of its devices', fields['devices'], 'Device → List ℕ',
               devices(case['devices']))
        abbrev('PlanNames', shows + 'what has a name on its volume', fields['names'], 'Names', names(case['names']))
    return {name: fixture_text(name, '\n'.join(rows)) for name, rows in bodies.items()}


def fixture_text(name, body):
    """A file of what cases begin with, without the names that it doesn't use."""
    title = '-- What cases of plans begin with: %s. Written by tools/plan_cases.py.\n' % HOLDINGS[name]
    return title + conf_cases.used(HEAD, body) + body + '\n'


def fixed_names(texts):
    """The names of what cases begin with, and the file of each."""
    return {name: file for file, text in texts.items() for name in re.findall(r'^abbrev pub (\w+)', text, re.M)}


def named(kind, cases):
    """The name of each case, what it shows, and its equations."""
    names = theorem_names(kind.lower(), [shows.replace("'", '') for shows, _ in cases])
    return [(name, shows, pairs) for name, (shows, pairs) in zip(names, cases)]


def all_theorems(data):
    plans = data['plans']
    found = {
        'Meant': [(case['shows'], meant(case)) for case in plans if case['meant']],
        'Plan': [(case['shows'], plan(case)) for case in plans if 'plan' in case],
        'Boots': [(case['shows'], boots(case)) for case in plans if 'plan' in case and case['boots']],
        'Refused': [(case['shows'], refused(case)) for case in data['refusals']],
        'Names': [(case['shows'], apart(case)) for case in data['names']],
    }
    for kind, cases in found.items():
        yield kind, named(kind, cases)


def main(arguments):
    data = json.loads(DATA.read_text())
    begun = fixtures(data)
    fixed = fixed_names(begun)
    files = {CRATE / 'specs' / (name + '.antt'): text for name, text in begun.items()}
    for kind, theorems in all_theorems(data):
        files |= in_files(PROOFS, kind + 'Cases', theorems, A_FILE, lambda some: file_text(kind, some, fixed))
    FIXED.update(fixed)
    for part, case in enumerate([case for case in data['plans'] if 'lies' in case], 1):
        files[LAWS / ('LiesCases%d.antt' % part)] = lies_text(case)
    stems = {PROOFS: [kind + 'Cases' for kind in FILES], LAWS: ['LiesCases']}
    return write_or_check('plan_cases.py', stems, files, arguments)


if __name__ == '__main__':
    sys.exit(main(sys.argv[1:]))
