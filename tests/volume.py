"""Disks with a Minix volume for the tests, written field by field from the layout in docs/FORMATS.md: a table with one
partition, or a volume from sector 0 on.

`python3 tests/volume.py system` writes the image of the manual pages: a small system with a map."""

import struct

import fixture

BLOCK = 1024
SECTOR = 512
DIRECTORY, REGULAR, LINK = 0o040755, 0o100644, 0o120777
MAGIC = {'v1-14': 0x137F, 'v1-30': 0x138F, 'v2-14': 0x2468, 'v2-30': 0x2478}
DIRECT = 7


def table(*entries):
    """A sector with a partition table: entries of a type, a first sector and a count."""
    parts = b''.join(struct.pack('<4xB3xII', *entry) for entry in entries)
    return (bytes(446) + parts).ljust(510, b'\0') + b'\x55\xAA'


class Volume:
    """A volume that is filled from its start: inodes and zones are taken in order. An inode is its mode, links, size
    and ten zones, and can be changed until the bytes are taken."""

    def __init__(self, kind, sectors, inodes):
        self.kind, self.inodes = kind, inodes
        self.v1, self.room = kind[1] == '1', int(kind[3:])
        self.zones = min(sectors // 2, 65535) if self.v1 else sectors // 2
        self.inode_size, self.number_size = (32, 2) if self.v1 else (64, 4)
        self.imap = -(-(inodes + 1) // 8192)
        self.zmap = -(-self.zones // 8192)
        self.table = 2 + self.imap + self.zmap
        self.first = self.table + -(-inodes * self.inode_size // BLOCK)
        self.data = bytearray(sectors * SECTOR)
        self.nodes, self.next = {}, self.first
        self.root = self.node(DIRECTORY, 2)
        self.listings, self.homes = {}, {}
        self.directory_at(self.root, self.root)

    # inodes and zones

    def node(self, mode, links=1, size=0, zones=()):
        number = len(self.nodes) + 1
        self.nodes[number] = {'mode': mode, 'links': links, 'size': size, 'zones': list(zones) + [0] * (10 - len(zones))}
        return number

    def zone(self, data=b''):
        zone, self.next = self.next, self.next + 1
        self.put(zone, data.ljust(BLOCK, b'\0'))
        return zone

    def put(self, zone, data):
        self.data[zone * BLOCK:zone * BLOCK + len(data)] = data

    def store(self, number, content):
        """Gives an inode a content; its zones come in file order, then the indirect ones."""
        node = self.nodes[number]
        node['size'] = len(content)
        self.point(node, [self.zone(content[at:at + BLOCK]) for at in range(0, len(content), BLOCK)])

    def point(self, node, data):
        """Lets an inode's ten numbers lead to zones."""
        per, rest = BLOCK // self.number_size, data[DIRECT:]
        node['zones'][:DIRECT] = (data[:DIRECT] + [0] * DIRECT)[:DIRECT]
        for level, place in ((1, 7), (2, 8), (3, 9)):
            node['zones'][place] = self.indirect(rest[:per ** level], level) if rest else 0
            rest = rest[per ** level:]

    def indirect(self, zones, level):
        per = BLOCK // self.number_size
        if level > 1:
            zones = [self.indirect(zones[at:at + per ** (level - 1)], level - 1)
                     for at in range(0, len(zones), per ** (level - 1))]
        return self.zone(b''.join(number.to_bytes(self.number_size, 'little') for number in zones))

    # directories

    def entry(self, inode, name):
        return struct.pack('<H', inode) + name.ljust(self.room, b'\0')

    def directory_at(self, number, above):
        """Makes an inode a directory with `.` and `..`; its entries are stored with the bytes of the volume."""
        self.listings[number] = [(number, b'.'), (above, b'..')]
        self.homes[number] = self.nodes[number]['zones'][0] = self.zone()
        return number

    def mkdir(self, above, name):
        number = self.node(DIRECTORY, 2)
        self.listings[above].append((number, name))
        return self.directory_at(number, above)

    def file(self, above, name, content, mode=REGULAR):
        number = self.node(mode)
        self.store(number, content)
        self.listings[above].append((number, name))
        return number

    def link(self, above, name, target):
        return self.file(above, name, target, LINK)

    # the whole

    def sectors(self, zone):
        """The sectors of a zone, counted from the volume's start."""
        return [2 * zone, 2 * zone + 1]

    def inode_sector(self, number):
        return 2 * self.table + (number - 1) * self.inode_size // SECTOR

    def node_bytes(self, node):
        if self.v1:
            return struct.pack('<HHIIBB9H', node['mode'], 0, node['size'], 0, 0, node['links'], *node['zones'][:9])
        return struct.pack('<HHHHIIII10I', node['mode'], node['links'], 0, 0, node['size'], 0, 0, 0, *node['zones'])

    def superblock(self, **changed):
        fields = dict(inodes=self.inodes, zones=self.zones, imap=self.imap, zmap=self.zmap, first=self.first,
                      log=0, max=268966912 if self.v1 else 2147483647, magic=MAGIC[self.kind], state=1)
        fields.update(changed)
        zones = fields['zones']
        return struct.pack('<HHHHHHIHHI', fields['inodes'], zones if self.v1 else 0, fields['imap'], fields['zmap'],
                           fields['first'], fields['log'], fields['max'], fields['magic'], fields['state'],
                           0 if self.v1 else zones)

    def bitmap(self, used, below):
        """Bits 0 to `used` are set, and those from `below` on."""
        bits = (1 << used + 1) - 1 | -1 << below
        count = (self.imap if below == self.inodes + 1 else self.zmap) * BLOCK
        return (bits & (1 << count * 8) - 1).to_bytes(count, 'little')

    def bytes(self, **changed):
        for number, entries in self.listings.items():
            listing = b''.join(self.entry(*entry) for entry in entries)
            node = self.nodes[number]
            node['size'] = node['size'] or len(listing)
            self.put(self.homes[number], listing[:BLOCK])
            if len(listing) > BLOCK:
                later = [self.zone(listing[at:at + BLOCK]) for at in range(BLOCK, len(listing), BLOCK)]
                self.point(node, [self.homes[number]] + later)
        self.listings = {}
        self.put(1, self.superblock(**changed))
        self.put(2, self.bitmap(len(self.nodes), self.inodes + 1))
        self.put(2 + self.imap, self.bitmap(self.next - self.first, self.zones - self.first + 1))
        self.put(self.table, b''.join(self.node_bytes(node) for _, node in sorted(self.nodes.items())))
        return bytes(self.data)


CONFIGURATION = b"""boot=/dev/hda
map=/boot/map
install=/boot/boot.b
prompt
timeout=50
lba32
default=linux
image=/boot/vmlinuz
    label=linux
    initrd=/boot/initrd
    read-only
    root=/dev/hda1
"""


def system(kernel, text=CONFIGURATION, kind='v1-30', sectors=4032, before=(), inodes=64):
    """The volume of a small system, in the order in which its files are made, with other files in /boot before them:
    names of 30 bytes, 64 inodes, 4032 sectors."""
    volume = Volume(kind, sectors, inodes)
    boot, etc = volume.mkdir(1, b'boot'), volume.mkdir(1, b'etc')
    for name, content in before:
        volume.file(boot, name, content)
    volume.file(boot, b'vmlinuz', kernel)
    volume.file(boot, b'initrd', b'\xA5' * 700)
    volume.file(boot, b'boot.b', b'\x90' * 512)
    volume.file(etc, b'lilo.conf', text)
    return volume


def boot_folder(volume):
    """The inode of its folder `boot`."""
    return next(number for number, name in volume.listings[1] if name == b'boot')


def disk(volume, **changed):
    """A disk whose first partition, from sector 64 on to its end, is a volume: 4096 sectors with one of 4032."""
    data = volume.bytes(**changed)
    return table((0x81, 64, len(data) // SECTOR)).ljust(64 * SECTOR, b'\0') + data


def installed(image):
    """The same disk with a map of one name: the boot sector's code area and fields, and the map's sectors."""
    made = fixture.installation(128)
    image = bytearray(image)
    image[:440] = made[:440]
    image[94 * SECTOR:102 * SECTOR] = made[94 * SECTOR:102 * SECTOR]
    return bytes(image)


def small():
    """A volume of 64 sectors from the start of a disk, with the file `a` of three bytes."""
    volume = Volume('v1-14', 64, 16)
    volume.file(1, b'a', b'abc')
    return volume.bytes()


REFUSED = b"""boot=/dev/hda
serial=0,9600
image=/vmlinuz
"""


def refused():
    """A volume of 64 sectors from the start of a disk, whose configuration has an option that isn't taken here."""
    volume = Volume('v1-14', 64, 16)
    volume.file(volume.mkdir(1, b'etc'), b'lilo.conf', REFUSED)
    return volume.bytes()


if __name__ == '__main__':
    import sys
    images = {'refused': refused, 'system': lambda: installed(disk(system(fixture.kernel())))}
    sys.stdout.buffer.write(images.get(' '.join(sys.argv[1:]), small)())
