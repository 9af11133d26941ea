"""The installation that the tests list and boot, written sector by sector from docs/FORMATS.md."""

import struct

SECTOR = 512


def slot(sector, mode=3, disk=0, count=1):
    """A slot that names one sector by its number."""
    return struct.pack('<BBBBI', mode, 0x80 + disk, count, 0, sector)


def kernel():
    """A kernel of 1029 bytes: a real-mode part of two sectors, then HELLO."""
    image = bytearray(1024) + b'HELLO'
    for at, data in ((0x1F1, b'\x01'), (0x1FE, b'\x55\xAA'), (0x202, b'HdrS'), (0x206, b'\x06\x02'),
                     (0x211, b'\x01'), (0x22C, b'\xFF\xFF\xFF\x37'), (0x238, b'\xFF\0\0\0')):
        image[at:at + len(data)] = data
    return bytes(image)


def boot_sector(names=1, default=0, tables=(95, 96, 97), flags=1, timeout=50):
    """The default line in sector 94 and the zero sector in 98; with flags 1 the prompt comes."""
    sector = (b'\xEB\x7ELILO' + struct.pack('<HIHHHHHH', 1, 0, flags, 0, timeout, names, 0, 0)
              + slot(94) + slot(98) + bytes(8) + b''.join(map(slot, tables)) + bytes(24)
              + struct.pack('<H', default))
    return sector.ljust(510, b'\0') + b'\x55\xAA'


def descriptor(name, main=(1029, 1), initrd=(700, 1), flags=0):
    """An entry whose files have these lengths and section sectors: the options' sector is 99, the first section
    sector of the main file 100, and of the initrd, if there is one, 101."""
    return (name.ljust(16, b'\0') + struct.pack('<HHII', flags | (0x40 if initrd else 0), 0, main[0], initrd[0] if initrd else 0)
            + slot(99) + slot(100) + (slot(101) if initrd else bytes(8))
            + struct.pack('<HH', main[1], initrd[1] if initrd else 0) + bytes(8))


def written(image, sectors):
    """An image with these bytes from each of some sectors on."""
    image = bytearray(image)
    for number, data in sectors.items():
        image[number * SECTOR:number * SECTOR + len(data)] = data
    return bytes(image)


def installation(sectors=128):
    """The first sectors of a disk with one entry, `linux`, which is the default. It has an initrd, and the prompt comes."""
    return written(bytes(sectors * SECTOR), {
        0: boot_sector(), 94: b'LINE', 95: descriptor(b'linux'), 99: b'\x0C\0\0\0\0\0\0\0 ro root=301',
        100: slot(82) + slot(83) + slot(84), 101: slot(86) + slot(87), 82: kernel(), 86: b'\xA5' * 700})


def plain_installation(sectors=128):
    """The same without the prompt and the initrd, so that it boots without a key."""
    return written(installation(sectors), {0: boot_sector(flags=0, timeout=0xFFFF), 95: descriptor(b'linux', initrd=None)})


def section(sectors, first):
    """The section sectors, from number `first` on in a row, that list sectors: 63 slots and a link in each."""
    parts = [sectors[at:at + 63] for at in range(0, len(sectors), 63)]
    return b''.join(
        b''.join(map(slot, part)).ljust(504, b'\0') + (slot(first + place + 1) if part is not parts[-1] else bytes(8))
        for place, part in enumerate(parts))


def kernel_installation(main, backwards=False):
    """A disk that boots a kernel without a key and without an initrd: each sector of the file has a slot of its own.
    The file's sectors lie after those of its section, in order or backwards."""
    count = (len(main) + SECTOR - 1) // SECTOR
    chain = (count + 62) // 63
    places = list(range(100 + chain, 100 + chain + count))
    order = places[::-1] if backwards else places
    pieces = {place: main[at * SECTOR:(at + 1) * SECTOR] for at, place in enumerate(order)}
    return written(plain_installation(100 + chain + count),
                   {95: descriptor(b'linux', (len(main), chain), None), 100: section(order, 100), **pieces})


def scattered(files=120, **settings):
    """A disk that boots, by default without a key. No two sectors that are looked at are neighbours, so each is read by a
    call: the line is 94, the table 110, 112 and 114, the options, the section and the three sectors of the kernel are
    `files` and 10, 20, 22 and 24 behind it."""
    entry, main = bytearray(descriptor(b'linux', initrd=None)), kernel()
    entry[28:44] = slot(files) + slot(files + 10)
    settings = {'flags': 0, 'timeout': 0xFFFF, **settings}
    return written(bytes(200 * SECTOR), {
        0: boot_sector(tables=(110, 112, 114), **settings), 94: b'LINE', 110: bytes(entry),
        files: b'\x0C\0\0\0\0\0\0\0 ro root=301', files + 10: b''.join(map(slot, (files + 20, files + 22, files + 24))),
        files + 20: main[:512], files + 22: main[512:1024], files + 24: main[1024:]})


if __name__ == '__main__':
    import sys
    sys.stdout.buffer.write(plain_installation() if sys.argv[1:] == ['plain'] else installation())
