"""Runs of a program on an image file, recorded by strace, and the images that a stop of one may leave.

A stop at a moment leaves all writes up to the last sync before it, and of those after it any. Where these are five or
fewer, each choice of them is made. Of more it is none, all up to each, every second one of these, all of these but the
first, each alone, and, where a sync is next, all but each."""

import codecs
import itertools
import re
import subprocess

SECTOR = 512
BEGUN = re.compile(r'(\w+)\(\d+<([^>]*)>(.*)')
CALL = re.compile(r'(\w+)\(\d+<([^>]*)>(.*)\)\s*= (-?\d+)')
BYTES = re.compile(r', "((?:[^"\\]|\\.)*)"')
# What fsck.minix says of a bit without a use, and around all that it says.
UNUSED = re.compile(rb'Inode \d+ marked (as )?(in use|used)|Inode \d+ not used, marked used in the bitmap|'
                    rb'Zone \d+: marked in use, no file uses it')
AROUND = re.compile(rb'^fsck|^Forcing|^$|FILE SYSTEM HAS BEEN CHANGED|^-+$')
# .. and of an inode that got a link before it has a name for it.
RAISED = re.compile(rb'Inode \d+ \(mode = (\d+)\), i_nlinks=(\d+), counted=(\d+)\.')
# Up to 64 sectors are written at once.
TRACE = ['-y', '-x', '-s', str(64 * SECTOR), '-e', 'trace=lseek,read,pread64,write,pwrite64,fsync,fdatasync']


def sectors_of(place, data):
    """A write as one of each sector, since a stop may leave any of them."""
    return [(place + at, data[at:at + SECTOR]) for at in range(0, len(data), SECTOR)]


def events(log, path):
    """The writes of sectors to a file, each its place and its bytes, and its syncs, each None, as strace recorded
    them."""
    found, place = [], 0
    for name, where, rest, said in (call.groups() for call in map(CALL.match, log) if call):
        if where != path or int(said) < 0:
            continue
        if name == 'lseek':
            place = int(said)
        elif name == 'read':
            place += int(said)
        elif name == 'write':
            found += sectors_of(place, codecs.escape_decode(BYTES.search(rest)[1])[0][:int(said)])
            place += int(said)
        elif name == 'pwrite64':
            found += sectors_of(int(rest.rsplit(',', 1)[1]), codecs.escape_decode(BYTES.search(rest)[1])[0][:int(said)])
        elif name in ('fsync', 'fdatasync'):
            found.append(None)
    return found


def traced(strace, test, program, words, content=b'', options=()):
    """A run of a program by its arguments in the folder of a test: its status, its text, and the lines of its calls."""
    log = test.path('log')
    done = subprocess.run([strace, *TRACE, *options, '-o', log, program, *words], cwd=test.folder.name, input=content,
                          stdout=subprocess.PIPE, stderr=subprocess.STDOUT, timeout=60)
    with open(log, encoding='latin-1') as file:
        return done.returncode, done.stdout, list(file)


def calls(log, path):
    """The calls of a run, each with its name, its number among those of that name, whether it is one on this file, and
    the rest of its line."""
    names, found = [], []
    for call in filter(None, map(BEGUN.match, log)):
        names.append(call[1])
        found.append((call[1], names.count(call[1]), call[2] == path, call[3]))
    return found


def made_by(call):
    """How many events a call of `calls` is: one for each sector that it wrote, one for a sync, and none for a read."""
    name, _, _, rest = call
    return int(rest.rsplit('= ', 1)[1].split()[0]) // SECTOR if 'write' in name else int('sync' in name)


def call_of(own, event):
    """Which of the calls on a file, by its place in their list, makes an event, by its number from 0."""
    return next(at for at, count in enumerate(itertools.accumulate(map(made_by, own))) if count > event)


def injected(path, own, at, only=False):
    """Options of strace by which the calls on a file fail from one of these on, or it alone."""
    options = ['-P', path]
    for name in {own[at][0]} if only else sorted({call[0] for call in own}):
        number = 1 + sum(call[0] == name for call in own[:at])
        options += ['-e', f'inject={name}:error=EIO:when={number}' + '+' * (not only)]
    return options


def own_calls(log, path):
    """Those on a file but its seeks."""
    return [call for call in calls(log, path) if call[2] and call[0] != 'lseek']


def record(strace, test, program, image, words, content=b''):
    """A run: its status, its text, and its events on an image in the folder of the test."""
    status, said, log = traced(strace, test, program, words, content)
    return status, said, events(log, test.path(image))


def made(start, run):
    """The image after all events of a run."""
    image = bytearray(start)
    for place, data in filter(None, run):
        image[place:place + len(data)] = data
    return bytes(image)


def mistakes(fsck, test, volume, mode, unused=True):
    """What fsck.minix finds in a volume, but for bits without a use where these may be, and a link more of inodes of this
    mode, or of none."""
    said = subprocess.run([fsck, '-f', test.image('v.img', volume)], stdin=subprocess.DEVNULL, stdout=subprocess.PIPE,
                          stderr=subprocess.STDOUT, timeout=60).stdout

    def is_left(line):
        raised = RAISED.fullmatch(line)
        return unused and UNUSED.search(line) or AROUND.search(line) or raised and raised[1] == mode and int(raised[2]) == int(raised[3]) + 1

    return [line for line in said.split(b'\n') if not is_left(line)]


def choices(writes, is_synced):
    """Which of the writes after the last sync are looked at, in their order: of more than five, those choices that
    weren't looked at before the last of them was made."""
    if len(writes) <= 5:
        return [part for size in range(len(writes) + 1) for part in itertools.combinations(writes, size)]
    but_each = [writes[:at] + writes[at + 1:] for at in range(len(writes))]
    return [writes, writes[::2], writes[1::2], writes[-1:], *(but_each if is_synced else but_each[:1])]


def images_left(start, run):
    """The images that a stop of a run may leave, as said above, each once. Each of its writes is of a sector."""
    assert all(place % 512 == 0 and len(data) == 512 for place, data in filter(None, run))
    seen, durable, open_writes = set(), {}, []
    for event in [*run, None]:
        for choice in choices(open_writes, event is None):
            # Of the writes to one place the last one counts, and one that changes nothing counts as none.
            sectors = {place: data for place, data in (durable | dict(choice)).items()
                       if start[place:place + len(data)] != data}
            mark = frozenset(sectors.items())
            if mark not in seen:
                seen.add(mark)
                yield made(start, sectors.items())
        if event is None:
            durable, open_writes = durable | dict(open_writes), []
        else:
            open_writes.append(event)
