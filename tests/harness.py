"""What the test scripts share: the built program, other tools, images in a folder of their own, and the count."""

import fcntl
import os
import resource
import shutil
import signal
import struct
import subprocess
import sys
import tempfile
import termios
import time

TOP = os.path.dirname(os.path.dirname(os.path.abspath(__file__)))


def built(name):
    """The program, built from the present sources; where the gate has just built it, that one."""
    folder = os.path.join(TOP, 'crates', name)
    if os.environ.get('BUILT_BY_GATE') and os.path.exists(os.path.join(folder, 'out', name)):
        return os.path.join(folder, 'out', name)
    done = subprocess.run([os.path.join(TOP, 'tools', 'rt'), 'run', '--', '-'], cwd=folder, stdin=subprocess.DEVNULL,
                          stdout=subprocess.PIPE, stderr=subprocess.STDOUT)
    program = os.path.join(folder, 'out', name)
    fresh = b'logic=proved' in done.stdout or b'nothing has changed' in done.stdout
    if not fresh or not os.path.exists(program):
        sys.stdout.buffer.write(done.stdout[-4000:])
        print('0 passed, 1 failed')
        sys.exit(1)
    return program


def tool(name, package):
    """The path of another tool, installed from Debian's package where it isn't here and that can be done, or None."""
    path = os.environ.get('PATH', '') + ':/usr/sbin:/sbin'
    if not shutil.which(name, path=path) and shutil.which('apt-get') and os.geteuid() == 0:
        install = ['apt-get', 'install', '-y', '-q', package]
        for command in (install, ['apt-get', 'update', '-q'], install):
            try:
                done = subprocess.run(command, stdin=subprocess.DEVNULL, stdout=subprocess.DEVNULL,
                                      stderr=subprocess.DEVNULL, timeout=300)
            except subprocess.TimeoutExpired:
                break
            if command == install and done.returncode == 0:
                break
    return shutil.which(name, path=path)


def reads(sectors, image):
    """How many bytes each read of an image takes, if these sectors are looked at in this order.

    A sector that comes right after those that were read last has up to seven others read with it, by one call. What
    was read so is at hand until another sector is read.
    """
    size = os.path.getsize(image) // 512
    held, taken = range(0), []
    for sector in sectors:
        if sector not in held:
            follows = held and sector == held.stop
            held = range(sector, min(sector + 8, size) if follows else sector + 1)
            taken.append(512 * len(held))
    return taken


def no_write_from(place):
    """What makes a program's writes fail from this place of a file on, for `preexec_fn`: a limit of the system's, which
    other tools aren't needed for."""
    def limit():
        signal.signal(signal.SIGXFSZ, signal.SIG_IGN)
        resource.setrlimit(resource.RLIMIT_FSIZE, (place, place))
    return limit


def waiting(pipe):
    """How many bytes wait in a pipe."""
    return struct.unpack('i', fcntl.ioctl(pipe, termios.FIONREAD, bytes(4)))[0]


def cut_short(program, words, folder, image, size, begun=b'', rest=b'', shown=0):
    """A run whose image is cut to so many bytes once the first bytes of its input were taken and so many bytes of text wait
    to be read; then comes the rest of the input. Its status and its text."""
    run = subprocess.Popen([program, *words], cwd=folder, stdin=subprocess.PIPE, stdout=subprocess.PIPE,
                           stderr=subprocess.STDOUT)
    run.stdin.write(begun)
    run.stdin.flush()
    late = time.monotonic() + 30
    while (waiting(run.stdin) or waiting(run.stdout) < shown) and run.poll() is None and time.monotonic() < late:
        time.sleep(0.005)
    os.truncate(os.path.join(folder, image), size)
    text, _ = run.communicate(rest, timeout=60)
    return run.returncode, text


class Harness:
    """Counts the cases and prints each that fails."""

    def __init__(self):
        self.folder = tempfile.TemporaryDirectory()
        os.chmod(self.folder.name, 0o755)
        self.passed = self.failed = 0

    def path(self, name):
        return os.path.join(self.folder.name, name)

    def image(self, name, data):
        """Writes an image file."""
        with open(self.path(name), 'wb') as file:
            file.write(data)
        return self.path(name)

    def check(self, what, found, wanted):
        if found == wanted:
            self.passed += 1
        else:
            self.failed += 1
            print(f'FAILED {what}: found {found!r}, wanted {wanted!r}')

    def end(self):
        print(f'{self.passed} passed, {self.failed} failed')
        sys.exit(1 if self.failed else 0)
