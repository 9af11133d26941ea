"""A PC in QEMU that boots a disk image until a kernel is entered or a stage of the boot shows its error."""

import os
import re
import socket
import subprocess
import time

ENTRY, SECTOR, SCREEN = 0x90200, 0x7C00, 0xB8000
# What the first stage does where it refuses: it shows `E`, and halts.
REFUSAL = b'\xB8\x45\x0E\xCD\x10\xF4'
# The last line of the second stage's shim where nothing is started.
REFUSED = 'Press a key to boot again.'
PLUGS = {'ide': ['-device', 'ide-hd,drive=d'], 'ahci': ['-device', 'ahci,id=a', '-device', 'ide-hd,drive=d,bus=a.0'],
         'virtio': ['-device', 'virtio-blk-pci,drive=d']}


class Ended(Exception):
    """QEMU ended or doesn't answer."""


class Machine:
    """A PC whose disk is an image file, which it can't change unless it `writes`; it is watched through GDB's protocol.
    The file may be written anew between two boots, in the same length."""

    def __init__(self, qemu, image, folder, plug='ide', megabytes=64, cpu='qemu64', writes=False):
        self.file, sock, self.rest = os.path.join(folder, 'memory'), os.path.join(folder, 'gdb'), b''
        for path in filter(os.path.exists, (sock, sock + '-keys')):
            os.remove(path)
        self.process = subprocess.Popen(
            [qemu, '-accel', 'tcg', '-cpu', cpu, '-m', str(megabytes), '-display', 'none', '-nodefaults', '-vga', 'std',
             '-S',
             '-chardev', f'socket,path={sock},server=on,wait=off,id=gdb', '-gdb', 'chardev:gdb',
             '-chardev', f'socket,path={sock}-keys,server=on,wait=off,id=keys', '-mon', 'chardev=keys,mode=readline',
             '-drive', f'file={image},format=raw,if=none,id=d,snapshot={"off" if writes else "on"},file.locking=off',
             *PLUGS[plug]],
            stdin=subprocess.DEVNULL, stdout=subprocess.DEVNULL, stderr=subprocess.DEVNULL)
        self.socket, self.keys = socket.socket(socket.AF_UNIX), sock + '-keys'
        until = time.monotonic() + 60
        while self.socket.connect_ex(sock):
            if self.process.poll() is not None or time.monotonic() > until:
                raise Ended
            time.sleep(0.02)
        self.ask('?')
        self.stops = set()

    def send(self, text):
        self.socket.sendall(b'$%s#%02x' % (text.encode(), sum(text.encode()) & 255))

    def answer(self, seconds=60):
        self.socket.settimeout(seconds)
        while not (found := re.search(rb'\$([^#]*)#..', self.rest, re.S)):
            got = self.socket.recv(65536)
            if not got:
                raise Ended
            self.rest += got
        self.rest = self.rest[found.end():]
        self.socket.sendall(b'+')
        return found[1].decode()

    def ask(self, text):
        self.send(text)
        return self.answer()

    def monitor(self, words):
        """What QEMU's monitor says to a command."""
        said, answer = '', self.ask('qRcmd,' + words.encode().hex())
        while answer not in ('OK', ''):
            said += bytes.fromhex(answer[1:]).decode() if answer[0] == 'O' else ''
            answer = self.answer()
        return said

    def memory(self, at, length):
        self.monitor(f'pmemsave {at:#x} {length} "{self.file}"')
        with open(self.file, 'rb') as file:
            return file.read()

    def registers(self):
        """The segments and offsets at which it stopped, and the flags."""
        said = self.monitor('info registers')
        found = re.findall(r'\b(EFL|EIP|ESP|[CDES]S) ?=([0-9a-f]+)', said)
        return {name: int(value, 16) for name, value in found}

    def boot(self, sector, seconds=60):
        """Boots from the start, by a boot sector with these bytes; the answer is where it ended: `kernel`, or the last
        character on the screen where the first stage has refused, or `nothing` where neither is seen in this time."""
        stops = {ENTRY}
        if REFUSAL in sector:
            stops.add(0x7C00 + sector.index(REFUSAL) + len(REFUSAL) - 1)
        self.stop_at(stops)
        self.monitor('system_reset')
        if not self.go(time.monotonic() + seconds):
            return 'nothing'
        if self.registers()['EIP'] + self.registers()['CS'] * 16 == ENTRY:
            return 'kernel'
        text = self.memory(SCREEN, 4000)[::2].rstrip(b' \0')
        return text[-1:].decode('latin-1')

    def boot_second(self, keys=(), seconds=60):
        """Boots from the start by a second stage, to which these keys are sent at its prompt; the answer is where it
        ended: `kernel`, `sector` where it entered a boot sector, or else the screen's text."""
        self.stop_at({ENTRY})
        self.monitor('system_reset')
        until = time.monotonic() + seconds
        if self.go(until):
            # The first kernel is the second stage. A step goes past where it is stopped.
            self.stop_at(set())
            self.ask('s')
            self.stop_at({ENTRY, SECTOR})
            typed = ()
            while not self.go(min(until, time.monotonic() + 0.5), typed):
                typed = keys if 'boot:' in self.screen() else ()
                keys = () if typed else keys
                if REFUSED in self.screen() or time.monotonic() >= until:
                    return self.screen()
            found = self.registers()
            return {ENTRY: 'kernel', SECTOR: 'sector'}.get(found['EIP'] + found['CS'] * 16, 'elsewhere')
        return self.screen()

    def stop_at(self, stops):
        for at in self.stops - stops:
            self.ask(f'z1,{at:x},1')
        for at in stops - self.stops:
            self.ask(f'Z1,{at:x},1')
        self.stops = stops

    def go(self, until, keys=()):
        """Goes on, with these keys; whether it stopped by itself before this time."""
        self.send('c')
        if keys:
            # QEMU takes no key while the PC is stopped.
            with socket.socket(socket.AF_UNIX) as monitor:
                monitor.connect(self.keys)
                monitor.sendall(b''.join(b'sendkey %s 30\n' % key.encode() for key in keys))
                time.sleep(0.1 * len(keys))
        try:
            self.answer(max(0.01, until - time.monotonic()))
        except socket.timeout:
            self.socket.sendall(b'\x03')
            self.answer()
            return False
        return True

    def screen(self):
        """The text on the screen, a line for each that isn't empty."""
        text = self.memory(SCREEN, 4000)[::2].decode('latin-1').replace('\0', ' ')
        return '\n'.join(filter(None, (text[at:at + 80].rstrip() for at in range(0, 2000, 80))))

    def end(self):
        self.socket.close()
        self.process.terminate()
        self.process.wait()
