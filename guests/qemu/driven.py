"""An emulator that a rig drives: its monitor by QMP, and the registers of a controller by the emulator's own protocol for tests (qtest).
No guest runs.

Memory that was freed is overwritten (GLIBC_TUNABLES), so that a use behind that shows. GEFSUNK_EMULATOR is a program that starts the
emulator in another way, as under valgrind, and GEFSUNK_SLOWER by how much all takes longer then.
"""
import json
import os
import socket
import subprocess
import tempfile
import time

TOP = os.path.realpath(os.path.join(os.path.dirname(os.path.realpath(__file__)), "../.."))
WORK = os.path.realpath(os.environ.get("GEFSUNK_GUESTS_IN", os.path.join(TOP, "build/guests")))
EMULATOR = os.environ.get("GEFSUNK_EMULATOR", os.path.join(WORK, "build/qemu-system-x86_64"))
SECONDS = 5 * int(os.environ.get("GEFSUNK_SLOWER", "1"))
Q35, PC = "q35,sata=off,smbus=off", "pc"
BAR, LIST, AREA, TABLES, DATA = 0xE0000000, 0x10000, 0x11000, 0x20000, 0x100000
CLB, FB, IS, IE, CMD, TFD, SCTL, SERR, SACT, CI, FBS = 0x100, 0x108, 0x110, 0x114, 0x118, 0x120, 0x12C, 0x130, 0x134, 0x138, 0x140
ST, FRE = 1, 0x10
OFS, IFS, HBDS, HBFS, TFES = 1 << 24, 1 << 27, 1 << 28, 1 << 29, 1 << 30
READ, WRITE, FLUSH, IDENTIFY, TRIM = 0x25, 0x35, 0xEA, 0xEC, 0x06
QUEUED_READ, QUEUED_WRITE, WRITE_PORT = 0x60, 0x61, 0xE8
SECTOR = 512


class NotSo(Exception):
    """What a case found in place of what it asks for."""


class Refused(Exception):
    """What the monitor says of a command that it refuses."""


def ask(what, found, wanted):
    """The two are one."""
    if found != wanted:
        raise NotSo(f"{what}: {found!r}, not {wanted!r}")


def ask_in(what, said, words):
    """The words are in what was said."""
    if words not in said:
        raise NotSo(f"{what}: no {words!r} in {said[-400:]!r}")


def sector(lba):
    """What is in a sector of an image."""
    return lba.to_bytes(4, "little").ljust(SECTOR, bytes([lba % 251]))


def image(path, sectors):
    """An image whose sectors differ."""
    with open(path, "wb") as file:
        file.write(b"".join(map(sector, range(sectors))))
    return path


class Emulator:
    """With the controller of the id `c` at 00:03.0, if the words of the command line make one."""

    def __init__(self, *words, machine=Q35, state=None):
        """With the state of another one, if a file of that is given."""
        self.folder = tempfile.TemporaryDirectory()
        self.err = open(f"{self.folder.name}/err", "w+b")
        arrives = [os.open(state, os.O_RDONLY)] if state else []
        words += ("-incoming", f"fd:{arrives[0]}") if state else ()
        self.run = subprocess.Popen(
            [EMULATOR, "-M", machine, "-L", f"{WORK}/firmware", "-bios", "qboot.rom", "-nodefaults", "-display",
             "none", "-m", "16", "-accel", "qtest", "-qtest", "stdio", "-qtest-log", "/dev/null",
             "-qmp", f"unix:{self.folder.name}/qmp,server=on,wait=off", *words],
            stdin=subprocess.PIPE, stdout=subprocess.PIPE, stderr=self.err, text=True, bufsize=1, pass_fds=arrives,
            env=dict(os.environ, GLIBC_TUNABLES="glibc.malloc.perturb=135:glibc.malloc.tcache_count=0"))
        for arriving in arrives:
            os.close(arriving)
        self.socket, self.monitor, self.events = None, None, []

    def __enter__(self):
        return self

    def __exit__(self, *_):
        self.quit()

    def quit(self):
        """The emulator goes at once."""
        self.run.kill()
        self.run.wait()
        self.run.stdin.close()
        self.run.stdout.close()

    def ends(self):
        """It ends by itself: with which status, and what it said."""
        return self.run.wait(4 * SECONDS), self.said()

    def said(self):
        """All of standard error."""
        self.err.flush()
        self.err.seek(0)
        return self.err.read().decode(errors="replace")

    # ---- the monitor

    def connect(self):
        end = time.monotonic() + 4 * SECONDS
        talk = socket.socket(socket.AF_UNIX)
        while True:
            try:
                talk.connect(f"{self.folder.name}/qmp")
                break
            except (FileNotFoundError, ConnectionRefusedError):
                if self.run.poll() is not None or time.monotonic() > end:
                    raise NotSo(f"the emulator ended: {self.said()[-400:]}") from None
                time.sleep(0.01)
        talk.settimeout(4 * SECONDS)
        self.socket, self.monitor = talk, talk.makefile("rw")
        self.monitor.readline()
        self.qmp("qmp_capabilities")

    def qmp(self, command, files=(), **arguments):
        """What a command of the monitor returns. It may get open files."""
        if not self.monitor:
            self.connect()
        line = json.dumps({"execute": command, "arguments": arguments}).encode() + b"\n"
        try:
            socket.send_fds(self.socket, [line], [file.fileno() for file in files])
            while line:
                line = self.monitor.readline()
                answer = json.loads(line or "{}")
                if "error" in answer:
                    raise Refused(answer["error"]["desc"])
                if "return" in answer:
                    return answer["return"]
                self.events.append(answer)
        except ConnectionError:
            pass
        raise NotSo(f"the emulator ended at {command}: {self.said()[-400:]}")

    def removed(self, device):
        """Nothing of a device is left: the monitor says so."""
        def is_so():
            self.state()
            return any(it.get("event") == "DEVICE_DELETED" and it["data"].get("device") == device for it in self.events)
        self.wait(f"the end of {device}", is_so)
        self.events = []

    def hmp(self, line):
        """What a line of the monitor for people says."""
        return self.qmp("human-monitor-command", **{"command-line": line})

    def state(self):
        return self.qmp("query-status")["status"]

    def wait(self, what, is_so):
        """Until it is so, for some seconds at most."""
        end = time.monotonic() + SECONDS
        while not is_so():
            if time.monotonic() > end:
                raise NotSo(f"{what} did not come: {self.said()[-300:]}")
            time.sleep(0.002)

    def saves(self, path):
        """The virtual machine goes to a file, and stops."""
        with open(path, "wb") as file:
            self.qmp("getfd", [file], fdname="state")
        self.qmp("migrate", uri="fd:state")
        self.wait("the end of migration", lambda: self.qmp("query-migrate").get("status") in ("completed", "failed"))
        ask("migration", self.qmp("query-migrate")["status"], "completed")

    def restored(self):
        """All of the state has arrived."""
        self.wait("the machine", lambda: self.state() != "inmigrate")
        return self

    def resets(self):
        """The virtual machine, as by its button."""
        self.qmp("system_reset")
        self.wait("the reset", lambda: self.state() and any(it.get("event") == "RESET" for it in self.events))
        self.events = []

    # ---- the guest's accesses

    def say(self, command):
        try:
            print(command, file=self.run.stdin)
            answer = self.run.stdout.readline().split()
        except BrokenPipeError:
            answer = []
        if not answer or answer[0] != "OK":
            raise NotSo(f"the emulator ended at `{command[:40]}`: {self.said()[-400:]}")
        return answer[1] if len(answer) > 1 else ""

    def say_at_once(self, *commands):
        """Nothing of the emulator's own comes between them: the last word of each answer."""
        self.run.stdin.write("".join(f"{command}\n" for command in commands))
        return [self.run.stdout.readline().split()[-1] for _ in commands]

    def config(self, at, value=None, slot=3):
        self.say(f"outl 0xcf8 {0x80000000 | slot << 11 | at:#x}")
        return int(self.say("inl 0xcfc"), 16) if value is None else self.say(f"outl 0xcfc {value:#x}")

    def read(self, at, width="l"):
        return int(self.say(f"read{width} {BAR + at:#x}"), 16)

    def write(self, at, value, width="l"):
        self.say(f"write{width} {BAR + at:#x} {value:#x}")

    def memory(self, at, count):
        return bytes.fromhex(self.say(f"read {at:#x} {count}")[2:])

    def put(self, at, data):
        self.say(f"write {at:#x} {len(data)} 0x{data.hex()}")

    def step(self, seconds):
        """The virtual machine's clock goes on."""
        self.say(f"clock_step {seconds * 10 ** 9:.0f}")

    # ---- a driver

    def enable(self, slot=3):
        """The registers are there, and the function may read and write memory."""
        self.config(0x24, BAR, slot)
        self.config(0x04, 6, slot)
        return self

    def start(self, slot=3):
        """The port is at work, and its disk is ready."""
        self.enable(slot)
        self.write(4, 0x80000000)
        for at, value in (CLB, LIST), (FB, AREA), (SERR, 0xFFFFFFFF), (CMD, 6 | FRE):
            self.write(at, value)
        self.wait("a ready disk", lambda: not self.read(TFD) & 0x88)
        self.write(IS, 0xFFFFFFFF)
        self.write(CMD, 6 | FRE | ST)
        return self

    def issue(self, code, lba=0, count=1, at=DATA, features=0, table=TABLES, port=0):
        """A command whose bytes are at an address, for a port of the multiplier if there is one."""
        place = lba.to_bytes(6, "little")
        fis = bytes([0x27, 0x80 | port, code, features, *place[:3], 0x40, *place[3:], 0, count & 0xFF, count >> 8])
        prd = at.to_bytes(12, "little") + (max(count, 1) * SECTOR - 1).to_bytes(4, "little")
        moves = code != FLUSH
        if table == TABLES:
            self.put(table, fis.ljust(0x80, b"\0") + prd)
        self.put(LIST, (5 | (code in (WRITE, TRIM)) << 6 | port << 12 | moves << 16).to_bytes(8, "little") + table.to_bytes(8, "little") + bytes(16))
        self.write(IS, 0xFFFFFFFF)
        self.write(CI, 1)

    def queue(self, code, *commands):
        """Queued commands: the slot of each, its first sector, how many, and the address of its bytes."""
        slots = 0
        for slot, lba, count, at in commands:
            place, table = lba.to_bytes(6, "little"), TABLES + 0x1000 * slot
            fis = bytes([0x27, 0x80, code, count & 0xFF, *place[:3], 0x40, *place[3:], count >> 8, slot << 3])
            self.put(table, fis.ljust(0x80, b"\0") + at.to_bytes(12, "little") + (count * SECTOR - 1).to_bytes(4, "little"))
            self.put(LIST + 32 * slot, (5 | (code == QUEUED_WRITE) << 6 | 1 << 16).to_bytes(8, "little") + table.to_bytes(8, "little") + bytes(16))
            slots |= 1 << slot
        self.write(IS, 0xFFFFFFFF)
        self.write(SACT, slots)
        self.write(CI, slots)

    def tells_multiplier(self, fis, flags=0):
        """A FIS to the control port of the multiplier."""
        self.put(TABLES, bytes(fis).ljust(0x80, b"\0"))
        self.put(LIST, (5 | 15 << 12 | flags).to_bytes(8, "little") + TABLES.to_bytes(8, "little") + bytes(16))
        self.write(CI, 1)
        self.wait("the multiplier", lambda: not self.read(CI))

    def opens(self, port):
        """A port of the multiplier, which is reset by software first: by 0 in its SControl, and then ones in its SError."""
        for control, flags in (4, 1 << 8 | 1 << 10), (0, 0):
            self.tells_multiplier([0x27, 0x0F, *[0] * 13, control], flags)
        self.wait("its signature", lambda: not self.read(TFD) & 0x88)
        for register, value in (2, 0), (1, 0xFFFFFFFF):
            low, *high = value.to_bytes(4, "little")
            self.tells_multiplier([0x27, 0x8F, WRITE_PORT, register, *high, port, 0, 0, 0, 0, low])

    def is_over(self):
        return not self.read(CI) or bool(self.read(IS) & (OFS | IFS | HBDS | HBFS | TFES))

    def does(self, code, lba=0, count=1, **more):
        """A command, until its end: PxTFD, which is 50h where all is well."""
        self.issue(code, lba, count, **more)
        self.wait(f"the end of {code:x}h", self.is_over)
        return self.read(TFD)

    def loads(self, lba, count=1, port=0):
        """The bytes of sectors."""
        self.put(DATA, bytes(count * SECTOR))
        ask(f"PxTFD of a read of sector {lba}", self.does(READ, lba, count, port=port), 0x50)
        return self.memory(DATA, count * SECTOR)

    def identifies(self):
        """The words of IDENTIFY DEVICE."""
        self.put(DATA, bytes(SECTOR))
        ask("PxTFD of IDENTIFY DEVICE", self.does(IDENTIFY), 0x50)
        page = self.memory(DATA, SECTOR)
        return [int.from_bytes(page[at:at + 2], "little") for at in range(0, SECTOR, 2)]

    def sectors(self):
        """As the disk says."""
        words = self.identifies()
        return words[100] | words[101] << 16

    def begins_again(self):
        """A driver behind an error: ST falls and rises."""
        self.write(CMD, 6 | FRE)
        self.write(SERR, 0xFFFFFFFF)
        self.write(IS, 0xFFFFFFFF)
        self.write(CMD, 6 | FRE | ST)
