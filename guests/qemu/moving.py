"""Cases of guests/qemu/management: machines that move, errors that stop them, and snapshots."""
import os
import random
import subprocess

from driven import (CI, CMD, DATA, FRE, QUEUED_WRITE, READ, SACT, SCTL, SECTOR, WORK, WRITE, Emulator, NotSo, Refused,
                    ask, ask_in, image, sector)
from parts import drive, disk, faulty, zeroes, refused, goes, failing, stopped, is_stored, OURS


def bus(*sizes, more=""):
    """A controller with two ports, and disks of so many sectors at them; 0 for none."""
    words = ["-device", "gefsunk-ahci,id=c,addr=3,ports=2"]
    for port, sectors in enumerate(sizes):
        if sectors:
            words += zeroes(f"d{port}", sectors) + ["-device", f"gefsunk-disk,bus=c.0,port={port},drive=d{port}{more}"]
    return words


def moves_to_its_own_disks(folder):
    """The disks of the other side are those of this one; fewer, more, others, and others by their order are refused."""
    for here, there, answer in ((2048, 4096), (2048, 4096), ""), ((2048, 0), (2048, 4096), "port 1 has another"), \
            ((2048, 4096), (2048, 0), "port 1 has another"), ((2048, 4096), (4096, 2048), "port 0 has another"), \
            ((0, 0), (0, 2048), "port 1 has another"), ((2048, 0), (0, 0), "port 0 has another"), ((2048, 0), (2049, 0), "port 0 has another"):
        with Emulator(*bus(*here)) as e:
            e.saves(f"{folder}/state")
        with Emulator(*bus(*there), state=f"{folder}/state") as e:
            if answer:
                status, said = e.ends()
                ask(f"{here} to {there}", status, 1)
                ask_in(f"{here} to {there}", said, answer)
            else:
                ask("the state", e.restored().state(), "running")
    with Emulator(*bus(2048, 0)) as e:
        e.saves(f"{folder}/state")
    with Emulator(*bus(2048, 0, more=",fis=on"), state=f"{folder}/state") as e:
        ask_in("a move to a disk by itself", e.ends()[1], "port 0 has another")


def refuses_to_move(folder):
    """A disk by itself, and a script of faults, keep a machine from moving; without them it moves."""
    with open(f"{folder}/script", "w") as script:
        print("9 0 pull", file=script)
    with Emulator(*bus(2048, more=",fis=on,id=disk0")) as e:
        refused(e, "fis=on is not migrated", "migrate", uri="fd:state")
        goes(e, "disk0")
        e.qmp("qom-set", path="/machine/peripheral/c", property="faults", value=f"{folder}/script")
        refused(e, "Could not open", "qom-set", path="/machine/peripheral/c", property="faults", value="/none")
        ask("the script", e.qmp("qom-get", path="/machine/peripheral/c", property="faults"), f"{folder}/script")
        refused(e, "script of faults is not migrated", "migrate", uri="fd:state")
        e.qmp("qom-set", path="/machine/peripheral/c", property="faults", value="")
        e.saves(f"{folder}/state")


def section(state):
    """Where the device's section of a stream has its version, and where it ends. Behind the name of it stand an instance and the version."""
    name = b"0000:00:03.0/gefsunk-ahci"
    at = state.index(name)
    footer = b"\x7e" + state[at - 5:at - 1]
    return at + len(name) + 4, state.index(footer, at)


def refuses_an_old_state(folder):
    """One of version 2, which had events as this host's compiler lays them out."""
    with Emulator(*bus(2048, 0)) as e:
        e.saves(f"{folder}/state")
    with open(f"{folder}/state", "r+b") as file:
        state = file.read()
        at = section(state)[0]
        ask("the version", state[at:at + 4], bytes([0, 0, 0, 3]))
        file.seek(at)
        file.write(bytes([0, 0, 0, 2]))
    with Emulator(*bus(2048, 0), state=f"{folder}/state") as e:
        status, said = e.ends()
        ask("the status", status, 1)
        ask_in("an old state", said, "version_id 2 is too old")


def survives_any_state(folder):
    """Bytes of the section are others: the emulator refuses it, or goes on, and takes registers and a reset."""
    with stopped(folder) as e:
        e.saves(f"{folder}/state")
    with open(f"{folder}/state", "rb") as file:
        state = file.read()
    chance, (begin, end) = random.Random(5), section(state)
    for _ in range(24):
        bad = bytearray(state)
        for _ in range(chance.randrange(1, 4)):
            first, last = chance.choice(((begin + 280, begin + 600), (begin + 280, end), (end - 2200, end)))
            bad[chance.randrange(first, last)] = chance.choice((0, 1, 0x7F, 0x80, 0xFF, chance.randrange(256)))
        with open(f"{folder}/bad", "wb") as file:
            file.write(bad)
        with Emulator(*OURS, *drive("d0", f"{folder}/a", ",file.locking=off"), *disk(), state=f"{folder}/bad") as e:
            try:
                e.restored().qmp("cont")
                e.enable().read(CI)
                e.qmp("system_reset")
                e.read(CI)
            except (NotSo, Refused):
                ask("the status", e.ends()[0], 1)


def edited(state, end, *edits):
    """The state of `stopped` with other numbers: each is of the request (and of what of it), or of the event that waits."""
    layout, state = {"kind": (0, 4), "port": (4, 4), "at": (8, 8), "count": (16, 8)}, bytearray(state)
    for of, name, value in edits:
        at, size = layout[name]
        at += end - 49 - (0 if of == "event" else 1 + 4 * SECTOR + 48)
        state[at:at + size] = value.to_bytes(size, "big")
        state[end - 50] |= of == "event"
    return bytes(state)


def refuses_odd_requests(folder):
    """A state whose request is of no disk, of no kind that there is, behind the disk, or of more bytes than came; or whose event is too long."""
    with stopped(folder) as e:
        e.saves(f"{folder}/state")
    with open(f"{folder}/state", "rb") as file:
        state = file.read()
    end = section(state)[1]
    request, damaged = "a request of no disk that is here", "the state of the machine is damaged"
    for why, *edits in (request, ("request", "port", 1)), (request, ("request", "at", 2046)), (request, ("request", "count", 1000)), \
            (request, ("request", "kind", 8), ("request", "count", 0)), (damaged, ("event", "kind", 2), ("event", "count", 1 << 62)):
        with open(f"{folder}/odd", "wb") as file:
            file.write(edited(state, end, *edits))
        with Emulator(*OURS, *drive("d0", f"{folder}/a", ",file.locking=off"), *disk(), state=f"{folder}/odd") as e:
            status, said = e.ends()
            ask(f"the status of {edits}", status, 1)
            ask_in(f"{edits}", said, why)


def goes_back(folder):
    """The machine goes back to a snapshot. Where that is damaged it does not, and is reset and at work all the same."""
    subprocess.run([f"{WORK}/build/qemu-img", "convert", "-O", "qcow2", image(f"{folder}/a", 2048), f"{folder}/q"], check=True)
    words = [*OURS, "-drive", f"if=none,id=d0,format=qcow2,file={folder}/q", *disk()]
    with Emulator(*words) as e:
        e.start().loads(9)
        e.hmp("savevm one")
        e.put(DATA, b"\x5A" * SECTOR)
        ask("PxTFD of a write", e.does(WRITE, 9), 0x50)
        ask("what going back says", e.hmp("loadvm one"), "")
        ask("sector 9", e.loads(9), sector(9))
        e.qmp("quit")
        e.ends()
    with open(f"{folder}/q", "r+b") as file:
        state = file.read()
        file.seek(section(state)[1] - 50)
        file.write(b"\1")
    with Emulator(*words) as e:
        e.start()
        ask_in("what going back says", e.hmp("loadvm one"), "the state of the machine is damaged")
        ask("PxCI", e.read(CI), 0)
        e.resets()
        e.qmp("cont")
        ask("sector 9", e.start().loads(9), sector(9))


def stops_at_an_error(folder):
    """And does the write as it goes on."""
    with stopped(folder) as e:
        ask("PxCI", e.read(CI), 1)
        ask("the disk, as the monitor tells it", e.qmp("query-block")[0]["io-status"], "failed")
        e.qmp("cont")
        e.wait("the end", lambda: not e.read(CI))
        ask("sector 100", e.loads(100), b"\x5A" * SECTOR)
        found = e.qmp("query-blockstats")[0]["stats"]
        ask("writes, and those of whose failure the guest heard", [found["wr_operations"], found["failed_wr_operations"]], [1, 0])
    is_stored(folder)


def moves_stopped(folder):
    """A write that an error stopped goes on on the other side, and again behind a second move."""
    with stopped(folder) as e:
        e.saves(f"{folder}/state")
    for _ in range(2):
        with Emulator(*OURS, *drive("d0", f"{folder}/a", ",file.locking=off"), *disk(), state=f"{folder}/state") as e:
            ask("the state", e.restored().state(), "io-error")
            ask("PxCI", e.read(CI), 1)
            e.saves(f"{folder}/next")
            ask("moved on", e.state(), "postmigrate")
        os.rename(f"{folder}/next", f"{folder}/state")
    with Emulator(*OURS, *drive("d0", f"{folder}/a", ",file.locking=off"), *disk(), state=f"{folder}/state") as e:
        e.restored().qmp("cont")
        e.wait("the end", lambda: not e.read(CI))
        ask("sector 100", e.loads(100), b"\x5A" * SECTOR)
    is_stored(folder)


def moves_stopped_and_reset(folder):
    """The same, where the guest reset the disk before the machine stopped: the disk has the bytes no more, and the state has them."""
    with failing(folder) as e:
        e.hmp('qemu-io d0 "break write_aio A"')
        e.put(DATA, b"\x5A" * 4 * SECTOR)
        e.issue(WRITE, 100, 4)
        for at, value in (CMD, 6 | FRE), (SCTL, 0x301), (SCTL, 0x300):
            e.write(at, value)
        e.hmp('qemu-io d0 "resume A"')
        e.wait("the stop", lambda: e.state() == "io-error")
        e.saves(f"{folder}/state")
    with Emulator(*OURS, *drive("d0", f"{folder}/a", ",file.locking=off"), *disk(), state=f"{folder}/state") as e:
        e.restored().qmp("cont")
        ask("sector 100", e.start().loads(100), b"\x5A" * SECTOR)
    is_stored(folder)


def moves_two(folder):
    """Two queued writes that an error stopped go on on the other side, each with its own bytes, and both end."""
    once = "event=write_aio errno=5 once=on"
    with Emulator(*OURS, *faulty(image(f"{folder}/a", 2048), once, once), *disk(more=",werror=stop")) as e:
        e.start().put(DATA, b"\x5A" * 4 * SECTOR + b"\xC3" * SECTOR)
        e.queue(QUEUED_WRITE, (3, 100, 4, DATA), (17, 300, 1, DATA + 4 * SECTOR))
        e.wait("the stop", lambda: e.state() == "io-error")
        e.saves(f"{folder}/state")
    with Emulator(*OURS, *drive("d0", f"{folder}/a", ",file.locking=off"), *disk(), state=f"{folder}/state") as e:
        ask("PxSACT", e.restored().read(SACT), 1 << 3 | 1 << 17)
        e.qmp("cont")
        e.wait("the end of both", lambda: not e.read(SACT))
        ask("sector 300", e.loads(300), b"\xC3" * SECTOR)
        ask("sector 301", e.loads(301), sector(301))
        ask("sectors from 100 on", e.loads(100, 4), b"\x5A" * 4 * SECTOR)


def tells_of_errors(folder):
    """A write that fails is told to the guest, one that has no space stops the machine, and of a read that is let pass the bytes are zeroes."""
    errors = "event=write_aio sector=60 errno=5", "event=write_aio sector=70 errno=28 once=on", "event=read_aio sector=50 errno=5"
    with Emulator(*OURS, *faulty(image(f"{folder}/a", 2048), *errors), *disk(more=",rerror=ignore")) as e:
        e.start().loads(40)
        ask("a sector that is not read", e.loads(50), bytes(SECTOR))
        ask("PxTFD of a write that fails", e.does(WRITE, 60), 0x451)
        e.begins_again()
        e.issue(WRITE, 70)
        e.wait("the stop", lambda: e.state() == "io-error")
        e.qmp("cont")
        e.wait("the end", lambda: not e.read(CI))
        found = e.qmp("query-blockstats")[0]["stats"]
        ask("what was done, and what failed", [found[f"{which}{way}_operations"] for way in ("rd", "wr") for which in ("", "failed_")], [2, 0, 1, 1])


def moves_while_it_waits(folder):
    """A command waits for bus mastering: before its header is read, or before its bytes are written. It goes on on the other side."""
    slow = ",throttling.iops-total=1"
    for is_read in False, True:
        with Emulator(*OURS, *drive("d0", image(f"{folder}/a", 2048), slow), *disk()) as e:
            e.start().loads(1)
            e.put(DATA, bytes(SECTOR))
            if is_read:
                e.issue(READ, 9)
            e.config(4, 2)
            if is_read:
                e.step(2)
            else:
                e.issue(READ, 9)
            ask("no bytes", e.memory(DATA, SECTOR), bytes(SECTOR))
            e.saves(f"{folder}/state")
        with Emulator(*OURS, *drive("d0", f"{folder}/a", ",file.locking=off"), *disk(), state=f"{folder}/state") as e:
            ask("no bytes on the other side", e.restored().memory(DATA, SECTOR), bytes(SECTOR))
            ask("PxCI", e.read(CI), 1)
            e.config(4, 6)
            e.wait("the end", lambda: not e.read(CI))
            ask("sector 9", e.memory(DATA, SECTOR), sector(9))


CASES = [
    moves_to_its_own_disks, refuses_to_move, refuses_an_old_state, survives_any_state, refuses_odd_requests, goes_back,
    stops_at_an_error, moves_stopped, moves_stopped_and_reset, moves_two, tells_of_errors, moves_while_it_waits,
]
