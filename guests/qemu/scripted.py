"""Cases of guests/qemu/management: disks by themselves, and scripts of faults."""
from driven import CI, DATA, QUEUED_READ, READ, SACT, SECTOR, WRITE, Emulator, ask, ask_in, image, sector
from parts import OURS, disk, drive, failing, goes, goes_on, has_come_back, is_stored, under_script


def moves_what_a_script_kept(folder):
    """A script keeps a write waiting, and goes while the machine stands, which may be moved then: the write goes on on the other side."""
    with Emulator(*OURS, *drive("d0", image(f"{folder}/a", 2048)), *disk()) as e:
        under_script(e.start(), f"{folder}/script", "0 0 stuck")
        e.put(DATA, b"\x5A" * 4 * SECTOR)
        e.issue(WRITE, 100, 4)
        e.qmp("stop")
        under_script(e, f"{folder}/script")
        e.saves(f"{folder}/state")
    with Emulator(*OURS, *drive("d0", f"{folder}/a", ",file.locking=off"), *disk(), state=f"{folder}/state") as e:
        ask("PxCI", e.restored().read(CI), 1)
        e.qmp("cont")
        e.wait("the end", lambda: not e.read(CI))
        ask("sector 100", e.loads(100), b"\x5A" * SECTOR)
    is_stored(folder)


def resets_under_a_script(folder):
    """The machine is reset while a script keeps a write of a disk by itself waiting: the disk hears that it failed, and its sectors are free."""
    with Emulator(*OURS, *drive("d0", image(f"{folder}/a", 2048)), *disk(more=",fis=on")) as e:
        under_script(e.start(), f"{folder}/script", "0 0 stuck")
        e.issue(WRITE, 100, 4)
        ask("PxCI", e.read(CI), 1)
        e.resets()
        under_script(e, f"{folder}/script")
        ask("sector 101", e.start().loads(101), sector(101))


def resets_what_stopped(folder):
    """The same, where an error stopped the machine."""
    with failing(folder, ",fis=on") as e:
        e.issue(WRITE, 100, 4)
        e.wait("the stop", lambda: e.state() == "io-error")
        e.resets()
        e.qmp("cont")
        ask("sector 101", e.start().loads(101), sector(101))


def by_itself(folder, *more):
    """A machine with a disk by itself, which tells of each FIS that the guest is shown."""
    return Emulator("-trace", "gefsunk_fis", *OURS, *drive("d0", image(f"{folder}/a", 2048)), *disk(more=",fis=on"), *more).start()


def shows_what_a_script_does(folder):
    """How many Register FISes the guest is shown of a read and of the signatures: one that is sent twice, one that is said behind the bytes, and
    none of those that waited as the link was reset."""
    says = " 0 say 3440500000000040000000000000000000000000\n"
    said, many = f"data 0 hold\n+0{says}+1 0 free", f"d2h{says}d2h{says}d2h 0 twice\nd2h 0 hold\n1 0 free"
    for text, line, shown in ("d2h 0 tell", 1, 2), ("d2h 0 twice", 1, 3), (many, 4, 2), (said, 1, 3):
        with by_itself(folder) as e:
            under_script(e, f"{folder}/script", text)
            e.put(DATA, bytes(SECTOR))
            e.issue(READ, 9)
            e.wait("the script", lambda: f"line {line}" in e.said())
            if text == many:
                has_come_back(e)
            e.step(2)
            e.wait("the end", lambda: not e.read(CI))
            e.wait(f"{shown} Register FISes by {text}", lambda: e.said().count("gefsunk_fis d2h") >= shown)
            e.read(CI)
            ask(f"Register FISes by {text}", e.said().count("gefsunk_fis d2h"), shown)
            ask(f"sector 9 by {text}", e.memory(DATA, SECTOR), sector(9))


def ends_a_script(folder):
    """A script goes while it holds a FIS, or while a FIS of it is late: that goes up at once, or in its time. So does a disk whose FIS is late."""
    with by_itself(folder) as e:
        under_script(e, f"{folder}/script", "d2h 0 hold")
        e.issue(READ, 9)
        e.wait("the hold", lambda: ": hold" in e.said())
        ask("PxCI", e.read(CI), 1)
        under_script(e, f"{folder}/script")
        e.wait("the end", lambda: not e.read(CI))
        under_script(e, f"{folder}/script", "d2h* 0 late 5")
        e.issue(READ, 9)
        e.wait("the delay", lambda: e.said().count(": late") == 1)
        under_script(e, f"{folder}/script")
        ask("PxCI", e.read(CI), 1)
        e.step(5)
        e.wait("the end", lambda: not e.read(CI))
        under_script(e, f"{folder}/script", "d2h 0 late 5")
        e.issue(READ, 9)
        e.wait("the delay", lambda: e.said().count(": late") == 2)
        goes(e, "disk0")
        goes_on(e)


def slows_each(folder):
    """Each of two reads has its own time at a medium that is slow."""
    with by_itself(folder) as e:
        under_script(e, f"{folder}/script", "0 0 slow 1\n0.5 0 slow 5")
        e.queue(QUEUED_READ, (0, 9, 1, DATA))
        e.step(0.6)
        e.queue(QUEUED_READ, (1, 10, 1, DATA + SECTOR))
        for seconds, left in (0.2, 3), (0.4, 2), (3, 2), (2, 0):
            e.step(seconds)
            e.wait(f"PxSACT {left}", lambda: e.read(SACT) == left)
        ask("the sectors", e.memory(DATA, 2 * SECTOR), sector(9) + sector(10))


def has_no_room(folder):
    """A disk by itself has much to send while the guest's memory waits: all comes, in its order."""
    with by_itself(folder, "-trace", "gefsunk_waits") as e:
        under_script(e, f"{folder}/script", "0 0 slow 1")
        e.issue(READ, 100, 80)
        e.config(4, 2)
        e.step(2)
        e.wait("what waits", lambda: "gefsunk_waits" in e.said())
        ask("PxCI", e.read(CI), 1)
        e.config(4, 6)
        e.wait("the end", lambda: not e.read(CI))
        ask("the sectors", e.memory(DATA, 80 * SECTOR), b"".join(sector(100 + at) for at in range(80)))


def forgets_what_it_sent(folder):
    """A disk by itself goes and comes again while the guest's memory waits: of what it had sent nothing comes behind that."""
    with by_itself(folder, "-trace", "gefsunk_waits") as e:
        under_script(e, f"{folder}/script", "0 0 slow 1\n2 0 pull\n3 0 plug")
        e.put(DATA, bytes(80 * SECTOR))
        e.issue(READ, 100, 80)
        e.config(4, 2)
        e.step(1.5)
        e.wait("what waits", lambda: "gefsunk_waits" in e.said())
        e.step(2)
        e.config(4, 6)
        e.wait("the signature", lambda: e.said().count("gefsunk_fis d2h") == 2)
        found = e.memory(DATA, 80 * SECTOR)
        known = [found[at * SECTOR:(at + 1) * SECTOR] in (bytes(SECTOR), sector(100 + at)) for at in range(80)]
        ask("sectors at their places, or none", all(known), True)


def two_by_themselves(folder):
    """Two disks by themselves behind a multiplier: each has its own medium, and a script strikes at its own port alone."""
    with open(f"{folder}/b", "wb") as file:
        file.write(b"".join(sector(5000 + lba) for lba in range(2048)))
    words = "-device gefsunk-ahci,id=c,addr=3,ports=2".split() + drive("d0", image(f"{folder}/a", 2048)) + drive("d1", f"{folder}/b")
    with Emulator(*words, *disk(more=",port=0,fis=on"), "-device", "gefsunk-disk,bus=c.0,port=1,drive=d1,fis=on") as e:
        e.start().opens(1)
        for port, first in (0, 0), (1, 5000):
            ask(f"sectors of port {port}", e.loads(7, 2, port=port), sector(first + 7) + sector(first + 8))
        under_script(e, f"{folder}/script", "command* 1 lose")
        ask("sector 9 of port 0", e.loads(9), sector(9))
        e.issue(READ, 9, port=1)
        ask("PxCI of a command that is lost", e.read(CI), 1)


def resizes_one_by_itself(folder):
    """A disk by itself has the size with which it came, whatever is reset."""
    with Emulator(*OURS, *drive("d0", image(f"{folder}/a", 2048)), *disk(more=",fis=on")) as e:
        for sectors in 4096, 5000:
            e.qmp("block_resize", device="d0", size=sectors * SECTOR)
            ask_in("the warning", e.said(), f"has {sectors} sectors now; the guest sees 2048")
            e.resets()
            ask("sectors behind a reset", e.start().sectors(), 2048)


CASES = [
    moves_what_a_script_kept, resets_under_a_script, resets_what_stopped, shows_what_a_script_does, ends_a_script,
    slows_each, has_no_room, forgets_what_it_sent, two_by_themselves, resizes_one_by_itself,
]
