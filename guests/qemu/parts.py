"""What the cases of guests/qemu/management share: disks and their media, what the monitor is told, and a machine that an error stopped."""
from driven import (CMD, DATA, FRE, SCTL, SECTOR, SERR, ST, TFD, WRITE, Emulator, NotSo, Refused, ask, ask_in, image,
                    sector)

OURS = ["-device", "gefsunk-ahci,id=c,addr=3,ports=0"]


def drive(name, path, more=""):
    return ["-drive", f"if=none,id={name},format=raw,file={path}{more}"]


def disk(name="d0", more=""):
    return ["-device", f"gefsunk-disk,bus=c.0,id=disk0,drive={name}{more}"]


def faulty(path, *errors, more=""):
    """A medium on which something fails, as the words of each error say (the emulator's blkdebug)."""
    words = "".join(f",file.inject-error.{at}.{word}" for at, error in enumerate(errors) for word in error.split())
    return ["-drive", f"if=none,id=d0,driver=raw,discard=unmap,file.driver=blkdebug,file.image.driver=file,file.image.locking=off,"
            f"file.image.filename={path}{words}{more}"]


def zeroes(name, sectors):
    """A medium of zeroes."""
    return ["-drive", f"if=none,id={name},driver=null-co,size={sectors * SECTOR},read-zeroes=on"]


def refused(emulator, words, command, **arguments):
    """The monitor refuses a command, and says why."""
    try:
        emulator.qmp(command, **arguments)
    except Refused as why:
        ask_in(f"{command} {arguments}", str(why), words)
        return
    raise NotSo(f"{command} {arguments} is not refused")


def under_script(emulator, path, text=""):
    """A script of faults begins, and strikes at once; without one there is none any more."""
    if text:
        with open(path, "w", encoding="ascii") as file:
            file.write(text + "\n")
    emulator.qmp("qom-set", path="c", property="faults", value=path if text else "")
    emulator.step(0.001)


def goes_on(emulator):
    """The machine stops and goes on, and its clock does: nothing is left of a device that went."""
    emulator.qmp("stop")
    emulator.qmp("cont")
    emulator.step(10)


def comes(emulator, **arguments):
    emulator.qmp("device_add", driver="gefsunk-disk", bus="c.0", **arguments)


def goes(emulator, name):
    """A disk goes, and its drive is free."""
    emulator.qmp("device_del", id=name)
    emulator.removed(name)


def has_come_back(e):
    """A reset of the link, and whether the disk is there soon."""
    for at, value in (CMD, 6 | FRE), (SCTL, 0x301), (SCTL, 0x300), (SERR, 0xFFFFFFFF):
        e.write(at, value)
    ready = any(not e.read(TFD) & 0x88 for _ in range(200))
    e.write(CMD, 6 | FRE | ST)
    return ready


def failing(folder, more=""):
    """A machine that stops as its disk's first write fails."""
    path = image(f"{folder}/a", 2048)
    return Emulator(*OURS, "-drive", f"if=none,id=d0,driver=raw,file.driver=blkdebug,file.image.driver=file,file.image.locking=off,"
                    f"file.image.filename={path},file.inject-error.0.event=write_aio,file.inject-error.0.errno=5,file.inject-error.0.once=on",
                    *disk(more=f",rerror=stop,werror=stop{more}")).start()


def stopped(folder):
    """The same, once it has."""
    emulator = failing(folder)
    emulator.put(DATA, b"\x5A" * 4 * SECTOR)
    emulator.issue(WRITE, 100, 4)
    emulator.wait("the stop", lambda: emulator.state() == "io-error")
    return emulator


def is_stored(folder):
    """The write of `stopped` is on the medium, and nothing else is."""
    with open(f"{folder}/a", "rb") as file:
        found = file.read()
    ask("what is stored", found == b"".join(map(sector, range(100))) + b"\x5A" * 4 * SECTOR + b"".join(map(sector, range(104, 2048))), True)
