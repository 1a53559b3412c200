"""Runs of `pm_trace threads`, for the check and the measurement of that name."""
import re
import signal
import sys

AREA, SLOTS = 0x101000, 30

# A signal that ends this process ends the run that it waits for too.
for number in (signal.SIGHUP, signal.SIGINT, signal.SIGTERM):
    signal.signal(number, lambda number, _: sys.exit(128 + number))


def are_done(ended, reads):
    return ended.returncode == 0 and len(re.findall(r" done$", ended.stdout, re.M)) == reads


def reads_of(disks, sectors, reads, places, barriers):
    """So many reads, over so many places of memory."""
    lines = [f"ports {disks} capacity 4 memory 16"] + [f"disk {disk} sectors 256" for disk in range(disks)]
    for read in range(reads):
        if barriers and read % SLOTS == 0:
            lines.append("barrier")
        at = AREA + read % places * max(0x1000, 512 * sectors)
        lines.append(f"read {read % disks} {read % 256 if sectors == 1 else 0} {sectors} {at:x}:{512 * sectors}")
    return lines
