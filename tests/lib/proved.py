"""What the checks and measurements in Python share: the program that they play, and a library between it and the C library."""
import os
import subprocess
import sys

TOP = os.path.dirname(os.path.dirname(os.path.dirname(os.path.realpath(__file__))))
PROGRAM = os.path.join(TOP, "crates", "pm_trace", "out", "pm_trace")


def program(words):
    """The program to play: the first of the words, which it takes away, where that is a path with a slash in it; else the proved
    program, which is built first where it is not."""
    if words and "/" in words[0]:
        return os.path.realpath(words.pop(0))
    subprocess.run([os.path.join(TOP, "bin", "pm_trace"), "decode"], stdin=subprocess.DEVNULL, stdout=subprocess.DEVNULL, check=True)
    return PROGRAM


def preloaded(name, folder):
    """Compiles tests/lib/NAME.c in the folder, to be named in LD_PRELOAD."""
    library = os.path.join(folder, f"{name}.so")
    subprocess.run(["cc", "-O1", "-shared", "-fPIC", "-o", library, os.path.join(TOP, "tests", "lib", f"{name}.c")], check=True)
    return library


def ended(command, text=b"", environment=None):
    """The status of a run, None where it takes more than a minute, the output, and what stands on standard error."""
    try:
        run = subprocess.run(command, input=text, capture_output=True, env=environment, timeout=60)
    except subprocess.TimeoutExpired:
        return None, b"", b""
    return run.returncode, run.stdout, run.stderr


def measured(command, source, printed=os.devnull):
    """Runs a program on a file: the processor time that it took, and its peak of memory in bytes."""
    with open(source, "rb") as given, open(printed, "wb") as taken:
        child = os.posix_spawn(command[0], command, {}, file_actions=[
            (os.POSIX_SPAWN_DUP2, given.fileno(), 0), (os.POSIX_SPAWN_DUP2, taken.fileno(), 1)])
        _, status, usage = os.wait4(child, 0)
    if status:
        sys.exit(f"{command[0]}: status {status}")
    return usage.ru_utime + usage.ru_stime, usage.ru_maxrss * 1024


def opened(disks, sectors, word="", words=""):
    """The first lines of a scenario: so many disks, plugged in and brought up."""
    return [f"ports {disks} capacity 4 memory 16{word}", *(f"disk {disk} sectors {sectors}{words}" for disk in range(disks)),
            *(f"came {disk}" for disk in range(disks)), "settle 100000"]


def end(passed, failed):
    """Ends a check: its last line counts, and its status is 1 where one failed."""
    print(f"{passed} passed, {failed} failed")
    sys.exit(1 if failed or not passed else 0)


def opening_bytes(sector, count):
    """What the sectors of a scenario's disk hold at first."""
    return bytes((sector + place // 512 + place % 512) % 256 for place in range(512 * count))


class List:
    """Numbers that look thrown, the same for the same seed (a linear congruence modulo 2^64)."""

    def __init__(self, seed):
        self.state = seed

    def below(self, limit):
        self.state = (self.state * 6364136223846793005 + 1442695040888963407) % 2 ** 64
        return (self.state >> 33) % limit
