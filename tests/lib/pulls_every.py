"""The part `every` of tests/pulls, which says what it tries."""
import collections
import concurrent.futures
import os
import re
import subprocess
import sys
import time

from proved import opening_bytes

program = None
START = 0x100200


class Request:
    """One request: its work, its sectors, the places of its bytes, and whether its sector can not be read."""

    def __init__(self, work, port, sector=0, places=(), bad=False):
        self.work, self.port, self.sector, self.places, self.bad = work, port, sector, places, bad
        self.length = sum(length for _, length in places)
        self.put = bytes((7 * i + 1) % 251 + 1 for i in range(self.length)) if work == "write" else None

    def lines(self):
        """What puts the bytes of a write, and what submits the request."""
        if self.work == "flush":
            return [f"flush {self.port}"]
        puts, at = [], 0
        for address, length in self.places if self.put else ():
            puts.append(f"put {address:x} {self.put[at:at + length].hex()}")
            at += length
        entries = " ".join(f"{address:x}:{length}" for address, length in self.places)
        return puts + [f"{self.work} {self.port} {self.sector} {self.length // 512} {entries}"]


class Scene:
    """What is under way as a device is unplugged: the opening, the requests, what comes then, and how requests may end."""

    def __init__(self, name, ports, capacity, pulled, disks, requests, then=(), ends=None):
        self.name, self.ports, self.pulled, self.requests, self.then = name, ports, pulled, requests, list(then)
        self.opening = [f"ports {ports} capacity {capacity} memory 2", *disks]
        self.opening += [f"came {port}" for port in range(ports)] + ["settle 1000", "counts"]
        self.ends = ends or [{"done", "removed"} if one.port == pulled else {"done"} for one in requests]
        self.round = [f"step {name} {port}" for port in range(ports)
                      for name in ("pmpresence", "disktake", "disksend", "pmfromdevice", "pmdown")]
        self.round += [f"step {name}" for name in ("pmfromhost", "pmup", "hosttake", "tick", "hostpush")]
        self.last = max([address + length for one in requests for address, length in one.places] or [START]) + 8192

    def rounds(self, count):
        return [self.round[i % len(self.round)] for i in range(count)]

    def asks(self):
        return [line for one in self.requests for line in one.lines()]


MARK = 0x101000
BESIDE = Request("read", 1, 4, [(0x10a000, 512)])
DONE = {"done"}
SCENES = [
    Scene("read", 1, 4, 0, ["disk 0 sectors 16"], [Request("read", 0, 8, [(MARK, 512)])]),
    Scene("read-of-four", 2, 1, 0, ["disk 0 sectors 16 chunk 512 lastfirst"],
          [Request("read", 0, 8, [(MARK, 700), (0x103000, 1348)]), BESIDE]),
    Scene("write", 2, 4, 0, ["disk 0 sectors 16 chunk 512"],
          [Request("write", 0, 8, [(MARK, 300), (0x103000, 724)]), BESIDE]),
    Scene("flush", 2, 4, 0, [], [Request("flush", 0), BESIDE]),
    Scene("error-and-log", 2, 4, 0, ["disk 0 sectors 16 bad 9"],
          [Request("read", 0, 8, [(MARK, 512)]), Request("read", 0, 9, [(0x102000, 512)], bad=True),
           Request("read", 0, 10, [(0x103000, 512)]), BESIDE],
          ends=[{"done", "aborted", "removed"}, {"device-error 41 40", "removed"}, {"aborted", "removed"}, DONE]),
    Scene("reset", 2, 4, 0, [],
          [Request("read", 0, 8, [(MARK, 512)]), Request("write", 0, 9, [(0x102000, 512)]), BESIDE],
          then=["inject 0 46000000"], ends=[{"aborted", "removed"}, {"aborted", "removed"}, DONE]),
    Scene("scan", 3, 4, 0, [],
          [Request("read", 0, 8, [(MARK, 512)]), Request("read", 2, 4, [(0x102000, 512)]), BESIDE],
          then=["gone 1"], ends=[{"done", "removed"}, DONE, {"removed"}]),
    Scene("fifteen", 15, 1, 7, [f"disk {port} sectors 16 chunk 512" for port in range(15)],
          [Request("read" if port % 3 else "write", port, port, [(MARK + 2048 * port, 1024)]) for port in range(14)]
          + [Request("read", 14, 3, [(0x10a000, 512)])]),
    Scene("fifteen-writes", 15, 2, 6, [f"disk {port} sectors 16 chunk 512" for port in range(15)],
          [Request("write" if port % 2 == 0 else "read", port, port, [(MARK + 2048 * port, 1024)]) for port in range(14)]),
]
# With fifteen disks not each pair of a removal and a coming is tried, but about so many.
PAIRS = 4000


def played(lines):
    """Each line that prints, with what it prints; what comes after `counts` are its rows."""
    run = subprocess.run([program, "run"], input="\n".join(lines).encode(), capture_output=True, timeout=120)
    printed = run.stdout.decode().splitlines()
    if run.returncode or run.stderr:
        raise ValueError(f"status {run.returncode}, {printed[-1:]}")
    told, at = [], 0
    for line in lines:
        if line.startswith("disk"):
            continue
        if line != "counts":
            told.append((line, printed[at]))
            at += 1
            continue
        rows = []
        while at < len(printed) and printed[at].startswith("port "):
            rows.append(tuple(map(int, printed[at].split()[1::2])))
            at += 1
        told.append((line, rows))
    if at != len(printed):
        raise ValueError("more lines than there should be")
    return told


def is_still(answer):
    return answer in ("nothing", "blocked")


def moving(scene, told):
    """The numbers of steps after which something has moved, 0 first, of the last steps of a list; whether it ends still."""
    answers = [answer for line, answer in told if line.startswith("step")]
    numbers = [0] + [i + 1 for i, answer in enumerate(answers) if not is_still(answer)]
    return numbers, len(answers) - numbers[-1] >= len(scene.round)


def reference(scene, head):
    """The numbers of steps of rounds, from this beginning on, after which something has moved."""
    known = sum(line.startswith("step") for line in head)
    count = 16 * len(scene.round)
    while True:
        told = played(scene.opening + scene.asks() + scene.then + head + scene.rounds(count))
        numbers, still = moving(scene, [one for one in told if one[0].startswith("step")][known:])
        if still:
            return numbers
        count *= 2


def tail(scene, comes):
    """What stands at the end: that all is at rest, the polls, memory, and what a device that came again serves."""
    size = scene.last - START
    lines = ["settle 1"] + ["poll"] * (len(scene.requests) + 1) + [f"show {START:x} {size}"]
    if comes:
        sectors = [one for one in scene.requests if one.port == scene.pulled and one.places and not one.bad]
        for number, one in enumerate(sectors or [Request("read", scene.pulled, 2, [(0, 512)])]):
            lines += [f"read {scene.pulled} {one.sector} {one.length // 512} {scene.last + 8192 * number:x}:{one.length}",
                      "settle 1000", "poll", f"show {scene.last + 8192 * number:x} {one.length}"]
    return lines + ["counts"]


def fises_at_fault(scene, told):
    """What the host took of each connection against what was sent on it, in order and to the byte."""
    sent, taken, faults = collections.defaultdict(list), collections.defaultdict(list), []
    for line, answer in told:
        words = answer.split() if isinstance(answer, str) else []
        if words[:1] == ["sent"]:
            # as the host has it: PM Port, the low half of byte 1, is the port's number
            fis = words[4][:3] + f"{int(words[1]):x}" + words[4][4:]
            sent[int(words[1]), int(words[2])].append((int(words[3]), fis))
        elif words[:1] == ["took"]:
            taken[int(words[1]), int(words[2])].append((int(words[3]), words[4]))
    for key, list_ in taken.items():
        if key[0] != 15 and list_ != sent[key][:len(list_)]:
            faults.append(f"what was taken of {key} is no beginning of what was sent")
    return faults, {key: (len(sent[key]), len(taken[key])) for key in set(sent) | set(taken) if key[0] != 15}


def counts_at_fault(scene, told, passed, gone):
    """The rows of counts against the FISes that were seen, before the last reads of a device that came again."""
    faults, (first, last) = [], [rows for line, rows in told if line == "counts"]
    opening = {row[:2]: row[2:] for row in first}
    for port, conn, sent, taken in last:
        before = opening.get((port, conn), (0, 0))
        seen = passed.get((port, conn), (0, 0))
        again = conn > 1 and port == scene.pulled
        whole = port != scene.pulled and f"gone {port}" not in gone or again
        if taken > sent or whole and taken != sent or sent < before[0] + seen[0] or taken < before[1] + seen[1]:
            faults.append(f"port {port} connection {conn}: {sent} sent, {taken} taken, {seen} seen")
        if not again and (sent, taken) != (before[0] + seen[0], before[1] + seen[1]):
            faults.append(f"port {port} connection {conn}: {sent} sent, {taken} taken, {seen} of them seen")
    return faults


def ends_at_fault(scene, told):
    """How each request ended, and which ended otherwise than it may or not once."""
    tickets = [int(answer.split()[1]) for line, answer in told if str(answer).startswith("submitted")]
    at = next(i for i, (line, _) in enumerate(told) if line == "settle 1")
    polls = [answer for line, answer in told[at:at + 2 + len(scene.requests)] if line == "poll"]
    ended = [re.fullmatch(r"ticket (\d+) slot \d+ (.+)", answer) for answer in polls[:-1]]
    if None in ended or polls[-1] != "nothing" or sorted(int(end[1]) for end in ended) != tickets[:len(scene.requests)]:
        return [None] * len(scene.requests), [f"a request has not ended once: {polls}"]
    results = {int(end[1]): end[2] for end in ended}
    ends = [results[ticket] for ticket in tickets[:len(scene.requests)]]
    return ends, [f"request {i + 1} ended as {end}" for i, (end, may) in enumerate(zip(ends, scene.ends)) if end not in may]


def bytes_at_fault(scene, told, ends):
    """Places that hold other bytes than they may, and bytes outside of all places that have changed."""
    at = next(i for i, (line, _) in enumerate(told) if line.startswith("show"))
    memory, faults = bytearray.fromhex(told[at][1].split()[1]), []
    for one, end in zip(scene.requests, ends):
        found = b"".join(memory[address - START:address - START + length] for address, length in one.places)
        for address, length in one.places:
            memory[address - START:address - START + length] = bytes(length)
        wanted = one.put if one.put else opening_bytes(one.sector, one.length // 512)
        part = all(byte in (0, want) for byte, want in zip(found, wanted))
        if found != wanted if one.put or end == "done" else not part:
            faults.append(f"{one.work} of port {one.port}, {end}, has other bytes")
    return faults + ["bytes outside of all places have changed"] * any(memory)


def again_at_fault(scene, told, ends):
    """Whether a device that came again serves: its sectors are as they were, or as a write that may have ended left them."""
    at = max(i for i, (line, answer) in enumerate(told) if line == "poll" and answer == "nothing") + 2
    faults = []
    asked = {one.sector: (one, end) for one, end in zip(scene.requests, ends) if one.port == scene.pulled}
    for (line, answer), _, (_, poll), (_, shown) in zip(*[iter(told[at:-1])] * 4):
        sector, count = map(int, line.split()[2:4])
        one, end = asked.get(sector, (None, None))
        old = opening_bytes(sector, count)
        may = [old] if not one or not one.put else [one.put] if end == "done" else [old, one.put]
        if not answer.startswith("submitted") or not poll.endswith(" done") or bytes.fromhex(shown.split()[1]) not in may:
            faults.append(f"a device that came again: {line} {answer}, {poll}, or other bytes")
    return faults


def tried(given):
    """One run: the device is unplugged after k steps, and comes again, where j is a number, after j more."""
    scene, k, j, rounds = SCENES[given[0]], *given[1:]
    gone = scene.then + scene.rounds(k) + [f"gone {scene.pulled}"]
    again = [] if j is None else scene.rounds(j) + [f"came {scene.pulled}"]
    while True:
        lines = scene.opening + scene.asks() + gone + again + scene.rounds(rounds * len(scene.round)) + tail(scene, j is not None)
        try:
            told = played(lines)
        except (ValueError, subprocess.TimeoutExpired) as fault:
            return (), [str(fault)]
        if ("settle 1", "settled") in told or rounds > 2000:
            break
        rounds *= 2
    if ("settle 1", "settled") not in told:
        return (), ["it does not come to rest"]
    faults, passed = fises_at_fault(scene, told)
    ends, wrong = ends_at_fault(scene, told)
    faults += wrong + counts_at_fault(scene, told, passed, gone) + bytes_at_fault(scene, told, ends)
    if j is not None:
        faults += again_at_fault(scene, told, ends)
    return tuple(ends), faults


def places(number, scene):
    """The removals, and the removals with a coming, that are tried."""
    ks = reference(scene, [])
    with concurrent.futures.ThreadPoolExecutor(os.cpu_count()) as pool:
        tails = list(pool.map(lambda k: reference(scene, scene.rounds(k) + [f"gone {scene.pulled}"]), ks))
    alone = [(number, k, None, 2 + tail[-1] // len(scene.round)) for k, tail in zip(ks, tails)]
    pairs = [(number, k, j, 4 + tail[-1] // len(scene.round)) for k, tail in zip(ks, tails) for j in tail]
    every = max(1, len(pairs) // PAIRS) if scene.ports == 15 else 1
    return ks, alone, pairs[::every], len(pairs)


def every(number, scene):
    """Tries all of one scene, says what came of it, and how many runs were wrong."""
    began, (ks, alone, pairs, all_pairs) = time.monotonic(), places(number, scene)
    ends, bad = collections.Counter(), 0
    with concurrent.futures.ProcessPoolExecutor(os.cpu_count()) as pool:
        for given, (ended, faults) in zip(alone + pairs, pool.map(tried, alone + pairs, chunksize=8)):
            ends.update(end for one, end in zip(scene.requests, ended) if one.port == scene.pulled)
            bad += bool(faults)
            for fault in faults[:2] if bad <= 20 else ():
                print(f"{scene.name}: gone after {given[1]} steps, came after {given[2]} more: {fault}", flush=True)
    print(f"{scene.name}: gone after each of {ks[-1]} steps, {len(ks) - 1} of which move something; {len(alone)} runs, and {len(pairs)} "
          f"of {all_pairs} in which it comes again; ends of its requests: "
          + ", ".join(f"{count} {end}" for end, count in sorted(ends.items(), key=str)) + f"; {bad} runs wrong; "
          f"{time.monotonic() - began:.0f} s", flush=True)
    return len(alone) + len(pairs), bad


def play(played_program, names):
    """Tries the scenes of these names, or all. Answers how many runs were right, and how many wrong."""
    global program
    program = played_program
    chosen = [(number, scene) for number, scene in enumerate(SCENES) if scene.name in names or not names]
    if not chosen:
        sys.exit("no such scene: " + ", ".join(scene.name for scene in SCENES))
    totals = [every(number, scene) for number, scene in chosen]
    bad = sum(bad for _, bad in totals)
    return sum(runs for runs, _ in totals) - bad, bad
