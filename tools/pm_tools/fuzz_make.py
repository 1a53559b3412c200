"""Random scenarios: honest and lying devices, requests that overlap, removals, and steps in any order."""
from __future__ import annotations

import random
from dataclasses import dataclass, field

from pm_tools.playing import STEPS, STEPS_OF_PORT, round_steps

FIRST, SECTORS = 0x101000, 16  # the places of all requests
SIGNATURE = "3440500101000000000000000100000000000000"
# What a device answers to IDENTIFY DEVICE that has queued commands (ACS-3, 7.12.7, words 75 and 76): a PIO Setup, and Data.
IDENTIFY = ("5f60580000000000000000000000005000020000", "46000000" + "00" * 150 + "1f00" "0001" + "00" * 358)


def little(value: int, count: int) -> str:
    return value.to_bytes(count, "little").hex()


@dataclass
class Maker:
    """Makes one scenario; the same seed makes the same one."""

    seed: int
    steps: int
    lines: list[str] = field(default_factory=list)

    def __post_init__(self) -> None:
        self.random = random.Random(self.seed)
        self.ports = self.random.choice((1, 2, 2, 3, 3, 4))
        self.present = set(range(self.ports))
        self.scripts = [port for port in range(self.ports) if self.chance(0.15)]
        self.asked = 0

    def make(self) -> list[str]:
        self.open()
        acts = (self.read, self.write, self.flush, self.rounds, self.step, self.plug, self.lie, self.poll, self.put)
        # Some scenarios have no removal or no lie, and some have many.
        weights = (20, 12, 2, 24, 12, self.random.choice((0, 3, 6)), self.random.choice((0, 0, 7, 20)), 12, 4)
        for act in self.random.choices(acts, weights, k=self.steps):
            act()
        self.close()
        return self.lines

    def chance(self, share: float) -> bool:
        return self.random.random() < share

    def open(self) -> None:
        mode = " commandbased" if self.chance(0.2) else ""
        self.lines.append(f"ports {self.ports} capacity {self.random.choice((1, 1, 2, 4, 8))} memory 2{mode}")
        self.lines += [self.device(port) for port in range(self.ports)]
        self.lines += [f"came {port}" for port in range(self.ports)]
        self.lines.append("settle 4000")
        for port in self.scripts:
            for fis in IDENTIFY:
                self.lines += [f"inject {port} {fis}", "settle 4000"]

    def device(self, port: int) -> str:
        """A disk, or a script that begins as a disk does."""
        if port in self.scripts:
            return f"script {port} {SIGNATURE}"
        sectors = self.random.choice((8, 16, 24))
        words = [f"disk {port} sectors {sectors}"]
        if self.chance(0.4):
            words.append("order newest")
        if self.chance(0.5):
            words.append(f"chunk {512 * self.random.randint(1, 4)}")
        words += [word for word in ("lastfirst",) if self.chance(0.3)]
        bad = self.random.sample(range(16), self.random.choice((0, 0, 1, 3)))
        words += [f"bad {sector}" for sector in bad if sector < sectors]
        words += [word for word in ("auto", "stock") if self.chance(0.3)]
        return " ".join(words)

    def port(self) -> int:
        return self.random.randrange(self.ports)

    def places(self, sectors: int) -> str:
        """PRDs for so many sectors: one, or two of which neither is whole sectors."""
        length = 512 * sectors
        at = FIRST + 512 * self.random.randrange(SECTORS - sectors + 1)
        if self.chance(0.6):
            return f"{at:x}:{length}"
        cut = 2 * self.random.randrange(1, length // 2)
        return f"{at:x}:{cut} {at + cut:x}:{length - cut}"

    def request(self, work: str, port: int) -> None:
        sectors = self.random.choice((1, 1, 1, 2, 3))
        self.lines.append(f"{work} {port} {self.random.randrange(12)} {sectors} {self.places(sectors)}")
        self.asked += 1

    def read_of(self, port: int) -> None:
        self.request("read", port)

    def read(self) -> None:
        self.read_of(self.port())

    def write(self) -> None:
        if self.chance(0.7):
            self.put()
        self.request("write", self.port())

    def flush(self) -> None:
        self.lines.append(f"flush {self.port()}")
        self.asked += 1

    def put(self) -> None:
        at = FIRST + 512 * self.random.randrange(SECTORS)
        self.lines.append(f"put {at:x} {self.random.randbytes(512).hex()}")

    def rounds(self) -> None:
        self.lines += [f"repeat {self.random.randint(1, 12)}", *round_steps(self.ports), "end"]

    def step(self) -> None:
        """A few steps in any order."""
        for _ in range(self.random.randint(1, 6)):
            if self.chance(0.6):
                self.lines.append(f"step {self.random.choice(STEPS_OF_PORT)} {self.port()}")
            else:
                self.lines.append(f"step {self.random.choice(STEPS)}")

    def plug(self) -> None:
        """A device goes, or one comes again and is brought up."""
        gone = sorted(set(range(self.ports)) - self.present)
        if gone:
            self.come(self.random.choice(gone))
        else:
            self.go(self.port())

    def come(self, port: int) -> None:
        self.lines.append(f"came {port}")
        self.present.add(port)
        if self.chance(0.8):
            self.lines += ["repeat 40", *round_steps(self.ports), "end"]

    def go(self, port: int) -> None:
        """Often there is something on its way, and the multiplier hears of the removal before it takes that."""
        if self.chance(0.6):
            self.read_of(port)
            self.lines += [f"repeat {self.random.randint(2, 7)}", *round_steps(self.ports), "end"]
            self.lines += [f"step disksend {port}"] * 2
        self.lines.append(f"gone {port}")
        self.present.discard(port)
        if self.chance(0.6):
            self.lines += [f"step pmpresence {port}", *[f"step pmfromdevice {port}", "step pmup", "step hosttake"] * 3]
        if self.chance(0.5):
            self.come(port)

    def poll(self) -> None:
        self.lines.append("poll")
        if self.chance(0.3):
            self.lines.append(f"show {FIRST:x} {512 * SECTORS}")

    def lie(self) -> None:
        port = self.random.choice(self.scripts) if self.scripts and self.chance(0.7) else self.port()
        self.lines.append(f"inject {port} {self.fis()}")

    def fis(self) -> str:
        """A FIS that a device may send, and that means something."""
        pick = self.random
        status = pick.choice(("50", "50", "50", "41", "51", "58", "d0"))
        tag, length = pick.randrange(5), 512 * pick.randint(1, 3)
        kinds = (f"a140{status}00{little(pick.choice((1 << tag, 1, 3, 0xFF, 0)), 4)}",
                 f"3400{status}00" + "00" * 16,
                 f"34405001{SIGNATURE[8:]}",
                 f"41{pick.choice(('20', '60', '00', 'a0'))}0000{little(tag, 8)}00000000"
                 f"{little(pick.choice((0, 0, 512, 4)), 4)}{little(length, 4)}00000000",
                 f"46000000{pick.randbytes(pick.choice((4, 512, length))).hex()}",
                 "39000000",
                 f"5f60{status}00" + "00" * 11 + f"50{little(512, 2)}0000",
                 f"{pick.randrange(256):02x}" + pick.randbytes(4 * pick.randint(1, 8) - 1).hex())
        return pick.choice(kinds)

    def close(self) -> None:
        """All that is under way is brought to an end, as far as it ends, and all is shown."""
        self.lines += ["repeat 30", *round_steps(self.ports), "end", "settle 4000"]
        self.lines += ["poll"] * min(self.asked, 30)
        self.lines += [f"show {FIRST:x} {512 * SECTORS}", "counts"]
