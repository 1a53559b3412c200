"""What a read of a disk may bring: what is known of its medium from when each write was submitted and when it was done."""
from __future__ import annotations

from dataclasses import dataclass, field
from typing import Optional


def opening(sector: int) -> bytes:
    """The bytes of a sector at first."""
    return bytes((sector + i) % 256 for i in range(512))


@dataclass
class Write:
    """A write that was submitted. Where it is not done, or its disk was not left alone, it may end at any time, or never."""

    ticket: int
    first: int
    sectors: int
    content: Optional[bytes]
    submitted: int
    ended: Optional[int] = None

    def has(self, sector: int) -> bool:
        return self.first <= sector < self.first + self.sectors

    def bytes_of(self, sector: int) -> Optional[bytes]:
        at = 512 * (sector - self.first)
        return None if self.content is None else self.content[at:at + 512]


@dataclass
class Disk:
    """The writes of a disk."""

    writes: list[Write] = field(default_factory=list)

    def may_bring(self, sector: int, submitted: int, ended: int) -> Optional[set[bytes]]:
        """What a read may bring that was submitted and had ended then; None where a write's bytes are not known."""
        writes = [write for write in self.writes if write.has(sector) and write.submitted < ended]
        over = [write for write in writes if write.ended is not None and write.ended < submitted]
        latest = max((write.submitted for write in over), default=-1)
        may_be = [write for write in writes if write.ended is None or write.ended >= latest]
        brought = [write.bytes_of(sector) for write in may_be]
        if None in brought:
            return None
        return {data for data in brought if data is not None} | (set() if over else {opening(sector)})
