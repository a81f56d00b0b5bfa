"""Puts the messages of DNS by TCP together out of segments (RFC 7766, section 8)."""
import struct
from dataclasses import dataclass, field

FIN, SYN, RST = 1, 2, 4
# How many bytes of one direction are held while something before them is missing, and of how many segments.
HELD, HELD_SEGMENTS = 1 << 20, 256
# How many directions are known at a time: anybody can begin connections.
DIRECTIONS = 1 << 16


@dataclass(frozen=True)
class Segment:
    """A segment of TCP: both ends, the number of its first byte, its flags and its bytes."""

    source: tuple
    target: tuple
    number: int
    flags: int
    payload: bytes


def read_segment(source, target, rest):
    source_port, target_port, number, _, offset, flags = struct.unpack_from(">2H2I2B", rest)
    return Segment((source, source_port), (target, target_port), number, flags, rest[(offset >> 4) * 4:])


@dataclass
class Direction:
    """What came one way: the number of the next byte, the bytes so far of the next message, and what came early."""

    following: int
    whole: bytearray = field(default_factory=bytearray)
    early: dict = field(default_factory=dict)
    dropped: int = 0

    def take(self, number, payload):
        """The messages that are whole with these bytes. Bytes that came before are left out."""
        if not self.reaches(number):
            if len(self.early) < HELD_SEGMENTS and sum(map(len, self.early.values())) < HELD:
                self.early[number] = payload
            else:
                self.dropped += 1
            return []
        self.append(number, payload)
        while True:
            ready = [early for early in self.early if self.reaches(early)]
            if not ready:
                return self.messages()
            self.append(ready[0], self.early.pop(ready[0]))

    def left_out(self):
        """How many segments are in no message by now, since one before them is missing."""
        return len(self.early) + self.dropped

    def reaches(self, number):
        """Whether bytes from this number on leave no gap."""
        return (self.following - number) & 0xFFFFFFFF < 1 << 31

    def append(self, number, payload):
        known = (self.following - number) & 0xFFFFFFFF
        fresh = payload[known:]
        self.whole += fresh
        self.following = (self.following + len(fresh)) & 0xFFFFFFFF

    def messages(self):
        found = []
        while len(self.whole) >= 2 and len(self.whole) >= 2 + int.from_bytes(self.whole[:2], "big"):
            end = 2 + int.from_bytes(self.whole[:2], "big")
            found.append(bytes(self.whole[2:end]))
            del self.whole[:end]
        return found


class Streams:
    """All directions of all connections, that of the latest segment last. One whose beginning is not in the capture begins
    with its first bytes: a segment without any may be the last acknowledgement of one that has ended."""

    def __init__(self):
        self.directions, self._left_out = {}, 0

    def take(self, segment):
        """The messages that are whole with this segment."""
        key = (segment.source, segment.target)
        number = segment.number + (1 if segment.flags & SYN else 0) & 0xFFFFFFFF
        if segment.flags & SYN or segment.payload and key not in self.directions:
            self.end(key)
            self.directions[key] = Direction(number)
        direction = self.latest(key)
        found = direction.take(number, segment.payload) if segment.payload else []
        if segment.flags & RST:
            self.end(key)
            self.end((segment.target, segment.source))
        elif segment.flags & FIN and direction and not direction.early:
            self.end(key)
        return found

    def latest(self, key):
        """A direction, or None. Where there are too many, that in which nothing came for the longest time is let go."""
        direction = self.directions.pop(key, None)
        if direction:
            self.directions[key] = direction
        if len(self.directions) > DIRECTIONS:
            self.end(next(iter(self.directions)))
        return direction

    def end(self, key):
        direction = self.directions.pop(key, None)
        self._left_out += direction.left_out() if direction else 0

    def left_out(self):
        return self._left_out + sum(direction.left_out() for direction in self.directions.values())
