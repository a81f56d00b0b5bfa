"""A look at the frame of a message by itself: its header, and where its records stand. No name is followed."""
import contextlib
import struct
from collections import namedtuple

Record = namedtuple("Record", "section owner code rdclass start end")
ADDITIONAL, SOA = 3, 6
# How many octets of data stand before the first name in them.
FIRST_NAME = {2: 0, 3: 0, 4: 0, 5: 0, SOA: 0, 7: 0, 8: 0, 9: 0, 12: 0, 14: 0, 15: 2, 17: 0, 18: 2, 21: 2,
              24: 18, 26: 2, 30: 0, 33: 6}
TWO_NAMES = (SOA, 14, 17, 26)


class Facts:
    def __init__(self, wire):
        self.wire, self.records, self.opcode = wire, [], 0
        # Where the last name, question or record ends that is whole.
        self.end = 0
        with contextlib.suppress(IndexError, struct.error):
            self._look()

    def _look(self):
        _, flags, *counts = struct.unpack_from(">6H", self.wire)
        self.opcode, self.end = flags >> 11 & 15, 12
        for _ in range(counts[0]):
            self.end = self.behind_name(self.end) + 4
        for section in range(1, 4):
            for _ in range(counts[section]):
                self._look_at_record(section)

    def _look_at_record(self, section):
        behind = self.behind_name(self.end)
        code, rdclass, _, length = struct.unpack_from(">HHIH", self.wire, behind)
        self.records.append(Record(section, self.wire[self.end:behind], code, rdclass, behind + 10, behind + 10 + length))
        self.end = behind + 10 + length

    def behind_name(self, at):
        while 0 < self.wire[at] < 64:
            at += self.wire[at] + 1
        return at + (1 if self.wire[at] == 0 else 2)

    def has(self, *codes):
        return any(record.code in codes for record in self.records)

    def opts(self):
        return [record for record in self.records if record.code == 41]

    def pointers(self):
        """The longest chain of pointers that begins at any octet."""
        return max((self._chain(at) for at in range(12, len(self.wire) - 1) if self.wire[at] >= 192), default=0)

    def _chain(self, at):
        """How many pointers a name has that begins with one here, each of which leads back."""
        count, start = 0, at
        while at < len(self.wire) - 1 and self.wire[at]:
            if self.wire[at] < 64:
                at += self.wire[at] + 1
            elif self.wire[at] < 192:
                break
            else:
                target = (self.wire[at] & 63) << 8 | self.wire[at + 1]
                count += 1
                if target >= start:
                    break
                at = start = target
        return count

    def has_long_names(self):
        """Whether a name in data goes on past the length of the data."""
        return any(self._is_long(record) for record in self.records if record.code in FIRST_NAME)

    def _is_long(self, record):
        try:
            behind = self.behind_name(record.start + FIRST_NAME[record.code])
            return behind > record.end or record.code in TWO_NAMES and self.behind_name(behind) > record.end
        except IndexError:
            return True

    def leads_past(self):
        """Whether a pointer leads to a label that goes on past the pointer."""
        return any(self._passes(at) for at in range(12, len(self.wire) - 1) if self.wire[at] >= 192)

    def _passes(self, pointer):
        at = (self.wire[pointer] & 63) << 8 | self.wire[pointer + 1]
        while at < pointer and 0 < self.wire[at] < 64:
            at += self.wire[at] + 1
        return at > pointer

    def has_broken_options(self):
        """Whether options of an OPT record are not a code, a length and so many octets each (RFC 6891, section 6.1.2)."""
        return any(self._is_broken(record.start, record.end) for record in self.opts())

    def _is_broken(self, at, end):
        while at + 4 <= end:
            at += 4 + struct.unpack_from(">H", self.wire, at + 2)[0]
        return at != end

    def options(self):
        """The codes of all options."""
        for record in self.opts():
            at = record.start
            while at + 4 <= min(record.end, len(self.wire)):
                code, length = struct.unpack_from(">HH", self.wire, at)
                yield code
                at += 4 + length
