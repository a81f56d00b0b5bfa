"""A question, as the conversation and scripts have it, and the query for it."""
import random
import secrets
from dataclasses import dataclass
from typing import Optional

import dns.flags
import dns.message
import dns.name
import dns.rdataclass
import dns.rdatatype

from . import records

RANDOM = random.SystemRandom()


@dataclass(frozen=True)
class Question:
    """What a line `send` says: a question, and how it is to be sent."""

    name: dns.name.Name
    rdclass: int
    rdtype: int
    recursion_desired: bool = False
    payload: Optional[int] = None
    mixed: bool = False

    @classmethod
    def from_fields(cls, fields):
        name, rdclass, rdtype, *options = fields
        return cls(
            records.read_name(name),
            dns.rdataclass.from_text(rdclass),
            dns.rdatatype.from_text(rdtype),
            "rd" in options,
            int(options[options.index("edns") + 1]) if "edns" in options else None,
            "mixed" in options,
        )

    def words(self):
        """The question as an outcome has it: NAME TYPE CLASS."""
        rdtype, rdclass = records.type_word(self.rdtype), records.class_word(self.rdclass)
        return f"{records.name_text(self.name)} {rdtype} {rdclass}"

    def query(self):
        """A query for it, with a fresh id."""
        flags = dns.flags.RD if self.recursion_desired else 0
        how = {} if self.payload is None else {"use_edns": 0, "payload": self.payload}
        name = mixed_case(self.name) if self.mixed else self.name
        return dns.message.make_query(name, self.rdtype, self.rdclass, id=secrets.randbelow(65536), flags=flags, **how)


def mixed_case(name):
    """The name with the case of each letter drawn anew."""
    def drawn(label):
        return bytes(RANDOM.choice((byte, byte ^ 32)) if chr(byte).isalpha() else byte for byte in label)

    return dns.name.Name([drawn(label) if label.isascii() else label for label in name.labels])
