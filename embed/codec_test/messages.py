"""Random messages as bytes (RFC 1035, section 4.1), and what chance makes of them."""
import struct

A, NS, CNAME, SOA, PTR, MX, TXT, AAAA, SRV, OPT = 1, 2, 5, 6, 12, 15, 16, 28, 33, 41
MINFO, TSIG = 14, 250
# For private use (RFC 6895, section 3.1), and types whose data others take apart: DS, DNSKEY, CAA.
PRIVATE, TAKEN_APART = range(65280, 65535), (43, 48, 257, TSIG)
CLASSES = (1, 1, 1, 1, 1, 1, 3, 4, 254, 255, 4096)
LABELS = (b"www", b"WWW", b"example", b"Example", b"test", b"a", b"b", b"mail", b"_imap", b"xn--caf-dma")
# Of OPT: one for local use, and two that others take apart, a client's subnet and an extended error.
OPTIONS = (65001,) * 20 + (8, 15)
OPCODES = (0,) * 20 + (1, 2, 4, 3, 5)


class Writer:
    """Writes a message, and knows where names stand in it."""

    def __init__(self, random):
        self.random, self.octets, self.places = random, bytearray(), {}

    def numbers(self, form, *numbers):
        self.octets += struct.pack(">" + form, *numbers)

    def name(self, labels):
        """A name, which by chance ends with a pointer to an equal end that stands before it."""
        for start in range(len(labels)):
            rest, at = tuple(labels[start:]), len(self.octets)
            if rest in self.places and self.random.random() < 0.7:
                return self.numbers("H", 0xC000 | self.places[rest])
            if at < 0x4000:
                self.places.setdefault(rest, at)
            self.octets += bytes([len(rest[0])]) + rest[0]
        self.octets.append(0)

    def sized(self, write):
        """What is written, behind its length in 16 bits."""
        at = len(self.octets)
        self.numbers("H", 0)
        write()
        struct.pack_into(">H", self.octets, at, len(self.octets) - at - 2)


def label(random):
    """A label: mostly a word, so that names share ends."""
    kind = random.random()
    if kind < 0.85:
        return random.choice(LABELS)
    if kind < 0.95:
        return random.randbytes(random.randint(1, 8))
    return random.randbytes(random.choice((62, 63)))


def size_of(labels):
    return sum(len(label) + 1 for label in labels) + 1


def labels_of(random):
    """The labels of a name, mostly of at most 255 octets. By chance it has just so many, or one too many."""
    labels = [label(random) for _ in range(random.choice((0, 1, 2, 2, 3, 3, 4, 5)))]
    if random.random() < 0.02:
        labels = [random.randbytes(63) for _ in range(3)] + [random.randbytes(random.choice((60, 61, 61, 62)))]
    if random.random() < 0.01:
        labels = [random.randbytes(1) for _ in range(random.choice((126, 127)))]
    while size_of(labels) > 256:
        labels.pop()
    return labels


class MessageWriter:
    """Writes one random message. The names are out of a few, so that there is something to compress."""

    def __init__(self, random):
        self.random, self.writer = random, Writer(random)
        self.names = [labels_of(random) for _ in range(random.randint(1, 5))]

    def name(self):
        labels = self.random.choice(self.names)
        self.writer.name(labels[self.random.choice((0, 0, 0, 1)):])

    def string(self, most=20):
        length = self.random.choice((0, 1, self.random.randint(0, most), self.random.randint(0, 255)))
        self.writer.octets += bytes([length]) + self.random.randbytes(length)

    def data(self, code):
        random, octets, numbers = self.random, self.writer.octets, self.writer.numbers
        if code in (NS, CNAME, PTR):
            self.name()
        elif code in (SOA, MINFO):
            self.name()
            self.name()
            octets += random.randbytes(20 if code == SOA else 0)
        elif code == MX:
            numbers("H", random.getrandbits(16))
            self.name()
        elif code == SRV:
            numbers("3H", *(random.getrandbits(16) for _ in range(3)))
            self.name()
        elif code == TXT:
            for _ in range(random.choice((0, 1, 1, 1, 2, 3))):
                self.string()
        else:
            octets += random.randbytes({A: 4, AAAA: 16}.get(code, random.choice((0, 1, 20, 36))))

    def record(self):
        random = self.random
        code = random.choice((A, NS, CNAME, SOA, PTR, MX, TXT, AAAA, SRV, random.choice(PRIVATE)))
        if random.random() < 0.01:
            code = random.choice((*TAKEN_APART, MINFO))
        self.name()
        ttl = random.choice((0, 60, 3600, 86400, 2**31 - 1, 2**31, 2**32 - 1))
        self.writer.numbers("HHI", code, random.choice(CLASSES), ttl)
        self.writer.sized(lambda: self.data(code))

    def opt(self):
        """OPT, whose owner is the root, but for chance."""
        random = self.random
        if random.random() < 0.01:
            self.name()
        else:
            self.writer.octets.append(0)
        version = 0 if random.random() < 0.9 else random.getrandbits(8)
        flags = random.choice((0, 0x8000, random.getrandbits(16)))
        extended = random.choice((0, 0, 1, 255))
        self.writer.numbers("HHBBH", OPT, random.choice((0, 512, 1232, 4096, 65535)), extended, version, flags)
        self.writer.sized(self.options)

    def options(self):
        for _ in range(self.random.choice((0, 0, 1, 2))):
            self.writer.numbers("H", self.random.choice(OPTIONS))
            self.writer.sized(lambda: self.string(8))

    def question(self):
        self.name()
        self.writer.numbers("HH", self.random.choice((A, AAAA, MX, 255, 65280)), self.random.choice(CLASSES))

    def chain(self):
        """Data with pointers, each to the one before it, of which the first leads to the root; and a record whose owner
        is the last."""
        length = self.random.choice((1, 2, 126, 127, 128, 129))
        self.writer.octets.append(0)
        self.writer.numbers("HHI", PRIVATE[0], 1, 0)
        self.writer.sized(lambda: self.pointers(length))
        self.writer.numbers("H", 0xC000 | len(self.writer.octets) - 2)
        self.writer.numbers("HHIH", PRIVATE[0], 1, 0, 0)

    def pointers(self, length):
        at = len(self.writer.octets)
        self.writer.octets.append(0)
        for number in range(length):
            self.writer.numbers("H", 0xC000 | (at if number == 0 else at + 2 * number - 1))

    def ladder(self, steps):
        """Records whose owners have one label more each, so that the last goes by as many pointers as there are."""
        names = [[b"%d" % number for number in range(step, 0, -1)] for step in range(1, steps + 1)]
        for labels in names:
            self.writer.name(labels)
            self.writer.numbers("HHIH", PRIVATE[0], 1, 0, 0)

    def header(self, *counts):
        flags = self.random.getrandbits(16) & 0x87FF | self.random.choice(OPCODES) << 11
        self.writer.numbers("6H", self.random.getrandbits(16), flags, *counts)

    def message(self):
        kind = self.random.random()
        if kind < 0.01:
            self.header(0, 2, 0, 0)
            self.chain()
        elif kind < 0.02:
            steps = self.random.randint(10, 30)
            self.header(0, steps, 0, 0)
            self.ladder(steps)
        else:
            self.sections()
        return bytes(self.writer.octets)

    def sections(self):
        random = self.random
        counts = [random.choice(some) for some in ((1, 1, 1, 0, 2), (0, 1, 1, 2, 3), (0, 0, 1, 2), (0, 0, 1, 2))]
        # Where OPT stands among the other records: mostly one, in the last section.
        others, kind = sum(counts[1:]), random.random()
        opts = [random.randint(sum(counts[1:3]), others)] if kind < 0.4 else [random.randint(0, others)] if kind < 0.41 else []
        opts += opts if kind < 0.01 else []
        places = [place < counts[1] for place in opts], [counts[1] <= place < sum(counts[1:3]) for place in opts]
        added = [sum(places[0]), sum(places[1])]
        self.header(counts[0], counts[1] + added[0], counts[2] + added[1], counts[3] + len(opts) - sum(added))
        for _ in range(counts[0]):
            self.question()
        for place in range(others + 1):
            for _ in range(opts.count(place)):
                self.opt()
            if place < others:
                self.record()


def message(random):
    return MessageWriter(random).message()


def turn_bit(random, octets):
    at = random.randrange(len(octets))
    octets[at] ^= 1 << random.randrange(8)


def set_octet(random, octets):
    octets[random.randrange(len(octets))] = random.choice((0, 1, 12, 41, 63, 64, 127, 128, 191, 192, 255))


def take_out(random, octets):
    at = random.randrange(len(octets))
    del octets[at:at + random.choice((1, 1, 2, 4))]


def put_in(random, octets):
    at = random.randint(12, max(12, len(octets)))
    octets[at:at] = random.randbytes(random.choice((1, 1, 2, 4)))


def cut(random, octets):
    del octets[random.randrange(len(octets)):]


def add(random, octets):
    octets += random.randbytes(random.randint(1, 4))


def repeat(random, octets):
    start = random.randrange(len(octets))
    octets += octets[start:start + random.randint(1, 30)]


def change_count(random, octets):
    if len(octets) >= 12:
        octets[random.choice((5, 7, 9, 11))] = random.randint(0, 4)


def put_pointer(random, octets):
    """A pointer to somewhere; by chance to near itself."""
    if len(octets) > 14:
        at = random.randrange(12, len(octets) - 1)
        target = random.choice((random.randrange(len(octets)), at - 2, at, at + 2, 12))
        octets[at:at + 2] = struct.pack(">H", 0xC000 | target)


CHANGES = (turn_bit, set_octet, take_out, put_in, cut, add, repeat, change_count, put_pointer, put_pointer)


def mutated(random, message):
    """A message with one to three changes."""
    octets = bytearray(message)
    for _ in range(random.choice((1, 1, 2, 3))):
        if octets:
            random.choice(CHANGES)(random, octets)
    return bytes(octets)
