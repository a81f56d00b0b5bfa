"""The worst messages that are known, for `tools/worst_inputs`: what it costs to read them, and what a cache takes that is
filled with them. Each runs in a process of its own, over the library for C that `make -C embed` builds."""
import os
import resource
import struct
import sys
import time
from pathlib import Path

EMBED = Path(__file__).resolve().parent.parent / "embed"
LIBRARY = EMBED / "out/libyimarotu.so"
SIZES = (1232, 65535)
BOUND = 16 << 20
REPLIES = 1000
# The longest name: 127 labels of one octet (RFC 1035, section 2.3.4).
LABELS = b"\1a" * 127 + b"\0"
A, NS, MINFO = 1, 2, 14


def header(questions, answers):
    return struct.pack("!6H", 7, 0x8180, questions, answers, 0, 0)


def question(name, record_type=A):
    return name + struct.pack("!2H", record_type, 1)


def record(owner, record_type, data):
    return owner + struct.pack("!2HIH", record_type, 1, 86400, len(data)) + data


def pointer(place):
    return struct.pack("!H", 0xC000 | place)


def filled(size, name, line):
    """A reply of at most so many octets: a question, and as many records as have room."""
    asked, count, length, lines = question(name), 0, 12 + len(name) + 4, []
    while True:
        next_one = line(count)
        if length + len(next_one) > size:
            return header(1, count) + asked + b"".join(lines)
        lines.append(next_one)
        count, length = count + 1, length + len(next_one)


def owners(size, name=LABELS):
    """addresses of the longest name, by pointers to the question"""
    return filled(size, name, lambda n: record(pointer(12), A, struct.pack("!I", n)))


def data(size):
    """NS records whose targets are pointers to the question"""
    return filled(size, LABELS, lambda n: record(pointer(12), NS, pointer(12)))


def tails(size):
    """addresses of owners that point into the question, each to a label of its own in turn"""
    return filled(size, LABELS, lambda n: record(pointer(12 + 2 * (n % 127)), A, struct.pack("!I", n)))


def new_labels(size):
    """addresses of owners with a label of their own before a pointer to the longest name that leaves room for it"""
    return filled(size, LABELS, lambda n: record(b"\1b" + pointer(14), A, struct.pack("!I", n)))


def old_data(size):
    """MINFO records, each of two pointers to the question"""
    return filled(size, LABELS, lambda n: record(pointer(12), MINFO, pointer(12) * 2))


def questions(size):
    """questions that are pointers to the first"""
    first = question(LABELS)
    count = (size - 12 - len(first)) // 6
    return header(count + 1, 0) + first + question(pointer(12)) * count


KINDS = (owners, data, tails, new_labels, old_data, questions)


def in_child(work):
    """What a child of this process told of its work: numbers, as text."""
    reading, writing = os.pipe()
    child = os.fork()
    if child == 0:
        os.close(reading)
        try:
            os.write(writing, " ".join(map(str, work())).encode())
        finally:
            os._exit(0)
    os.close(writing)
    with os.fdopen(reading, "rb") as file:
        told = file.read().split()
    os.waitpid(child, 0)
    return [float(number) for number in told]


def library():
    sys.path.insert(0, str(EMBED / "python"))
    os.environ.setdefault("YIMAROTU_LIBRARY", str(LIBRARY))
    import yimarotu
    return yimarotu


def most_held():
    return resource.getrusage(resource.RUSAGE_SELF).ru_maxrss * 1024


def read(message):
    """Seconds for one reading and writing, and octets that it takes at the most; and whether it is refused."""
    lib = library()
    lib.rewrite(header(0, 0))
    before, start, refused = most_held(), time.process_time(), 0
    try:
        lib.rewrite(message)
    except lib.Refused:
        refused = 1
    return time.process_time() - start, most_held() - before, refused


def kept(size):
    """Octets that a session takes whose cache is bounded, after many replies, each of so many octets for a name of its
    own."""
    lib = library()
    settings = f"option cache_octets {BOUND}\noption cache_size 1000000\noption preserve_intermediates false\n"
    session, before = lib.Session(settings), most_held()
    for number in range(REPLIES):
        text = f"n{number:06d}." + ".".join(["a"] * 120) + "."
        name = b"\7" + text[:7].encode() + b"\1a" * 120 + b"\0"
        session.start(number, text, A, 0)
        session.feed(number, owners(size, name))
        session.cancel(number)
    return [most_held() - before]


def show():
    if not LIBRARY.is_file():
        print(f"\nNo messages: {LIBRARY} is not there; `make -C embed` builds it.")
        return
    print("\n| A message | octets | milliseconds | octets of memory, at most | an octet |")
    print("|---|---|---|---|---|")
    for kind in KINDS:
        for size in SIZES:
            message = kind(size)
            seconds, held, refused = in_child(lambda: read(message))
            what = kind.__doc__ + (", which is refused" if refused else "")
            print(f"| {what} | {len(message):,} | {seconds * 1e3:.2f} | {held:,.0f} | {held / len(message):,.0f} |", flush=True)
    print(f"\n| A cache of at most {BOUND:,} octets, after {REPLIES:,} replies | octets of memory |")
    print("|---|---|")
    for size in SIZES:
        (held,) = in_child(lambda: kept(size))
        print(f"| each of {size:,} octets: {owners.__doc__} | {held:,.0f} |", flush=True)
