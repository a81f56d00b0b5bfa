"""Denials that a resolver may make of NSEC records (RFC 4034, RFC 8198) and of NSEC3 records (RFC 5155), by
docs/TRACES.md, for a second reckoning: it goes over all records for each denial."""
import hashlib
from collections import namedtuple

Proof = namedtuple("Proof", "owner dns_class type data deadline")
Nsec3 = namedtuple("Nsec3", "owner chain opt_out next bits")
CODES = {"a": 1, "ns": 2, "cname": 5, "soa": 6, "ptr": 12, "mx": 15, "txt": 16, "aaaa": 28, "srv": 33, "ds": 43}
DIGITS = "0123456789abcdefghijklmnopqrstuv"
# With more of them a zone counts as unsigned (RFC 9276, section 3.2).
MOST_ITERATIONS = 100
DNAME, DS, CNAME, NS, SOA = 39, 43, 5, 2, 6


def code_of(word):
    return CODES[word] if word in CODES else int(word.removeprefix("type"))


def labels_of(name):
    return [label.encode() for label in name.rstrip(".").split(".") if label]


def key(labels):
    """Names are in canonical order where these are."""
    return labels[::-1]


def is_below(labels, zone):
    """Whether they are those of the zone, or of a name below it."""
    return labels[len(labels) - len(zone):] == zone and len(zone) <= len(labels)


def wire_name(octets):
    labels = []
    while octets[0]:
        labels.append(octets[1:1 + octets[0]].lower())
        octets = octets[1 + octets[0]:]
    return labels, octets[1:]


def types_of(octets):
    types = set()
    while octets:
        window, count, octets = octets[0], octets[1], octets[2:]
        types |= {256 * window + 8 * at + bit for at in range(count) for bit in range(8) if octets[at] & 128 >> bit}
        octets = octets[count:]
    return types


def is_cut(types):
    return NS in types and SOA not in types


def lacks(types, code):
    return code not in types and CNAME not in types and (not is_cut(types) or code == DS)


def is_denied_by_nsec(name, code, proof):
    owner = labels_of(proof.owner)
    after, types = wire_name(proof.data)
    types = types_of(types)
    if code is not None and name == owner:
        return lacks(types, code)
    is_last = not key(owner) < key(after)
    is_between = key(owner) < key(name) and (key(name) < key(after) or is_last and is_below(name, after))
    is_hidden = is_below(name, owner) and (is_cut(types) or DNAME in types)
    return is_between and not is_hidden and is_below(after, name) == (code is not None)


def nsec3_of(proof):
    data = proof.data
    algorithm, flags, iterations = data[0], data[1], int.from_bytes(data[2:4], "big")
    if algorithm != 1 or flags > 1 or iterations > MOST_ITERATIONS:
        return None
    salt, rest = data[5:5 + data[4]], data[5 + data[4]:]
    after, types = rest[1:1 + rest[0]], rest[1 + rest[0]:]
    owner, *zone = labels_of(proof.owner)
    return Nsec3(owner.decode(), (tuple(zone), iterations, salt), flags == 1, base32hex(after), types_of(types))


def base32hex(octets):
    number = int.from_bytes(octets, "big")
    return "".join(DIGITS[number >> shift & 31] for shift in range(8 * len(octets) - 5, -1, -5))


def hashed(labels, chain):
    _, iterations, salt = chain
    octets = b"".join(bytes([len(label)]) + label for label in labels) + b"\0"
    for _ in range(iterations + 1):
        octets = hashlib.sha1(octets + salt).digest()
    return base32hex(octets)


def is_denied_in_chain(name, code, chain, records):
    """As a validator proves it: RFC 5155, sections 8.4 to 8.7."""
    def matching(labels):
        return [record for record in records if record.owner == hashed(labels, chain)]

    def is_covered(labels):
        wanted = hashed(labels, chain)
        return any(record.owner < wanted < record.next if record.owner < record.next
                   else wanted > record.owner or wanted < record.next for record in records if not record.opt_out)

    def is_bare(labels):
        return any(lacks(record.bits, code) for record in matching(labels))

    if code is not None and is_bare(name):
        return True
    for count in range(1, len(name) + 1):
        closest, closer = name[count:], name[count - 1:]
        if any(not is_cut(record.bits) and DNAME not in record.bits for record in matching(closest)) and is_covered(closer):
            wildcard = [b"*"] + closest
            if is_covered(wildcard) if code is None else is_bare(wildcard):
                return True
    return False


def is_made(name, dns_class, wanted, proofs):
    """Whether these records make the denial of a name, or of a type of it."""
    name, code = labels_of(name), None if wanted is None else code_of(wanted)
    here = [proof for proof in proofs if proof.dns_class == dns_class]
    if any(is_denied_by_nsec(name, code, proof) for proof in here if proof.type == "type47"):
        return True
    records = [record for proof in here if proof.type == "type50" if (record := nsec3_of(proof))]
    return any(is_denied_in_chain(name, code, chain, [record for record in records if record.chain == chain])
               for chain in {record.chain for record in records} if is_below(name, list(chain[0])))
