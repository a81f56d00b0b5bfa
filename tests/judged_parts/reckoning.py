"""A second reckoning of a trace, by docs/TRACES.md: what is stale, raised, denied for too long, or not received. It goes
over all receptions of a record for each telling, and knows nothing of the program that it is compared with. Aliases that
ran out are not reckoned, nor are traces of more than a day."""
import re
from collections import Counter, defaultdict, namedtuple

from judged_parts.made import Proof, is_made

Event = namedtuple("Event", "line moment verb code question truncated records")
Record = namedtuple("Record", "section owner ttl dns_class type data")
Denial = namedtuple("Denial", "name dns_class type deadline")
AT_ONCE = 50
# Not a finding of the judge's that is reckoned here.
NOT_RECKONED = ("alias outlives", "served stale for")


def events(text):
    """All is compared without case: in these traces only names have letters."""
    event = None
    for number, line in enumerate(text.splitlines(), 1):
        fields = line.lower().split()
        if not fields or fields[0].startswith("#"):
            continue
        if fields[0] == "at":
            if event:
                yield event
            event = begun(number, fields)
        else:
            section, owner, ttl, dns_class, record_type, *data = fields
            event.records.append(Record(section, owner, int(ttl), dns_class, record_type, " ".join(data)))
    if event:
        yield event


def begun(number, fields):
    seconds, _, thousandths = fields[1].partition(".")
    moment = int(seconds) * 1000 + int(thousandths.ljust(3, "0"))
    verb, code, rest = (fields[2], None, fields[3:]) if fields[2] == "asked" else (fields[2], fields[3], fields[4:])
    name, record_type, *words = rest
    dns_class = words[0] if words and words[0] != "tc" else "in"
    return Event(number, moment, verb, code, (name, record_type, dns_class), "tc" in words, [])


def deadline(moment, ttl):
    return moment + 1000 * ttl


def same(record):
    """What records have in common that are the same."""
    return record.owner, record.dns_class, record.type, record.data


def last_name(event):
    name = event.question[0]
    for record in event.records:
        if (record.section, record.owner, record.dns_class, record.type) == ("answer", name, event.question[2], "cname"):
            name = record.data
    return name


def denial_of(event):
    """What a response denies, and until when; a whole name has no type."""
    answers = [record.type for record in event.records if record.section == "answer"]
    zones = {record.type: record for record in reversed(event.records) if record.section == "authority"}
    is_referral = "ns" in zones and "soa" not in zones
    if event.truncated or event.code == "noerror" and (event.question[1] in answers or is_referral):
        return None
    soa = zones.get("soa")
    ttl = min(soa.ttl, int(soa.data.split()[-1])) if soa else 0
    denied = None if event.code == "nxdomain" else event.question[1]
    return Denial(last_name(event), event.question[2], denied, deadline(event.moment, ttl))


def covering(denial, denied):
    """What covers a denial: of its name and type, and of whole names that it is, or is below."""
    yield from denied[denial.name, denial.dns_class, denial.type]
    labels = denial.name.rstrip(".").split(".")
    for count in range(len(labels) + 1):
        above = ".".join(labels[count:]) + "."
        if denial.type is not None or count > 0:
            yield from denied[above, denial.dns_class, None]


def of_record(event, record, received, slack):
    """Every class of a record that is told, by the moments and TTLs with which it was received."""
    times = received[same(record)]
    if not times:
        return ["unseen"]
    reach = deadline(event.moment, record.ttl)
    is_stale = all(deadline(moment, ttl) + 1000 * slack + AT_ONCE < reach for moment, ttl in times)
    is_raised = all(ttl + slack < record.ttl for _, ttl in times)
    return ["stale by"] * is_stale + ["raised"] * is_raised


def of_denial(denial, denied, proofs, slack):
    def is_late(deadline):
        return deadline + 1000 * slack + AT_ONCE < denial.deadline

    deadlines = list(covering(denial, denied))
    if not all(map(is_late, deadlines)):
        return []
    lasting = [proof for proof in proofs if not is_late(proof.deadline)]
    if is_made(denial.name, denial.dns_class, denial.type, lasting):
        return []
    return ["negative outlives by"] if deadlines else ["unseen"]


def proof_of(moment, record):
    """What a record says is not there: one of NSEC or of NSEC3."""
    return Proof(record.owner, record.dns_class, record.type, bytes.fromhex(record.data), deadline(moment, record.ttl))


def reckon(text, slack):
    """How often each class is found in each line."""
    opened, received, denied, proofs, found = Counter(), defaultdict(list), defaultdict(list), [], Counter()
    for event in events(text):
        if event.verb == "asked":
            opened[event.question] += 1
        elif event.verb == "received":
            if opened[event.question] == 0:
                found[event.line, "not asked"] += 1
                continue
            opened[event.question] -= 1
            if event.code in ("noerror", "nxdomain"):
                for record in event.records:
                    received[same(record)].append((event.moment, record.ttl))
                    if record.type in ("type47", "type50"):
                        proofs.append(proof_of(event.moment, record))
                if denial := denial_of(event):
                    denied[denial.name, denial.dns_class, denial.type].append(denial.deadline)
        elif event.code in ("noerror", "nxdomain"):
            classes = [name for record in event.records for name in of_record(event, record, received, slack)]
            denial = denial_of(event)
            found.update((event.line, name) for name in classes + (of_denial(denial, denied, proofs, slack) if denial else []))
    return found


def found_by_judge(text):
    """The same, out of the lines that the judge wrote."""
    lines = re.findall(r"^line (\d+) at [0-9.]+ ([a-z ]+?)(?: [0-9.]+)?: ", text, re.MULTILINE)
    return Counter((int(line), name) for line, name in lines if name not in NOT_RECKONED)


def difference(trace, found):
    """What the two find in each line, where they differ, and the events that the first such lines are about."""
    wanted = reckon(trace.text, trace.slack)
    alone, other = wanted - found, found - wanted
    lines = sorted({line for line, _ in [*alone, *other]})
    return (f"reckoned alone: {sum(alone.values())}, judged alone: {sum(other.values())}, in lines {lines[:20]}, "
            f"slack {trace.slack}\n{excerpt(trace.text, lines)}")


def lines_of(text):
    """The lines that the judge found something in."""
    return [int(line) for line in re.findall(r"^line (\d+) ", text, re.MULTILINE)]


def excerpt(trace, lines, most=2):
    """The events that concern the names of the first of these lines."""
    all_events = list(events(trace))
    wanted = {event.question[0] for event in all_events if event.line in lines[:most]}
    ranges = [range(event.line, event.line + 1 + len(event.records)) for event in all_events
              if event.question[0] in wanted or any(record.owner in wanted for record in event.records)]
    numbers = {number for numbers in ranges for number in numbers}
    return "\n".join(f"{n:5} {line}" for n, line in enumerate(trace.splitlines(), 1) if n in numbers)
