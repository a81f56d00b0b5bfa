"""Whether a reply to a client is what a case says."""
from . import messages
from .exchanges import wanted
from .messages import CD, DO, QR, RA, RD, SECTIONS, SIZE


def check_told(reply, query, code, rest):
    wanted(reply.code == code, "the code")
    header = QR | RA | (query.flags & (RD | CD | 0x7800)) | rest.bits()
    wanted(reply.flags & ~15 == header, f"the header's second word is {reply.flags:04x}, not {header:04x} and the code")
    if query.question is None or "no_question" in rest or "any_question" in rest:
        wanted("no_question" not in rest or not reply.question, "a question")
    else:
        wanted(reply.question == query.question, "the question is another")
    is_with, is_without = query.opt or "opt" in rest, not query.opt and "opt" not in rest
    if "any_opt" not in rest:
        wanted(is_without or "no_opt" in rest or reply.opt, "no OPT")
        wanted(is_with and "no_opt" not in rest or not reply.opt, "an OPT")
    if reply.opt:
        check_opt(reply, query, rest)
    else:
        wanted("ede" not in rest, "no extended error")


def check_opt(reply, query, rest):
    size, flags, options = reply.opt
    wanted(size == SIZE, f"a size of {size}")
    wanted(flags & 0xFFFFFF == DO * query.do, "version or flags of OPT")
    errors = [int(it.code) for it in options if it.otype == messages.EXTENDED_ERROR]
    wanted(len(errors) == len(options), "an option that is no extended error")
    wanted(errors == ([rest.number("ede", 0)] if "ede" in rest else []), f"the extended errors {errors}")


def check_records(reply, below, is_first):
    said, anything = messages.records(below)
    left_out = 0
    for section in SECTIONS:
        if section not in anything:
            came, lines = reply.sections[section], said[section]
            left_out += len(lines) - len(came)
            is_as_said = len(came) == len(lines) or is_first and len(came) < len(lines)
            wanted(is_as_said, f"{len(came)} records in section {section}, not {len(lines)}")
            for record, line in zip(came, lines):
                wanted(not line.differs(record), f"not: {section} {line.text[:200]}")
    wanted(not is_first or left_out, "no record was left out")
