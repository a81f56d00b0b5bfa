"""What `resolve_serve` may write over one conversation where requests for memory are refused (docs/CONVERSATION.md):
out of memory ends a request and not the conversation, and whatever stands behind it goes on from there."""
from typing import NamedTuple

WWW, SENT = "www.example.com. IN A", "rd edns 1232"
LINES = [
    "option ndots 1",
    "a explain at 100 lookup www.example.com. A",
    "a reply NOERROR www.example.com. A",
    "a answer www.example.com. 60 IN A 192.0.2.1",
    "a done",
    "b explain at 130 lookup www.example.com. A",
    "c at 130 lookup_ip 192.0.2.7",
    "d at 140 lookup late.example. A",
    "d fail timeout late.example. A",
    "e explain at 150 lookup gone.example. A",
    "e cancel",
    "f at 155 clear_lookup www.example.com. A",
    "g at 158 clear",
]
GIVEN = "".join(f"{line}\n" for line in LINES).encode()


class State(NamedTuple):
    waiting: frozenset = frozenset()  # marks of requests that wait
    replied: bool = False  # whether the reply to the first one is open
    is_kept: bool = False  # whether its answer is in the cache


def block(mark, request, *lines):
    return "".join([f"{mark} {request}\n", *(f"  {line}\n" for line in lines), "\n"])


def found(mark, moment, *sent):
    ttl = f"answer www.example.com. {160 - moment} IN A 192.0.2.1"
    return block(mark, f"at {moment} lookup www.example.com. A", *sent, f"ok {WWW} until 160", ttl)


def begun(state, mark, request, name):
    return f"{mark} send {name} IN A {SENT}\n", state._replace(waiting=state.waiting | {mark})


def over(state, mark, text):
    return text, state._replace(waiting=state.waiting - {mark})


def explained(state, mark, rest):
    """How a request is explained when it begins."""
    moment, _, name, _ = rest.split()
    who = f"cache {int(moment) - 100} until 160" if state.is_kept and mark == "b" else "upstream"
    return f"{mark} explain attempt {name} IN A {who}\n"


def served(state, number):
    """What a line is answered where there is memory, and the state behind it."""
    mark, verb, rest = (LINES[number].split(" ", 2) + [""])[:3]
    if verb == "explain":
        rest = rest.removeprefix("at ")
        told, left = served_as(state, number, mark, "at", rest)
        return explained(state, mark, rest) + told, left
    return served_as(state, number, mark, verb, rest)


def served_as(state, number, mark, verb, rest):
    if mark == "option":
        return "", state
    if verb != "at" and mark not in state.waiting:
        return f"{mark} fault {number + 1} C3 no such request\n", state
    if verb == "at" and mark in "ab":
        moment = int(rest.split()[0])
        return (found(mark, moment), state) if state.is_kept else begun(state, mark, rest, "www.example.com.")
    if verb == "at" and mark in "de":
        return begun(state, mark, rest, rest.split()[2])
    if verb == "at" and mark == "c":
        lines = "ok 192.0.2.7 IN A until 86530", "address 192.0.2.7", "answer 192.0.2.7 86400 IN A 192.0.2.7"
        return block(mark, f"at {rest}", *lines), state
    if verb == "at":
        return block(mark, f"at {rest}", "cleared"), state._replace(is_kept=False)
    if verb == "reply":
        return "", state._replace(replied=True)
    if verb == "answer":
        return "", state
    if verb == "done":
        told = f"{mark} explain stored {WWW} until 160\n" + found(mark, 100, f"sent {WWW}")
        return over(state._replace(replied=False, is_kept=True), mark, told)
    if verb == "cancel":
        return over(state, mark, f"{mark} cancelled\n")
    return over(state, mark, block(mark, "at 140 lookup late.example. A", "sent late.example. IN A", "err timeout"))


def refused(state, number):
    """The same where memory ran out: the request is forgotten. Its answer may have been kept before that, and a clear
    may have been done."""
    mark, verb = LINES[number].split(" ")[:2]
    told = f"{'-' if mark == 'option' else mark} memory\n"
    left = state._replace(waiting=state.waiting - {mark}, replied=False)
    yield told, left
    if verb == "done" and mark in state.waiting:
        yield told, left._replace(is_kept=True)
    if mark in "fg":
        yield told, left._replace(is_kept=False)


def may_be(text, ended, least, state=State(), number=0):
    """Whether this may be written from a line on, where so many lines at the most find no memory. A program that could
    not read on for memory ends there."""
    if ended and text == "":
        return True
    if number == len(LINES):
        return text == "" and not ended
    turns = [(0, *served(state, number))]
    if least > 0:
        turns += [(1, *turn) for turn in refused(state, number)]
    return any(
        text.startswith(told) and may_be(text[len(told) :], ended, least - cost, left, number + 1)
        for cost, told, left in turns
    )


def whole():
    """What is written where there is memory."""
    text, state = "", State()
    for number in range(len(LINES)):
        told, state = served(state, number)
        text += told
    return text
