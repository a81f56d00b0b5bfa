"""A case, run line by line. What a line means is said in forward_cases.d/README.md."""
import re
import struct

import dns.name
import dns.rcode
import dns.rdatatype

from . import library, messages
from .exchanges import SERVER, Asked, Channel, Client, Difference, Query, Words, wanted
from .messages import AD, CD, RA, RD
from .told import check_records, check_told

FILES = {"conf": "", "hostname": "host.example", "set": "", "hosts": "", "blocked": ""}
NAMES_OF_FILES = {"settings": "set", "hosts": "hosts", "blocked": "blocked"}
COMES_OUT = ("ask", "told", "fault", "asked", "counts")
STEPS = 10_000


class Case:
    """One case: its lines, with their numbers, are run in order."""

    def __init__(self, path):
        self.forwarder = library.Forwarder(path)
        self.files, self.is_open, self.opened, self.told_opened = dict(FILES), False, None, True
        self.moment, self.ident = 0, 0
        self.clients, self.channels, self.asked = {}, {}, []
        # Replies to questions that are always replied to, and those of them that were asked.
        self.always, self.to_reply = {}, []
        self.came, self.counted, self.has_sockets, self.is_in_pieces = [], 0, True, False

    # ---- the library

    def settle(self):
        """Does what the library says until it says nothing."""
        for _ in range(STEPS):
            action, octets = self.forwarder.next()
            if action.kind == library.NOTHING:
                if not self.reply_at_once():
                    return
            elif action.kind != library.CONTINUE:
                self.done(action, octets)
        raise Difference(f"more than {STEPS} actions")

    def done(self, action, octets):
        if action.kind == library.OPEN:
            wanted(action.channel not in self.channels, f"channel {action.channel} was there before")
            self.channels[action.channel] = channel = Channel(action, octets)
            if not self.has_sockets:
                channel.is_failed = True
                self.forwarder.failed(action.channel, "local", self.moment)
        elif action.kind == library.SEND:
            channel = self.channels.get(action.channel)
            wanted(channel, f"octets on channel {action.channel}, which is not open")
            if not channel.is_failed:
                self.sent(channel, octets)
        elif action.kind == library.CLOSE:
            wanted(self.channels.get(action.channel), f"channel {action.channel} is closed, and was not open")
            self.channels[action.channel] = None
        elif action.kind == library.REPLY:
            self.came.append(("told", action.number, octets))
        else:
            raise Difference(f"an action of kind {action.kind}")

    def sent(self, channel, octets):
        if channel.is_stream:
            wanted(octets[:2] == struct.pack("!H", len(octets) - 2), "not one message with its length")
            octets = octets[2:]
        asked = Asked(len(self.asked) + 1, channel, octets)
        self.asked.append(asked)
        if (asked.name, asked.rdtype) not in self.always:
            self.came.append(("ask", asked))
        else:
            self.to_reply.append(asked)

    def reply_at_once(self):
        """Replies to the first question that is always replied to, and tells whether there is one."""
        if not self.to_reply:
            return False
        asked = self.to_reply.pop(0)
        self.hand_over(asked.channel, asked.replied(*self.always[asked.name, asked.rdtype]))
        return True

    def hand_over(self, channel, octets):
        size = 1 if self.is_in_pieces and channel.is_stream else len(octets)
        for start in range(0, len(octets), size):
            self.forwarder.came(channel.number, octets[start : start + size], self.moment)

    # ---- lines

    def line(self, line, below):
        verb, *words = line.split()
        verb, _, times = verb.partition("*")
        if times:
            for number in range(1, int(times) + 1):
                self.line(" ".join([verb, *words]).replace("{}", str(number)), below)
        elif verb in self.files:
            self.files[verb] = self.files[verb] + line.removeprefix(verb).strip() + "\n"
        elif verb == "no" and words[0] in NAMES_OF_FILES:
            self.files[NAMES_OF_FILES[words[0]]] = ""
        else:
            if not self.is_open:
                self.start()
            if verb not in COMES_OUT:
                self.nothing_more()
            getattr(self, f"do_{verb}")(words, below)
            if verb not in COMES_OUT and self.opened == (library.OK, 0):
                self.settle()

    def octets_of_files(self):
        conf = self.files["conf"] or f"nameserver {SERVER}\n"
        return [it.encode() for it in (conf, *(self.files[it] for it in FILES if it != "conf"))]

    def start(self):
        self.is_open = True
        self.opened = self.forwarder.open(self.octets_of_files(), self.moment)
        self.told_opened = self.opened == (library.OK, 0)

    def nothing_more(self):
        wanted(self.told_opened, f"it ended with status and line {self.opened}")
        if self.came:
            raise Difference(f"nothing more was to come, but:\n{self.text_of(self.came[0])}")

    def text_of(self, came):
        if came[0] == "ask":
            return came[1].text()
        try:
            return f"told {came[1]} {messages.Message(came[2]).text()}"
        except Exception as error:
            return f"told {came[1]} {came[2].hex()} ({error})"

    def next_came(self, kind):
        wanted(self.came, "nothing came")
        wanted(self.came[0][0] == kind, f"it came:\n{self.text_of(self.came[0])}")
        return self.came.pop(0)

    def do_fault(self, words, below):
        self.told_opened = True
        wanted(self.opened == tuple(map(int, words)), f"it ended with status and line {self.opened}")
        # A forwarder that was not opened does nothing; one that was not reloaded goes on.
        self.opened = (library.OK, 0) if self.forwarder.is_open() else None

    def do_at(self, words, below):
        moment = round(float(words[0]) * 1000)
        for _ in range(STEPS):
            left = self.forwarder.wait(self.moment)
            if left is None or self.moment + left >= moment:
                break
            self.moment += left
            self.forwarder.tick(self.moment)
            self.settle()
        else:
            raise Difference("time passes, and there is no end of it")
        self.moment = moment
        self.forwarder.tick(moment)

    def client(self, number, words):
        client = self.clients.setdefault(int(number), Client())
        client.is_stream |= "tcp" in words
        client.address = words.given.get("from", client.address)
        return client

    def do_query(self, words, below):
        number, name, rdtype, *rest = words
        rest = Words(rest)
        self.ident += 1
        query = Query.said(rest.number("id", self.ident), name, rdtype, rest)
        self.hand_in(int(number), self.client(number, rest), query, rest.number("room", library.LARGE))

    def do_octets(self, words, below):
        number, *rest = words
        known = [it for it in ("tcp",) if it in rest]
        if "from" in rest:
            place = rest.index("from")
            known += rest[place : place + 2]
        tokens = [it for it in rest if it not in known and it != "|"]
        self.hand_in(int(number), self.client(number, Words(known)), Query(messages.from_tokens(tokens)))

    def do_again(self, words, below):
        client = self.clients[int(words[0])]
        self.hand_in(int(words[0]), client, client.last)

    def hand_in(self, number, client, query, room=library.LARGE):
        client.last = query
        words = number, client.address, client.is_stream, query.octets, self.moment, room
        answered, reply = self.forwarder.query(*words)
        if answered != library.DROPPED:
            client.waiting.append(query)
        if answered == library.REPLIED:
            self.came.append(("told", number, reply))

    def asked_at(self, words):
        """The question upstream that a line is about, by its number, which is taken off, or else the last."""
        return self.asked[int(words.pop(0)) - 1 if words[0].isdigit() else -1]

    def do_reply(self, words, below):
        asked = self.asked_at(words)
        self.hand_over(asked.channel, asked.replied(*self.reply_of(words, below)))

    def do_forged(self, words, below):
        asked = self.asked_at(words)
        self.hand_over(asked.channel, asked.replied(*self.reply_of(words[1:], below), words[0]))

    def do_pieces(self, words, below):
        self.is_in_pieces = True

    def reply_of(self, words, below):
        code, more = dns.rcode.from_text(words[0]), Words(words[1:])
        return code, more.bits() | (0 if "-ra" in more else RA), messages.records(below)[0]

    def do_fails(self, words, below):
        asked = self.asked_at(words)
        asked.channel.is_failed = True
        self.forwarder.failed(asked.channel.number, words[0], self.moment)

    def do_no(self, words, below):
        wanted(words == ["sockets"], f"no such line: no {words}")
        self.has_sockets = False

    def do_sockets(self, words, below):
        self.has_sockets = True

    def do_always(self, words, below):
        name, rdtype, *rest = words
        self.always[dns.name.from_text(name), dns.rdatatype.from_text(rdtype)] = self.reply_of(rest, below)

    def do_flood(self, words, below):
        times, name, rdtype = words
        for number in range(int(times)):
            one = name.replace("{}", str(number))
            self.do_always([one, rdtype, "NOERROR"], [f"answer {one} 3600 IN {rdtype} 192.0.2.1"])
            self.do_query(["1000", one, rdtype], below)
            self.settle()
            self.do_told(["1000", "NOERROR"], [f"answer {one} 0-3600 IN {rdtype} 192.0.2.1"])
            self.nothing_more()

    def do_wait(self, words, below):
        times, *words = words
        for number in range(1, int(times) + 1):
            line = " ".join(words).replace("{}", str(number)).replace("{%}", str(number % 256))
            self.do_query([str(number), *line.split()], below)
            self.settle()
            if self.came:
                self.next_came("ask")
            self.nothing_more()

    def do_served(self, words, below):
        """The start of each of these zones is as RFC 6303, section 3, has it."""
        for zone in words:
            self.do_query(["1", zone, "SOA"], [])
            soa = f"answer {zone} 10800 IN SOA {zone} nobody.invalid. 1 3600 1200 604800 10800"
            self.do_told(["1", "NOERROR"], [soa])
            self.do_query(["1", zone, "NS"], [])
            self.do_told(["1", "NOERROR"], [f"answer {zone} 10800 IN NS {zone}"])

    def do_gone(self, words, below):
        self.forwarder.gone(int(words[0]))
        self.clients.pop(int(words[0]), None)

    def do_flush(self, words, below):
        self.forwarder.flush(words[0], words[1:] == ["below"])

    def do_clear(self, words, below):
        self.forwarder.clear()

    def do_reload(self, words, below):
        self.opened = self.forwarder.reload(self.octets_of_files(), self.moment)
        self.told_opened = self.opened == (library.OK, 0)

    # ---- what comes out

    def do_ask(self, words, below):
        _, asked = self.next_came("ask")
        if words == ["*"]:
            return
        name, rdtype, *rest = words
        rdtype = dns.rdatatype.to_text(dns.rdatatype.from_text(rdtype))
        text = " ".join(["ask", str(dns.name.from_text(name)).lower(), rdtype, *(it for it in rest if "opt" not in it)])
        wanted(asked.text() == text, f"it came:\n{asked.text()}")
        wanted("opt" not in rest or asked.message.opt, "no OPT")
        wanted("no_opt" not in rest or not asked.message.opt, "an OPT")
        wanted(asked.rdclass == 1 and not asked.message.flags & ~(RD | CD | AD), "no question of class IN alone")

    def do_asked(self, words, below):
        least, _, greatest = words[0].partition("-")
        count, self.counted = len(self.asked) - self.counted, len(self.asked)
        wanted(int(least) <= count <= int(greatest or least), f"{count} were asked")

    def do_counts(self, words, below):
        told = self.forwarder.statistics()
        for word in words:
            name, sign, number = re.fullmatch(r"(\w+)(<?=)(\d+)", word).groups()
            is_so = told[name] == int(number) or sign == "<=" and told[name] < int(number)
            wanted(is_so, f"{name}={told[name]}")

    def do_told(self, words, below):
        _, number, octets = self.next_came("told")
        text = self.text_of(("told", number, octets))
        wanted(number == int(words[0]), f"it came:\n{text}")
        rest = Words([] if words[1] == "octets" else words[2:])
        query = self.query_of(self.clients[number], octets[:2], rest, text)
        is_short = self.clients[number].is_stream or len(octets) <= query.limit
        wanted(is_short, f"{len(octets)} octets by UDP, of at most {query.limit}")
        if words[1] == "octets":
            came = messages.from_tokens(it for it in words[2:] if it != "|")
            wanted(octets == came, f"it came:\n{octets.hex()}\nnot\n{came.hex()}")
        else:
            try:
                check_told(messages.Message(octets), query, dns.rcode.from_text(words[1]), rest)
                check_records(messages.Message(octets), below, "first" in rest)
            except Difference as difference:
                raise Difference(f"{difference}; it came:\n{text}") from None

    def query_of(self, client, ident, rest, text):
        """The query that is replied to, by the id of the reply."""
        ident = int.from_bytes(ident, "big")
        wanted(ident == rest.number("id", ident), f"the id is {ident}; it came:\n{text}")
        fits = [it for it in client.waiting if it.ident == ident]
        wanted(fits, f"no query with its id waits; it came:\n{text}")
        client.waiting.remove(fits[0])
        return fits[0]
