"""The files that are read twice, and where the two readings are meant to differ."""
from dataclasses import dataclass, field

HOSTNAME = "host.home.example"

# Why readings differ.
THREE_SERVERS = "glibc keeps three servers"
SEARCH_END = "glibc shows six domains of 256 octets in all; inside it has the whole list"
ENVIRONMENT = "the environment is the program's affair"
DOTTED = "an IPv4 address is four decimal numbers without leading zeros"
NO_ADDRESS = "127.0.0.1 stands in only where there is no line nameserver"
NO_DIGIT = "a number begins with a digit, right behind the colon"
WRAPPED = "a number past 32 bits is cut to its bound"
ONE_AT_LEAST = "no wait is shorter than a second, and there is one round at least"
NO_NAME = "a word that is no domain name is passed over"
INTERFACE = "a scope is kept as it stands; glibc knows the interfaces of this machine"


@dataclass
class Difference:
    reason: str
    field: str
    here: list
    there: list


@dataclass
class File:
    name: str
    octets: bytes
    differences: list = field(default_factory=list)
    hostname: str = HOSTNAME
    environment: dict = field(default_factory=dict)


def differs(reason, name, here, there):
    return Difference(reason, name, list(here), list(there))


def servers(count):
    return [f"192.0.2.{n % 250 + 1}" for n in range(count)]


def lines_of(keyword, values):
    return "".join(f"{keyword} {value}\n" for value in values).encode()


LOCAL = ["127.0.0.1"]
DEFAULT_SEARCH = ["home.example"]
LONG = [f"{'x' * 40}{n}.example" for n in range(9)]

FILES = [
    # Servers.
    File("an empty file", b""),
    File("one server", b"nameserver 192.0.2.1\n"),
    File("three servers in order", lines_of("nameserver", ["192.0.2.3", "192.0.2.1", "192.0.2.2"])),
    File("a fourth server", lines_of("nameserver", servers(4)),
         [differs(THREE_SERVERS, "server", servers(4), servers(3))]),
    File("10,000 servers", lines_of("nameserver", servers(10_000)),
         [differs(THREE_SERVERS, "server", servers(10_000), servers(3))]),
    File("one server twice", lines_of("nameserver", ["192.0.2.1", "192.0.2.1"])),
    File("IPv6", b"nameserver 2001:DB8::1\nnameserver 2001:db8:0:0:0:0:0:2\n"),
    File("an IPv4 address in an IPv6 address", b"nameserver ::ffff:192.0.2.1\n"),
    File("both families", b"nameserver 192.0.2.1\nnameserver ::1\nnameserver 192.0.2.2\n"),
    File("a scope by its name", b"nameserver fe80::1%lo\n"),
    File("a scope by its number", b"nameserver fe80::1%7\n"),
    File("an empty scope", b"nameserver fe80::1%\n"),
    File("a scope of an address that is not link-local", b"nameserver 2001:db8::1%lo\n"),
    File("a scope of an IPv4 address", b"nameserver 192.0.2.1%1\n",
         [differs(NO_ADDRESS, "server", [], LOCAL)]),
    File("a scope of no interface", b"nameserver fe80::1%nosuch0\n",
         [differs(INTERFACE, "server", ["fe80::1 %nosuch0"], ["fe80::1"])]),
    File("a number as the scope of an address that is not link-local", b"nameserver 2001:db8::1%3\n",
         [differs(INTERFACE, "server", ["2001:db8::1"], ["2001:db8::1 %3"])]),
    File("words behind an address", b"nameserver 192.0.2.1 192.0.2.2 # and more\n"),
    File("a comment right behind an address", b"nameserver 192.0.2.1#x\nnameserver 192.0.2.2\n"),
    File("TABs and many blanks", b"nameserver\t \t192.0.2.1\t\nsearch \t a.example\t\tb.example \n"),
    File("no address", b"nameserver ns.example\n", [differs(NO_ADDRESS, "server", [], LOCAL)]),
    File("no address beside one", b"nameserver ns.example\nnameserver 192.0.2.1\n"),
    File("a keyword alone", b"nameserver\n", [differs(NO_ADDRESS, "server", [], LOCAL)]),
    File("a keyword and a blank", b"nameserver \n", [differs(NO_ADDRESS, "server", [], LOCAL)]),
    File("two parts of an IPv4 address", b"nameserver 127.1\nnameserver 192.0.2.1\n",
         [differs(DOTTED, "server", ["192.0.2.1"], ["127.0.0.1", "192.0.2.1"])]),
    File("an IPv4 address in hex", b"nameserver 0x7f.0.0.1\nnameserver 192.0.2.1\n",
         [differs(DOTTED, "server", ["192.0.2.1"], ["127.0.0.1", "192.0.2.1"])]),
    File("an IPv4 address in octal", b"nameserver 192.0.2.010\nnameserver 192.0.2.1\n",
         [differs(DOTTED, "server", ["192.0.2.1"], ["192.0.2.8", "192.0.2.1"])]),
    File("a part past 255", b"nameserver 192.0.2.256\nnameserver 192.0.2.1\n"),
    File("a bracketed address", b"nameserver [::1]:53\nnameserver 192.0.2.1\n"),
    # Lines and keywords.
    File("no last LF", b"nameserver 192.0.2.1"),
    File("empty lines", b"\n\nnameserver 192.0.2.1\n\n\n"),
    File("comments in the first column", b"# nameserver 192.0.2.9\n;nameserver 192.0.2.8\nnameserver 192.0.2.1\n"),
    File("a comment in the second column", b" # x\n\t; x\nnameserver 192.0.2.1\n"),
    File("a blank before the keyword", b" nameserver 192.0.2.9\n\tsearch a.example\n"),
    File("capital letters", b"Nameserver 192.0.2.9\nSEARCH a.example\nOptions rotate\n"),
    File("a keyword with more letters", b"nameservers 192.0.2.9\nsearches a.example\noptionsx rotate\n"),
    File("a keyword and no blank", b"nameserver192.0.2.9\nsearch=a.example\n"),
    File("CR before LF", b"nameserver 192.0.2.1 \r\nnameserver 192.0.2.2\r\noptions ndots:3\r\noptions rotate\r\n"),
    File("CR alone", b"options rotate\rnameserver 192.0.2.1\r"),
    File("NUL behind an address", b"nameserver 192.0.2.1\0 x\noptions ndots:2\0 rotate\n"),
    File("NUL first", b"\0nameserver 192.0.2.9\nnameserver 192.0.2.1\n"),
    File("octets past ASCII", b"\xff\xfe\nnameserver 192.0.2.1\n\xc3\xa4 x\n"),
    File("a byte order mark", b"\xef\xbb\xbfnameserver 192.0.2.9\nnameserver 192.0.2.1\n"),
    File("a form feed is no blank", b"nameserver\x0c192.0.2.9\nnameserver 192.0.2.1\n"),
    File("a line of a megabyte", b"# " + b"x" * 2**20 + b"\nnameserver 192.0.2.1\n"),
    File("an option behind a megabyte of blanks", b"options" + b" " * 2**20 + b"rotate\n"),
    File("an unknown keyword", b"lookup file bind\nfamily inet6\nnameserver 192.0.2.1\n"),
    File("sortlist", b"sortlist 192.0.2.0/255.255.255.0 198.51.100.0\nnameserver 192.0.2.1\n"),
    # The search list.
    File("domain", b"domain a.example\n"),
    File("domain with more words", b"domain a.example b.example\n"),
    File("search", b"search a.example b.example c.example\n"),
    File("search behind domain", b"domain a.example\nsearch b.example c.example\n"),
    File("domain behind search", b"search b.example c.example\ndomain a.example\n"),
    File("search twice", b"search a.example\nsearch b.example c.example\n"),
    File("a later search with no word", b"search a.example\nsearch\nsearch \ndomain\t\n"),
    File("a last dot", b"search a.example. b.example\n"),
    File("the root", b"search .\n"),
    File("six domains", b"search a b c d e f\n"),
    File("a seventh domain", b"search a b c d e f g\n", [differs(SEARCH_END, "search", "abcdefg", "abcdef")]),
    File("a search list past 256 octets", f"search {' '.join(LONG)}\n".encode(),
         [differs(SEARCH_END, "search", LONG, LONG[:5])]),
    File("a comment behind search", b"search a.example # b.example\n",
         [differs(NO_NAME, "search", ["a.example", "b.example"], ["a.example", "#", "b.example"])]),
    File("an empty label", b"search a..example b.example\n",
         [differs(NO_NAME, "search", ["b.example"], ["a..example", "b.example"])]),
    File("a hyphen first", b"search -a.example b.example\n",
         [differs(NO_NAME, "search", ["b.example"], ["-a.example", "b.example"])]),
    File("a name past ASCII", "search ä.example b.example\n".encode(),
         [differs(NO_NAME, "search", ["b.example"], ["ä.example", "b.example"])]),
    File("a CR behind a name", b"search a.example b.example\r\n",
         [differs(NO_NAME, "search", ["a.example"], ["a.example", "b.example\r"])]),
    File("an underscore", b"search _tcp.a.example\n"),
    File("a hostname without a dot", b"nameserver 192.0.2.1\n", hostname="host"),
    File("a hostname of many labels", b"nameserver 192.0.2.1\n", hostname="a.b.c.example"),
    File("a hostname beside search", b"search a.example\n", hostname="a.b.c.example"),
    # Options.
    File("ndots", b"options ndots:3\n"),
    File("ndots of 0", b"options ndots:0\n"),
    File("ndots at its bound", b"options ndots:15\n"),
    File("ndots past its bound", b"options ndots:16\n"),
    File("timeout and attempts", b"options timeout:2 attempts:3\n"),
    File("timeout and attempts at their bounds", b"options timeout:30 attempts:5\n"),
    File("timeout and attempts past their bounds", b"options timeout:31 attempts:6\n"),
    File("attempts of 1", b"options attempts:1\n"),
    File("timeout of 0", b"options timeout:0\n", [differs(ONE_AT_LEAST, "timeout", ["1"], ["0"])]),
    File("attempts of 0", b"options attempts:0\n", [differs(ONE_AT_LEAST, "attempts", ["1"], ["0"])]),
    File("leading zeros", b"options ndots:007 timeout:0010 attempts:03\n"),
    File("letters behind a number", b"options ndots:3x timeout:4s attempts:1.5\n"),
    File("a number past 32 bits", b"options ndots:4294967298 timeout:4294967298 attempts:4294967298\n",
         [differs(WRAPPED, "ndots", ["15"], ["2"]), differs(WRAPPED, "timeout", ["30"], ["2"]),
          differs(WRAPPED, "attempts", ["5"], ["2"])]),
    File("negative numbers", b"options ndots:-1 timeout:-2 attempts:-3\n",
         [differs(NO_DIGIT, "ndots", ["1"], ["15"]), differs(NO_DIGIT, "timeout", ["5"], ["-2"]),
          differs(NO_DIGIT, "attempts", ["2"], ["-3"])]),
    File("a plus sign", b"options ndots:+3\n", [differs(NO_DIGIT, "ndots", ["1"], ["3"])]),
    File("no number", b"options ndots: timeout:x attempts:\n",
         [differs(NO_DIGIT, "ndots", ["1"], ["0"]), differs(NO_DIGIT, "timeout", ["5"], ["0"]),
          differs(NO_DIGIT, "attempts", ["2"], ["0"])]),
    File("a blank behind the colon", b"options ndots: 3\n", [differs(NO_DIGIT, "ndots", ["1"], ["3"])]),
    File("no colon", b"options ndots=3 ndots 3 timeout\n"),
    File("an option twice", b"options ndots:3 ndots:2\noptions timeout:7\noptions timeout:4 timeout\n"),
    File("flags", b"options rotate edns0 no-aaaa trust-ad use-vc\nnameserver 192.0.2.1\n"),
    File("flags on lines of their own", b"options rotate\noptions edns0\noptions use-vc\nnameserver 192.0.2.1\n"),
    File("flags with more letters", b"options rotatex edns01 no-aaaa:1 trust-ad, use-vc-too\n"),
    File("flags with fewer letters", b"options rotat edns no-aaa trust use-v\n"),
    File("flags with capital letters", b"options Rotate EDNS0 Use-VC ndoTs:4\n"),
    File("flags with commas", b"options rotate,edns0\n"),
    File("options that have no effect here", b"options single-request single-request-reopen no-reload debug inet6\n"),
    File("options with nothing behind", b"options\noptions \noptions\t\n"),
    File("options before servers", b"options use-vc rotate\nnameserver 192.0.2.1\nnameserver 192.0.2.2\n"),
    # The environment.
    File("LOCALDOMAIN", b"search a.example\n", [differs(ENVIRONMENT, "search", ["a.example"], ["env.example"])],
         environment={"LOCALDOMAIN": "env.example"}),
    File("RES_OPTIONS", b"options ndots:2\n", [differs(ENVIRONMENT, "ndots", ["2"], ["4"]),
                                               differs(ENVIRONMENT, "rotate", ["no"], ["yes"])],
         environment={"RES_OPTIONS": "ndots:4 rotate"}),
]
