"""The calls of forwarders of the library for C, by ctypes."""
import ctypes
import ipaddress

OK, SETTINGS, ROOM = 0, 1, 5
NOTHING, CONTINUE, OPEN, SEND, CLOSE, REPLY = 0, 1, 2, 3, 4, 6
DROPPED, REPLIED, QUERY_WAITS = 0, 1, 2
STREAM = 2
FAILURES = {"refused": 1, "unreachable": 2, "closed": 3, "local": 4}
SEED = bytes(range(32))
# Enough for a message on a stream, with its length before it.
LARGE = 65_537
BYTES = [ctypes.c_char_p, ctypes.c_size_t]
ROOM_OF = [ctypes.c_void_p, ctypes.c_size_t]
MOMENT = NUMBER = ctypes.c_uint64


class Fields(ctypes.Structure):
    def __repr__(self):
        return " ".join(f"{name}={getattr(self, name)}" for name, _ in self._fields_)


def struct(**fields):
    kinds = {"u8": ctypes.c_uint8, "u16": ctypes.c_uint16, "u64": ctypes.c_uint64, "size": ctypes.c_size_t}
    kinds["bool"] = ctypes.c_bool
    return type("Told", (Fields,), {"_fields_": [(name, kinds[kind]) for name, kind in fields.items()]})


COUNTS = ("queries", "from_cache", "local", "failures_told", "refused", "dropped", "waited", "prefetched", "sent")
COUNTS += ("waiting", "entries", "octets")
Opened = struct(status="u8", line="size")
Queried = struct(status="u8", answered="u8", length="size")
Written = struct(status="u8", fault="u8", length="size")
Action = struct(
    status="u8", kind="u8", protocol="u8", family="u8", port="u16", channel="u64", number="u64", length="size"
)
Waits = struct(status="u8", has_deadline="bool", milliseconds="u64")
Counts = struct(status="u8", **{name: "u64" for name in COUNTS})
STATUS = ctypes.c_uint8
CALLS = {
    "open": (Opened, [*BYTES * 6, MOMENT]),
    "reload": (Opened, [*BYTES * 5, MOMENT]),
    "close": (None, []),
    "query": (Queried, [NUMBER, *BYTES, ctypes.c_bool, *BYTES, MOMENT, *ROOM_OF]),
    "reply": (Written, ROOM_OF),
    "gone": (STATUS, [NUMBER]),
    "next": (Action, ROOM_OF),
    "came": (STATUS, [NUMBER, *BYTES, MOMENT]),
    "failed": (STATUS, [NUMBER, ctypes.c_uint8, MOMENT]),
    "tick": (STATUS, [MOMENT]),
    "wait": (Waits, [MOMENT]),
    "statistics": (Counts, []),
    "flush": (STATUS, [*BYTES, ctypes.c_bool]),
    "clear": (STATUS, []),
}


class Handle(ctypes.Structure):
    _fields_ = [("is_open", ctypes.c_bool), ("inside", ctypes.c_void_p)]


class Refused(Exception):
    """A status that the case does not speak of."""


class Forwarder:
    """A forwarder; what is opened is closed. No call has a status but OK, where nothing else is said."""

    def __init__(self, path):
        self._library, self._handle = ctypes.CDLL(str(path)), Handle(False, None)
        self._room = ctypes.create_string_buffer(LARGE)

    def is_open(self):
        return self._handle.is_open

    def _call(self, name, *words):
        call = getattr(self._library, f"yimarotu_forwarder_{name}")
        call.restype, kinds = CALLS[name]
        call.argtypes = [ctypes.c_void_p, *kinds]
        flat = [part for word in words for part in ((word, len(word)) if isinstance(word, bytes) else (word,))]
        return call(ctypes.byref(self._handle), *flat)

    def _checked(self, name, *words):
        told = self._call(name, *words)
        status = told if isinstance(told, int) else told.status
        if status != OK:
            raise Refused(f"yimarotu_forwarder_{name}: status {status}")
        return told

    def _octets(self, length):
        return self._room.raw[:length]

    def open(self, files, moment):
        told = self._call("open", *files, SEED, moment)
        return told.status, told.line

    def reload(self, files, moment):
        told = self._call("reload", *files, moment)
        return told.status, told.line

    def close(self):
        self._call("close")

    def query(self, client, address, is_stream, octets, moment, room=LARGE):
        """What became of a query, and the octets of the reply to it, where there is one at once."""
        words = client, ipaddress.ip_address(address).packed, is_stream, octets, moment, self._room
        told = self._call("query", *words, room)
        if told.status == ROOM:
            if told.length <= room:
                raise Refused(f"a room of {room} is too small for {told.length}")
            told.length = self._checked("reply", self._room, LARGE).length
        elif told.status != OK:
            raise Refused(f"yimarotu_forwarder_query: status {told.status}")
        return told.answered, self._octets(told.length) if told.answered == REPLIED else b""

    def next(self):
        """The next action with its octets. A room that is too small is tried first: then nothing is done."""
        action = self._call("next", self._room, 1)
        if action.status == ROOM:
            action = self._checked("next", self._room, LARGE)
        elif action.status != OK:
            raise Refused(f"yimarotu_forwarder_next: status {action.status}")
        return action, self._octets(action.length)

    def gone(self, client):
        self._checked("gone", client)

    def came(self, channel, octets, moment):
        self._checked("came", channel, octets, moment)

    def failed(self, channel, failure, moment):
        self._checked("failed", channel, FAILURES[failure], moment)

    def tick(self, moment):
        self._checked("tick", moment)

    def wait(self, moment):
        waits = self._checked("wait", moment)
        return waits.milliseconds if waits.has_deadline else None

    def flush(self, name, below):
        self._checked("flush", name.encode(), below)

    def clear(self):
        self._checked("clear")

    def statistics(self):
        told = self._checked("statistics")
        return {name: getattr(told, name) for name in COUNTS}
