"""The network of a session: a socket for each channel, what is done of what the library says, and what comes.

Nothing is decided here: who is asked, which reply is believed, and when it is asked again, the library says. The
driver, which waits until a socket is ready, is in `resolver` for plain code, and in `aio` for asyncio.
"""
from __future__ import annotations

import errno
import socket
from collections import deque
from typing import Any, Deque, Dict, NamedTuple, Optional, Tuple

from . import _numbers as numbers
from ._driven import DrivenSession, asleep
from ._settings import Opening
from .errors import OutOfMemory

# Errors of this machine, and not of the way to the server.
# A channel cannot be opened, since no descriptor, no memory or, for datagrams, no port is left.
LOCAL = {errno.EMFILE, errno.ENFILE, errno.ENOBUFS, errno.ENOMEM, errno.EAGAIN}
NOT_YET = {errno.EAGAIN, errno.EWOULDBLOCK, errno.EINTR, errno.EINPROGRESS, errno.ENOTCONN, errno.EALREADY}
# The most octets that are read at once: a whole datagram.
MOST = 65535
# More datagrams than a socket holds, the milliseconds of a sleep after which it matters when they came, and the seconds
# after which it does where the program stood still past a wait, of which none is longer than so many.
MOST_LET_GO, SLEPT, STILL, LONGEST = 4096, 1000, 10, 1
KINDS = {
    numbers.DATAGRAM: socket.SOCK_DGRAM | socket.SOCK_NONBLOCK,
    numbers.STREAM: socket.SOCK_STREAM | socket.SOCK_NONBLOCK,
}


class Server(NamedTuple):
    """The server of a channel."""

    address: str
    port: int
    is_stream: bool

    def __str__(self) -> str:
        text = f"[{self.address}]:{self.port}" if ":" in self.address else f"{self.address}:{self.port}"
        return f"{text} (TCP)" if self.is_stream else text


class Place(NamedTuple):
    """A server as sockets have it."""

    server: Server
    family: int
    kind: int
    address: Any


class Channel:
    """A channel that is open: its socket, and of a stream what waits to be sent."""

    __slots__ = ("number", "sock", "server", "out", "is_failed")

    def __init__(self, number: int, sock: socket.socket, server: Server) -> None:
        self.number, self.sock, self.server = number, sock, server
        self.out = b""
        self.is_failed = False


class Watcher:
    """Hears what goes over the network; `python -m yimarotu --explain` is one."""

    def opened(self, channel: int, server: Server) -> None: ...
    def sent(self, channel: int, octets: bytes) -> None: ...
    def came(self, channel: int, octets: bytes) -> None: ...
    def failed(self, channel: int, why: str) -> None: ...
    def closed(self, channel: int) -> None: ...


class Network:
    """A session and its channels. A driver says how sockets are watched."""

    def __init__(self, opening: Opening, watcher: Optional[Watcher] = None) -> None:
        self.session = DrivenSession(opening)
        self.channels: Dict[int, Channel] = {}
        self.watcher = watcher
        self._places: Dict[Tuple[bytes, int, int], Place] = {}
        # Whether something was sent, so that time may end something sooner than was said before.
        self.has_sent = False
        # The look-ups that are done, and of which nobody was told.
        self.done: Deque[int] = deque()
        # The channels that failed, and how, of which the library was not told.
        self._untold: Deque[Tuple[int, int]] = deque()
        self._asleep = asleep()

    def watch(self, channel: Channel) -> None:
        """From now on `receive` is to be called whenever something came on it."""
        raise NotImplementedError

    def watch_room(self, channel: Channel, is_wanted: bool) -> None:
        """Whether `flush` is to be called whenever it takes octets."""
        raise NotImplementedError

    def unwatch(self, channel: Channel) -> None:
        """It is watched no more: its socket is about to be closed."""
        raise NotImplementedError

    def act(self) -> None:
        """Does what is to be done, and puts the numbers of the look-ups that are done into `done`."""
        session, following = self.session, self.session.next
        if self._has_slept():
            self.let_go()
        while True:
            self.tell_failures()
            action = following()
            kind = action.kind
            if kind == numbers.CONTINUE:
                continue
            if kind == numbers.NOTHING:
                return
            if kind == numbers.LOOKED_UP:
                self.done.append(int(action.number))
            elif kind == numbers.OPEN:
                self._open(action)
            elif kind == numbers.SEND:
                self._send(action.channel, session.room[: action.length])
            elif kind == numbers.CLOSE:
                self._close(action.channel)

    def _open(self, action: Any) -> None:
        number, octets = int(action.channel), bytes(self.session.room[: action.length])
        key = octets, action.port, action.protocol
        place = self._places.get(key) or _place(*key)
        # (the number of a link may change)
        if len(octets) <= 16:
            self._places[key] = place
        if self.watcher is not None:
            self.watcher.opened(number, place.server)
        try:
            sock = _connected(place)
        except OSError as error:
            self._failed(number, error, _is_local(error, place))
            return
        self.channels[number] = channel = Channel(number, sock, place.server)
        self.watch(channel)

    def _send(self, number: int, octets: memoryview) -> None:
        self.has_sent = True
        channel = self.channels.get(number)
        if channel is None:
            return
        if self.watcher is not None:
            self.watcher.sent(number, bytes(octets))
        if channel.server.is_stream:
            channel.out += octets
            self.flush(channel)
            return
        try:
            channel.sock.send(octets)
        except OSError as error:
            # (a datagram for which there is no room is lost, as one on the way may be)
            if error.errno not in NOT_YET:
                self._failed(number, error)

    def flush(self, channel: Channel) -> None:
        """Sends what waits on a stream, as far as it goes."""
        if channel.is_failed or not channel.out:
            return
        try:
            channel.out = channel.out[channel.sock.send(channel.out) :]
        except OSError as error:
            if error.errno not in NOT_YET:
                self._fail(channel, error)
                return
        self.watch_room(channel, bool(channel.out))

    def receive(self, channel: Channel) -> None:
        """Hands in what came on a channel, or that it failed."""
        if self._has_slept():
            self.let_go()
            return
        try:
            octets = channel.sock.recv(MOST)
        except OSError as error:
            if error.errno not in NOT_YET:
                self._fail(channel, error)
            return
        if octets or not channel.server.is_stream:
            if self.watcher is not None:
                self.watcher.came(channel.number, octets)
            try:
                self.session.came(channel.number, octets)
            except OutOfMemory:
                # (without these octets what comes behind them on a stream cannot be read)
                if channel.server.is_stream:
                    self._fail(channel, OSError(errno.ENOMEM, "no memory was left"))
                raise
        else:
            self._fail(channel, None)

    def stood_still(self) -> bool:
        """Whether the driver was to go on long ago. Where that is so it is told once."""
        return False

    def _has_slept(self) -> bool:
        """Whether the machine slept since this was asked last, or the program stood still."""
        before, self._asleep, stood_still = self._asleep, asleep(), self.stood_still()
        return stood_still or self._asleep >= before + SLEPT

    def let_go(self) -> None:
        """What came before the machine woke is not handed in: its TTLs would count from now. Of a stream it is not
        known what did. (That it slept is told once: a call for which there is no memory comes behind it.)"""
        for channel in self.channels.values():
            if not channel.server.is_stream:
                _empty(channel.sock)
            elif not channel.is_failed:
                self._fail(channel, None)
        self.session.tick()

    def _fail(self, channel: Channel, error: Optional[OSError]) -> None:
        """A stream that failed is of no use any more; a socket for datagrams is kept after an ICMP error."""
        if channel.server.is_stream and not channel.is_failed:
            channel.is_failed = True
            self.unwatch(channel)
        self._failed(channel.number, error)

    def _failed(self, number: int, error: Optional[OSError], is_local: bool = False) -> None:
        """A channel failed, which the library is told of. Octets may have gone out on one that was opened: it failed as
        one that leads nowhere, whatever was wanting."""
        why = numbers.CHANNEL_UNREACHABLE
        if error is None:
            why = numbers.CHANNEL_CLOSED
        elif is_local:
            why = numbers.CHANNEL_LOCAL
        elif error.errno == errno.ECONNREFUSED:
            why = numbers.CHANNEL_REFUSED
        if self.watcher is not None:
            self.watcher.failed(number, "closed" if error is None else error.strerror or str(error))
        self._untold.append((number, why))

    def tell_failures(self) -> None:
        """Tells the library of the channels that failed: also of those for which it had no memory before."""
        while self._untold:
            self.session.failed(*self._untold[0])
            self._untold.popleft()

    def _close(self, number: int) -> None:
        channel = self.channels.pop(number, None)
        if channel is not None:
            if not channel.is_failed:
                self.unwatch(channel)
            channel.sock.close()
            if self.watcher is not None:
                self.watcher.closed(number)

    def close(self) -> None:
        """Closes the session and all channels."""
        for number in list(self.channels):
            self._close(number)
        self.session.close()

    def __del__(self) -> None:
        for channel in getattr(self, "channels", {}).values():
            channel.sock.close()

    def leave(self) -> None:
        """Gives all up in a child of fork: the sockets are closed here, and stay open in the parent."""
        for channel in self.channels.values():
            channel.sock.close()
        self.channels.clear()
        self.session.leave()


def _empty(sock: socket.socket) -> None:
    """Reads the datagrams that a socket holds, and errors that ICMP told, and looks at none."""
    for _ in range(MOST_LET_GO):
        try:
            sock.recv(1)
        except OSError as error:
            if error.errno in NOT_YET:
                return


def _scope_number(scope: bytes) -> int:
    """The number of the link of a link-local address: of the name of an interface, or as it stands."""
    text = scope.decode("ascii", "replace")
    try:
        return socket.if_nametoindex(text) if text else 0
    except OSError:
        return int(text) if text.isdecimal() else 0


def _place(octets: bytes, port: int, protocol: int) -> Place:
    """The place of a server of which the library told the address, with its scope behind it (RFC 4007, section 6)."""
    address, scope = octets[:16], octets[16:]
    is_stream = protocol == numbers.STREAM
    if len(octets) == 4:
        text = socket.inet_ntop(socket.AF_INET, address)
        return Place(Server(text, port, is_stream), socket.AF_INET, KINDS[protocol], (text, port))
    text = socket.inet_ntop(socket.AF_INET6, address)
    shown = text + ("%" + scope.decode("ascii", "replace") if scope else "")
    where = text, port, 0, _scope_number(scope)
    return Place(Server(shown, port, is_stream), socket.AF_INET6, KINDS[protocol], where)


def _connected(place: Place) -> socket.socket:
    """A socket that is connected to a server, or of a stream about to be."""
    sock = socket.socket(place.family, place.kind)
    try:
        sock.connect(place.address)
    except OSError as error:
        if error.errno != errno.EINPROGRESS:
            sock.close()
            raise
    return sock


def _is_local(error: OSError, place: Place) -> bool:
    """Whether a channel could not be opened since something is wanting here. That no address is left may say of a
    stream that no port is; else it says that there is none of the family of its server."""
    if error.errno == errno.EADDRNOTAVAIL:
        return place.server.is_stream and _has_source(place)
    return error.errno in LOCAL


def _has_source(place: Place) -> bool:
    """Whether this machine has an address to ask a server from: a socket for datagrams takes one as it is connected."""
    try:
        _connected(place._replace(kind=KINDS[numbers.DATAGRAM])).close()
    except OSError as error:
        return error.errno != errno.EADDRNOTAVAIL
    return True
