"""A resolver for plain code: each call returns when the answer is there."""
from __future__ import annotations

import contextlib
import ipaddress
import math
import os
import select
import threading
import time
from types import TracebackType
from typing import Any, Callable, Dict, Iterable, List, Optional, Tuple, Type, TypeVar, Union

from . import _fork
from ._driven import Statistics
from ._network import LONGEST, STILL, Channel, Network, Watcher
from ._requests import ForAddresses, ForRecords, Given, Request, octets_of, pointer_of
from ._settings import CACHE_OCTETS, RESOLV_CONF, File, Opening, Server, opening, read
from .answers import Addresses, Answer, Names
from .errors import Closed, Timeout
from .records import type_number

__all__ = ["Resolver"]

Result = TypeVar("Result")


class WithinLookUp(RuntimeError):
    """A handler of a signal looks up while its thread does."""


class Waiting:
    """A look-up that waits: whether it is done, and what its thread is woken by where another waits for the sockets."""

    __slots__ = ("number", "is_done", "_asleep")

    def __init__(self, number: int) -> None:
        # (until it is begun nothing is wanted for it)
        self.number, self.is_done = number, True
        self._asleep: Optional[threading.Lock] = None

    def wait(self, lock: Any, timeout: float) -> None:
        """Waits until it is woken, without the lock. (A `threading.Condition` may end without it, where a signal has
        something raised.)"""
        self._asleep = asleep = threading.Lock()
        asleep.acquire()
        try:
            lock.release()
            asleep.acquire(timeout=timeout)
        finally:
            try:
                _take(lock)
            except BaseException:
                _take(lock)
                raise

    def wake(self) -> None:
        asleep, self._asleep = self._asleep, None
        if asleep is not None:
            asleep.release()


class Driver(Network):
    """A session whose sockets are waited for by one of the threads that look up, for all of them. There is no thread
    beside these."""

    def __init__(self, given: Opening, watcher: Optional[Watcher] = None) -> None:
        super().__init__(given, watcher)
        # One that knows who has it: where a signal has something raised as it is taken, it may be taken or not.
        self.lock: Any = threading.RLock()
        self.is_closed = False
        self._waiting: Dict[int, Waiting] = {}
        # The number of the look-up whose thread waits for the sockets, and when it is to go on.
        self._driving, self._due = 0, math.inf
        # (the number of its look-up, for each thread)
        self._here = threading.local()
        self._next_number = 1
        self._channels_by_fd: Dict[int, Channel] = {}
        self._poll = select.poll()
        self._woken, self._wake = os.pipe()
        os.set_blocking(self._woken, False)
        os.set_blocking(self._wake, False)
        self._poll.register(self._woken, select.POLLIN)

    def watch(self, channel: Channel) -> None:
        fd = channel.sock.fileno()
        self._channels_by_fd[fd] = channel
        self._poll.register(fd, select.POLLIN)

    def watch_room(self, channel: Channel, is_wanted: bool) -> None:
        self._poll.modify(channel.sock.fileno(), select.POLLIN | (select.POLLOUT if is_wanted else 0))

    def unwatch(self, channel: Channel) -> None:
        fd = channel.sock.fileno()
        del self._channels_by_fd[fd]
        self._poll.unregister(fd)

    def call(self, act: Callable[[], Result]) -> Result:
        """Does something under the lock, where it is open. (In Python 3.9 a signal may have something raised as a `with`
        ends, and the lock is not given back.)"""
        had_lock = self.lock._is_owned()
        try:
            with self.lock:
                self._check_open()
                return act()
        finally:
            if not had_lock and self.lock._is_owned():
                self.lock.release()

    def look_up(self, request: Request[Given], timeout: Optional[float]) -> Given:
        """What a look-up came to."""
        until = None if timeout is None else time.monotonic() + timeout
        if self._is_within():
            raise WithinLookUp("a signal handler looks up within a look-up of its thread")
        return self.call(lambda: self._looked_up(request, until))

    def _looked_up(self, request: Request[Given], until: Optional[float]) -> Given:
        number, self._next_number = self._next_number, self._next_number + 1
        self._here.number = number
        waiting = self._waiting[number] = Waiting(number)
        try:
            return self._waited(request, waiting, until)
        finally:
            self._end(waiting)

    def _waited(self, request: Request[Given], waiting: Waiting, until: Optional[float]) -> Given:
        try:
            waiting.is_done = not request.start(self.session, waiting.number)
            if not waiting.is_done:
                self._settle()
                self._wait(waiting, until, request.name)
            return request.read(self.session, waiting.number)
        finally:
            self._end(waiting)

    @property
    def _is_driven(self) -> bool:
        """Whether one of those that wait waits for the sockets."""
        return self._driving in self._waiting

    def _is_within(self) -> bool:
        """Whether this thread is within a look-up, which does not go on meanwhile: it may have the lock, or be the one
        that waits for the sockets of all, or be woken to."""
        return self.lock._is_owned() or getattr(self._here, "number", 0) in self._waiting

    def _check_open(self) -> None:
        if self.is_closed:
            raise Closed("the resolver is closed")

    def _wait(self, waiting: Waiting, until: Optional[float], name: str) -> None:
        while not waiting.is_done:
            left = None if until is None else until - time.monotonic()
            if left is not None and left <= 0:
                raise Timeout("nobody answered in time", name)
            left = LONGEST if left is None else min(left, LONGEST)
            if self._is_driven:
                waiting.wait(self.lock, left)
            else:
                self._drive(waiting, left)
            self._check_open()

    def _drive(self, waiting: Waiting, left: float) -> None:
        """Waits until something happens, and hands it in. Meanwhile other threads may start look-ups. Where the program
        stood still, also before this and as one that waited was interrupted, what came is let go."""
        if self._has_slept():
            self.let_go()
        wait = self.session.wait()
        limit = int(left * 1000) if wait is None else min(wait, int(left * 1000))
        self._driving, self._due = waiting.number, time.monotonic() + limit / 1000
        try:
            self.lock.release()
            # (a millisecond that has begun counts whole)
            events = self._poll.poll(limit + 1)
        finally:
            try:
                _take(self.lock)
            except BaseException:
                _take(self.lock)
                raise
        self._driving = 0
        if self.is_closed:
            return self._close_pipe()
        if self._has_slept():
            self.let_go()
        self._take(events)

    def stood_still(self) -> bool:
        is_late = time.monotonic() >= self._due + STILL
        if is_late:
            self._due = math.inf
        return is_late

    def reload(self, conf: bytes, clears: bool) -> None:
        self.session.servers(conf, clears)
        self._settle()

    def _take(self, events: List[Tuple[int, int]]) -> None:
        for fd, mask in events:
            channel = self._channels_by_fd.get(fd)
            if fd == self._woken:
                _drain(fd)
            elif channel is not None:
                if mask & select.POLLOUT:
                    self.flush(channel)
                if mask & ~select.POLLOUT and not channel.is_failed:
                    self.receive(channel)
        self.tell_failures()
        self.session.tick()
        self._settle()

    def _settle(self) -> None:
        """Does what is to be done, and wakes those whose look-up is done, and who waits for the sockets: also where not
        all of it was done."""
        try:
            self.act()
        finally:
            while self.done:
                waiting = self._waiting.get(self.done[0])
                if waiting is not None:
                    waiting.is_done = True
                    waiting.wake()
                self.done.popleft()
            if self._is_driven:
                self.wake()

    def wake(self) -> None:
        try:
            os.write(self._wake, b"\0")
        except BlockingIOError:
            pass

    def _end(self, waiting: Waiting) -> None:
        """Forgets a look-up, and has another thread wait for the sockets, where this one did. (In Python 3.9 a signal may
        have something raised as a `finally` begins, and nothing of it is done: each look-up has two.)"""
        _take(self.lock)
        if waiting.number not in self._waiting:
            return
        if not self.is_closed:
            self.session.forget(waiting.number, waiting.is_done)
        self._waiting.pop(waiting.number, None)
        try:
            if not self.is_closed:
                self._settle()
        finally:
            if not self._waiting:
                self._due = math.inf
            elif not self._is_driven:
                next(iter(self._waiting.values())).wake()

    def close(self) -> None:
        with contextlib.suppress(Closed):
            self.call(self._close_all)

    def _close_all(self) -> None:
        self.is_closed = True
        super().close()
        for waiting in self._waiting.values():
            waiting.wake()
        if self._is_driven:
            self.wake()
        else:
            self._close_pipe()

    def _close_pipe(self) -> None:
        woken, wake, self._woken, self._wake = self._woken, self._wake, -1, -1
        for fd in (woken, wake):
            if fd >= 0:
                os.close(fd)

    def leave(self) -> None:
        super().leave()
        self._close_pipe()

    def __del__(self) -> None:
        super().__del__()
        if getattr(self, "_wake", -1) >= 0:
            self._close_pipe()


def _take(lock: Any) -> None:
    """Takes a lock where this thread has not got it."""
    if not lock._is_owned():
        lock.acquire()


def _drain(fd: int) -> None:
    try:
        os.read(fd, 4096)
    except BlockingIOError:
        pass


class Resolver:
    """Looks names up, with a cache, as the system's files say: /etc/resolv.conf, /etc/hosts and the name of the host,
    where nothing else is given. They are read once, when it is made.

    * `resolv_conf`, `hosts`: a text (str or bytes) in place of the file, or a path (pathlib.Path, or a str that begins
      with a slash).
    * `hostname`: in place of that of this host; without `search` and `domain` its domain is searched.
    * `servers`: name servers in place of those of resolv.conf: "192.0.2.53", "192.0.2.53:5353", "[2001:db8::1]:5353",
      or a pair of address and port.
    * `settings`: lines that count in place of what resolv.conf says (docs/EMBED.md, "Settings").
    * `cache_octets`: how many octets the cache may take; None sets no bound.
    * `timeout`: for how many seconds a call may take at most, where it says nothing else. None leaves it to
      resolv.conf.

    **Threads**: any number of threads may look up at once on one Resolver, and others may clear, close or ask for
    statistics meanwhile. Equal questions that are on their way are sent once. The calls of the library are made one
    at a time, under a lock; while one thread waits for the sockets of all, the lock is free. No thread is started.
    None may look up within a handler of a signal.
    **Fork**: a child of fork opens anew, with another seed and an empty cache; what waits in the parent goes on there.
    **Closing** ends what waits, in other threads, with `Closed`. A Resolver may be used by `with`, which closes it.

    In the examples SERVER is the address of a name server; without `servers` those of resolv.conf are asked.

    >>> with Resolver(servers=[SERVER]) as resolver:
    ...     [str(address) for address in resolver.addresses("www.example.test")]
    ['2001:db8::1', '192.0.2.1']
    """

    def __init__(
        self, *, resolv_conf: File = None, hosts: File = None, hostname: Optional[str] = None,
        settings: Union[str, Iterable[str]] = (), servers: Iterable[Server] = (),
        cache_octets: Optional[int] = CACHE_OCTETS, timeout: Optional[float] = None, _watcher: Optional[Watcher] = None,
    ) -> None:
        self._opening = opening(resolv_conf, hosts, hostname, settings, servers, cache_octets)
        self._watcher, self._timeout = _watcher, timeout
        self._lock, self._is_closed = threading.Lock(), False
        self._driver: Optional[Driver] = Driver(self._opening, _watcher)
        _fork.tell(self)

    def addresses(self, host: str, *, timeout: Optional[float] = None) -> Addresses:
        """The addresses of a host, in the order of the answer: IPv6 first where the settings say nothing else. A text
        that is an address is its own answer. Raises `NoSuchName`, `NoRecords`, `Timeout` and others of
        `yimarotu.errors`.

        >>> with Resolver(servers=[SERVER]) as resolver:
        ...     found = resolver.addresses("four.example.test", timeout=5)
        >>> found, found.ttl <= 60
        ([IPv4Address('192.0.2.4')], True)
        """
        return self._look_up(ForAddresses(host), timeout)

    def lookup(self, name: str, record_type: Union[str, int] = "A", *, timeout: Optional[float] = None) -> Answer:
        """The records of a type for a name.

        >>> with Resolver(servers=[SERVER]) as resolver:
        ...     for record in resolver.lookup("example.test", "MX"):
        ...         print(record.data.preference, record.data.exchange)
        10 mail.example.test.
        20 backup.example.test.
        """
        return self._look_up(ForRecords(name, record_type), timeout)

    def reverse(
        self, address: Union[str, ipaddress.IPv4Address, ipaddress.IPv6Address], *, timeout: Optional[float] = None
    ) -> Names:
        """The names of an address.

        >>> with Resolver(servers=[SERVER], hosts="192.0.2.9 printer.example.test\\n") as resolver:
        ...     resolver.reverse("192.0.2.9")
        ['printer.example.test.']
        """
        return Names.of(self.lookup(pointer_of(address), "PTR", timeout=timeout))

    def _look_up(self, request: Request[Given], timeout: Optional[float]) -> Given:
        driver = self._driver or self._open_again()
        return driver.look_up(request, self._timeout if timeout is None else timeout)

    def clear(self) -> None:
        """Empties the cache.

        >>> with Resolver(servers=[SERVER]) as resolver:
        ...     found = resolver.addresses("www.example.test")
        ...     resolver.clear()
        ...     resolver.statistics().entries
        0
        """
        driver = self._driver or self._open_again()
        driver.call(driver.session.clear)

    def clear_name(self, name: str, record_type: Union[str, int] = "A") -> None:
        """Drops from the cache what it has for a name, of a type.

        >>> with Resolver(servers=[SERVER]) as resolver:
        ...     found = resolver.lookup("www.example.test", "A")
        ...     resolver.clear_name("www.example.test", "A")
        ...     resolver.statistics().entries
        0
        """
        driver = self._driver or self._open_again()
        octets, number = octets_of(name), type_number(record_type)
        driver.call(lambda: driver.session.clear_name(octets, number))

    def reload_servers(self, resolv_conf: File = None, *, clears: bool = False) -> None:
        """Asks the servers of resolv.conf from now on, as it stands now, and those of `servers` no more. With
        `clears` the cache is emptied.

        >>> with Resolver(servers=["127.0.0.1:9"]) as resolver:
        ...     resolver.reload_servers("nameserver 192.0.2.53\\n")
        """
        driver = self._driver or self._open_again()
        conf = read(resolv_conf, RESOLV_CONF)
        driver.call(lambda: driver.reload(conf, clears))

    def statistics(self) -> Statistics:
        """What it did, and holds.

        >>> with Resolver(servers=[SERVER]) as resolver:
        ...     found = resolver.lookup("www.example.test", "A")
        ...     resolver.statistics().sent
        1
        """
        driver = self._driver or self._open_again()
        return driver.call(driver.session.statistics)

    def _open_again(self) -> Driver:
        """In a child of fork."""
        with self._lock:
            if self._is_closed:
                raise Closed("the resolver is closed")
            if self._driver is None:
                self._driver = Driver(self._opening, self._watcher)
            return self._driver

    def _begin_anew(self) -> None:
        driver, self._driver = self._driver, None
        self._lock = threading.Lock()
        if driver is not None and not driver.is_closed:
            driver.leave()

    def close(self) -> None:
        """Closes it. What waits in other threads ends with `Closed`."""
        with self._lock:
            self._is_closed = True
            if self._driver is not None:
                self._driver.close()

    def __enter__(self) -> Resolver:
        return self

    def __exit__(
        self, kind: Optional[Type[BaseException]], error: Optional[BaseException], where: Optional[TracebackType]
    ) -> None:
        self.close()
