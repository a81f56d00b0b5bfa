"""A resolver for asyncio: each call is awaited."""
from __future__ import annotations

import asyncio
import ipaddress
from types import TracebackType
from typing import TYPE_CHECKING, Dict, Iterable, Optional, Type, Union

from . import _fork
from ._driven import Statistics
from ._network import LONGEST, STILL, Channel, Network, Watcher
from ._requests import ForAddresses, ForRecords, Given, Request, octets_of, pointer_of
from ._settings import CACHE_OCTETS, RESOLV_CONF, File, Opening, Server, opening, read
from .answers import Addresses, Answer, Names
from .errors import Closed, Timeout
from .records import type_number

if TYPE_CHECKING:
    from ._aiohttp import AiohttpResolver

__all__ = ["Resolver", "resolver_for_aiohttp"]

# Where something could not be done, as for want of memory, it is tried again so many seconds later.
AGAIN = 0.05


class Driver(Network):
    """A session whose sockets are watched by an event loop."""

    def __init__(self, given: Opening, loop: asyncio.AbstractEventLoop, watcher: Optional[Watcher] = None) -> None:
        super().__init__(given, watcher)
        self.loop, self.is_closed = loop, False
        self._waiting: Dict[int, asyncio.Future[None]] = {}
        self._next_number = 1
        self._timer: Optional[asyncio.TimerHandle] = None
        self._due = 0.0

    def watch(self, channel: Channel) -> None:
        self.loop.add_reader(channel.sock.fileno(), self._readable, channel)

    def watch_room(self, channel: Channel, is_wanted: bool) -> None:
        if is_wanted:
            self.loop.add_writer(channel.sock.fileno(), self._writable, channel)
        else:
            self.loop.remove_writer(channel.sock.fileno())

    def unwatch(self, channel: Channel) -> None:
        if not self.loop.is_closed():
            self.loop.remove_reader(channel.sock.fileno())
            if channel.server.is_stream:
                self.loop.remove_writer(channel.sock.fileno())

    def _readable(self, channel: Channel) -> None:
        try:
            self.receive(channel)
        finally:
            self._settle()

    def _writable(self, channel: Channel) -> None:
        try:
            self.flush(channel)
        finally:
            self._settle()

    def stood_still(self) -> bool:
        """Whether the loop was blocked: the timer is late."""
        if self._timer is None or self.loop.time() < self._due + STILL:
            return False
        self._timer.cancel()
        self._timer = None
        return True

    async def look_up(self, request: Request[Given], timeout: Optional[float]) -> Given:
        """What a look-up came to."""
        number, self._next_number = self._next_number, self._next_number + 1
        is_done = not request.start(self.session, number)
        try:
            if not is_done:
                await self._wait(number, timeout, request.name)
                is_done = True
            return request.read(self.session, number)
        finally:
            self._waiting.pop(number, None)
            if not self.is_closed:
                self.session.forget(number, is_done)
                self._settle()

    async def _wait(self, number: int, timeout: Optional[float], name: str) -> None:
        waiting = self._waiting[number] = self.loop.create_future()
        self._settle()
        limit = None
        if timeout is not None:
            limit = self.loop.call_later(timeout, _fail, waiting, Timeout("nobody answered in time", name))
        try:
            await waiting
        finally:
            if limit is not None:
                limit.cancel()

    def _settle(self) -> None:
        """Does what is to be done, tells those whose look-up is done, and sets the timer anew: also where not all of it
        was done."""
        try:
            self.act()
        except BaseException:
            self._tick_within(AGAIN)
            raise
        finally:
            while self.done:
                waiting = self._waiting.get(self.done[0])
                if waiting is not None and not waiting.done():
                    waiting.set_result(None)
                self.done.popleft()
        if self.has_sent or self._timer is None and (self._waiting or self.channels):
            self.has_sent = False
            self._set_timer()

    def _set_timer(self) -> None:
        wait = self.session.wait()
        if wait is not None:
            # (a millisecond that has begun counts whole)
            self._tick_within(min((wait + 1) / 1000, LONGEST))

    def _tick_within(self, seconds: float) -> None:
        """Where the timer would come too late, it is set anew. One that comes too early does no harm."""
        due = self.loop.time() + seconds
        if self._timer is None or due < self._due:
            if self._timer is not None:
                self._timer.cancel()
            self._timer, self._due = self.loop.call_at(due, self._tick), due

    def _tick(self) -> None:
        # (the next timer would not tell that this one was late)
        is_late, self._timer = self.stood_still(), None
        try:
            if is_late:
                self.let_go()
            else:
                self.session.tick()
        except BaseException:
            self._tick_within(AGAIN)
            raise
        finally:
            self._settle()

    def close(self) -> None:
        if self.is_closed:
            return
        self.is_closed = True
        super().close()
        if self._timer is not None:
            self._timer.cancel()
        if self.loop.is_closed():
            return
        for waiting in self._waiting.values():
            _fail(waiting, Closed("the resolver is closed"))


def _fail(waiting: "asyncio.Future[None]", error: Exception) -> None:
    if not waiting.done():
        waiting.set_exception(error)


class Resolver:
    """Looks names up in an event loop, with a cache. What it is made with is that of `yimarotu.Resolver`, and so is
    what its calls give and raise.

    Any number of tasks may look up at once: each look-up has sockets of its own, and no thread is started. Equal
    questions that are on their way are sent once. **Cancelling a task** cancels its look-up, and closes its sockets
    at once.
    **Closing** ends what waits with `Closed`; `async with` closes it. It belongs to the event loop in which it is used
    first, and to that thread; used in another loop once that one is closed, or in a child of fork, it opens anew, with
    another seed and an empty cache.

    >>> async def main():
    ...     async with Resolver(servers=[SERVER]) as resolver:
    ...         names = ["www.example.test", "four.example.test"]
    ...         for found in await asyncio.gather(*map(resolver.addresses, names)):
    ...             print(found[0])
    >>> asyncio.run(main())
    2001:db8::1
    192.0.2.4
    """

    def __init__(
        self, *, resolv_conf: File = None, hosts: File = None, hostname: Optional[str] = None,
        settings: Union[str, Iterable[str]] = (), servers: Iterable[Server] = (),
        cache_octets: Optional[int] = CACHE_OCTETS, timeout: Optional[float] = None, _watcher: Optional[Watcher] = None,
    ) -> None:
        self._opening = opening(resolv_conf, hosts, hostname, settings, servers, cache_octets)
        self._watcher, self._timeout = _watcher, timeout
        self._driver: Optional[Driver] = None
        self._is_closed = False
        _fork.tell(self)

    async def addresses(self, host: str, *, timeout: Optional[float] = None) -> Addresses:
        """The addresses of a host, in the order of the answer.

        >>> async def main():
        ...     async with Resolver(servers=[SERVER]) as resolver:
        ...         return await resolver.addresses("four.example.test", timeout=5)
        >>> asyncio.run(main())
        [IPv4Address('192.0.2.4')]
        """
        return await self._look_up(ForAddresses(host), timeout)

    async def lookup(
        self, name: str, record_type: Union[str, int] = "A", *, timeout: Optional[float] = None
    ) -> Answer:
        """The records of a type for a name.

        >>> async def main():
        ...     async with Resolver(servers=[SERVER]) as resolver:
        ...         for record in await resolver.lookup("example.test", "TXT"):
        ...             print(record.data.strings)
        >>> asyncio.run(main())
        (b'v=spf1 -all', b'two words')
        """
        return await self._look_up(ForRecords(name, record_type), timeout)

    async def reverse(
        self, address: Union[str, ipaddress.IPv4Address, ipaddress.IPv6Address], *, timeout: Optional[float] = None
    ) -> Names:
        """The names of an address.

        >>> async def main():
        ...     async with Resolver(servers=[SERVER], hosts="192.0.2.9 printer.example.test\\n") as resolver:
        ...         return await resolver.reverse("192.0.2.9")
        >>> asyncio.run(main())
        ['printer.example.test.']
        """
        return Names.of(await self.lookup(pointer_of(address), "PTR", timeout=timeout))

    async def _look_up(self, request: Request[Given], timeout: Optional[float]) -> Given:
        return await self._driver_here().look_up(request, self._timeout if timeout is None else timeout)

    def _driver_here(self) -> Driver:
        """The driver of the running loop."""
        loop = asyncio.get_running_loop()
        driver = self._driver
        if driver is not None and driver.loop is loop:
            return driver
        if self._is_closed:
            raise Closed("the resolver is closed")
        if driver is not None:
            if not driver.loop.is_closed():
                raise RuntimeError("the resolver belongs to another event loop")
            driver.close()
        self._driver = Driver(self._opening, loop, self._watcher)
        return self._driver

    def clear(self) -> None:
        """Empties the cache."""
        if self._driver is not None:
            self._driver.session.clear()

    def clear_name(self, name: str, record_type: Union[str, int] = "A") -> None:
        """Drops from the cache what it has for a name, of a type."""
        if self._driver is not None:
            self._driver.session.clear_name(octets_of(name), type_number(record_type))

    def reload_servers(self, resolv_conf: File = None, *, clears: bool = False) -> None:
        """Asks the servers of resolv.conf from now on, as it stands now. With `clears` the cache is emptied."""
        driver = self._driver_here()
        driver.session.servers(read(resolv_conf, RESOLV_CONF), clears)
        driver._settle()

    def statistics(self) -> Statistics:
        """What it did, and holds."""
        return self._driver_here().session.statistics()

    def _begin_anew(self) -> None:
        driver, self._driver = self._driver, None
        if driver is not None and not driver.is_closed:
            driver.leave()

    async def close(self) -> None:
        """Closes it. What waits ends with `Closed`."""
        self._is_closed = True
        if self._driver is not None:
            self._driver.close()

    async def __aenter__(self) -> Resolver:
        return self

    async def __aexit__(
        self, kind: Optional[Type[BaseException]], error: Optional[BaseException], where: Optional[TracebackType]
    ) -> None:
        await self.close()


def resolver_for_aiohttp(resolver: Optional[Resolver] = None) -> AiohttpResolver:
    """A resolver for a connector of aiohttp, over one that is given, or over one of its own, which it closes.

        connector = aiohttp.TCPConnector(resolver=yimarotu.aio.resolver_for_aiohttp())
        async with aiohttp.ClientSession(connector=connector) as session: ...

    >>> resolver_for_aiohttp()  # doctest: +SKIP
    """
    from ._aiohttp import AiohttpResolver

    return AiohttpResolver(resolver)
