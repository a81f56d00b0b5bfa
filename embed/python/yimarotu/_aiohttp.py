"""The resolver as aiohttp wants one."""
from __future__ import annotations

import socket
from typing import Any, Dict, List, Optional

from aiohttp.abc import AbstractResolver

from . import aio
from ._getaddrinfo import gaierror_of
from .errors import Error, NoRecords


class AiohttpResolver(AbstractResolver):
    def __init__(self, resolver: Optional[aio.Resolver] = None) -> None:
        self._is_own = resolver is None
        self._resolver = aio.Resolver() if resolver is None else resolver

    async def resolve(self, host: str, port: int = 0, family: int = socket.AF_UNSPEC) -> List[Dict[str, Any]]:
        """The places of a host, of one family or of both. What goes wrong is told as by getaddrinfo: aiohttp would take
        a TimeoutError for one of the connection."""
        try:
            found = await self._resolver.addresses(host)
        except Error as error:
            raise gaierror_of(error) from error
        families = [(socket.AF_INET if it.version == 4 else socket.AF_INET6, str(it)) for it in found]
        places = [
            {
                "hostname": host, "host": address, "port": port, "family": kind, "proto": 0,
                "flags": socket.AI_NUMERICHOST | socket.AI_NUMERICSERV,
            }
            for kind, address in families if family in (socket.AF_UNSPEC, kind)
        ]
        if not places:
            raise gaierror_of(NoRecords())
        return places

    async def close(self) -> None:
        if self._is_own:
            await self._resolver.close()
