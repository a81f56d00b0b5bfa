#!/usr/bin/env python3
"""Looks the addresses of hosts up, all at once: many.py HOST .."""
import asyncio
import sys

from yimarotu import aio


async def main():
    async with aio.Resolver() as resolver:
        hosts = sys.argv[1:]
        for host, found in zip(hosts, await asyncio.gather(*map(resolver.addresses, hosts), return_exceptions=True)):
            print(host, found)


if __name__ == "__main__":
    asyncio.run(main())
