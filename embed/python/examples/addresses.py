#!/usr/bin/env python3
"""Looks the addresses of hosts up, one after another, as the system's files say: addresses.py HOST .."""
import sys

import yimarotu


def main():
    with yimarotu.Resolver(timeout=10) as resolver:
        for host in sys.argv[1:]:
            try:
                found = resolver.addresses(host)
                print(host, *found, "until", found.until)
            except yimarotu.NoAnswer:
                print(host, "has no address")
            except yimarotu.Error as error:
                print(error)


if __name__ == "__main__":
    main()
