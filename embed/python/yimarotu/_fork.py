"""Resolvers in a child of fork: each opens anew there, with another seed."""
from __future__ import annotations

import os
import weakref
from typing import Protocol


class Anew(Protocol):
    def _begin_anew(self) -> None: ...


_resolvers: weakref.WeakSet[Anew] = weakref.WeakSet()


def tell(resolver: Anew) -> None:
    """From now on a child of fork tells the resolver to begin anew."""
    _resolvers.add(resolver)


def _in_child() -> None:
    for resolver in list(_resolvers):
        resolver._begin_anew()


os.register_at_fork(after_in_child=_in_child)
