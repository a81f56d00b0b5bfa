"""Tells what goes over the network, in lines that begin with `;`."""
from __future__ import annotations

import struct
from typing import Dict, List, Tuple

from ._driven import now
from ._network import Server, Watcher
from .errors import code_word
from .records import read_question

HEADER = 12


def explain(words: str) -> None:
    print(f"; {words}", flush=True)


class Explainer(Watcher):
    """Tells each question that is sent, to whom, and what came of it after how long. Whether a message is believed, the
    library decides: what is told is what came."""

    def __init__(self) -> None:
        self._servers: Dict[int, Server] = {}
        # What was asked on a channel, by the id of its message, and when.
        self._asked: Dict[Tuple[int, int], Tuple[str, int]] = {}
        self._streams: Dict[int, bytes] = {}
        # The names that were asked for since `begin`.
        self.names: List[str] = []
        self._is_looking_up = False

    def begin(self) -> None:
        self.names, self._is_looking_up = [], True

    def opened(self, channel: int, server: Server) -> None:
        self._servers[channel] = server

    def sent(self, channel: int, octets: bytes) -> None:
        server = self._servers[channel]
        message = octets[2:] if server.is_stream else octets
        name, record_type = read_question(message)
        question = f"{name.lower()} {record_type}"
        self._asked[channel, _id_of(message)] = question, now()
        if name.lower() not in self.names:
            self.names.append(name.lower())
        explain(f"{question} is asked of {server}")

    def came(self, channel: int, octets: bytes) -> None:
        if not self._servers[channel].is_stream:
            self._tell(channel, octets)
            return
        self._streams[channel] = octets = self._streams.get(channel, b"") + octets
        while len(octets) >= 2 and len(octets) >= 2 + int.from_bytes(octets[:2], "big"):
            length = int.from_bytes(octets[:2], "big")
            self._tell(channel, octets[2 : 2 + length])
            self._streams[channel] = octets = octets[2 + length :]

    def failed(self, channel: int, why: str) -> None:
        explain(f"{self._servers[channel]}: {why}")

    def closed(self, channel: int) -> None:
        for key in [key for key in self._asked if key[0] == channel]:
            question, moment = self._asked.pop(key)
            if self._is_looking_up:
                explain(f"{self._servers[channel]} said nothing of {question} for {now() - moment} ms")

    def _tell(self, channel: int, message: bytes) -> None:
        server = self._servers[channel]
        asked = self._asked.pop((channel, _id_of(message)), None) if len(message) >= HEADER else None
        if asked is None:
            explain(f"{server} sent {len(message)} octets that are no reply to a question")
            return
        question, moment = asked
        explain(f"{server} said of {question} after {now() - moment} ms: {_outcome(message)}")

    def end(self) -> None:
        """Tells which names were attempted, or that nobody was asked."""
        self._is_looking_up = False
        if not self.names:
            explain("no question was sent: the cache, the hosts or the name itself answers")
        elif len(self.names) > 1:
            explain(f"names that were attempted: {' '.join(self.names)}")


def _id_of(message: bytes) -> int:
    return int.from_bytes(message[:2], "big")


def _outcome(message: bytes) -> str:
    """The code of a reply, and how many records it has."""
    flags, answers = struct.unpack_from(">2xH2xH", message)
    told = [code_word(flags & 15), f"{answers} answers" if answers != 1 else "1 answer"]
    if flags & 0x0200:
        told.append("truncated")
    return ", ".join(told)
