"""The co-process `resolve_serve`: requests go in, each question on the way is put to the network, blocks come out."""
import asyncio
import itertools
import time
from dataclasses import dataclass
from pathlib import Path
from typing import Callable, Optional

from .question import Question

TOP = Path(__file__).resolve().parents[2]
# The program as the gate leaves it; and the launcher, which compiles it without proof.
PROVED, LAUNCHER = TOP / "crates/resolve_serve/out/resolve_serve", TOP / "resolve_serve"
PROGRAM = PROVED if PROVED.exists() else LAUNCHER


class RequestFailed(Exception):
    """The request has no block: a fault of a line, or no memory."""


class ConversationEnded(RequestFailed):
    """The program has ended."""


@dataclass
class Block:
    """What came of a request: the lines that a replay prints for it."""

    lines: list

    def fields(self, *words):
        """The fields behind the first word of each line that has one of these words."""
        split = [line.split() for line in self.lines[1:]]
        return [fields[1:] for fields in split if fields[0] in words]

    def error(self):
        """The fields of an error, or None."""
        return next(iter(self.fields("err")), None)


@dataclass
class Waiting:
    """A request in flight, and what is called with each line that explains it."""

    future: asyncio.Future
    explain: Optional[Callable]


class Conversation(asyncio.SubprocessProtocol):
    """A running program. `ask` gives the lines of an outcome for a `Question`."""

    def __init__(self, ask):
        self._ask = ask
        self._waiting = {}
        self._tasks = set()
        self._marks = itertools.count()
        self._rest = b""
        self._block = None
        self._block_mark = None
        self._broken = None
        self.ended = asyncio.get_running_loop().create_future()

    @classmethod
    async def start(cls, ask, settings=(), program=PROGRAM, arguments=()):
        """Starts the program with these arguments, and tells it the settings."""
        loop = asyncio.get_running_loop()
        words = [str(program), *map(str, arguments)]
        _, conversation = await loop.subprocess_exec(lambda: cls(ask), *words, stderr=None)
        for line in settings:
            conversation._tell(line)
        return conversation

    async def request(self, words, explain=None):
        """The block of a request, of its verb and what stands behind it. Where `explain` is given, it is called with
        each line that says how the block came about."""
        if self._broken:
            raise ConversationEnded(self._broken)
        mark = f"r{next(self._marks)}"
        waiting = Waiting(asyncio.get_running_loop().create_future(), explain)
        self._waiting[mark] = waiting
        # The moment is of a clock that does not go back, and counts while the machine sleeps.
        self._tell(f"{mark} {'explain ' if explain else ''}at {int(time.clock_gettime(time.CLOCK_BOOTTIME))} {words}")
        return await waiting.future

    async def close(self):
        """Ends the program, and gives its status."""
        self._tell("end")
        self._input.close()
        return await self.ended

    def _tell(self, *lines):
        if not self._input.is_closing():
            self._input.write("".join(line + "\n" for line in lines).encode("ascii"))

    def connection_made(self, transport):
        self._transport = transport
        self._input = transport.get_pipe_transport(0)

    def pipe_data_received(self, fd, data):
        *lines, self._rest = (self._rest + data).split(b"\n")
        for line in lines:
            self._hear(line.decode("ascii"))

    def process_exited(self):
        self._break(f"the program ended with status {self._transport.get_returncode()}")
        if not self.ended.done():
            self.ended.set_result(self._transport.get_returncode())

    def _hear(self, line):
        if self._block is not None:
            self._hear_of_block(line)
            return
        mark, _, rest = line.partition(" ")
        word, _, words = rest.partition(" ")
        if word == "at":
            self._block, self._block_mark = [rest], mark
        elif word == "send":
            self._begin(self._send(mark, Question.from_fields(words.split())))
        elif word == "explain":
            if mark in self._waiting:
                self._waiting[mark].explain(words)
        elif mark == "-":
            self._break(rest)
        else:
            self._fail(mark, rest)

    def _hear_of_block(self, line):
        if line:
            self._block.append(line)
            return
        waiting = self._waiting.pop(self._block_mark, None)
        if waiting and not waiting.future.done():
            waiting.future.set_result(Block(self._block))
        self._block = None

    def _begin(self, coroutine):
        task = asyncio.ensure_future(coroutine)
        self._tasks.add(task)
        task.add_done_callback(self._tasks.discard)

    async def _send(self, mark, question):
        first, *rest = await self._outcome(question)
        end = ["done"] if first.startswith("reply ") else []
        if mark in self._waiting:
            self._tell(*(f"{mark} {line}" for line in (first, *rest, *end)))

    async def _outcome(self, question):
        """What comes of a question. Whatever goes wrong on the way, the request waits for an outcome."""
        try:
            return await self._ask(question)
        except Exception as error:
            context = {"message": f"{question.words()} was not asked for", "exception": error}
            asyncio.get_running_loop().call_exception_handler(context)
            return [f"fail message {question.words()}"]

    def _fail(self, mark, told):
        """A request has no block. Where it is still in flight, since the fault is of a line of its outcome, it is given
        up."""
        waiting = self._waiting.pop(mark, None)
        if waiting is None:
            return
        if told.startswith("fault "):
            self._tell(f"{mark} cancel")
        if not waiting.future.done():
            waiting.future.set_exception(RequestFailed(told))

    def _break(self, why):
        self._broken = self._broken or why
        for waiting in self._waiting.values():
            if not waiting.future.done():
                waiting.future.set_exception(ConversationEnded(self._broken))
        self._waiting.clear()
