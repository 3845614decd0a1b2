"""A store in a file, by the process `durable --serve DATABASE`: a line asks, and a line answers, or some up to a last one. Lines go in
as they are asked, many before the first is answered; the answers come in their order."""
import asyncio
import os
import time
from collections import deque
from typing import Any, AsyncIterator, Awaitable, Callable, Deque, Dict, Iterable, List, NamedTuple, Optional, Sequence, Tuple, Union
from urllib.parse import quote_from_bytes, unquote_to_bytes

from .causes import CAUSES
from .places import find_program

# Bytes that stand for themselves in a word.
PLAIN = "".join(chr(it) for it in range(0x21, 0x7F) if chr(it) not in "%#")
PLAIN_BYTES = PLAIN.encode()
HELD = "another process has it open"
# What the store's process reads in one line, at most, and what of it a value may take.
LONGEST = 2**26
MOST = 32_000_000
# How an invocation stands that has not ended.
OPEN = "live", "due", "suspended"


class Refused(Exception):
    """The store refuses what was asked: `name` is the cause, as `S1`, and `says` what that means (docs/FORMATS.md)."""

    def __init__(self, name: str, line: str) -> None:
        self.name, self.says = name, CAUSES.get(name, "")
        super().__init__(f"{name}, {self.says}: {line}" if self.says else f"{name}: {line}")


class StoreGone(Exception):
    """The process has ended. What was answered is recorded; what was asked and not answered may be."""


class TooLong(ValueError):
    """A request that the store's process does not read, as it is too long. It was not asked."""

    def __init__(self, length: int) -> None:
        super().__init__(f"a request of {length:,} bytes is too long for the store, which reads {LONGEST:,}")


class NotUnderstood(ValueError):
    """The store's process does not know what it was asked, as an older one does not: nothing was done."""


class NotOpened(Exception):
    """The process does not take the database, as its text says."""


# None is void, bytes are a value, a code and a message are a failure.
Value = Union[None, bytes, str, Tuple[int, str]]
Words = List[str]
ONE = ()
DATABASE_FAILED = "S19"
# Seconds that a process has to end once its input has.
CLOSES = 60


class OpenRequest(NamedTuple):
    """What an open invocation has asked of others: where it is recorded, its completions that have not come, and its frame."""

    place: int
    first: Optional[int]
    second: Optional[int]
    type: int
    payload: bytes


class Arrival(NamedTuple):
    """What came, by its place: `id` is `c1`, `s17` or `n:` and digits; `kind` is void, value, failure, id or keys."""

    place: int
    id: str
    kind: str
    content: Any


class Recorded(NamedTuple):
    """What was asked for, by its place: its frame."""

    place: int
    type: int
    payload: bytes


class Shown(NamedTuple):
    """What is recorded of an invocation; its answer is None, bytes, or code and message."""

    requests: List[Recorded]
    arrivals: List[Arrival]
    answer: Value
    is_open: bool


class Ending(NamedTuple):
    """What an invocation answers, as of `Shown`, and whether it is open."""

    answer: Value
    is_open: bool


class Listed(NamedTuple):
    """An invocation: `status` is live, due, suspended, ended or failed; `answer` is none, value or failure."""

    id: str
    object: str
    status: str
    attempts: int
    entries: int
    answer: str

    @property
    def went(self) -> str:
        """As its status, but `failed` also where its handler has put out a failure."""
        return "failed" if self.answer == "failure" else self.status


def escaped(content: Union[str, bytes]) -> str:
    told = content.encode() if isinstance(content, str) else bytes(content)
    if 3 * len(told) > LONGEST and word_length(told) > LONGEST:
        raise TooLong(word_length(told))
    return quote_from_bytes(told, safe=PLAIN)


def word(content: Union[str, bytes]) -> str:
    """Text or bytes as one word."""
    told = escaped(content)
    return {"": "-", "-": "%2D"}.get(told, told)


def fits(content: bytes) -> bool:
    """Whether the store takes a value of an attempt's own."""
    return len(content) <= MOST


def word_length(content: bytes) -> int:
    """How long a word is of these: each byte that is no plain character takes three."""
    return len(content) + 2 * len(content.translate(None, PLAIN_BYTES))


def fits_word(content: bytes) -> bool:
    """Whether the store takes a value that is handed from one invocation to another."""
    return fits(content) and word_length(content) <= 2 * MOST


def unescaped(told: str) -> bytes:
    return b"" if told == "-" else unquote_to_bytes(told)


def value_word(value: Value) -> str:
    """None is void, text and bytes are a value, code and message a failure."""
    if value is None:
        return "void"
    if isinstance(value, tuple):
        return f"f:{value[0]}:{escaped(value[1])}"
    return f"v:{escaped(value)}"


def digits(told: str) -> bytes:
    return b"" if told == "-" else bytes.fromhex(told)


def number(told: str) -> Optional[int]:
    return None if told == "none" else int(told)


def read_arrival(place: int, id: str, kind: str, *content: str) -> Arrival:
    if kind == "failure":
        return Arrival(place, id, kind, (int(content[0]), digits(content[1]).decode()))
    if kind in ("value", "id"):
        return Arrival(place, id, kind, digits(content[0]))
    return Arrival(place, id, kind, content[0] if content else None)


def read_answer(kind: str, *content: str) -> Value:
    if kind == "failure":
        return int(content[0]), digits(content[1]).decode()
    return digits(content[0]) if kind == "value" else None


class Pipe(asyncio.SubprocessProtocol):
    """The process's three streams. What is asked is written once for each turn of the loop, so that many lines go by one call."""

    def __init__(self, tell_gone: Optional[Callable[[], None]] = None) -> None:
        self.loop, self.tell_gone = asyncio.get_running_loop(), tell_gone
        self.waiting: "Deque[Tuple[asyncio.Future[List[Words]], Sequence[str], str]]" = deque()
        self.lines: List[Words] = []
        self.asked: List[bytes] = []
        self.part: List[bytes] = []
        self.said = b""
        self.is_gone = False
        self.ended = self.loop.create_future()

    def ask(self, line: str, last: Sequence[str]) -> Awaitable[List[Words]]:
        answer: "asyncio.Future[List[Words]]" = self.loop.create_future()
        if self.is_gone:
            answer.set_exception(StoreGone())
            answer.exception()  # it may be one of several, of which the first is awaited
            return answer
        if not self.asked:
            self.loop.call_soon(self.flush)
        self.asked.append(line.encode() + b"\n")
        self.waiting.append((answer, last, line))
        return answer

    def flush(self) -> None:
        asked, self.asked = b"".join(self.asked), []
        if asked and not self.is_gone:
            self.transport.get_pipe_transport(0).write(asked)

    def connection_made(self, transport: Any) -> None:
        self.transport = transport

    def pipe_data_received(self, stream: int, came: bytes) -> None:
        if stream == 2:
            self.said += came
            return
        *lines, rest = came.split(b"\n")
        if lines:
            lines[0] = b"".join(self.part) + lines[0]
            self.part = []
        if rest:
            self.part.append(rest)
        for line in lines:
            self.answer(line.decode())

    def answer(self, line: str) -> None:
        if not self.waiting:
            return
        answer, last, asked = self.waiting[0]
        self.lines.append(line.split(" "))
        told = self.lines[-1][0]
        if last and told not in last and told != "refused" and line != "not understood":
            return
        lines, self.lines = self.lines, []
        if told == "refused" and lines[-1][1] == DATABASE_FAILED:
            # whether it is recorded is not known: the file is opened again before anything else is asked of it
            self.said += f"{DATABASE_FAILED}: the database refused a statement, as a disk does that is full or has failed\n".encode()
            return self.lose()
        self.waiting.popleft()
        if answer.done():  # nobody waits for it any more
            return
        if told == "refused":
            answer.set_exception(Refused(lines[-1][1], asked[:200]))
        elif line == "not understood":
            answer.set_exception(NotUnderstood(f"not understood: {asked[:200]}"))
        else:
            answer.set_result(lines)

    def pipe_connection_lost(self, stream: int, error: Any) -> None:
        if stream == 1:  # what it has answered before its end counts
            self.lose()

    def lose(self) -> None:
        """What is asked and not answered may be done, or not."""
        is_new, self.is_gone = not self.is_gone, True
        if is_new and self.tell_gone:
            self.tell_gone()
        while self.waiting:
            answer = self.waiting.popleft()[0]
            if not answer.done():
                answer.set_exception(StoreGone())
                answer.exception()  # somebody may have gone away

    def process_exited(self) -> None:
        self.lose()

    def connection_lost(self, error: Any) -> None:
        self.lose()
        if not self.ended.done():
            self.ended.set_result(None)


class Store:
    """The store of a database, a path or `:memory:`. Where another process has the file, it waits so many seconds for it. Each call is
    sent when it is made; where it records, it is recorded when it returns."""

    def __init__(self, database: Any, program: Optional[str] = None, patience: float = 10.0) -> None:
        self.database, self.program, self.patience = os.fspath(database), program or find_program(), patience
        self.pipe: Optional[Pipe] = None
        # Hears that the process has ended.
        self.tell_gone: Optional[Callable[[], None]] = None

    @property
    def is_gone(self) -> bool:
        return self.pipe is None or self.pipe.is_gone

    async def open(self) -> None:
        """Begins the process anew. NotOpened where it does not take the database."""
        ends = time.monotonic() + self.patience
        while True:
            await self.close()
            # in a session of its own, so that it ends when its input does, and not where a terminal interrupts the worker
            run = asyncio.get_running_loop().subprocess_exec
            _, self.pipe = await run(lambda: Pipe(self.tell_gone), self.program, "--serve", self.database, start_new_session=True)
            try:
                await self.next_moment()
                return
            except StoreGone:
                why = await self.close()
            if (why and HELD not in why) or time.monotonic() > ends:
                raise NotOpened(f"{self.database}: {why or 'the process ends at once'}")
            await asyncio.sleep(0.02)

    async def close(self) -> str:
        """Ends the process, and returns what it has said: all that is recorded is in the file then."""
        pipe, self.pipe = self.pipe, None
        if pipe is None:
            return ""
        pipe.flush()
        pipe.transport.get_pipe_transport(0).close()
        await asyncio.wait({pipe.ended}, timeout=CLOSES)
        if not pipe.ended.done():
            pipe.transport.kill()
            await pipe.ended
        pipe.transport.close()
        return pipe.said.decode(errors="replace").strip()

    def ask(self, *words: Any, last: Sequence[str] = ONE) -> Awaitable[List[Words]]:
        """Asks one line; awaited, the words of each line of its answer, up to one that begins with one of `last`."""
        if self.pipe is None:
            raise StoreGone
        line = " ".join(map(str, words))
        if len(line) >= LONGEST:
            raise TooLong(len(line))
        return self.pipe.ask(line, last)

    # ---- what comes from outside: each is recorded when it returns
    async def invoke(self, id: str, object: str, input: bytes, headers: Any = (), version: int = 9, seed: int = 1) -> None:
        """Makes an invocation. Refused: S1 where its object has an open one (this one, it may be), S3 where its id was used."""
        told = (word(it) for pair in dict(headers).items() for it in pair)
        await self.ask("invoke", word(id), word(object), version, "whole", seed, word(input), *told)

    async def result(self, id: str, completion: int, value: Value) -> None:
        await self.ask("result", word(id), completion, value_word(value))

    async def result_id(self, id: str, completion: int, invocation: str) -> None:
        await self.ask("result", word(id), completion, f"id:{escaped(invocation)}")

    async def signal(self, id: str, name: Union[str, int], value: Value) -> None:
        """To a signal's name, or its number."""
        await self.ask("signal", word(id), f"#{name}" if isinstance(name, int) else word(name), value_word(value))

    async def cancel(self, id: str) -> None:
        await self.ask("cancel", word(id))

    async def forget(self, ids: Iterable[str]) -> None:
        """Forgets invocations that have ended, all of these or none: their ids are free again, and what they made of their objects' states
        stays. Refused: S1 where one is open, S4 where one is not there. NotUnderstood by an older process."""
        await self.ask("forget", *map(word, ids))

    async def tick(self, now: int) -> int:
        """The sleeps that are over at this moment end; how many."""
        return int((await self.ask("tick", now))[0][1])

    # ---- attempts
    async def begin(self, id: str, now: int) -> Tuple[int, str, bytes]:
        """An attempt's number, its content type, and its first bytes of input."""
        [[_, attempt, content_type, start]] = await self.ask("begin", word(id), now)
        return int(attempt), content_type, digits(start)

    async def input(self, id: str, attempt: int, frames: int = 1, most: int = 2**26) -> List[bytes]:
        """The next frames of its input, so many; an empty one where none remains now."""
        asked = [self.ask("input", word(id), attempt, most) for _ in range(frames)]
        came = await asyncio.gather(*asked, return_exceptions=True)
        for it in came:
            if isinstance(it, BaseException):
                raise it
        return [digits(it[0][1]) for it in came if not isinstance(it, BaseException)]

    async def output(self, id: str, attempt: int, stream: bytes) -> Tuple[List[str], Optional[str]]:
        """What each frame came to (a place, noted, suspended, failed, ended), and why no further one was taken, or None."""
        [[_, *told]] = await self.ask("output", word(id), attempt, stream.hex() or "-")
        return (told[:-2], told[-1]) if told[-2:-1] == ["refused"] else (told, None)

    async def close_input(self, id: str, attempt: int) -> None:
        await self.ask("close", word(id), attempt)

    async def stop(self, id: str, attempt: int) -> None:
        await self.ask("stop", word(id), attempt)

    # ---- what is asked
    async def due(self) -> List[str]:
        [[_, *ids]] = await self.ask("due")
        return [unescaped(it).decode() for it in ids]

    async def is_due(self, id: str) -> bool:
        [[_, *ids]] = await self.ask("due", word(id))
        return bool(ids)

    async def next_moment(self) -> Optional[int]:
        return number((await self.ask("next"))[0][1])

    async def show(self, id: str) -> Shown:
        lines = await self.ask("show", word(id), last=("open", "closed"))
        rows = lines[:-2]
        requests = [Recorded(int(it[0]), int(it[2], 16), digits(it[3])) for it in rows if it[1] == "request"]
        arrivals = [read_arrival(int(it[0]), *it[2:]) for it in rows if it[1] == "arrival"]
        return Shown(requests, arrivals, read_answer(*lines[-2][1:]), lines[-1][0] == "open")

    async def ending(self, id: str) -> Ending:
        """As `show` ends, without what is recorded."""
        answer, openness = await self.ask("answer", word(id), last=("open", "closed"))
        return Ending(read_answer(*answer[1:]), openness[0] == "open")

    async def state(self, object: str) -> Dict[bytes, bytes]:
        lines = await self.ask("state", word(object), last=("end",))
        return {digits(it[1]): digits(it[2]) for it in lines[:-1]}

    async def error(self, id: str) -> Optional[Tuple[int, int, Optional[int], str]]:
        """The last error: code, behaviour (0 again, 1 pause, 2 fail), delay in milliseconds or None, message. None where there is none."""
        [[_, *told]] = await self.ask("error", word(id))
        return None if told == ["none"] else (int(told[0]), int(told[1]), number(told[2]), unescaped(told[3]).decode())

    async def requests(self, id: str) -> List[OpenRequest]:
        rows = (await self.ask("requests", word(id), last=("end",)))[:-1]
        return [OpenRequest(int(it[2]), number(it[3]), number(it[4]), int(it[5], 16), digits(it[6])) for it in rows]

    async def page(self, after: str = "", most: int = 1000) -> List[Listed]:
        """The first invocations behind an id."""
        rows = (await self.ask("list", word(after), most, last=("end",)))[:-1]
        return [Listed(unescaped(it[1]).decode(), unescaped(it[2]).decode(), it[3], int(it[4]), int(it[5]), it[6]) for it in rows]

    async def rows(self) -> AsyncIterator[Listed]:
        """All invocations, by id, a page at a time."""
        last = ""
        while rows := await self.page(last):
            last = rows[-1].id
            for it in rows:
                yield it

    async def list(self) -> "List[Listed]":
        """The same, at once."""
        return [it async for it in self.rows()]
