"""What comes to a worker from outside: jobs, and what these wait for. Each call may be cut off by the end of the store's process, and is done
once all the same, as what is recorded tells."""
import asyncio
import itertools
import time
from collections import Counter
from contextlib import contextmanager
from typing import Any, Awaitable, Callable, Counter as CounterOf, Dict, Iterator, List, NamedTuple, Optional, Tuple, TypeVar

from .attempt import cut
from .context import serdes_of
from .delivery import BUSY, KNOWN, LATER, Delivery, content_in, missing
from .futures import TerminalError
from .serdes import BYTES, JSON, Serde, from_json, spelled
from .services import OWN_NAME, Handler, Target, check_headers, check_id, id_of, named, object_of, target_of
from .store import Ending, Shown, StoreGone, Value

T = TypeVar("T")
COUNT = itertools.count()
# How one stands that waits for its moment, or its object.
WAITS = Ending(None, True)


class Busy(Exception):
    """The object has an open invocation, of another id."""


class Status(NamedTuple):
    """How an invocation stands: the value of its answer, or (code, message) of a failure. An answer that is no JSON is bytes."""

    is_open: bool
    value: Any = None
    failure: Optional[Tuple[int, str]] = None


class Jobs(Delivery):
    """The side of a worker that is asked from outside."""

    asked: "Dict[str, List[asyncio.Future[None]]]"
    # How many go by what is recorded of an invocation, which is not forgotten under them.
    readers: CounterOf[str]

    async def reopen(self) -> None:
        """Begins the store's process anew, where it has ended."""
        raise NotImplementedError

    async def submit(self, id: Optional[str], handler: Any, argument: Any = None, key: Optional[str] = None, idempotency_key: Optional[str] = None, headers: Any = ()) -> str:
        """Makes an invocation, and returns its id: None is one of its own, or that which the idempotency key or the workflow's key
        tells. The same id again is the same invocation. Busy where the object has another one that is open."""
        body = of_caller(serdes_of(handler)[0], argument, "the argument")
        return await self.submit_bytes(id, handler, body, key, idempotency_key, headers)

    async def submit_bytes(self, id: Optional[str], handler: Any, body: bytes, key: Optional[str] = None, idempotency_key: Optional[str] = None, headers: Any = ()) -> str:
        target, found, id = await self.call_of(handler, key, idempotency_key, id)
        with self.reading(id):
            if await self.retried(self.invoke, id, target, body, check_headers(headers)) == BUSY:
                raise Busy(f"{object_of(found, target, id)} has an open invocation")
        return id

    async def call_of(self, handler: Any, key: Optional[str], idempotency_key: Optional[str], id: Optional[str]) -> Tuple[Target, Handler, str]:
        """What is called, and the id that the call has."""
        target = target_of(handler, key)
        found = await self.find(target)
        if found is None or target.service == OWN_NAME:
            raise LookupError(missing(target))
        found.check_key(target)
        return target, found, check_id(id) if id is not None else id_of(found, target, idempotency_key) or new_id(target)

    async def request(
        self, handler: Any, body: bytes, key: Optional[str] = None, idempotency_key: Optional[str] = None, headers: Any = (), delay: int = 0, id: Optional[str] = None,
    ) -> Tuple[str, bool]:
        """As `submit`, of bytes, after so many milliseconds; where the object is busy, the call waits for it. The id, and whether it is new."""
        target, _, id = await self.call_of(handler, key, idempotency_key, id)
        return id, await self.take_on(id, target, body, headers, delay)

    async def take_on(self, id: str, target: Target, body: bytes, headers: Any, delay: int) -> bool:
        """The same, of an id that a call has (`call_of`); whether it is new."""
        told, at, is_again = check_headers(headers), self.clock() + delay if delay else 0, False
        with self.reading(id):
            while True:
                try:
                    return await self.take(id, target, body, told, at) or is_again
                except StoreGone:
                    is_again = True
                    await self.reopen()

    async def take(self, id: str, target: Target, body: bytes, headers: Dict[str, str], at: int) -> bool:
        """Makes an invocation now or later; False where it is there."""
        if await self.is_known(id) or await self.is_known(id + LATER):
            return False
        came = BUSY if at else await self.invoke(id, target, body, headers)
        if came == BUSY:
            await self.invoke_later(id, target, body, headers, at)
        return came != KNOWN

    async def shown(self, id: str) -> Shown:
        """What is recorded; LookupError where there is no such invocation. One that waits for its moment, or its object, is open."""
        return await self.look_up(self.show, id, Shown([], [], None, True))

    async def look_up(self, look: Callable[[str], Awaitable[Optional[T]]], id: str, later: T) -> T:
        told = await self.retried(look, id)
        if told is not None:
            return told
        if await self.retried(self.is_known, id + LATER):
            return later
        raise LookupError(f"there is no invocation {id}")

    async def status(self, id: str) -> Status:
        """LookupError where there is none."""
        ending = await self.look_up(self.ending, id, WAITS)
        return Status(ending.is_open, *answer_in(ending.answer))

    async def answered(self, id: str) -> Status:
        """How an invocation has ended, once it has."""
        return Status(False, *answer_in((await self.outcome(id)).answer))

    async def outcome(self, id: str) -> Ending:
        """What an invocation answers, once it has ended."""
        with self.reading(id):
            while True:
                waits = asyncio.get_running_loop().create_future()
                self.asked.setdefault(id, []).append(waits)
                try:
                    ending = await self.look_up(self.ending, id, WAITS)
                    if not ending.is_open:
                        return ending
                    await waits
                finally:
                    left = self.asked.get(id, [])
                    if waits in left:
                        left.remove(waits)
                    if not left:
                        self.asked.pop(id, None)

    @contextmanager
    def reading(self, id: str) -> Iterator[None]:
        """As long as this is entered the invocation is not forgotten."""
        self.readers[id] += 1
        try:
            yield
        finally:
            self.readers[id] -= 1
            if not self.readers[id]:
                del self.readers[id]

    async def resolve_awakeable(self, id: str, value: Any = None) -> bool:
        """Whether its invocation waits, and had no value for it."""
        return await self.complete(id, of_caller(None, value, "the value"))

    async def reject_awakeable(self, id: str, message: str, code: int = 500) -> bool:
        return await self.complete(id, (code, cut(message)))

    async def complete(self, id: str, value: Value) -> bool:
        is_again = False
        while True:
            try:
                return await self.complete_awakeable(id, value, is_again)
            except StoreGone:
                is_again = True
                await self.reopen()

    async def signal(self, id: str, name: str, value: Any = None) -> None:
        """Refused where the invocation is closed (S5) or there is none (S4). Twice is two signals."""
        await self.send_signal(id, name, of_caller(None, value, "the value"))

    async def send_signal(self, id: str, name: str, content: Value) -> None:
        """Sends it once: where the answer is lost, it looks whether one more of these has come."""
        before: Optional[int] = None
        async with self.turn(("signal", id)):
            while True:
                try:
                    shown = await self.show(id)
                    many = sum(it.id == f"n:{name.encode().hex()}" and content_in(it) == content for it in shown.arrivals) if shown else 0
                    if before is None or many <= before:
                        before = many
                        await self.store.signal(id, name, content)
                    break
                except StoreGone:
                    await self.reopen()
        self.wake(id)

    async def cancel_invocation(self, id: str, again: bool = False) -> None:
        """Its handler is told so where it awaits (`Cancelled`). A second cancellation is the same one, and cuts off nothing that the handler
        undoes, unless it is wanted `again`."""
        await self.retried(self.cancel, id, again, [])

    async def retried(self, call: Callable[..., Awaitable[T]], *given: Any) -> T:
        """A call that may be repeated where the store's process is gone before it has answered."""
        while True:
            try:
                return await call(*given)
            except StoreGone:
                await self.reopen()

    def tell_asked(self, id: str) -> None:
        """Those go on who wait for its end."""
        for it in self.asked.pop(id, []):
            if not it.done():
                it.set_result(None)


def of_caller(serde: Optional[Serde[Any]], value: Any, what: str) -> bytes:
    """The bytes of what comes from outside; ValueError where it has none, or too many."""
    try:
        return spelled(serde or JSON, value, what)
    except TerminalError as error:
        raise ValueError(error.message) from error.__cause__


def new_id(target: Target) -> str:
    """An id that no other invocation has: it tells what was called, and sorts by when. No key and no call makes such a one."""
    return f"{named(target.service, target.handler, target.key)}/~t{time.time_ns():x}{next(COUNT) % 4096:03x}"


def answer_in(answer: Value, handler: Optional[Handler] = None) -> Tuple[Any, Optional[Tuple[int, str]]]:
    """The value of an answer, which is bytes where it is no JSON, and (code, message) of a failure."""
    if isinstance(answer, tuple):
        return None, answer
    if not isinstance(answer, bytes) or (handler is not None and handler.output is BYTES):
        return answer, None
    try:
        return from_json(answer), None
    except ValueError:
        return answer, None
