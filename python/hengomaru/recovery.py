"""How a worker begins, and begins again: what it knows it asks the store for, and what is amiss with one invocation ends no other."""
import asyncio
import logging
import time
from collections import deque
from typing import Any, Awaitable, Callable, Deque, Dict, Iterable, Optional, Set

from . import pb
from .delivery import LATER
from .futures import told_of
from .jobs import Jobs
from .services import Handler
from .session import Session
from .store import DATABASE_FAILED, OPEN, NotOpened, Refused, StoreGone, Value

log = logging.getLogger("hengomaru")
FIRST_INTERVAL, LAST_INTERVAL = 50, 10_000
PAUSE, ERROR = 1, 0x0002
NEVER = float("inf")
# Seconds until the store's process is begun again that has ended, at first and at most; and how long one goes on that is well.
FIRST_REST, LAST_REST, WELL = 0.05, 5.0, 10.0
# Why a file is not taken that may be taken later.
PASSES = "the disk failed or is full", "memory was refused", DATABASE_FAILED


class Recovery(Jobs):
    """The side of a worker that begins, and keeps who is not to be gone on with."""

    pulse: asyncio.Event
    opening: asyncio.Lock
    live: Dict[str, Session]
    cut_off: Dict[str, Session]
    tasks: "Set[asyncio.Task[Any]]"
    backlog: Deque[str]
    dirty: Set[str]
    # How often each has failed in a row, and of these how often its handler; when it is tried again; what was told of it.
    failures: Dict[str, int]
    faults: Dict[str, int]
    not_before: Dict[str, float]
    told: Dict[str, Set[str]]
    # When each that has ended may be forgotten, where its handler has a retention.
    ended: Dict[str, float]
    is_closed: bool
    # When the store's process was begun, and how many seconds it was waited for.
    opened_at: float
    rest: float

    def end_of(self, id: str, answer: Value, caller: Optional[str], handler: Optional[Handler]) -> None:
        raise NotImplementedError

    async def recover(self) -> None:
        """Asks the store for all: who waits for whom, and what was recorded and not delivered. What cannot be read of one invocation keeps
        that one alone from going on."""
        self.reset()
        self.backlog.clear()
        self.dirty.clear()
        await self.survey()
        found = set(self.objects)
        for id in sorted(found):
            await self.guarded(id, self.recover_posts(id))
        await together((self.guarded(it, self.recover_one(it)) for it in sorted(found)), 64)
        for id in [it for it in self.asked if it not in found]:
            self.tell_asked(id)
        self.pulse.set()

    async def survey(self) -> None:
        """Lists all: which are open, and which wait to call. When others have ended is known of those alone that are still there."""
        gone = set(self.ended)
        async for it in self.store.rows():
            if it.status in OPEN:
                self.objects[it.id] = it.object
            else:
                gone.discard(it.id)
            if it.id.endswith(LATER):
                self.laters.add(it.id)
        for id in gone:
            del self.ended[id]

    async def guarded(self, id: str, work: Awaitable[None]) -> None:
        """Does one's part of a beginning. One that is amiss is told, and put aside until a worker begins anew, or `resume`."""
        try:
            await work
        except StoreGone:
            raise
        except Refused as refused:
            if refused.name not in ("S4", "S5"):  # it has ended meanwhile
                self.put_aside(id, refused)
        except Exception as error:
            self.put_aside(id, error)

    def put_aside(self, id: str, error: BaseException) -> None:
        self.not_before[id] = NEVER
        log.error("%s: what is recorded of it cannot be read, and it is put aside: %s. The others go on", id, told_of(error))

    async def recover_posts(self, id: str) -> None:
        await self.post_again(id, await self.store.show(id))

    async def recover_one(self, id: str) -> None:
        """An invocation that was paused stays so until `resume`."""
        error = await self.store.error(id)
        if error and error[1] == PAUSE:
            self.not_before[id] = NEVER
        await self.deliver(id)

    async def reopen(self) -> None:
        """Begins the store's process anew: at once where it was well, and later each time where it was not."""
        async with self.opening:
            while self.store.is_gone:
                if self.is_closed:
                    raise StoreGone("the worker is closed")
                for task in list(self.tasks):
                    task.cancel()
                await asyncio.gather(*self.tasks, return_exceptions=True)
                said = await self.store.close()
                is_well = time.monotonic() - self.opened_at > WELL
                self.rest = 0.0 if is_well else min(max(2 * self.rest, FIRST_REST), LAST_REST)
                log.warning("the store's process has ended%s: it is begun anew%s", f" ({said})" if said else "", f" in {self.rest:.2g} s" if self.rest else "")
                await asyncio.sleep(self.rest)
                try:
                    await self.store.open()
                    self.opened_at = time.monotonic()
                    await self.recover()
                except StoreGone:
                    pass
                except NotOpened as error:
                    if not any(it in str(error) for it in PASSES):
                        raise
            await self.after_reopening()

    async def after_reopening(self) -> None:
        """What was live when the store's process ended may have ended too, and nobody was told. What is still open rests, where the
        process ends again and again: it may be what ends it."""
        cut_off, self.cut_off = self.cut_off, {}
        for id, session in cut_off.items():
            if id in self.objects:
                if self.rest > FIRST_REST:
                    self.put_off(id, self.interval(id), is_fault=False)
                continue
            try:
                ending = await self.ending(id)
            except StoreGone:
                self.cut_off.update(cut_off)
                return
            if ending is not None and not ending.is_open:
                self.end_of(id, ending.answer, session.caller, self.app.find(session.target))

    async def pause(self, id: str) -> None:
        """Stops an invocation until `resume`, also for a worker that begins later: its last error says so."""
        self.not_before[id] = NEVER
        try:
            await self.retried(self.tell_error, id, "paused by hand", PAUSE)
        except BaseException:
            self.not_before.pop(id, None)
            raise
        self.not_before[id] = NEVER

    async def resume(self, id: str) -> None:
        """Goes on with an invocation that is paused, or waits for its next try."""
        error = await self.retried(self.store.error, id)
        if error and error[1] == PAUSE and id not in self.live:
            await self.retried(self.tell_error, id, "resumed by hand", 0)
        self.clear(id)
        self.not_before.pop(id, None)
        self.pulse.set()

    def clear(self, id: str) -> None:
        """It has got further: how often it has failed is of no account."""
        self.failures.pop(id, None)
        self.faults.pop(id, None)
        self.told.pop(id, None)

    async def tell_error(self, id: str, message: str, behavior: int) -> None:
        """Ends a live attempt, and begins one that tells an error."""
        session = self.live.get(id)
        if session and session.task and session.task is not asyncio.current_task():
            session.task.cancel()
            await asyncio.wait({session.task})
        number, _, _ = await self.store.begin(id, self.clock())
        error = pb.record((1, 500), (2, message), (8, behavior or None))
        await self.store.output(id, number, pb.frame(ERROR, error))

    def interval(self, id: str) -> int:
        """Milliseconds until an invocation is tried again, whose attempt has failed: each time twice as long."""
        return min(FIRST_INTERVAL << min(self.failures.get(id, 0), 20), LAST_INTERVAL)

    def put_off(self, id: str, delay: float, is_fault: bool = True) -> None:
        self.failures[id] = self.failures.get(id, 0) + 1
        self.faults[id] = self.faults.get(id, 0) + is_fault
        self.not_before[id] = self.clock() + delay


async def together(work: Iterable[Awaitable[Any]], most: int) -> None:
    """All of these, so many at a time."""
    room = asyncio.Semaphore(most)

    async def one(it: Awaitable[Any]) -> None:
        async with room:
            await it

    await asyncio.gather(*(one(it) for it in work))
