"""A worker: it goes on with what is due, many attempts side by side, delivers what was asked of others, and wakes itself at the next
moment. What is amiss with one invocation is told, and tried again later; it ends no other."""
import asyncio
import functools
import logging
import time
from collections import Counter, deque
from concurrent.futures import ThreadPoolExecutor
from datetime import timedelta
from typing import Any, Awaitable, Callable, Coroutine, Deque, Dict, List, Optional, Set, Union

from . import machine as machines
from .attempt import Attempt, cut
from .delivery import LATER, OWN, TRANSIENT
from .forgetting import Awaited, Forgetting
from .futures import told_of
from .jobs import Busy, Status, answer_in
from .recovery import FIRST_INTERVAL, LAST_INTERVAL, NEVER, PAUSE
from .services import OWN_NAME, App, Handler, Service, check_retention
from .session import Session, woken
from .store import Refused, Store, StoreGone, Value

__all__ = ["Awaited", "Busy", "FIRST_INTERVAL", "HostGone", "LAST_INTERVAL", "NEVER", "PAUSE", "Status", "Worker", "now_in_millis"]
log = logging.getLogger("hengomaru")
MISMATCH = 570
# So many different things are told of one invocation until it gets further.
MOST_TOLD = 10


def now_in_millis() -> int:
    return int(time.time() * 1000)


class HostGone(Exception):
    """Where the handler is cannot be reached, or does not speak as it should: the attempt is tried again."""


Host = Callable[[Session], Awaitable[None]]


class Worker(Forgetting):
    """Goes on with the invocations of a database, whose handlers are an app's or a list of services.

    At most `limit` attempts are live at a time. One that waits stays so for `linger` seconds, unless its place is wanted, and then is
    suspended. One that fails is tried again, later each time; after `tries` failures in a row it is paused until `resume` (0: never).
    Plain functions as bodies of runs go in so many `threads`. Where handlers are elsewhere, `host` takes a session there (`remote.py`). It
    tells by `ended(id, value, failure)` of each invocation that ends, and that no other has called. Where the store's process is gone, it
    is begun anew. A worker belongs to the loop, and the thread, that have opened it.

    What has ended is forgotten a `retention` later: its id is unknown then, and free, so it answers a second submit no longer. A handler may
    have its own; where nobody has one, nothing is forgotten but by `purge` and `forget`. No store keeps when something has ended: where the
    worker has not seen it, it counts from its own beginning.
    """

    def __init__(
        self, database: Any, app: Union[App, List[Service]], program: Optional[str] = None, clock: Callable[[], int] = now_in_millis,
        ended: Optional[Callable[[str, Any, Any], None]] = None, limit: int = 256, linger: float = 0.5, threads: int = 64, host: Optional[Host] = None,
        tries: int = 100, retention: Optional[timedelta] = None,
    ) -> None:
        self.app = app if isinstance(app, App) else App(app)
        self.app[OWN_NAME] = OWN
        self.store, self.clock, self.tell_ended = Store(database, program), clock, ended
        self.limit, self.linger, self.tries, self.host = limit, linger, tries, host or self.here
        self.retention, self.ended, self.completes, self.touched, self.forgotten, self.took = check_retention(retention), {}, {}, set(), 0, 0.0
        self.pool = ThreadPoolExecutor(threads, "hengomaru-run")
        self.live: Dict[str, Session] = {}
        # Those whose store's process has ended under them.
        self.cut_off: Dict[str, Session] = {}
        self.idle: Dict[str, Session] = {}
        self.backlog: Deque[str] = deque()
        self.tasks: "Set[asyncio.Task[Any]]" = set()
        self.dirty: Set[str] = set()
        self.asked: "Dict[str, List[asyncio.Future[None]]]" = {}
        self.readers = Counter()
        # How often each has failed in a row, and of these how often its handler; when it is tried again; what was told of it.
        self.failures: Dict[str, int] = {}
        self.faults: Dict[str, int] = {}
        self.not_before: Dict[str, float] = {}
        self.told: Dict[str, Set[str]] = {}
        # The protocol's version of what is made.
        self.version = 9
        self.is_stopping = self.is_watching = self.is_closed = self.is_unable = False
        self.began = self.done = 0
        # When the store's process was begun, and how many seconds it was waited for.
        self.opened_at, self.rest = 0.0, 0.0

    # ---- beginning and end
    async def open(self) -> "Worker":
        if self.host == self.here:
            machines.find()
        self.prepare()
        await self.store.open()
        self.opened_at = time.monotonic()
        try:
            try:
                await self.recover()
            except StoreGone:
                await self.reopen()
        except BaseException:
            await self.store.close()
            raise
        return self

    def prepare(self) -> None:
        """Makes what belongs to the running loop."""
        self.pulse, self.opening, self.purging = asyncio.Event(), asyncio.Lock(), asyncio.Lock()
        self.store.tell_gone = self.pulse.set
        self.began_at = self.clock()
        self.purges_again()
        self.reset()

    async def close(self, grace: float = 10.0) -> None:
        """Suspends what waits, waits so many seconds for what does not, stops the rest, and ends the store's process."""
        self.is_stopping = True
        for it in self.live.values():
            it.leave()
        if self.tasks:
            await asyncio.wait(self.tasks, timeout=grace)
        for task in self.tasks:
            task.cancel()
        await asyncio.gather(*self.tasks, return_exceptions=True)
        self.is_closed = True
        await self.store.close()
        self.pool.shutdown(wait=False)

    async def __aenter__(self) -> "Worker":
        return await self.open()

    async def __aexit__(self, *_: Any) -> None:
        await self.close()

    # ---- what happens beside
    def spawn(self, work: Coroutine[Any, Any, Any]) -> "asyncio.Task[Any]":
        task = asyncio.ensure_future(work)
        self.tasks.add(task)
        task.add_done_callback(self.over)
        return task

    def over(self, task: "asyncio.Task[Any]") -> None:
        self.tasks.discard(task)
        self.pulse.set()
        if not task.cancelled() and task.exception() and not isinstance(task.exception(), StoreGone):
            log.error("a task of the worker has failed", exc_info=task.exception())

    def wake(self, id: str) -> None:
        """Something has come for an invocation: its live attempt is told, or it may be due."""
        session = self.live.get(id)
        if session:
            session.wake()
        else:
            self.pulse.set()

    def awaken(self, ids: Set[str]) -> None:
        for id in ids:
            if id not in self.dirty:
                self.dirty.add(id)
                self.spawn(self.deliver_again(id))

    async def deliver_again(self, id: str) -> None:
        """What an invocation asks of others is looked at again, as often as the store has no room for it."""
        self.dirty.discard(id)
        while True:
            try:
                return await self.deliver(id)
            except Refused as refused:
                if refused.name in ("S4", "S5"):  # it has ended meanwhile
                    return
                if refused.name not in TRANSIENT:
                    raise
                await asyncio.sleep(1)

    # ---- going on
    async def tick(self) -> None:
        if await self.store.tick(self.clock()):
            self.pulse.set()

    async def step(self) -> Optional[float]:
        """Begins what is due, as far as there is room; when there is more to do."""
        self.pulse.clear()
        await self.tick()
        if self.clock() >= self.purges_at:
            self.purges_at = NEVER
            self.spawn(self.purge_by_itself()).add_done_callback(self.purges_again)
        waiting = [it for it in self.idle.values() if it.idle_since is not None]
        is_asked = not self.backlog and (len(self.live) < self.limit or bool(waiting))
        if is_asked:
            self.backlog.extend(it for it in await self.store.due() if it not in self.live)
        now = self.clock()
        while self.backlog and len(self.live) < self.limit and not self.is_stopping:
            id = self.backlog.popleft()
            if id not in self.live and self.not_before.get(id, 0) <= now:
                self.live[id] = session = Session(self, id)
                session.task = self.spawn(self.attend(session))
                # also where it is cancelled before it has begun
                session.task.add_done_callback(functools.partial(self.leave, session))
        for it in waiting[: len(self.backlog)]:
            it.leave()  # its place is wanted
        if is_asked and not self.backlog:  # what is over, and was not due, waits for something else
            for id in [it for it, moment in self.not_before.items() if moment <= now and it not in self.live]:
                self.not_before.pop(id)
        moment = await self.store.next_moment()
        return min([it for it in (moment, *self.not_before.values()) if it is not None and it != NEVER], default=None)

    async def settle(self) -> Optional[float]:
        """Goes on until time has to pass, or something has to come: the next moment."""
        while True:
            moment = await self.step()
            if self.tasks:
                await woken(self.pulse, None)
            elif not self.pulse.is_set() and not self.backlog and (moment is None or moment > self.clock()):
                return moment

    async def run(self, is_watching: bool = False, longest: Optional[timedelta] = None) -> None:
        """Goes on until nothing sleeps: all has ended, or waits for what comes from outside. With `is_watching` for good; else not longer
        than a timedelta."""
        self.is_watching = is_watching
        ends = NEVER if longest is None else time.monotonic() + longest / timedelta(seconds=1)
        while not self.is_stopping and time.monotonic() < ends:
            try:
                moment = await self.step()
            except StoreGone:
                await self.reopen()
                continue
            except Refused as refused:
                if refused.name not in TRANSIENT:
                    raise
                log.warning("the store has no memory for now (%s): asked again in a second", refused.name)
                await asyncio.sleep(1)
                continue
            if moment is None and not self.tasks and not self.pulse.is_set() and not self.is_watching:
                return
            left = max(0.0, min(NEVER if moment is None else moment, self.purges_at) - self.clock()) / 1000 + 0.001
            left = min(left, ends - time.monotonic())
            await woken(self.pulse, None if left == NEVER else left)

    async def here(self, session: Session) -> None:
        """Goes on with a handler in this process."""
        interval = lambda: self.interval(session.id)
        attempt = Attempt(self.app, session.target, session.content_type, session, self.clock, self.pool, interval, self.tell)
        try:
            await attempt.run()
        finally:
            session.has_bound = attempt.has_bound

    async def attend(self, session: Session) -> None:
        """Goes on with an invocation as far as it can. Whatever comes of it is of this invocation alone."""
        self.not_before.pop(session.id, None)
        try:
            await self.attend_to_end(session)
        finally:
            self.leave(session)

    def leave(self, session: Session, _: Any = None) -> None:
        if self.live.get(session.id) is session:
            del self.live[session.id]

    async def attend_to_end(self, session: Session) -> None:
        id = session.id
        try:
            await session.begin(self.clock())
            self.began += 1
            await self.host(session)
            if not session.ended:
                raise RuntimeError("the attempt came to no end")
        except (asyncio.CancelledError, StoreGone):
            if self.store.is_gone:
                self.cut_off[id] = session
            else:
                await self.stop(session)
            raise
        except KeyboardInterrupt:
            raise
        except BaseException as error:
            if not (isinstance(error, Refused) and error.name in ("S4", "S5")):  # it has ended before
                await self.stop(session)
                await self.fail(id, told_of(error), None, None, is_fault=not isinstance(error, HostGone))
        if session.ended == "ended":
            self.end_of(id, session.answer, session.caller, self.app.find(session.target))
        elif session.ended == "failed":
            await self.fail_by(session)
        elif session.ended == "suspended":
            self.clear(id)

    async def stop(self, session: Session) -> None:
        if session.number:
            try:
                await self.store.stop(session.id, session.number)
            except (Refused, StoreGone):
                pass

    # ---- what fails
    def tell(self, id: str, text: str, error: Optional[BaseException]) -> None:
        """Tells what is amiss with an invocation, once until it gets further."""
        told = self.told.setdefault(id, set())
        if text not in told and len(told) < MOST_TOLD:
            told.add(text)
            log.warning("%s: %s", id, text, exc_info=error)

    async def fail_by(self, session: Session) -> None:
        """The attempt has failed: when it is tried again is told by its error, or by how often it has failed."""
        error = await self.store.error(session.id)
        if error is None:
            return
        code, behavior, delay, message = error
        if behavior == PAUSE:
            self.put_off(session.id, NEVER)
            log.error("%s: paused, as its run wants it: (%d) %s. " + ADVICE[0], session.id, code, message, session.id)
        else:
            await self.fail(session.id, message, code, delay, is_fault=not session.has_bound)

    async def fail(self, id: str, message: str, code: Optional[int], delay: Optional[float], is_fault: bool) -> None:
        """It is tried again later; after so many tries it is paused, and that is recorded."""
        self.tell(id, message, None)
        self.put_off(id, self.interval(id) if delay is None else delay, is_fault)
        if not self.tries or self.faults.get(id, 0) < self.tries:
            return
        try:
            await self.tell_error(id, f"paused after {self.tries} tries, of which the last has failed with: {cut(message)}", PAUSE)
        except Refused as refused:
            log.error("%s: its pause cannot be recorded: %s", id, refused)
        self.put_off(id, NEVER)
        log.error("%s: paused after %d tries that have failed: %s. " + ADVICE.get(code or 0, ADVICE[0]), id, self.tries, message, id)

    # ---- what ends
    def end_of(self, id: str, answer: Value, caller: Optional[str], handler: Optional[Handler]) -> None:
        """Goes on with whoever waits for its answer, or for its object. What no other has called is told."""
        self.done += 1
        self.clear(id)
        self.not_before.pop(id, None)
        self.note_end(id, handler)
        self.awaken(self.waiting.pop(id, set()) | self.busy.pop(self.objects.pop(id, ""), set()))
        self.tell_asked(id)
        if self.tell_ended and not caller and not id.endswith(LATER):
            try:
                self.tell_ended(id, *answer_in(answer, handler))
            except Exception as error:
                log.error("%s: it has ended, and `ended` has failed with %s", id, told_of(error), exc_info=error)


ADVICE = {
    0: "Once that is mended, `hengomaru resume DATABASE %s` goes on with it",
    MISMATCH: "Its handler asks for something else than is recorded. With a handler that asks alike, `hengomaru resume DATABASE %s` goes on with it",
}
