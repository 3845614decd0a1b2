"""The store's side of a live attempt: what has come is read, what was put out is recorded, and what that asks of others is delivered. Where
its handler is, in this process or elsewhere, is for whoever drives it."""
import asyncio
import time
from typing import TYPE_CHECKING, Dict, List, Optional, Set

from . import pb
from . import store as stores
from .delivery import ASKS, POSTS
from .promises import brought
from .services import CALLER, Target, target_in
from .store import Refused, Value

if TYPE_CHECKING:
    from .worker import Worker

START, END, AWAITING_ON, INPUT, OUTPUT, SLEEP = 0x0000, 0x0003, 0x0004, 0x0400, 0x0401, 0x040C
KEY_IN_START = 6
# What the store answers by itself: outcomes of runs, reads of the state.
OWN_ANSWERS = {0x0005, 0x0007, 0x0402, 0x0406}
# So many frames are asked for at once where it is not known how many there are.
AHEAD = 2
# What a line holds beside its frames, at most; frames are digits, two for each byte.
BESIDE = 4096


async def woken(event: asyncio.Event, seconds: Optional[float]) -> None:
    """Waits for an event, not longer than so; it is set then. (`asyncio.wait_for` may lose a cancellation before Python 3.12.)"""
    timer = None if seconds is None else asyncio.get_running_loop().call_later(max(seconds, 0.001), event.set)
    try:
        await event.wait()
    finally:
        if timer:
            timer.cancel()


class FrameRefused(Exception):
    """The store takes a frame of the attempt not, by a cause: what was recorded stays."""


class Session:
    """A live attempt, as the store has it. `read` and `write` are its channel."""

    def __init__(self, worker: "Worker", id: str) -> None:
        self.worker, self.store, self.id = worker, worker.store, id
        self.number, self.content_type, self.ended = 0, "", ""
        self.caller: Optional[str] = None
        self.target = Target("", "")
        self.answer: Value = None
        self.first = b""
        self.task: "Optional[asyncio.Task[None]]" = None
        self.moments: Set[int] = set()
        self.has_asked = self.is_closed = self.is_leaving = self.is_delivering = self.has_come = False
        # Since when it waits for what comes from outside, as its last frame tells.
        self.idle_since: Optional[float] = None
        self.changed = asyncio.Event()
        # Whether what has failed has a bound of its own.
        self.has_bound = False

    async def begin(self, now: int) -> None:
        """Begins the attempt, and reads all that was recorded before."""
        self.number, self.content_type, start = await self.store.begin(self.id, now)
        known = dict(pb.fields(start[8:])).get(3, 1)
        journal = b"".join(await self.store.input(self.id, self.number, known))
        headers: Dict[str, str] = {}
        for type, payload, _ in pb.frames(journal):
            if type == INPUT:
                headers = pb.read_pairs(1, pb.fields(payload))
            self.note(type, payload)
        self.target, self.caller = target_in(headers), headers.get(CALLER)
        # The host is told the key; the store's own name of the object is for the store.
        key = pb.field(KEY_IN_START, self.target.key.encode())
        self.first = pb.frame(START, start[8:] + key) + journal

    def note(self, type: int, payload: bytes) -> None:
        if type == SLEEP:
            self.moments.add(dict(pb.fields(payload)).get(1, 0))
        elif type in ASKS:
            self.has_asked = True
        elif type == OUTPUT:
            self.answer = brought(dict(pb.fields(payload)), None, 14, 15)

    # ---- what has come
    def wake(self) -> None:
        """Something has come for it."""
        self.has_come = True
        self.changed.set()

    def leave(self) -> None:
        """It is to be suspended as soon as it can be."""
        self.is_leaving = True
        self.changed.set()

    async def read(self) -> Optional[bytes]:
        """The next bytes of its input, once there are some; None where it is closed, since nothing came for a while."""
        if self.first:
            first, self.first = self.first, b""
            return first
        while True:
            if self.is_closed:  # what has come since is for the next attempt
                return None
            if self.has_come:
                self.has_come = False
                came = await self.store.input(self.id, self.number, AHEAD)
                self.has_come |= all(came)
                if any(came):
                    self.idle_since = None
                    return b"".join(came)
            await self.wait()

    async def wait(self) -> None:
        """Until something may have come, a sleep is over, or it has waited long enough, and is closed."""
        while not self.has_come and not self.is_closed:
            now = self.worker.clock()
            if any(it <= now for it in self.moments):
                self.moments = {it for it in self.moments if it > now}
                await self.worker.tick()
                self.has_come = True
                return
            left = self.patience()
            if left is not None and left <= 0 and not self.is_delivering:
                return await self.close()
            soon = min((it - now for it in self.moments), default=None)
            await self.sleep(min((it for it in (left, None if soon is None else soon / 1000) if it is not None), default=None))

    def patience(self) -> Optional[float]:
        """How long it waits on, in seconds; None where its handler has not said that it waits."""
        if self.idle_since is None:
            return None
        return 0 if self.is_leaving else self.idle_since + self.worker.linger - time.monotonic()

    async def sleep(self, seconds: Optional[float]) -> None:
        self.changed.clear()
        if self.has_come:
            return
        self.worker.idle[self.id] = self
        if len(self.worker.live) >= self.worker.limit:
            self.worker.pulse.set()  # its place may be wanted
        try:
            await woken(self.changed, seconds)
        finally:
            self.worker.idle.pop(self.id, None)

    async def close(self) -> None:
        try:
            await self.store.close_input(self.id, self.number)
            self.is_closed = True
        except Refused as refused:
            if refused.name != "S16":  # some has come now
                raise
            self.has_come = True

    # ---- what was put out
    async def write(self, stream: bytes) -> None:
        """Records whole frames. Before an end is recorded all that was asked of others is on its way, so that a closed invocation needs
        nothing."""
        frames = pb.frames(stream)
        if frames[-1].type == END:
            if any(it.type in ASKS or it.type in POSTS for it in frames):
                await self.record(frames[:-1])
                frames = frames[-1:]
            if self.has_asked:
                await self.worker.deliver(self.id, True)
        await self.record(frames)

    async def record(self, frames: List[pb.Frame]) -> None:
        """Records frames, as many in a line as the store reads in one."""
        most = (stores.LONGEST - BESIDE - 3 * len(self.id.encode())) // 2
        while frames:
            taken, length = 1, len(frames[0].whole)
            while taken < len(frames) and length + len(frames[taken].whole) <= most:
                taken, length = taken + 1, length + len(frames[taken].whole)
            await self.record_line(frames[:taken])
            frames = frames[taken:]

    async def record_line(self, frames: List[pb.Frame]) -> None:
        told, refused = await self.store.output(self.id, self.number, b"".join(it.whole for it in frames))
        asks = False
        for (type, payload, _), came_to in zip(frames, told):
            # an await that is told while a body is executed is no wait for others
            self.idle_since = time.monotonic() if type == AWAITING_ON and not dict(pb.fields(payload)).get(2) else None
            self.has_come |= type in OWN_ANSWERS
            if came_to in ("suspended", "failed", "ended"):
                self.ended, self.is_closed = came_to, True
            elif came_to.isdigit():
                self.note(type, payload)
                asks |= type in ASKS
                if type in POSTS:
                    await self.worker.post(self.id, int(came_to), type, payload)
        if refused:
            raise FrameRefused(f"{self.id}: {refused}")
        if asks:
            self.worker.spawn(self.deliver())
        self.changed.set()

    async def deliver(self) -> None:
        self.is_delivering = True
        try:
            await self.worker.deliver_again(self.id)
        finally:
            self.is_delivering = False
            self.changed.set()
