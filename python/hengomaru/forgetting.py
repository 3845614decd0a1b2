"""What has ended is forgotten: by hand, and by a worker that has a retention. Ids are free again then, and states stay.

The store forgets what it is told, all or none, and knows neither when something has ended nor who waits for it. So a worker counts from when it
has seen the end, and from its own beginning where something had ended before: late, and never early. It keeps what an open invocation asks for
by a request that is not answered, what somebody awaits, and a workflow's promises, which stand in its own journal and in those of invocations
beside it: these go together. What waited to call another one goes with that one.
"""
import asyncio
import logging
import time
from datetime import timedelta
from typing import Any, Dict, Iterable, List, Optional, Set

from .delivery import LATER
from .promises import completed_in
from .recovery import NEVER, Recovery
from .services import BESIDE, MILLISECOND, OWN_NAME, Handler, Service, VirtualObject, Workflow, is_main, space_of
from .store import OPEN, Listed, NotUnderstood, Refused, StoreGone, TooLong

log = logging.getLogger("hengomaru")
# So many invocations are forgotten in one transaction: the store does nothing else meanwhile.
AT_ONCE = 100
# Milliseconds between two looks at what may be forgotten, at least and at most.
SHORTEST, LONGEST = 1000.0, 3_600_000.0
Group = List[str]
Moments = Dict[str, float]


class Awaited(Exception):
    """It is not forgotten, as somebody waits for it, or as it goes with another one."""


class Flow:
    """What has ended of a workflow's key: its main handler, and invocations beside it."""

    def __init__(self) -> None:
        self.has_main = False
        self.beside: List[str] = []


class Forgetting(Recovery):
    """The side of a worker that forgets."""

    retention: Optional[timedelta]
    is_stopping: bool
    # When this worker began, and when it looks next at what may be forgotten.
    began_at: float
    purges_at: float
    # How many milliseconds the last look took.
    took: float
    # Whether the store's process does not know how to forget.
    is_unable: bool
    # One at a time forgets.
    purging: asyncio.Lock
    # Of each invocation beside a workflow that has ended, whether it has completed promises.
    completes: Dict[str, bool]
    # The workflows beside which an invocation has ended since the last look began.
    touched: Set[str]
    # How many were forgotten.
    forgotten: int

    # ---- how long something is kept
    def lasts(self, handler: Optional[Handler]) -> Optional[float]:
        """How many milliseconds what has ended of a handler is kept; None where nobody has said so."""
        told = self.retention if handler is None or handler.retention is None else handler.retention
        return None if told is None else told / MILLISECOND

    def retentions(self, services: Iterable[Service]) -> List[Optional[float]]:
        """Those of handlers of some services; the worker's where there are none."""
        return [self.lasts(it) for service in services for it in service.handlers.values()] or [self.lasts(None)]

    def from_before(self, by_hand: bool) -> Moments:
        """From when on that of a service may go of which no end was seen: it may be of any handler, so the longest retention counts. What has
        an object of its own may be of any service without keys (""). By hand a handler that has no retention keeps nothing."""
        none = 0.0 if by_hand else NEVER
        services = {it.name: [it] for it in self.app.values() if it.name != OWN_NAME}
        services[""] = [it for [it] in services.values() if not isinstance(it, (VirtualObject, Workflow))]
        return {name: self.began_at + max(none if it is None else it for it in self.retentions(told)) for name, told in services.items()}

    def between(self) -> float:
        """How long it is until the next look at what may go."""
        shortest = min((it for it in self.retentions(self.app.values()) if it is not None), default=NEVER)
        return shortest if shortest == NEVER else min(max(shortest / 10, SHORTEST), LONGEST)

    def note_end(self, id: str, handler: Optional[Handler]) -> None:
        self.named.pop(id, None)
        workflow, beside, _ = self.objects.get(id, "").partition(BESIDE)
        if beside:
            self.touched.add(workflow)
        lasts = self.lasts(handler)
        if lasts is not None:
            self.ended[id] = self.clock() + lasts

    def is_over(self, id: str, object: str, before: Moments) -> bool:
        """Whether one that has ended is kept no longer."""
        moment = self.ended.get(id)
        if moment is None:
            moment = before.get(space_of(object)[0] if "/" in object else "", before[""])
        return moment <= self.clock()

    # ---- by hand, and from time to time
    async def purge(self) -> int:
        """Forgets all that has ended and whose retention is over; what has none goes at once. What is waited for stays. How many."""
        before = self.forgotten
        await self.retried(self.purge_all, True)
        return self.forgotten - before

    async def forget(self, id: str) -> None:
        """Forgets one that has ended, with what goes with it, whatever its retention. Refused: S1 where it is open, S4 where there is none;
        Awaited where it stays."""
        await self.retried(self.forget_one, id, [])

    async def purge_by_itself(self) -> None:
        """The same as `purge`, of what has a retention. Where it cannot be done now, it is tried later."""
        began, self.took = time.monotonic(), 0.0
        try:
            await self.purge_all(False)
            self.took = 1000 * (time.monotonic() - began)
        except NotUnderstood:
            self.is_unable = True
            log.warning("nothing is forgotten: the store's process is of an earlier release, and does not know how")
        except Refused as refused:
            log.warning("what has ended is forgotten later: %s", refused)

    def purges_again(self, _: Any = None) -> None:
        """When it looks next: it takes a tenth of the time at most."""
        self.purges_at = NEVER if self.is_unable else self.clock() + max(self.between(), 9 * self.took)

    async def purge_all(self, by_hand: bool) -> None:
        flows: Dict[str, Flow] = {}
        before, last = self.from_before(by_hand), ""
        if not by_hand and not any(it <= self.clock() for moments in (self.ended, before) for it in moments.values()):
            return
        async with self.purging:
            self.touched.clear()
            opened_at = self.opened_at
            while by_hand or not self.is_stopping:
                async with self.opening:  # while the store's process is begun anew it is not known what is waited for
                    if self.opened_at != opened_at:
                        raise StoreGone  # what had been listed may stand otherwise
                    rows = await self.store.page(last)
                    await self.forget_groups(await self.groups_in(rows, flows, before) if rows else await self.groups_of(flows, before))
                if not rows:
                    return
                last = rows[-1].id

    async def forget_one(self, id: str, tried: List[bool]) -> None:
        async with self.purging, self.opening:
            self.touched.clear()
            ending = await self.ending(id)
            if ending is None and tried:  # it was done, and the answer was lost
                return
            if ending is None or ending.is_open:
                raise Refused("S4" if ending is None else "S1", f"forget {id}")
            called = id[: -len(LATER)]
            if id.endswith(LATER) and await self.is_known(called):
                raise Awaited(f"{id} goes with {called}, which it has called")
            if not is_main(id) and await self.has_completed(id):
                raise Awaited(f"{id} has completed promises, and goes with its workflow")
            group = [id, *(await self.completers(id) if is_main(id) else [])]
            await self.look_at({*group})
            if not self.may_go([group]):
                raise Awaited(f"{id} is waited for" + "".join(f" by {it}" for it, names in self.named.items() if id in names))
            tried.append(True)
            await self.forget_now(self.whole(group))

    # ---- what goes together
    async def groups_in(self, rows: Iterable[Listed], flows: Dict[str, Flow], before: Moments) -> List[Group]:
        """Of a page those that may go; what is of workflows is kept for the end of the list."""
        groups = []
        for it in rows:
            if it.status in OPEN:
                continue
            workflow, beside, _ = it.object.partition(BESIDE)
            if is_main(it.id):
                flows.setdefault(it.id, Flow()).has_main = True
            elif beside and it.object != it.id:
                flows.setdefault(workflow, Flow()).beside.append(it.id)
            elif self.is_over(it.id, it.object, before) and not (it.id.endswith(LATER) and await self.is_known(it.id[: -len(LATER)])):
                groups.append([it.id])
        return groups

    async def groups_of(self, flows: Dict[str, Flow], before: Moments) -> List[Group]:
        """What may go of workflows. What has completed no promise goes by itself."""
        groups = []
        for id, flow in flows.items():
            goes, completers = flow.has_main and self.is_over(id, id, before), []
            for beside in flow.beside:
                is_over = self.is_over(beside, id, before)
                if (goes or is_over) and await self.has_completed(beside):
                    completers.append(beside)
                    goes = goes and is_over
                elif is_over:
                    groups.append([beside])
            if goes:
                groups.append([id, *completers])
        return groups

    async def completers(self, workflow: str) -> List[str]:
        """What beside a workflow has ended, and has completed promises."""
        beside = [it.id async for it in self.store.rows() if it.object.startswith(workflow + BESIDE) and it.status not in OPEN]
        return [it for it in beside if await self.has_completed(it)]

    async def has_completed(self, id: str) -> bool:
        """Whether an invocation, which is not open, has completed promises."""
        if id not in self.completes:
            shown = await self.show(id)
            if shown is None:
                return False
            self.completes[id] = bool(completed_in(shown))
        return self.completes[id]

    def whole(self, group: Group) -> Group:
        """With what waited to call one of these."""
        return [*group, *(it + LATER for it in group if it + LATER in self.laters)]

    # ---- what stays
    async def look_at(self, ids: Set[str]) -> None:
        """Looks anew at the requests of those that were waiting for one of these, or were not looked at."""
        for it in [it for it in self.objects if it not in self.named or not ids.isdisjoint(self.named[it])]:
            async with self.turn(it):
                await self.look(it)

    def needed(self) -> Set[str]:
        """The ids that stay: open invocations ask for them, what is beside a workflow is open, or has ended since it was listed, somebody
        awaits their answer, their last attempt is not quite over, or they wait to call."""
        found = set().union(*self.named.values(), self.readers, self.live, self.cut_off, self.touched)
        found.update(it.partition(BESIDE)[0] for it in self.objects.values() if BESIDE in it)
        return found | {it + LATER for it in found if it + LATER in self.laters} | (self.laters & self.objects.keys())

    def may_go(self, groups: Iterable[Group]) -> List[Group]:
        """Those of which nobody needs any. What is sent to the store before anything else is awaited comes before what asks for one of them."""
        needed = self.needed()
        return [it for it in groups if needed.isdisjoint(self.whole(it))]

    # ---- forgetting
    async def forget_groups(self, groups: List[Group]) -> None:
        """Forgets whole groups, but for those of which one is needed, some at a time."""
        some: List[Group] = []
        before = self.forgotten
        for at, it in enumerate(groups):
            some.append(it)
            if at == len(groups) - 1 or sum(map(len, some)) >= AT_ONCE:
                await self.look_at({id for group in some for id in group})
                await self.forget_some(some)
                some = []
        if self.forgotten > before:
            log.info("%d that had ended are forgotten, up to %s", self.forgotten - before, groups[-1][0])

    async def forget_some(self, groups: List[Group]) -> None:
        """In one transaction, and apart where one of them keeps the others from going."""
        free = self.may_go(groups)
        if not free:
            return
        try:
            await self.forget_now([id for it in free for id in self.whole(it)])
        except (Refused, TooLong) as error:
            if isinstance(error, Refused) and error.name not in ("S1", "S4"):
                raise
            if len(free) == 1:
                log.warning("%s: it is not forgotten: %s", free[0][0], error)
                return
            half = len(free) // 2
            await self.forget_some(free[:half])
            await self.forget_some(free[half:])

    async def forget_now(self, ids: List[str]) -> None:
        await self.store.forget(ids)
        for id in ids:
            self.ended.pop(id, None)
            self.told.pop(id, None)
            self.completes.pop(id, None)
            self.laters.discard(id)
            self.promises.forget(id)
        gone = set(ids)
        self.amiss = {it for it in self.amiss if it[0] not in gone}
        self.forgotten += len(ids)
