"""How what handlers ask of others reaches them, and what comes of it comes back. Each step is recorded before the next one, may be cut off
anywhere, and is found again by what is recorded. What cannot be delivered is told to whoever has asked, and holds up nobody else."""
import asyncio
import base64
import json
import logging
from collections import defaultdict
from contextlib import asynccontextmanager
from typing import AbstractSet, Any, AsyncIterator, Awaitable, Callable, DefaultDict, Dict, FrozenSet, Hashable, List, Optional, Set, Tuple, TypeVar

from . import pb
from .futures import told_of
from .promises import COMPLETE_PROMISE, GET_PROMISE, PEEK_PROMISE, Promises, brought, text_in
from .services import CALLER, OWN_HEADERS, OWN_NAME, App, Handler, Service, Target, child_of, id_of, named, object_of, space_of
from .store import OPEN, Arrival, Ending, OpenRequest, Recorded, Refused, Shown, Store, StoreGone, Value

log = logging.getLogger("hengomaru")
T = TypeVar("T")

CALL, SEND, SIGNAL, ATTACH, GET_OUTPUT, AWAKEABLE = 0x040D, 0x040E, 0x040F, 0x0411, 0x0412, 0x0413
# The requests that are answered by nothing, and those that others answer.
POSTS = {SIGNAL, AWAKEABLE}
ASKS = {CALL, SEND, ATTACH, GET_OUTPUT, GET_PROMISE, PEEK_PROMISE, COMPLETE_PROMISE}
CANCEL = 1
# The signal by which a sender is told that it has sent: it marks the place of what is delivered.
DELIVERED = "hengomaru.delivered"
# The header by which a call tells the id of what it calls.
AS_ID = OWN_HEADERS + "id"
MADE, KNOWN, BUSY = range(3)
# What the id of an invocation ends in that waits to call another one.
LATER = "~later"
# What is amiss with one request, and not with the store's process.
AMISS = Refused, ValueError, LookupError, TypeError, AttributeError, RecursionError
Fields = List[Tuple[int, Any]]
NOBODY: FrozenSet[str] = frozenset()


def awakeable_of(id: str) -> Tuple[str, int]:
    """The invocation that waits, and the number of its signal; ValueError where the text is no awakeable's."""
    told = id.partition("sign_1")[2]
    content = base64.urlsafe_b64decode(told + "=" * (-len(told) % 4))
    if len(content) < 5 or int.from_bytes(content[-4:], "big") < 17:  # the numbers below are no awakeable's
        raise ValueError(f"{id} is no awakeable")
    return content[:-4].decode(), int.from_bytes(content[-4:], "big")


def attached(fields: Fields) -> str:
    """The id of the invocation that is attached to."""
    found = dict(fields)
    if 2 in found:
        told = dict(pb.fields(found[2]))
        return named(text_in(told, 1), text_in(told, 2))
    if 3 in found:
        told = dict(pb.fields(found[3]))
        return named(*(text_in(told, number) for number in (1, 3, 2, 4)))
    return text_in(found, 1)


def names_in(id: str, request: OpenRequest) -> Set[str]:
    """The ids of invocations that an open request may be about, of whatever kind the handler is that it is to."""
    fields = pb.fields(request.payload)
    if request.type in (ATTACH, GET_OUTPUT):
        return {attached(fields)}
    if request.type not in (CALL, SEND):
        return set()
    found = dict(fields)
    target = Target(*(text_in(found, number) for number in (1, 2, 5)))
    told = pb.read_pairs(4, fields).get(AS_ID) if id.endswith(LATER) else None
    return {told or child_of(id, request.place), named(target.service, target.key), *([named(*target, text_in(found, 6))] if 6 in found else [])}


async def later(ctx: Any, told: Dict[str, Any]) -> None:
    """Waits for a moment, or for an object that is busy, and calls then: what is sent so is not lost when its sender ends."""
    if told["at"]:
        await ctx._future(ctx._machine.sys_sleep(told["at"]))
    service, handler, key = told["target"]
    target = pb.call_target(service, handler, key, None, {**told["headers"], AS_ID: told["id"]})
    id, _ = ctx._machine.sys_call(target, bytes.fromhex(told["body"]))
    await ctx._future(id)


OWN = Service(OWN_NAME)
OWN.handlers["later"] = Handler(OWN, "later", later, False)


class Delivery:
    """The side of a worker that delivers. For each invocation one at a time does so; who waits for something says so before it asks for it,
    so that what comes in between is not missed."""

    store: Store
    app: App
    clock: Callable[[], int]
    wake: Callable[[str], None]
    version: int
    # Looks anew which handlers there are, where they are elsewhere.
    refresh: Optional[Callable[[], Awaitable[Any]]] = None

    def reset(self) -> None:
        """Nothing is known but by the store, which is asked anew."""
        self.waiting: DefaultDict[Any, Set[str]] = defaultdict(set)
        self.busy: DefaultDict[str, Set[str]] = defaultdict(set)
        self.objects: Dict[str, str] = {}
        # By each open invocation the ids that its open requests are about, as these stood when they were looked at last.
        self.named: Dict[str, AbstractSet[str]] = {}
        # The ids of those that wait to call another, or have done so.
        self.laters: Set[str] = set()
        self.promises = Promises(self.store, self.app)
        self.locks: Dict[Hashable, Tuple[asyncio.Lock, int]] = {}
        # What was told once to be amiss.
        self.amiss: Set[Tuple[str, int]] = set()

    @asynccontextmanager
    async def turn(self, key: Hashable) -> AsyncIterator[None]:
        """One at a time for each key."""
        lock, many = self.locks.get(key, (asyncio.Lock(), 0))
        self.locks[key] = lock, many + 1
        try:
            async with lock:
                yield
        finally:
            kept, many = self.locks.get(key, (lock, 1))
            if kept is lock:
                self.locks[key] = lock, many - 1
                if many == 1:
                    del self.locks[key]

    # ---- invocations
    async def find(self, target: Target) -> Optional[Handler]:
        """The handler of a target, or None. Where handlers are elsewhere, it is looked for there once more."""
        found = self.app.find(target)
        if found is None and self.refresh:
            try:
                await self.refresh()
            except OSError as error:
                log.warning("the handlers that are elsewhere cannot be asked for: %s", error)
            found = self.app.find(target)
        return found

    async def invoke(self, id: str, target: Target, body: bytes, headers: Any = ()) -> int:
        """Makes the invocation of an id, where it is not there: MADE, KNOWN, or BUSY where its object has another one that is open."""
        object = self.object_for(target, id)
        try:
            await self.store.invoke(id, object, body, {**dict(headers), **target.headers()}, self.version, seed_of(id))
            self.objects[id] = object
            self.named.setdefault(id, NOBODY)
            self.promises.note(id, object)
            if id.endswith(LATER):
                self.laters.add(id)
            self.wake(id)
            return MADE
        except Refused as refused:
            if refused.name == "S3" or (refused.name == "S1" and await self.is_known(id)):
                return KNOWN
            if refused.name != "S1":
                raise
        return BUSY

    def object_for(self, target: Target, id: str) -> str:
        handler = self.app.find(target)
        if handler is None:
            raise LookupError(missing(target))
        return object_of(handler, target, id)

    async def object(self, id: str) -> str:
        """The object of an open invocation."""
        if id not in self.objects:
            for it in await self.store.list():
                if it.status in OPEN:
                    self.objects[it.id] = it.object
        return self.objects[id]

    async def is_known(self, id: str) -> bool:
        return await self.ending(id) is not None

    async def show(self, id: str) -> Optional[Shown]:
        """What is recorded of an invocation, or None where there is none."""
        return await self.known(self.store.show(id))

    async def ending(self, id: str) -> Optional[Ending]:
        """The same, of its answer alone."""
        return await self.known(self.store.ending(id))

    async def known(self, told: Awaitable[T]) -> Optional[T]:
        try:
            return await told
        except Refused as refused:
            if refused.name in ("S2", "S4"):
                return None
            raise

    # ---- requests that are answered
    async def deliver(self, id: str, is_last: bool = False) -> None:
        """Takes a step for each request of an open invocation that is not answered. Where the invocation is about to end (`is_last`), what
        its requests ask of others is recorded with these, or waits by itself."""
        kinds = {CALL: self.call, SEND: self.send, ATTACH: self.attach, GET_OUTPUT: self.tell_output}
        async with self.turn(id):
            # The objects that were busy: who calls one of them later waits too, so that its calls come in their order.
            blocked: Set[str] = set()
            for it in await self.look(id):
                try:
                    await kinds.get(it.type, self.promise)(id, it, pb.fields(it.payload), is_last, blocked)
                except AMISS as error:
                    if isinstance(error, Refused) and error.name in ("S4", "S5") and not await self.is_open(id):
                        return  # it has ended meanwhile
                    await self.fail_request(id, it, error)

    async def look(self, id: str) -> List[OpenRequest]:
        """The open requests of an invocation. Whom they are about is noted before anything is done about them."""
        asked, names = await self.store.requests(id), set()
        for it in asked:
            try:
                names |= names_in(id, it)
            except AMISS:
                pass  # it fails for whoever has asked
        if id in self.objects:
            self.named[id] = names or NOBODY
        return asked

    async def is_open(self, id: str) -> bool:
        ending = await self.ending(id)
        return ending is not None and ending.is_open

    async def fail_request(self, id: str, request: OpenRequest, error: BaseException) -> None:
        """What cannot be delivered fails for whoever has asked, and is told once."""
        if isinstance(error, Refused) and error.name in TRANSIENT:
            raise error
        why = f"what it asks at place {request.place} cannot be delivered: {told_of(error)}"
        if (id, request.place) not in self.amiss:
            self.amiss.add((id, request.place))
            log.error("%s: %s", id, why)
        try:
            await self.answer_with(id, request, (500, why))
        except AMISS:
            pass

    async def answer_with(self, id: str, request: OpenRequest, failure: Tuple[int, str]) -> None:
        """Answers a request by a failure. What brings an id alone brings that of nobody."""
        if request.type in (CALL, SEND) and request.first is not None:
            try:
                await self.bring_id(id, request.first, child_of(id, request.place))
            except Refused as refused:
                if refused.name != "S6":  # it was brought before
                    raise
        last = request.second if request.type == CALL else None if request.type == SEND else request.first
        if last is not None:
            await self.bring(id, last, failure)

    async def bring(self, id: str, completion: Optional[int], value: Value) -> None:
        if completion is not None:
            await self.store.result(id, completion, value)
            self.wake(id)

    async def bring_id(self, id: str, completion: int, child: str) -> None:
        await self.store.result_id(id, completion, child)
        self.wake(id)

    async def child(self, id: str, request: OpenRequest, fields: Fields) -> Tuple[Target, Optional[Handler], str, Dict[str, str]]:
        """Of a call or a send: the target, its handler, the id of what is called, and its headers."""
        found = dict(fields)
        target = Target(*(text_in(found, number) for number in (1, 2, 5)))
        headers, handler = pb.read_pairs(4, fields), await self.find(target)
        key = text_in(found, 6) if 6 in found else None
        told = headers.pop(AS_ID, None) if id.endswith(LATER) else None
        if told is None:  # the names that the package uses are no caller's
            headers = {name: it for name, it in headers.items() if not name.startswith(OWN_HEADERS)}
            headers[CALLER] = id
        if handler is not None:
            return target, handler, told or id_of(handler, target, key) or child_of(id, request.place), headers
        return target, None, told or (named(*target, key) if key else child_of(id, request.place)), headers

    async def call(self, id: str, request: OpenRequest, fields: Fields, is_last: bool, blocked: Set[str]) -> None:
        target, handler, child, headers = await self.child(id, request, fields)
        if handler is None and id.endswith(LATER):
            return self.keep(id, request, target)
        if handler is None or (handler.wants_key and not target.key):
            why = (404, missing(target)) if handler is None else (400, f"{target.service}/{target.handler} is called with a key")
            log.warning("%s: its call at place %d fails: %s", id, request.place, why[1])
            return await self.answer_with(id, request, why)
        if request.first is not None:
            body, object = dict(fields).get(3, b""), self.object_for(target, child)
            self.busy[object].add(id)
            if object in blocked or await self.invoke(child, target, body, headers) == BUSY:
                blocked.add(object)
                if not is_last:
                    return
                await self.invoke_later(child, target, body, headers, 0)
            self.busy[object].discard(id)
            await self.bring_id(id, request.first, child)
        await self.bring_answer(id, request.second, child)

    async def bring_answer(self, id: str, completion: Optional[int], child: str) -> None:
        """Brings the answer of an invocation that has ended; else it is waited for."""
        if completion is None:
            return
        self.waiting[child].add(id)
        ending = await self.ending(child)
        if ending is not None and not ending.is_open:
            self.waiting[child].discard(id)
            await self.bring(id, completion, b"" if ending.answer is None else ending.answer)

    async def invoke_later(self, child: str, target: Target, body: bytes, headers: Dict[str, str], at: int) -> None:
        told = {"at": at, "id": child, "target": target, "body": body.hex(), "headers": headers}
        await self.invoke(child + LATER, Target(OWN.name, "later"), json.dumps(told).encode(), {CALLER: headers.get(CALLER, "")})

    async def send(self, id: str, request: OpenRequest, fields: Fields, is_last: bool, blocked: Set[str]) -> None:
        target, handler, child, headers = await self.child(id, request, fields)
        found = dict(fields)
        body, at = found.get(3, b""), found.get(9, 0)
        if handler is None:
            self.keep(id, request, target)
            await self.invoke_later(child, target, body, headers, at)
        elif handler.wants_key and not target.key:
            log.error("%s: what it sends at place %d is dropped: %s/%s is called with a key", id, request.place, target.service, target.handler)
        else:
            is_late, object = at > self.clock(), self.object_for(target, child)
            if is_late or object in blocked or await self.invoke(child, target, body, headers) == BUSY:
                blocked |= set() if is_late else {object}
                await self.invoke_later(child, target, body, headers, at)
        if request.first is not None:
            await self.bring_id(id, request.first, child)

    def keep(self, id: str, request: OpenRequest, target: Target) -> None:
        """What was sent to a handler that the app has not is kept for a worker that has it."""
        if (id, request.place) not in self.amiss:
            self.amiss.add((id, request.place))
            log.warning("%s: %s: what was sent to it waits for a worker that has it", id, missing(target))

    async def attach(self, id: str, request: OpenRequest, fields: Fields, is_last: bool, blocked: Set[str]) -> None:
        other = attached(fields)
        if not await self.is_known(other) and not await self.is_known(other + LATER):
            await self.bring(id, request.first, (404, f"there is no invocation {other}"))
        else:
            await self.bring_answer(id, request.first, other)

    async def tell_output(self, id: str, request: OpenRequest, fields: Fields, is_last: bool, blocked: Set[str]) -> None:
        ending = await self.ending(attached(fields))
        is_ready = ending is not None and not ending.is_open
        await self.bring(id, request.first, (b"" if ending.answer is None else ending.answer) if ending and is_ready else None)

    async def promise(self, id: str, request: OpenRequest, fields: Fields, is_last: bool, blocked: Set[str]) -> None:
        found = dict(fields)
        space, name = space_of(await self.object(id)), text_in(found, 1)
        async with self.promises.turn:
            came = await self.promises.find(space, name)
            if request.type == COMPLETE_PROMISE:
                await self.bring(id, request.first, None if came is None else (409, f"the promise {name} is completed"))
                if came is None:
                    self.promises.complete(space, name, brought(found, None, 2, 3))
                    self.awaken(self.waiting.pop((*space, name), set()))
            elif came is None and request.type == GET_PROMISE:
                self.waiting[(*space, name)].add(id)
            else:
                await self.bring(id, request.first, came)

    def awaken(self, ids: Set[str]) -> None:
        """What these wait for may have come: their requests are looked at again."""
        raise NotImplementedError

    # ---- requests that are answered by nothing
    async def post(self, id: str, place: int, type: int, payload: bytes) -> None:
        """Delivers a signal, a cancellation or an awakeable's value, and marks that it is delivered."""
        found = dict(pb.fields(payload))
        if type == AWAKEABLE:
            await self.complete_awakeable(text_in(found, 1), brought(found, None, 2, 3))
            return
        await self.signal_to(id, found)
        await self.store.signal(id, DELIVERED, str(place))

    async def signal_to(self, id: str, found: Dict[int, Any]) -> None:
        target = text_in(found, 1)
        try:
            if found.get(2) == CANCEL:
                await self.cancel(target)
            else:
                name = text_in(found, 3) if 3 in found else found.get(2, 0)
                await self.store.signal(target, name, brought(found, 4, 5, 6))
                self.wake(target)
        except Refused as refused:
            if refused.name in TRANSIENT:
                raise
            log.warning("%s: its signal does not reach %s: %s", id, target, REASONS.get(refused.name, refused.name))
        except ValueError as error:
            log.warning("%s: its signal does not reach %s: %s", id, target, error)

    async def cancel(self, id: str, is_further: bool = False, before: Optional[List[int]] = None) -> None:
        """Cancels an invocation, also one that waits for its moment, or for its object. One that is cancelled already is not cancelled again,
        so that what its handler undoes is not cut off, unless that is wanted (`is_further`). Into `before` goes how many there were, so that
        one that was recorded, and whose answer is lost, is known when it is asked for again."""
        async with self.turn(("cancel", id)):
            shown = await self.show(id)
            if shown is None and await self.is_known(id + LATER):
                return await self.cancel(id + LATER, is_further, before)
            many = sum(it.id == f"s{CANCEL}" for it in shown.arrivals) if shown else 0
            is_there = many > before[0] if before else bool(shown and shown.is_open and many and not is_further)
            if before is not None and not before:
                before.append(many)
            if is_there:
                log.info("%s: it is cancelled already", id)
            else:
                await self.store.cancel(id)
        self.wake(id)

    async def complete_awakeable(self, awakeable: str, value: Value, is_again: bool = False) -> bool:
        """Brings the value that an awakeable waits for, as a store's value, once; whether it was brought. Where it is asked again, since
        the answer was lost, an equal value that is there is this one."""
        try:
            id, number = awakeable_of(awakeable)
        except ValueError:
            log.warning("%r is no awakeable's id: nothing waits for it", awakeable)
            return False
        async with self.turn(awakeable):
            shown = await self.show(id)
            if shown is None:
                return False
            came = [it for it in shown.arrivals if it.id == f"s{number}"]
            if came or not shown.is_open:
                return is_again and any(content_in(it) == value for it in came)
            try:
                await self.store.signal(id, number, value)
            except Refused as refused:
                if refused.name in TRANSIENT:
                    raise
                log.warning("%r is not resolved: %s", awakeable, REASONS.get(refused.name, refused.name))
                return False
        self.wake(id)
        return True

    async def post_again(self, id: str, shown: Shown) -> None:
        """Posts what of an invocation was recorded, and may not have reached others: its worker was killed in between."""
        marked = {it.content for it in shown.arrivals if it.id == f"n:{DELIVERED.encode().hex()}"}
        posts = [it for it in shown.requests if it.type in POSTS]
        sent = [it for it in posts if it.type == SIGNAL and str(it.place).encode() in marked]
        for it in posts:
            try:
                if it.type == AWAKEABLE:
                    await self.post(id, *it)
                elif it not in sent:
                    if not await self.has_come(it, sent):
                        await self.signal_to(id, dict(pb.fields(it.payload)))
                    await self.store.signal(id, DELIVERED, str(it.place))
                    sent.append(it)
            except AMISS as error:
                log.error("%s: what it posts at place %d is not delivered: %s", id, it.place, told_of(error))

    async def has_come(self, post: Recorded, sent: List[Recorded]) -> bool:
        """Whether the target of a signal has one more of these than its sender has marked."""
        found = dict(pb.fields(post.payload))
        shown = await self.show(text_in(found, 1))
        if shown is None:
            return False
        number = f"s{found[2]}" if 2 in found else f"n:{found.get(3, b'').hex()}"
        value = brought(found, 4, 5, 6)
        came = [it for it in shown.arrivals if it.id == number and (number == f"s{CANCEL}" or content_in(it) == value)]
        return len(came) > sum(it.payload == post.payload for it in sent)


# What is not the request's fault, and passes.
TRANSIENT = {"S20"}
REASONS = {"S2": "it has no name", "S4": "there is no such invocation", "S5": "it has ended", "S8": "its number is reserved"}


def missing(target: Target) -> str:
    return f"there is no handler {target.service}/{target.handler}"


def content_in(arrival: Arrival) -> Value:
    """What came, as a store's value."""
    return None if arrival.kind == "void" else arrival.content


def seed_of(id: str) -> int:
    """A number of the id (FNV-1a), by which random numbers begin."""
    number = 14695981039346656037
    for byte in id.encode():
        number = (number ^ byte) * 1099511628211 % 2**64
    return number
