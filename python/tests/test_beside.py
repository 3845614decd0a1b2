"""Jobs that call and wait for one another beside purges that never rest, over a stand-in of the store that ends at random requests: nothing that
somebody waits for is forgotten, or done twice. HENGOMARU_SEEDS tells how many courses are tried (20)."""
import asyncio
import collections
import logging
import os
import random
import unittest
import unittest.mock
from datetime import timedelta

import hengomaru as hg
from hengomaru import forgetting, pb, recovery
from hengomaru.delivery import CALL
from hengomaru.promises import COMPLETE_PROMISE, GET_PROMISE
from hengomaru.services import CALLER
from hengomaru.store import Arrival, Ending, Listed, OpenRequest, Recorded, Refused, Shown, Store, StoreGone
from hengomaru.worker import Worker

SEEDS = int(os.environ.get("HENGOMARU_SEEDS", "20"))
# How often the store ends in one course, at most.
MOST_ENDS, LONGEST = 30, 60
START, SUSPENSION, END, AWAITING_ON, INPUT, OUTPUT, CAME = 0x0000, 0x0001, 0x0003, 0x0004, 0x0400, 0x0401, 0x8000
svc, obj, flow = hg.Service("svc"), hg.VirtualObject("obj"), hg.Workflow("flow")
app = hg.app([svc, obj, flow])


class Row:
    def __init__(self, object, input, headers):
        self.object, self.input, self.headers = object, input, headers
        self.requests, self.arrivals, self.answer = [], [], None
        self.is_open, self.attempts, self.live, self.sent, self.is_awake = True, 0, None, 0, True

    def frames(self):
        """The journal: the input, what was asked for, what has come."""
        headers = [pb.record((1, name), (2, value)) for name, value in self.headers.items()]
        return [pb.frame(INPUT, pb.record((1, headers), (14, pb.record((1, self.input)))))] + [it for _, it in sorted(self.places())]

    def places(self):
        yield from ((it.place, pb.frame(it.type, it.payload)) for it in self.requests)
        for it in self.arrivals:
            how = (5, pb.record((1, it.content))) if it.kind == "value" else (7, it.content) if it.kind == "id" else (6, pb.failure(*it.content)) if it.kind == "failure" else (4, b"")
            yield it.place, pb.frame(CAME, pb.record((1, int(it.id[1:])), how))

    def count(self):
        return 1 + len(self.requests) + len(self.arrivals)

    def has_come(self, completion):
        return any(it.id == f"c{completion}" for it in self.arrivals)


class StandIn:
    """A store in memory. What is asked is done when it is, and answered in its order. It ends at some requests, before or behind them."""

    rows, list = Store.rows, Store.list

    def __init__(self, dice, often):
        self.dice, self.often, self.invocations, self.pending = dice, often, {}, collections.deque()
        self.is_gone, self.tell_gone, self.answers, self.amiss, self.ends = True, None, collections.Counter(), [], 0

    async def open(self):
        self.is_gone = False
        for it in self.invocations.values():
            it.is_awake, it.live = it.is_awake or it.live is not None, None

    async def close(self):
        self.end()
        return ""

    def end(self):
        self.is_gone = True
        while self.pending:
            self.pending.popleft()[0].set_exception(StoreGone())
        if self.tell_gone:
            self.tell_gone()

    async def trip(self, ask, *given):
        if self.is_gone:
            raise StoreGone
        how = self.dice.random() / self.often if self.ends < MOST_ENDS and self.often else 1
        if how < 0.5:
            self.ends += 1
            self.end()
            raise StoreGone
        try:
            came = ask(*given)
        except Refused as refused:
            came = refused
        if how < 1:
            self.ends += 1
            self.end()
            raise StoreGone
        answer = asyncio.get_running_loop().create_future()
        self.pending.append((answer, came))
        asyncio.get_running_loop().call_soon(self.pump, self.dice.randrange(3))
        return await answer

    def pump(self, turns):
        if turns:
            asyncio.get_running_loop().call_soon(self.pump, turns - 1)
        elif self.pending:
            answer, came = self.pending.popleft()
            if not answer.done():
                (answer.set_exception if isinstance(came, Refused) else answer.set_result)(came)

    def row(self, id, is_open=False):
        if id not in self.invocations or (is_open and not self.invocations[id].is_open):
            raise Refused("S5" if id in self.invocations else "S4", id)
        return self.invocations[id]

    def live(self, id, attempt):
        it = self.row(id, True)
        if it.live != attempt:
            raise Refused("S9", id)
        return it

    # ---- what comes from outside
    async def invoke(self, id, object, input, headers=(), version=9, seed=1):
        def ask():
            if any(it.is_open and it.object == object for it in self.invocations.values()):
                raise Refused("S1", id)
            if id in self.invocations:
                raise Refused("S3", id)
            caller = self.invocations.get(headers.get(CALLER, ""))
            if caller and caller.is_open and self.answers[id]:
                self.amiss.append(f"{id} is begun anew, and its caller is open")
            self.invocations[id] = Row(object, input, dict(headers))

        await self.trip(ask)

    def arrive(self, id, name, kind, content):
        it = self.row(id, True)
        it.arrivals.append(Arrival(it.count(), name, kind, content))
        it.is_awake = True

    def complete(self, id, completion, kind, content):
        if self.row(id, True).has_come(completion):
            raise Refused("S6", id)
        self.arrive(id, f"c{completion}", kind, content)

    async def result(self, id, completion, value):
        kind = "void" if value is None else "failure" if isinstance(value, tuple) else "value"
        await self.trip(self.complete, id, completion, kind, value)

    async def result_id(self, id, completion, invocation):
        await self.trip(self.complete, id, completion, "id", invocation.encode())

    async def signal(self, id, name, value):
        await self.trip(self.arrive, id, f"n:{name.encode().hex()}", "value", value)

    async def tick(self, now):
        return await self.trip(lambda: 0)

    async def forget(self, ids):
        def ask():
            for id in ids:
                if self.row(id).is_open:
                    raise Refused("S1", id)
            for id in set(ids):
                del self.invocations[id]

        await self.trip(ask)

    # ---- attempts
    async def begin(self, id, now):
        def ask():
            it = self.row(id, True)
            it.attempts += 1
            it.live, it.sent, it.is_awake = it.attempts, 0, False
            return it.attempts, "", pb.frame(START, pb.record((3, it.count())))

        return await self.trip(ask)

    async def input(self, id, attempt, frames=1, most=0):
        def ask():
            it = self.live(id, attempt)
            taken = it.frames()[it.sent : it.sent + frames]
            it.sent += len(taken)
            return taken + [b""] * (frames - len(taken))

        return await self.trip(ask)

    async def output(self, id, attempt, stream):
        def ask():
            it, told = self.live(id, attempt), []
            for type, payload, _ in pb.frames(stream):
                if type in (SUSPENSION, END):
                    it.live, it.is_open = None, type == SUSPENSION
                    self.answers[id] += type == END
                    told.append("suspended" if type == SUSPENSION else "ended")
                elif type == AWAITING_ON:
                    told.append("noted")
                else:
                    if type == OUTPUT:
                        it.answer = dict(pb.fields(dict(pb.fields(payload))[14])).get(1, b"")
                    it.requests.append(Recorded(it.count(), type, payload))
                    it.sent += it.sent == it.count() - 1  # its own request is not handed to it
                    told.append(str(it.requests[-1].place))
            return told, None

        return await self.trip(ask)

    async def close_input(self, id, attempt):
        def ask():
            it = self.live(id, attempt)
            if it.sent < it.count():
                raise Refused("S16", id)

        await self.trip(ask)

    async def stop(self, id, attempt):
        def ask():
            it = self.live(id, attempt)
            it.live, it.is_awake = None, True

        await self.trip(ask)

    # ---- what is asked
    async def due(self):
        return await self.trip(lambda: [id for id, it in sorted(self.invocations.items()) if it.is_open and it.live is None and it.is_awake])

    async def next_moment(self):
        return await self.trip(lambda: None)

    async def error(self, id):
        return await self.trip(lambda: self.row(id) and None)

    async def show(self, id):
        def ask():
            it = self.row(id)
            return Shown(list(it.requests), list(it.arrivals), it.answer, it.is_open)

        return await self.trip(ask)

    async def ending(self, id):
        shown = await self.show(id)
        return Ending(shown.answer, shown.is_open)

    async def requests(self, id):
        def ask():
            found = []
            for it in self.row(id).requests if self.row(id).is_open else ():
                told = dict(pb.fields(it.payload)) if it.type != OUTPUT else {}
                first, second = (None if it is None or self.invocations[id].has_come(it) else it for it in (told.get(10, None if it.type == CALL else told.get(11)), told.get(11) if it.type == CALL else None))
                if first is not None or second is not None:
                    found.append(OpenRequest(it.place, first, second, it.type, it.payload))
            return found

        return await self.trip(ask)

    async def page(self, after="", most=1000):
        def ask():
            found = sorted((id for id in self.invocations if id.encode() > after.encode()), key=str.encode)[:5]
            status = lambda it: "ended" if not it.is_open else "live" if it.live else "due" if it.is_awake else "suspended"
            return [Listed(id, self.invocations[id].object, status(self.invocations[id]), self.invocations[id].attempts, self.invocations[id].count(), "value" if self.invocations[id].answer else "none") for id in found]

        return await self.trip(ask)


# ---- handlers, by what they ask for one after the other; each answers what has come
def call(service, handler, key="", again=None):
    return lambda n: (CALL, pb.call_target(service, handler, key, again, {}) + pb.record((10, 2 * n + 1), (11, 2 * n + 2)), 2 * n + 2)


def promise(n):
    return GET_PROMISE, pb.record((1, "go"), (11, 2 * n + 2)), 2 * n + 2


def resolve(n):
    return COMPLETE_PROMISE, pb.record((1, "go"), (2, pb.record((1, b"told"))), (11, 2 * n + 2)), 2 * n + 2


PLANS = {
    "leaf": [], "put": [], "main": [promise], "tell": [resolve],
    "two": [call("svc", "leaf"), call("svc", "leaf")], "deep": [call("svc", "two"), call("svc", "leaf")],
    "again": [call("svc", "leaf", again="same"), call("svc", "leaf")], "objects": [call("obj", "put", "k"), call("obj", "put", "k")],
    "workflow": [call("flow", "tell", "KEY"), call("flow", "main", "KEY"), call("svc", "leaf")],
}
for name in PLANS:
    async def handler(ctx, arg):
        raise AssertionError("its host is the test's")

    handler.__name__ = name
    {"put": obj.handler, "main": flow.main, "tell": flow.handler}.get(name, svc.handler)(name)(handler)


def answer_of(name):
    """What one of these answers where nobody disturbs it."""
    return {"leaf": b"leaf", "put": b"put", "main": b"main told", "tell": b"tell ", "two": b"two leaf leaf", "deep": b"deep two leaf leaf leaf",
            "again": b"again leaf leaf", "objects": b"objects put put", "workflow": b"workflow tell  main told leaf"}[name]


async def host(session):
    """Goes on with a handler: a request at a time, whose answer it waits for."""
    name, frames = session.target.handler, []
    waits = lambda completion: pb.record((1, pb.record((1, pb.varint(completion)))))

    async def read():
        came = await session.read()
        frames.extend(pb.frames(came or b""))
        return came is not None

    def came(completion):
        found = [dict(pb.fields(it.payload)) for it in frames if it.type & CAME]
        return next((dict(pb.fields(it[5])).get(1, b"") if 5 in it else b"" if 4 in it else repr(it).encode() for it in found if it.get(1) == completion), None)

    await read()
    values, asked = [], [it for it in frames if it.type not in (START, INPUT) and not it.type & CAME]
    for n, step in enumerate(PLANS[name]):
        type, payload, completion = step(n)
        payload = payload.replace(b"KEY", session.id.encode()[:3].rjust(3, b"-"))
        if n >= len(asked):
            await session.write(pb.frame(type, payload))
        while came(completion) is None:
            await session.write(pb.frame(AWAITING_ON, waits(completion)))
            if not await read():
                await session.write(pb.frame(SUSPENSION, waits(completion)))
                return
        values.append(came(completion))
    answer = b" ".join([name.encode(), *values])
    await session.write(pb.frame(OUTPUT, pb.record((14, pb.record((1, answer))))) + pb.frame(END, b""))


class Beside(unittest.IsolatedAsyncioTestCase):
    def setUp(self):
        self.addCleanup(logging.getLogger("hengomaru").setLevel, logging.getLogger("hengomaru").level)
        logging.getLogger("hengomaru").setLevel(logging.CRITICAL)
        for module, names in ((forgetting, {"SHORTEST": 1.0}), (recovery, {"FIRST_REST": 0.0, "LAST_REST": 0.0})):
            patched = unittest.mock.patch.multiple(module, **names)
            patched.start()
            self.addCleanup(patched.stop)

    async def course(self, seed):
        asyncio.get_running_loop().set_debug(False)  # which unittest switches on, and takes most of the time
        dice = random.Random(seed)
        self.store = StandIn(dice, dice.choice((0, 0.005, 0.02)))
        worker = Worker(":memory:", app, program="none", host=host, retention=timedelta(0), linger=dice.choice((0, 0.01)), limit=dice.choice((2, 256)))
        worker.store = self.store
        self.store.often, often = 0, self.store.often
        await worker.open()
        self.store.often = often
        going = asyncio.ensure_future(worker.run(is_watching=True))

        async def job(id, name):
            with worker.reading(id):
                await worker.submit(id, f"svc/{name}")
                return (await worker.outcome(id)).answer

        names = dice.choices(["two", "deep", "again", "objects", "workflow"], k=dice.randrange(1, 9))
        jobs = [asyncio.ensure_future(job(f"j{n:02}", name)) for n, name in enumerate(names)]
        purging = asyncio.ensure_future(self.purges(worker, dice))
        try:
            answers = await asyncio.wait_for(asyncio.gather(*jobs), LONGEST)
            self.assertEqual(answers, [answer_of(it) for it in names], seed)
            self.assertEqual(self.store.amiss, [], seed)
            self.store.often = 0
            while self.store.invocations:
                await asyncio.sleep(0.001)
        except asyncio.TimeoutError:
            left = {id: (it.is_open, it.attempts, it.live, it.is_awake, [hex(r.type) for r in it.requests], [a[:3] for a in it.arrivals]) for id, it in self.store.invocations.items()}
            self.fail(f"{seed}: {left} {worker.not_before} {worker.told} {worker.live} {worker.backlog} {worker.tasks} {going}")
        finally:
            purging.cancel()
            worker.is_stopping = True
            worker.pulse.set()
            await asyncio.gather(going, purging, *jobs, return_exceptions=True)
            await worker.close(0.1)
        return self.store.ends, worker.forgotten

    async def purges(self, worker, dice):
        while True:
            await asyncio.sleep(dice.choice((0, 0.001, 0.003)))
            await worker.purge()

    async def test_courses(self):
        ends = forgotten = 0
        for seed in range(SEEDS):
            told = await self.course(seed)
            ends, forgotten = ends + told[0], forgotten + told[1]
        self.assertGreater(ends, 0)
        self.assertGreater(forgotten, SEEDS)


if __name__ == "__main__":
    unittest.main()
