"""What has ended is forgotten beside what goes on: ids are free again, states stay, and no kill in or around it loses what is open or owed."""
import asyncio
import collections
import json
import os
import random
import shutil
import sqlite3
import unittest
import unittest.mock
from datetime import timedelta

import hengomaru as hg
from hengomaru import forgetting
from hengomaru.testing import Harness
from hengomaru.web import Web
from tests import test_beside as beside
from tests.needs import entered
from tests.test_amiss import LONGEST_TEST
from tests.test_cut import OverCut

# So many of the cuts of a purge, and of jobs beside purges, are tried (`all`).
CUTS = os.environ.get("HENGOMARU_CUTS", "40")
DAY, MOMENT = timedelta(days=1), timedelta(milliseconds=1)
svc, obj, flow, brief = hg.Service("svc"), hg.VirtualObject("obj"), hg.Workflow("flow"), hg.Workflow("brief")
lasting = hg.Service("lasting", retention=3 * DAY)
app, with_lasting = hg.app([svc, obj, flow, brief]), hg.app([svc, lasting])
effects = collections.Counter()


@svc.handler()
async def works(ctx, arg):
    await ctx.run("effect", effects.update, [ctx.request().id])
    return arg


@lasting.handler()
async def kept(ctx):
    pass


@svc.handler()
async def naps(ctx, days):
    await ctx.sleep(days * DAY)
    return await ctx.call(works, days)


@svc.handler()
async def calls(ctx, days):
    quick, slow = ctx.call(works, "quick"), ctx.call(naps, days)
    return [await quick, await slow]


@svc.handler()
async def waits(ctx):
    return await ctx.signal("go")


@svc.handler()
async def hopes(ctx, id):
    return await ctx.attach_invocation(id)


@svc.handler()
async def tells(ctx, target):
    ctx.resolve_signal(target, "told", "by another")


@obj.handler()
async def add(ctx, by):
    total = (await ctx.get("n") or 0) + by
    ctx.set("n", total)
    return total


@obj.handler()
async def rests(ctx, millis):
    await ctx.sleep(timedelta(milliseconds=millis))


@flow.main()
async def main(ctx):
    told = await ctx.promise("go")
    await ctx.sleep(5 * DAY)
    return [told, await ctx.promise("go").peek()]


@flow.handler()
async def tell(ctx, value):
    await ctx.promise("go").resolve(value)


@flow.handler()
async def peek(ctx):
    return await ctx.promise("go").peek()


@brief.main()
async def short(ctx):
    return await ctx.promise("go")


@brief.handler()
async def tell_short(ctx, value):
    await ctx.promise("go").resolve(value)


@svc.handler()
async def family(ctx, key):
    """Calls, sends and waits, of which what it has called is forgotten as soon as it may be."""
    id = ctx.request().id
    came = [await ctx.run("effect", effects.update, [id])]
    came.append([await it for it in await hg.gather(*(ctx.call(add, by, key=key) for by in (1, 2)))])
    ctx.send(tells, id)
    beside = ctx.call(short, key=key)
    await ctx.call(tell_short, "promised", key=key)
    came.append([await ctx.signal("told"), await beside])
    await ctx.sleep(MOMENT)
    return [*came, await ctx.call(works, "called"), ctx.random().randint(1, 1000)]


def of_file(file, ask):
    """What stock SQLite answers of a copy of a file and its log."""
    copy = f"{file}.copy"
    for it in ("", "-wal"):
        if os.path.exists(file + it):
            shutil.copy(file + it, copy + it)
    rows = sqlite3.connect(copy)
    try:
        return rows.execute(ask).fetchall()
    finally:
        rows.close()
        for it in ("", "-wal", "-shm"):
            if os.path.exists(copy + it):
                os.remove(copy + it)


class Kept(unittest.TestCase):
    """Over a store in memory, and a clock that is moved."""

    def setUp(self):
        effects.clear()

    def begin(self, app=app, **how):
        return Harness(app, **{"retention": DAY, **how})

    def ids(self, jobs):
        return [it.id for it in jobs.wait(jobs.worker.store.list())]

    def test_an_id_is_free_again(self):
        with self.begin() as jobs:
            for argument, told, many in ((1, 1, 1), (2, 1, 1)):  # the second one is the same job
                jobs.submit(works, argument, id="a")
                self.assertEqual((jobs.result("a"), effects["a"]), (told, many))
            jobs.advance(DAY / 2)
            self.assertEqual(jobs.result("a"), 1)
            jobs.advance(DAY)
            self.assertRaises(LookupError, jobs.result, "a")
            jobs.submit(works, 2, id="a")
            self.assertEqual((jobs.result("a"), effects["a"]), (2, 2))

    def test_without_a_retention_all_stays(self):
        with self.begin(with_lasting, retention=None) as jobs:
            jobs.submit(works, 1, id="a")
            jobs.submit(kept, id="b")
            jobs.advance(1000 * DAY)
            self.assertEqual(self.ids(jobs), ["a"])
            self.assertEqual(jobs.wait(jobs.worker.purge()), 1)

    def test_a_state_stays(self):
        with self.begin() as jobs:
            self.assertEqual(jobs.call(add, 1, "k"), 1)
            jobs.advance(2 * DAY)
            self.assertEqual((self.ids(jobs), jobs.state("obj", "k")), ([], {"n": 1}))
            self.assertEqual(jobs.call(add, 1, "k"), 2)

    def test_a_call_goes_once_its_answer_has_come(self):
        with self.begin() as jobs:
            jobs.submit(calls, 9, id="p")
            jobs.advance(3 * DAY)
            self.assertEqual(self.ids(jobs), ["p", "p~2"])
            jobs.advance(6 * DAY)
            self.assertEqual((jobs.result("p"), sum(effects.values())), (["quick", 9], 2))
            jobs.advance(2 * DAY)
            self.assertEqual(self.ids(jobs), [])

    def test_a_call_that_no_live_caller_has_asked_for_again_stays(self):
        """It has ended, and its caller's store was cut off before the answer was brought."""
        with self.begin() as jobs:
            jobs.submit(waits, id="w")
            jobs.submit(hopes, "w", id="h")
            brings, jobs.worker.bring = jobs.worker.bring, unittest.mock.AsyncMock()
            jobs.signal("w", "go", 7)
            jobs.advance(5 * DAY)
            self.assertEqual(self.ids(jobs), ["h", "w"])
            jobs.worker.bring = brings
            jobs.after(jobs.worker.deliver("h"))
            self.assertEqual(jobs.result("h"), 7)
            jobs.advance(2 * DAY)
            self.assertEqual(self.ids(jobs), [])

    def test_what_waits_for_its_object(self):
        with self.begin() as jobs:
            for key in "ab":
                jobs.wait(jobs.worker.request(("obj", "rests"), b"10", "k", key))
            jobs.settle()
            self.assertEqual(self.ids(jobs), ["obj/rests/k/a", "obj/rests/k/b~later"])
            jobs.advance(DAY / 2)
            self.assertEqual(self.ids(jobs), ["obj/rests/k/a", "obj/rests/k/b", "obj/rests/k/b~later"])
            self.assertFalse(jobs.wait(jobs.worker.request(("obj", "rests"), b"10", "k", "b"))[1])
            jobs.advance(DAY)
            self.assertEqual(self.ids(jobs), [])
            self.assertTrue(jobs.wait(jobs.worker.request(("obj", "rests"), b"10", "k", "b"))[1])

    def test_a_workflow_and_its_promises(self):
        with self.begin() as jobs:
            jobs.submit(main, key="k")
            first, teller = jobs.submit(peek, key="k"), jobs.submit(tell, "now", "k", id="t")
            jobs.advance(4 * DAY)
            self.assertEqual(self.ids(jobs), ["flow/k", teller])  # it has completed a promise; the other one is gone
            self.assertRaises(LookupError, jobs.result, first)
            self.assertEqual(jobs.call(peek, key="k"), "now")
            jobs.advance(DAY)
            self.assertEqual(jobs.result("flow/k"), ["now", "now"])
            jobs.advance(3 * DAY)
            self.assertEqual(self.ids(jobs), [])
            self.assertEqual(jobs.call(peek, key="k"), None)
            jobs.submit(main, key="k")  # begins anew, and no promise is completed
            self.assertTrue(jobs.status("flow/k").is_open)

    def test_a_handler_has_its_own(self):
        with self.begin(with_lasting) as jobs:
            jobs.submit(kept, id="a")
            jobs.submit(works, 1, id="b")
            jobs.advance(2 * DAY)
            self.assertEqual(self.ids(jobs), ["a"])
            jobs.advance(2 * DAY)
            self.assertEqual(self.ids(jobs), [])

    def test_by_hand(self):
        with self.begin(retention=None) as jobs:
            jobs.submit(works, 1, id="a")
            jobs.submit(waits, id="b")
            jobs.wait(jobs.worker.forget("a"))
            for id, cause in (("a", "S4"), ("b", "S1")):
                with self.assertRaises(hg.Refused) as told:
                    jobs.wait(jobs.worker.forget(id))
                self.assertEqual(told.exception.name, cause)
            self.assertEqual(self.ids(jobs), ["b"])


class Often(OverCut):
    """Over a file, and a worker that looks as often as it can."""

    def setUp(self):
        super().setUp()
        entered(self, unittest.mock.patch.object(forgetting, "SHORTEST", 2.0))

    def tearDown(self):
        effects.clear()

    async def begin(self, **how):
        effects.clear()
        await super().begin(**how)

    async def listed(self):
        while True:
            try:
                return {it.id: it.status for it in await self.worker.store.list()}
            except hg.StoreGone:
                await self.worker.reopen()

    async def are_left(self, *ids):
        async def is_left():
            return set(await self.listed()) == set(ids)

        await self.is_so(is_left)

    async def each_cut(self, course):
        """A course, and some in which a request is cut; each is told its number, how, and at which request."""
        many = await course("whole", "", 0)
        places = [(at, how) for at in range(1, many + 1) for how in ("before", "after")]
        random.Random(7).shuffle(places)
        for n, (at, how) in enumerate(places if CUTS == "all" else places[: int(CUTS)]):
            with self.subTest(at=at, how=how):
                await course(n, how, at)


class Purged(Often):
    app = app

    async def answer_of(self, id, *submitted, **how):
        """What a job answers that is forgotten as soon as nobody reads it."""
        with self.worker.reading(id):
            await self.worker.submit(id, *submitted, **how)
            return await self.ended(id)

    async def test_an_answer_that_is_awaited_is_told(self):
        await self.begin(retention=timedelta(0))
        web = Web(self.worker, ["h"])

        async def ask(path, body, key):
            out, came = [], [{"type": "http.request", "body": json.dumps(body).encode()}]

            async def receive():
                return came.pop() if came else await asyncio.Event().wait()

            async def send(message):
                out.append(message)

            headers = [(b"host", b"h"), (b"idempotency-key", key.encode())]
            await web({"type": "http", "method": "POST", "path": path, "query_string": b"", "headers": headers}, receive, send)
            return out[0]["status"], json.loads(out[1]["body"])

        for _ in range(3):
            told = await asyncio.gather(*(ask("/svc/works", n, str(n % 20)) for n in range(40)))
            self.assertEqual([it[0] for it in told], [200] * 40)
            self.assertEqual(sorted(it[1] % 20 for it in told), sorted(n % 20 for n in range(40)))
        await self.are_left()
        await self.end()

    async def test_a_second_submit_begins_anew(self):
        await self.begin(retention=timedelta(0))
        for n in range(5):
            self.assertEqual(await self.answer_of("a", works, n), n)
            await self.are_left()
        self.assertEqual(effects["a"], 5)
        await self.end()
        self.assertEqual(of_file(self.database, "select count(*) from entry"), [(0,)])
        self.assertEqual(of_file(self.database, "pragma integrity_check"), [("ok",)])

    # ---- kills
    async def fill(self):
        """Those that have ended, those that go on, and what these ask for."""
        for n in range(6):
            await self.worker.submit(f"a{n}", works, n)
        for id in ("p", "q"):
            await self.worker.submit(id, waits)
        await self.worker.submit("h", hopes, "p")
        await self.worker.submit("c", calls, 100)
        await self.worker.submit(None, main, key="k")
        await self.worker.submit("t", tell, "now", "k")
        await self.worker.submit("o", add, 1, "k")
        await self.is_so(self.all_rest)

    async def all_rest(self):
        rows = await self.listed()
        return "c~2" in rows and set(rows.values()) == {"ended", "suspended"} and [it for it in rows if rows[it] == "suspended"] == ["c", "c~2", "flow/k", "h", "p", "q"]

    async def test_each_request_of_a_purge(self):
        """The store's process is killed at each, before it is asked and behind it."""
        await self.begin()
        await self.fill()
        await self.end()
        whole = f"{self.folder}/filled.db"
        shutil.copy(self.database, whole)
        many = await self.purge_of(whole, "whole", "", 0)
        places = [(at, how) for at in range(1, many + 1) for how in ("before", "after", "full", "full after")]
        random.Random(7).shuffle(places)
        for n, (at, how) in enumerate(places if CUTS == "all" else places[: int(CUTS)]):
            with self.subTest(at=at, how=how):
                await self.purge_of(whole, n, how, at)

    async def purge_of(self, whole, n, how, at):
        """A purge of a copy, with a cut or without; the requests that there were."""
        self.database = f"{self.folder}/{n}.db"
        shutil.copy(whole, self.database)
        self.cut.tell()
        await self.begin()
        self.worker.rest = 0.0
        try:
            self.cut.tell(at=at, how=how)
            await self.worker.purge()
            many = len(self.cut.told()["words"])
            self.cut.tell()
            rows = await self.listed()
            self.assertEqual({id for id, status in rows.items() if status == "ended"}, {"t"}, (at, how))  # it has completed a promise
            self.assertEqual(set(rows), {"c", "c~2", "h", "p", "q", "flow/k", "t"}, (at, how))
            for id in ("p", "q"):
                await self.worker.signal(id, "go", id)
            self.assertEqual([await self.ended(it) for it in ("p", "q", "h")], ["p", "q", "p"])
            self.assertEqual(await self.worker.store.state("obj/k"), {b"n": b"1"})
            self.assertEqual(sum(effects.values()), 0)  # nothing that was forgotten is executed again
            self.assertEqual((await self.answer_of("a1", works, "anew"), effects["a1"]), ("anew", 1))
        finally:
            await self.end()
        self.assertEqual(of_file(self.database, "pragma integrity_check"), [("ok",)])
        return many

    async def test_jobs_beside_purges(self):
        """Each request of a job, whose children are forgotten as soon as they may be, is cut, and so are those that forget them."""
        await self.each_cut(self.family_of)

    async def family_of(self, n, how, at):
        self.database = f"{self.folder}/{n}.db"
        self.cut.tell(at=at, how=how)
        await self.begin(retention=timedelta(0))
        try:
            [effect, counts, told, called, _] = await self.answer_of(f"j{n}", family, "k")
            self.assertEqual((effect, counts, told, called), (None, [1, 3], ["by another", "promised"], "called"), (how, at))
            many = len(self.cut.told()["words"])
            self.cut.tell()
            await self.are_left()
            self.assertEqual(await self.worker.store.state("obj/k"), {b"n": b"3"})
            for id, executed in effects.items():
                self.assertLessEqual(executed, 2, id)  # once more before its outcome was recorded
            self.assertLessEqual(sum(effects.values()), 3)
        finally:
            await self.end()
        self.assertEqual(of_file(self.database, "select count(*) from invocation"), [(0,)])
        return many


class Hosts(Often):
    """The same with handlers of the test's own, which need no machine."""

    app = beside.app

    async def test_jobs_beside_purges(self):
        await self.each_cut(self.course)

    async def course(self, n, how, at):
        self.database = f"{self.folder}/{n}.db"
        self.cut.tell(at=at, how=how)
        await self.begin(host=beside.host, retention=timedelta(0))

        async def job(name):
            with self.worker.reading(name):
                await self.worker.submit(name, f"svc/{name}")
                return (await self.worker.outcome(name)).answer

        names = ["two", "deep", "again", "objects", "workflow"]
        try:
            answers = await asyncio.wait_for(asyncio.gather(*map(job, names)), LONGEST_TEST)
            self.assertEqual(answers, [beside.answer_of(it) for it in names], (how, at))
            many = len(self.cut.told()["words"])
            self.cut.tell()
            await self.are_left()
        finally:
            await self.end()
        self.assertEqual(of_file(self.database, "select count(*) from invocation"), [(0,)])
        self.assertEqual(of_file(self.database, "pragma integrity_check"), [("ok",)])
        return many


if __name__ == "__main__":
    unittest.main()
