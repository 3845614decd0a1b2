"""Many attempts side by side, and the harness for tests of handlers."""
import asyncio
import dataclasses
import logging
import os
import subprocess
import sys
import tempfile
import threading
import time
import unittest
from datetime import timedelta
from pathlib import Path

import hengomaru as hg
from hengomaru.testing import Harness, StillOpen
from tests.needs import lacks

logging.getLogger("hengomaru").setLevel(logging.CRITICAL)
svc, obj = hg.Service("svc"), hg.VirtualObject("obj")
app = hg.app([svc, obj])
log = hg.get_logger("tests.handlers")
DAY = timedelta(days=1)


@dataclasses.dataclass
class Item:
    name: str
    amount: int = 1


@dataclasses.dataclass
class Order:
    by: str
    item: Item


class Count:
    """How many are inside, and how many were at most."""

    def __init__(self):
        self.now = self.most = self.all = 0
        self.lock = threading.Lock()

    def __enter__(self):
        with self.lock:
            self.now, self.all = self.now + 1, self.all + 1
            self.most = max(self.most, self.now)

    def __exit__(self, *_):
        with self.lock:
            self.now -= 1


count = Count()


# So many bodies wait for each other, each with what it has.
together = {"wanted": 1}
LONGEST = 60


@svc.handler()
async def works(ctx, how):
    async def beside():
        with count:
            ends = time.monotonic() + LONGEST
            while count.most < together["wanted"] and time.monotonic() < ends:
                await asyncio.sleep(0.01)

    def in_a_thread():
        with count:
            ends = time.monotonic() + LONGEST
            while count.most < together["wanted"] and time.monotonic() < ends:
                time.sleep(0.01)

    for name in "ab":
        await ctx.run(name, beside if how == "beside" else in_a_thread)


@svc.handler()
async def forks(ctx):
    async def body(n):
        with count:
            ends = time.monotonic() + LONGEST
            while count.most < 5 and time.monotonic() < ends:
                await asyncio.sleep(0.01)
        return n

    return [await it for it in await hg.gather(*(ctx.run(str(n), body, n) for n in range(5)))]


@svc.handler()
async def breaks(ctx):
    raise KeyError("always")


@svc.handler()
async def waits(ctx):
    return await ctx.signal("go")


@svc.handler()
async def naps(ctx):
    for _ in range(3):
        log.warning("napping")
        await ctx.sleep(DAY)
    return "up"


@svc.handler()
async def ordered(ctx, order: Order) -> Item:
    return Item(order.item.name.upper(), await ctx.call(counted, order.item))


@svc.handler()
async def counted(ctx, item: Item) -> int:
    return item.amount + 1


@obj.handler()
async def remembers(ctx, item: Item) -> int:
    before = await ctx.get("item", Item)
    ctx.set("item", Item(item.name, item.amount + (before.amount if before else 0)))
    return (await ctx.get("item", Item)).amount


@svc.handler()
async def changes(ctx):
    changed.append(1)
    await ctx.sleep(timedelta(seconds=len(changed)), name=f"nap {len(changed)}")


changed = []


class Workers(unittest.IsolatedAsyncioTestCase):
    async def run_all(self, jobs, wanted=1, **how):
        count.__init__()
        together["wanted"] = wanted
        async with hg.Worker(":memory:", app, **how) as worker:
            for n, (handler, argument) in enumerate(jobs):
                await worker.submit(f"i{n}", handler, argument)
            await worker.run(longest=timedelta(seconds=300))
            return worker.began, [await worker.status(f"i{n}") for n in range(len(jobs))]

    async def test_side_by_side(self):
        for how in ("beside", "in a thread"):
            began, came = await self.run_all([(works, how)] * 20, wanted=20, linger=300)
            self.assertEqual((began, {it.is_open for it in came}, count.all, count.most), (20, {False}, 40, 20), how)

    async def test_one_handlers_runs_go_side_by_side(self):
        _, [came] = await self.run_all([(forks, None)])
        self.assertEqual((came.value, count.most), ([0, 1, 2, 3, 4], 5))

    async def test_a_limit(self):
        _, came = await self.run_all([(works, "beside")] * 9, wanted=3, limit=3)
        self.assertEqual(({it.is_open for it in came}, count.most), ({False}, 3))

    async def test_a_place_that_is_wanted(self):
        async with hg.Worker(":memory:", app, limit=1, linger=3600) as worker:
            for id in "abc":
                await worker.submit(id, waits)
            going = asyncio.ensure_future(worker.run(is_watching=True))
            while [it.status for it in await worker.store.list()].count("suspended") < 2:
                await asyncio.sleep(0.05)
            for id in "abc":
                await worker.signal(id, "go", id)
            self.assertEqual([(await worker.answered(id)).value for id in "abc"], ["a", "b", "c"])
            worker.is_stopping = True
            worker.pulse.set()
            await going

    async def test_a_stop_waits_for_what_is_executed(self):
        count.__init__()
        together["wanted"] = 2
        async with hg.Worker(":memory:", app) as worker:
            await worker.submit("i", works, "beside")
            going = asyncio.ensure_future(worker.run())
            while not count.now:
                await asyncio.sleep(0.01)
            worker.is_stopping = True
            worker.pulse.set()
            await going
            for it in worker.live.values():
                it.leave()
            self.assertEqual(count.now, 1)
            count.most = 2  # now it ends
            while worker.tasks:
                await asyncio.sleep(0.01)
            self.assertEqual((count.now, [it.status for it in await worker.store.list()][0] in ("ended", "suspended")), (0, True))


FIXTURE = """
from datetime import timedelta
import hengomaru as hg

svc = hg.Service("svc")

@svc.handler()
async def remind(ctx, what):
    await ctx.sleep(timedelta(days=1))
    return f"drink your {what}"

def test_reminder(hengomaru):
    with hengomaru(hg.app([svc])) as jobs:
        id = jobs.submit(remind, "tea")
        jobs.advance(timedelta(days=1))
        assert jobs.result(id) == "drink your tea"
"""


class Harnesses(unittest.TestCase):
    @unittest.skipIf(lacks("pytest"), lacks("pytest"))
    def test_the_fixture_of_pytest(self):
        with tempfile.TemporaryDirectory() as folder:
            Path(folder, "test_it.py").write_text(FIXTURE)
            environment = {**os.environ, "PYTHONPATH": str(Path(__file__).resolve().parents[1])}
            words = [sys.executable, "-m", "pytest", "-q", "-p", "no:cacheprovider", "-p", "hengomaru.testing", folder]
            came = subprocess.run(words, env=environment, capture_output=True, text=True, timeout=300)
        self.assertEqual(came.returncode, 0, came.stdout + came.stderr)

    def test_what_always_fails_comes_to_an_end(self):
        with Harness(app) as jobs:
            self.assertRaisesRegex(StillOpen, "paused after 10 tries, of which the last has failed with: KeyError", jobs.call, breaks)

    def test_a_clock_that_is_moved(self):
        with Harness(app) as jobs:
            id = jobs.submit(naps)
            self.assertTrue(jobs.status(id).is_open)
            jobs.advance(2 * DAY)
            self.assertRaisesRegex(StillOpen, "it waits for 5: sleep", jobs.result, id)
            jobs.advance(DAY)
            self.assertEqual(jobs.result(id), "up")

    def test_logs_are_silent_in_replay(self):
        with self.assertLogs("tests.handlers") as told, Harness(app) as jobs:
            self.assertEqual(jobs.call(naps), "up")
        self.assertEqual(len(told.output), 3)

    def test_dataclasses(self):
        with Harness(app) as jobs:
            self.assertEqual(jobs.call(ordered, Order("Ada", Item("tea", 2))), {"name": "TEA", "amount": 3})
            self.assertEqual([jobs.call(remembers, Item("tea", n), "k") for n in (2, 3)], [2, 5])
            self.assertEqual(jobs.state("obj", "k"), {"item": {"name": "tea", "amount": 5}})

    def test_an_argument_that_is_none(self):
        with Harness(app) as jobs:
            jobs.wait(jobs.worker.submit_bytes("i", ("svc", "counted"), b'{"name": "tea", "colour": "green"}'))
            jobs.settle()
            self.assertRaisesRegex(hg.TerminalError, "Item has no colour", jobs.result, "i")

    def test_a_handler_that_makes_other_calls_is_found_out(self):
        with Harness(app) as jobs:
            id = jobs.submit(changes)
            jobs.advance(timedelta(seconds=1))
            self.assertRaisesRegex(StillOpen, r"\(570\)(.|\n)*nap 1(.|\n)*nap 2", jobs.result, id)

    def test_what_is_no_handler(self):
        with Harness(app) as jobs:
            self.assertRaisesRegex(TypeError, "lambda.*is no handler", jobs.submit, lambda ctx: None)
        with self.assertRaisesRegex(TypeError, "a handler is an `async def`"):
            svc.handler()(lambda ctx: None)

    def test_handlers_are_looked_at_where_they_are_made(self):
        service = hg.Service("s")

        async def none():
            pass

        async def three(ctx, a, b):
            pass

        async def yields(ctx):
            yield 1

        async def one(ctx):
            pass

        async def more(ctx, argument=None, *further, named=1):
            pass

        for it in (none, three, yields, print):
            self.assertRaises(TypeError, service.handler(), it)
        self.assertRaisesRegex(TypeError, "with its brackets", service.handler, one)
        self.assertRaisesRegex(TypeError, "with its brackets", hg.Workflow("w").main, one)
        service.handler()(one)
        service.handler()(more)
        self.assertRaisesRegex(ValueError, "is there already", service.handler(), one)
        self.assertRaisesRegex(ValueError, "two services are named s", hg.app, [hg.Service("s"), hg.VirtualObject("s")])
        self.assertRaisesRegex(ValueError, "is a service of the package itself", hg.app, [hg.Service("hengomaru")])
        self.assertRaises(TypeError, hg.app, [svc, one])
        self.assertRaises(ValueError, hg.Service, "")


if __name__ == "__main__":
    unittest.main()
