"""Each call of a context once, through a worker over the machine's library and the store's process."""
import os
import signal
import tempfile
import time
import unittest
from datetime import timedelta

import asyncio
import logging

import hengomaru as hg
from hengomaru.testing import Harness

logging.getLogger("hengomaru").setLevel(logging.CRITICAL)

# Seconds that a job may take, however slow the store is.
LONGEST = 300
HOUR, MOMENT = timedelta(hours=1), timedelta(milliseconds=2)
svc, obj, flow = hg.Service("svc"), hg.VirtualObject("obj"), hg.Workflow("flow")
tried = []


@svc.handler()
async def echo(ctx, arg):
    return {"echo": arg, "headers": ctx.request().headers}


@svc.handler()
async def fails(ctx, arg):
    raise hg.TerminalError(f"no: {arg}", 418)


@svc.handler()
async def waits(ctx, arg):
    id, future = ctx.awakeable()
    await ctx.run("publish", tried.append, id)
    return await future


@svc.handler()
async def resolves(ctx, arg):
    how = ctx.reject_awakeable if arg[1] else ctx.resolve_awakeable
    how(arg[0], "by another")


@svc.handler()
async def signalled(ctx, arg):
    return [await ctx.signal("go"), await ctx.signal("go")]


@svc.handler()
async def sends_signals(ctx, id):
    ctx.send_signal(id, "go", 1)
    await ctx.sleep(MOMENT)
    ctx.send_signal(id, "go", {"two": 2})


@svc.handler()
async def flaky(ctx, most):
    def body():
        tried.append(1)
        if len(tried) < 3:
            raise RuntimeError("not yet")
        return len(tried)

    options = hg.RunOptions(max_attempts=most, initial_retry_interval=timedelta(milliseconds=1))
    return await ctx.run("flaky", body, options=options)


@svc.handler()
async def raises(ctx, arg):
    tried.append(1)
    if len(tried) < 3:
        raise KeyError("not yet")
    return len(tried)


@svc.handler()
async def runs(ctx, arg):
    async def body(told, further):
        tried.append(1)
        return [told, further]

    first = await ctx.run("body", body, 1, further=2)
    await ctx.sleep(MOMENT)
    return [first, await ctx.run("again", lambda: len(tried))]


@svc.handler()
async def sleepy(ctx, arg):
    try:
        await ctx.sleep(HOUR)
    except hg.Cancelled as error:
        await ctx.sleep(MOMENT)
        return f"{error.status_code} and on"


@svc.handler()
async def cancels(ctx, arg):
    child = ctx.call(sleepy)
    id = await child.invocation_id()
    ctx.cancel_invocation(id)
    return [id, await child]


@svc.handler()
async def calls_sleepy(ctx, arg):
    return await ctx.call(sleepy)


@svc.handler()
async def calls(ctx, arg):
    came = [await ctx.call(echo, ["ü", None], headers={"x": "y"})]
    try:
        await ctx.service_call(("svc", "fails"), "x")
    except hg.TerminalError as error:
        came.append([error.status_code, error.message])
    came.append([await it for it in await hg.gather(*(ctx.object_call(count, "k", by) for by in (1, 2, 3)))])
    return came


@svc.handler()
async def together(ctx, arg):
    soon = lambda value: ctx.call(later, value)
    never = lambda: ctx.sleep(HOUR)
    came = [await hg.select(slow=never(), fast=soon(1))]
    done, left = await hg.wait_completed(never(), soon(2))
    came.append([await done[0], len(left)])
    came.append(await hg.all_succeeded(soon(3), soon(4)))
    came.append(await hg.first_succeeded(never(), ctx.call(fails), soon(5)))
    came.append(await hg.at_least(2, never(), ctx.call(fails), soon(6), soon(7)))
    try:
        await hg.all_succeeded(never(), ctx.call(fails, "all"))
    except hg.TerminalError as error:
        came.append(error.message)
    async for it in hg.as_completed(soon(8), soon(9)):
        came.append(await it)
    return came


@svc.handler()
async def later(ctx, arg):
    await ctx.sleep(MOMENT)
    return arg


@obj.handler()
async def count(ctx, by):
    total = (await ctx.get("n") or 0) + by
    ctx.set("n", total)
    ctx.set("gone", 1)
    ctx.clear("gone")
    return [total, await ctx.state_keys(), ctx.key()]


@obj.handler()
async def sends_to_itself(ctx, arg):
    await ctx.send(count, 5, key=ctx.key())
    await ctx.sleep(MOMENT)
    return "sent"


@obj.handler()
async def clears(ctx, arg):
    ctx.clear_all()
    return await ctx.keys()


@svc.handler()
async def sends(ctx, arg):
    ids = [await ctx.send(later, 1), await ctx.send(later, 2, delay=timedelta(seconds=1)), await ctx.send(later, 3, idempotency_key="same")]
    again = await ctx.send(later, 4, idempotency_key="same")
    return [ids, again == ids[2], (await ctx.get_invocation_output(ids[1])).is_ready, await ctx.attach_invocation(ids[0]), await ctx.attach(ids[1])]


@svc.handler()
async def attaches_nowhere(ctx, arg):
    await ctx.attach_invocation("absent")


@svc.handler()
async def draws(ctx, arg):
    told = [ctx.random().random(), str(ctx.uuid()), await ctx.time()]
    tried.append(told)
    await ctx.sleep(MOMENT)
    return told


@flow.main()
async def main(ctx, arg):
    ctx.set("by", arg)
    peeked = await ctx.promise("done").peek()
    return [peeked, await ctx.promise("done"), await ctx.promise("done").peek(), ctx.key()]


@flow.handler()
async def complete(ctx, arg):
    try:
        await ctx.promise("done").resolve(arg)
    except hg.TerminalError as error:
        return error.status_code


@flow.handler()
async def rejects(ctx, arg):
    await ctx.promise("done").reject("no promise", 410)


class Blocking:
    """A worker over the clock on the wall, from code without a loop."""

    def __init__(self, database, app, **further):
        self.loop = asyncio.new_event_loop()
        self.worker = hg.Worker(database, app, **{"linger": 0.05, **further})
        self.do(self.worker.open())

    def do(self, work):
        return self.loop.run_until_complete(asyncio.wait_for(work, 2 * LONGEST))

    def __getattr__(self, name):
        return lambda *given, **named: self.do(getattr(self.worker, name)(*given, **named))

    def close(self):
        self.do(self.worker.close())
        self.loop.close()

    def state(self, object):
        return self.do(self.worker.store.state(object))

    def listed(self):
        return self.do(self.worker.store.list())

    def open_ids(self):
        return [it.id for it in self.listed() if it.status in ("live", "due", "suspended")]


class Features(unittest.TestCase):
    linger = 0.05

    def setUp(self):
        tried.clear()
        self.worker = Blocking(":memory:", [svc, obj, flow], linger=self.linger)
        self.addCleanup(self.worker.close)

    def answer(self, id):
        is_open, value, failure = self.worker.status(id)
        return "open" if is_open else failure or value

    def run_one(self, handler, argument=None, key=None):
        id = self.worker.submit("i", handler, argument, key)
        self.worker.run(longest=timedelta(seconds=LONGEST))
        return self.answer(id)

    def run_until(self, id, status):
        """Goes on until an invocation stands so."""
        ends = time.monotonic() + LONGEST
        while not any(it.id == id and it.status == status for it in self.worker.listed()):
            self.assertLess(time.monotonic(), ends)
            self.worker.run(longest=timedelta(seconds=0.1))

    def test_calls(self):
        self.assertEqual(self.run_one(calls), [
            {"echo": ["ü", None], "headers": {"x": "y"}}, [418, "no: x"], [[1, ["n"], "k"], [3, ["n"], "k"], [6, ["n"], "k"]],
        ])
        self.assertEqual(self.worker.state("obj/k"), {b"n": b"6"})

    def test_a_failure_is_the_answer(self):
        self.assertEqual(self.run_one(fails, "top"), (418, "no: top"))
        [row] = self.worker.listed()
        self.assertEqual((row.status, row.answer, row.went), ("ended", "failure", "failed"))
        self.assertEqual(self.worker.do(self.worker.worker.store.ending("i")), ((418, "no: top"), False))
        self.assertFalse(self.worker.do(self.worker.worker.store.is_due("i")))

    def test_several_together(self):
        self.assertEqual(self.run_one(together), [["fast", 1], [2, 1], [3, 4], 5, [6, 7], "no: all", 8, 9])

    def test_state_is_cleared(self):
        self.worker.submit("a", count, 1, "k")
        self.worker.run()
        self.assertEqual(self.run_one(clears, key="k"), [])
        self.assertEqual(self.worker.state("obj/k"), {})

    def test_a_send_to_an_object_that_is_busy(self):
        self.assertEqual(self.run_one(sends_to_itself, key="k"), "sent")
        self.assertEqual(self.worker.state("obj/k"), {b"n": b"5"})
        self.assertEqual(self.worker.open_ids(), [])

    def test_sends_and_attachments(self):
        self.assertEqual(self.run_one(sends), [["i~1", "i~3", "svc/later//same"], True, False, 1, 2])
        self.assertEqual(self.worker.open_ids(), [])
        self.assertEqual(self.answer("svc/later//same"), 3)

    def test_an_invocation_that_is_not_there(self):
        self.assertEqual(self.run_one(attaches_nowhere), (404, "there is no invocation absent"))

    def test_awakeables(self):
        for n, (is_failed, came) in enumerate(((0, "by another"), (1, (500, "by another")))):
            self.worker.submit(f"w{n}", waits)
            self.worker.run()
            self.worker.submit(f"r{n}", resolves, [tried[n], is_failed])
            self.worker.run()
            self.assertEqual(self.answer(f"w{n}"), came)
        self.worker.submit("w", waits)
        self.worker.run()
        self.assertEqual([self.worker.resolve_awakeable(tried[2], it) for it in (7, 8)], [True, False])
        self.worker.run()
        self.assertEqual(self.answer("w"), 7)

    def test_signals(self):
        self.worker.submit("s", signalled)
        self.assertEqual(self.run_one(sends_signals, "s"), None)
        self.assertEqual(self.answer("s"), [1, {"two": 2}])
        self.worker.submit("t", signalled)
        self.worker.signal("t", "go", 3)
        self.worker.signal("t", "go", 4)
        self.worker.run()
        self.assertEqual(self.answer("t"), [3, 4])

    def test_runs(self):
        self.assertEqual(self.run_one(runs), [[1, 2], 1])

    def test_a_run_is_tried_again(self):
        self.assertEqual(self.run_one(flaky), 3)

    def test_a_run_is_tried_so_often(self):
        self.assertEqual(self.run_one(flaky, 1), (500, "RuntimeError: not yet"))

    def test_a_handler_is_tried_again(self):
        self.assertEqual(self.run_one(raises), 3)

    def test_cancellation(self):
        self.assertEqual(self.run_one(cancels), ["i~1", "409 and on"])
        self.worker.submit("p", calls_sleepy)
        self.run_until("p~1", "suspended")
        self.worker.cancel_invocation("p")
        self.worker.run(longest=timedelta(seconds=LONGEST))
        self.assertEqual([self.answer("p"), self.answer("p~1")], [(409, "cancelled"), "409 and on"])

    def test_random_numbers_are_alike_in_each_attempt(self):
        came = self.run_one(draws)
        self.assertEqual(tried, [came] * len(tried))
        tried.clear()
        with Harness([svc]) as jobs:  # its clock is moved behind the first attempt
            came = jobs.call(draws)
        self.assertEqual(tried, [came] * 2)

    def test_a_workflow(self):
        id = self.worker.submit(None, main, "Ada", "k")
        self.worker.run()
        self.assertEqual((id, self.worker.submit(None, main, "Bob", "k"), self.answer(id)), ("flow/k", "flow/k", "open"))
        self.worker.submit("c", complete, 5, "k")
        self.worker.submit("d", complete, 6, "k")
        self.worker.run()
        self.assertEqual([self.answer(it) for it in (id, "c", "d")], [[None, 5, 5, "k"], None, 409])
        self.worker.submit("e", main, None, "l")
        self.worker.submit("f", rejects, None, "l")
        self.worker.run()
        self.assertEqual(self.answer("e"), (410, "no promise"))

    def test_jobs_that_cannot_be_made(self):
        self.worker.submit("a", sleepy)
        self.assertEqual(self.worker.submit("a", sleepy), "a")
        self.worker.submit("b", sends_to_itself, None, "k")
        self.assertRaises(hg.Busy, self.worker.submit, "c", count, 1, "k")
        self.assertRaises(LookupError, self.worker.submit, "c", "svc/absent")
        self.assertRaises(LookupError, self.worker.status, "absent")
        self.assertRaises(hg.Refused, self.worker.signal, "absent", "go")

    def test_what_is_not_awaited(self):
        plain = hg.Service("plain")

        @plain.handler()
        async def sleeps(ctx, arg):
            await asyncio.sleep(0)

        with Harness([plain]) as jobs:
            jobs.submit(sleeps, id="i")
            self.assertIn("a handler awaits what its context gives", jobs.last_error("i"))


class Suspended(Features):
    """The same where each wait suspends the attempt."""

    linger = 0


class Restarts(unittest.TestCase):
    def setUp(self):
        tried.clear()
        folder = tempfile.TemporaryDirectory()
        self.addCleanup(folder.cleanup)
        self.database = folder.name + "/jobs.db"

    def worker(self):
        worker = Blocking(self.database, [svc, obj, flow])
        self.addCleanup(worker.close)
        return worker

    def test_the_process_is_killed(self):
        worker = self.worker()
        worker.submit("i", together)
        for _ in range(4):
            worker.worker.store.pipe.transport.kill()
            worker.run(longest=timedelta(milliseconds=20))
        worker.run(longest=timedelta(seconds=LONGEST))
        self.assertEqual(worker.status("i"), (False, [["fast", 1], [2, 1], [3, 4], 5, [6, 7], "no: all", 8, 9], None))

    def test_another_process_has_the_file(self):
        self.worker()
        self.assertRaisesRegex(hg.NotOpened, "another process has it open", asyncio.run, hg.Store(self.database, patience=0).open())

    def test_a_workers_promises_are_found_again(self):
        worker = self.worker()
        worker.submit("c", complete, 5, "k")
        worker.run()
        worker.close()
        self._cleanups.pop()
        worker = self.worker()
        worker.submit("m", main, None, "k")
        worker.run()
        self.assertEqual(worker.status("m"), (False, [5, 5, 5, "k"], None))


if __name__ == "__main__":
    unittest.main()
