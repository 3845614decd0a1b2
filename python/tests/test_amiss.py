"""One job that does what it should not, beside one that is well: that one ends, also for a worker that begins anew, and what is amiss is told."""
import asyncio
import base64
import contextlib
import logging
import os
import tempfile
import unittest
import unittest.mock
from datetime import datetime, timedelta

import hengomaru as hg
from hengomaru import pb
from hengomaru.services import CALLER
from hengomaru.store import LONGEST, TooLong, find_program
from tests.cutting import Cut
from tests.needs import entered

HOUR, LONGEST_TEST = timedelta(hours=1), int(os.environ.get("HENGOMARU_LONGEST", "300"))
svc, obj, flow = hg.Service("svc"), hg.VirtualObject("obj"), hg.Workflow("flow")
app = hg.app([svc, obj, flow])
executed = []


def deep():
    made = []
    for _ in range(5000):
        made = [made]
    return made


def circular():
    made = []
    made.append(made)
    return made


ANSWERS = {
    "object": object, "set": lambda: {1, 2}, "circular": circular, "deep": deep, "surrogate": lambda: "x\ud800", "nan": lambda: float("nan"),
    "when": lambda: datetime(2026, 1, 1), "big": lambda: "z" * 33_600_000,
}
ERRORS = {
    "text": lambda: ValueError("file \udcff"), "exit": lambda: SystemExit(1), "cancelled": lambda: asyncio.CancelledError(), "code": lambda: hg.TerminalError("no", status_code="404"),
    "negative": lambda: hg.TerminalError("no", -1), "huge": lambda: hg.TerminalError("no", 2**40), "stop": lambda: StopIteration(1), "generator": lambda: GeneratorExit(),
}


@svc.handler()
async def good(ctx, arg):
    await ctx.sleep(timedelta(milliseconds=1))
    return [arg, await ctx.run("good", lambda: "done")]


@svc.handler()
async def answers(ctx, what):
    return ANSWERS[what]()


@svc.handler()
async def raises(ctx, what):
    raise ERRORS[what]()


@svc.handler()
async def runs(ctx, what):
    def body():
        executed.append(what)
        if what in ANSWERS:
            return ANSWERS[what]()
        raise ERRORS[what]()

    async def beside():
        return body()

    return await ctx.run("pay", beside if ctx.request().headers.get("beside") else body, max_attempts=3)


@svc.handler()
async def resolves(ctx, awakeable):
    # as an older package, or one in another language, writes it
    ctx._machine.sys_complete_awakeable(awakeable, b"1")
    await ctx.sleep(HOUR)


@svc.handler()
async def signals(ctx, target):
    ctx.resolve_signal(target, "go", 1)
    ctx.cancel_invocation(target)
    await ctx.sleep(HOUR)


@svc.handler()
async def waits(ctx):
    return await ctx.signal("go")


@svc.handler()
async def flaky(ctx, often):
    executed.append("flaky")
    if len(executed) <= often:
        raise KeyError("not yet")
    return len(executed)


@svc.handler()
async def calls(ctx, arg):
    how, target, key, headers = arg
    if how == "send":
        return await ctx.send(tuple(target), 1, key=key)
    body = pb.call_target(*target, key or "", None, headers)
    id, answer = ctx._machine.sys_call(body, b"1")
    future = ctx._future(answer)
    return [await ctx._future(id, lambda _, content: content), await future]


@svc.handler()
async def gives_much(ctx):
    return "ü" * 9_000


@svc.handler()
async def sets_much(ctx):
    for n in range(20):
        ctx.set(f"k{n}", "x" * 5_000)
    return sum([len(await ctx.get(f"k{n}")) for n in range(20)])


@contextlib.contextmanager
def smaller():
    """The store's bounds are a thousandth of what they are."""
    with unittest.mock.patch.multiple("hengomaru.store", LONGEST=50_000, MOST=24_000):
        yield


@obj.handler()
async def put(ctx, arg):
    ctx.set("k", arg)
    return arg


class Beside(unittest.IsolatedAsyncioTestCase):
    """Jobs over a file, of one worker after the other."""

    def setUp(self):
        executed.clear()
        folder = tempfile.TemporaryDirectory(dir="/dev/shm" if os.access("/dev/shm", os.W_OK) else None)
        self.addCleanup(folder.cleanup)
        self.folder, self.database, self.further = folder.name, folder.name + "/jobs.db", {}
        self.records = entered(self, self.logs())

    def logs(self):
        return self.assertLogs("hengomaru", logging.INFO)

    async def asyncSetUp(self):
        logging.getLogger("hengomaru").info("begins")
        self.worker = None
        await self.begin()

    async def asyncTearDown(self):
        await self.end()

    async def begin(self, **how):
        self.worker = await hg.Worker(self.database, app, **{"linger": 0.05, **self.further, **how}).open()
        self.going = asyncio.ensure_future(self.worker.run(is_watching=True))

    async def end(self):
        if self.worker:
            self.worker.is_stopping = True
            self.worker.pulse.set()
            await asyncio.wait_for(self.going, LONGEST_TEST)
            await self.worker.close()
        self.worker = None

    async def again(self, **how):
        await self.end()
        await self.begin(**how)

    async def ended(self, id):
        status = await asyncio.wait_for(self.worker.answered(id), LONGEST_TEST)
        return status.failure or status.value

    async def is_so(self, what, *given):
        """Waits until something is so."""
        async def looks():
            while not (found := await what(*given)):
                await asyncio.sleep(0.02)
            return found

        return await asyncio.wait_for(looks(), LONGEST_TEST)

    async def failed(self, id):
        """Waits until an attempt at it has failed: its error's text."""
        return (await self.is_so(self.worker.store.error, id))[3]

    async def good_ends(self, id="zgood"):
        await self.worker.submit(id, good, 1)
        self.assertEqual(await self.ended(id), [1, "done"])

    def said(self, text):
        return sum(text in it for it in self.records.output)


class Handlers(Beside):
    async def test_answers_that_json_has_not(self):
        for what in ANSWERS:
            await self.worker.submit(f"a-{what}", answers, what)
        await self.good_ends()
        for what in ANSWERS:
            code, message = await self.ended(f"a-{what}")
            self.assertEqual(code, 413 if what == "big" else 500)
            self.assertIn("the answer of svc/answers", message)
            self.assertEqual(self.said(f"a-{what}: it ends with a failure"), 1)
        await self.again()
        await self.good_ends("zgood2")

    async def test_whatever_is_raised(self):
        for what in ERRORS:
            await self.worker.submit(f"a-{what}", raises, what)
        await self.good_ends()
        for what in ERRORS:
            message = await self.failed(f"a-{what}")
            self.assertNotIn("\udcff", message)
            self.assertTrue((await self.worker.status(f"a-{what}")).is_open)
        await self.again()
        await self.good_ends("zgood2")
        self.assertIn("a TerminalError has a status_code such as 404", await self.failed("a-code"))
        self.assertIn("file \\udcff", await self.failed("a-text"))

    async def test_runs_whose_values_json_has_not_are_executed_once(self):
        for what in ANSWERS:
            for beside in "", "b":
                await self.worker.submit(f"a-{what}{beside}", runs, what, headers={"beside": beside} if beside else {})
        await self.good_ends()
        for what in ANSWERS:
            for beside in "", "b":
                code, message = await self.ended(f"a-{what}{beside}")
                self.assertIn("the run 'pay' is done, and is not executed again", message)
        self.assertEqual({what: executed.count(what) for what in ANSWERS}, {what: 2 for what in ANSWERS})

    async def test_runs_that_raise_whatever(self):
        for what in ("text", "exit", "cancelled", "stop"):
            for beside in "", "b":
                await self.worker.submit(f"a-{what}{beside}", runs, what, headers={"beside": beside} if beside else {})
        await self.good_ends()
        for what in ("text", "exit", "cancelled", "stop"):
            for beside in "", "b":
                code, message = await self.ended(f"a-{what}{beside}")  # after three attempts
                self.assertEqual(code, 500, message)

    async def test_it_is_paused_after_some_tries_and_told(self):
        await self.again(tries=3)
        await self.worker.submit("a", flaky, 3)
        await self.good_ends()

        async def is_paused():
            return self.worker.not_before.get("a") == float("inf")

        await self.is_so(is_paused)
        self.assertEqual(len(executed), 3)
        self.assertEqual(self.said("a: KeyError: 'not yet'"), 1)
        self.assertEqual(self.said("a: paused after 3 tries"), 1)
        self.assertEqual(self.said("hengomaru resume DATABASE a"), 1)
        self.assertEqual((await self.worker.store.error("a"))[3], "paused after 3 tries, of which the last has failed with: KeyError: 'not yet'")
        await self.again()
        await self.good_ends("zgood2")
        self.assertEqual(len(executed), 3)  # it stays so for the next worker
        await self.worker.resume("a")
        self.assertEqual(await self.ended("a"), 4)

    async def test_a_pause_that_was_over_stays_so(self):
        await self.again(tries=1)
        await self.worker.submit("a", flaky, 1)

        async def is_paused():
            return self.worker.not_before.get("a") == float("inf")

        await self.is_so(is_paused)
        await self.worker.pause("a")
        await self.again(tries=0)
        self.assertEqual(self.worker.not_before, {"a": float("inf")})
        await self.worker.resume("a")
        self.assertEqual(await self.ended("a"), 2)

    async def test_a_resumed_one_that_sleeps_is_gone_on_with_by_the_next_worker(self):
        await self.worker.submit("a", waits)

        async def is_suspended():
            return any(it.id == "a" and it.status == "suspended" for it in await self.worker.store.list())

        await self.is_so(is_suspended)
        await self.worker.pause("a")
        await self.worker.resume("a")
        await self.is_so(is_suspended)
        await self.again()
        self.assertEqual(self.worker.not_before, {})
        await self.worker.signal("a", "go", 7)
        self.assertEqual(await self.ended("a"), 7)

    async def test_an_object_whose_handler_is_paused_stays_taken(self):
        await self.worker.submit("a", put, 1, "k")
        self.assertEqual(await self.ended("a"), 1)


class Posts(Beside):
    async def test_awakeables_that_are_none(self):
        b64 = lambda it: base64.urlsafe_b64encode(it).decode().rstrip("=")
        await self.worker.submit("w", waits)
        bad = ["", "sign_1", "x", "sign_1" + b64(b"w" + (3).to_bytes(4, "big")), "sign_1" + b64(b"w" + (1).to_bytes(4, "big")), "sign_1" + b64(b"\xff" + (17).to_bytes(4, "big")), "sign_1" + b64(b"absent" + (17).to_bytes(4, "big")), "sign_1" + b64((17).to_bytes(4, "big"))]
        for n, it in enumerate(bad):
            await self.worker.submit(f"a{n}", resolves, it)
        await self.good_ends()
        await self.again()
        await self.good_ends("zgood2")
        self.assertTrue((await self.worker.status("w")).is_open)  # no number but an awakeable's is taken: 1 would cancel it
        self.assertEqual([await self.worker.resolve_awakeable(it) for it in bad], [False] * len(bad))

    async def test_signals_to_nobody(self):
        for n, it in enumerate(["", "absent"]):
            await self.worker.submit(f"a{n}", signals, it)
        await self.good_ends()
        await self.again()
        await self.good_ends("zgood2")

    async def test_calls_of_what_is_not_there(self):
        told = {
            "a1": ("call", ("svc", "absent"), "", {}), "a2": ("call", ("obj", "put"), "", {}), "a3": ("call", ("absent", "h"), "k", {}),
            "b1": ("send", ("svc", "absent"), None, {}), "b2": ("send", ("obj", "put"), None, {}),
        }
        for id, arg in told.items():
            await self.worker.submit(id, calls, arg)
        await self.good_ends()
        self.assertEqual(await self.ended("a1"), (404, "there is no handler svc/absent"))
        self.assertEqual(await self.ended("a2"), (400, "obj/put is called with a key"))
        self.assertEqual(await self.ended("a3"), (404, "there is no handler absent/h"))
        self.assertEqual(await self.ended("b1"), "b1~1")
        self.assertEqual(await self.ended("b2"), "b2~1")
        open_ids = {it.id for it in await self.worker.store.list() if it.status in ("live", "due", "suspended")}
        self.assertEqual(open_ids, {"b1~1~later"})  # it waits for a worker that has the handler

        @svc.handler()
        async def absent(ctx, arg):
            return "there now"

        self.addCleanup(svc.handlers.pop, "absent")
        await self.again()
        self.assertEqual(await self.ended("b1~1"), "there now")

    async def test_headers_that_the_package_uses(self):
        await self.good_ends()
        await self.worker.submit("a", calls, ("call", ("svc", "good"), "", {"hengomaru-id": "zgood", CALLER: "x"}))
        self.assertEqual(await self.ended("a"), ["a~1", [1, "done"]])
        with self.assertRaisesRegex(ValueError, "no caller's"):
            await self.worker.submit("b", good, headers={"Hengomaru-Key": "x"})

    async def test_an_answer_that_is_too_long_for_its_caller(self):
        with smaller():
            await self.worker.submit("a", calls, ("call", ("svc", "gives_much"), "", {}))
            code, message = await self.ended("a")
            self.assertEqual(await self.ended("a~1"), "ü" * 9_000)  # it is recorded, and cannot be handed on
            await self.good_ends()
        self.assertEqual(code, 500)
        self.assertIn("too long for the store", message)

    async def test_many_frames_in_several_lines(self):
        with smaller():
            await self.worker.submit("a", sets_much)
            self.assertEqual(await self.ended("a"), 20 * 5_000)
            await self.good_ends()

    async def test_ids_do_not_collide(self):
        await self.worker.submit("o1.1", good, "mine")
        await self.worker.submit("o1", calls, ("call", ("svc", "good"), "", {}))
        self.assertEqual(await self.ended("o1"), ["o1~1", [1, "done"]])
        self.assertEqual(await self.ended("o1.1"), ["mine", "done"])
        for id in ("obj/k", "o1~1", "x~later", "flow/k", "svc/good//key", "a\nb", "", "\u202eevil", "x\udcff"):
            with self.assertRaises(ValueError, msg=id):
                await self.worker.submit(id, good)


class Inputs(Beside):
    async def test_what_is_too_long_is_refused_at_once(self):
        for argument in ("z" * 33_600_000, "ü" * 12_000_000):
            with self.assertRaisesRegex(ValueError, "at most"):
                await self.worker.submit("x", good, argument)
        with self.assertRaisesRegex(ValueError, "at most"):
            await self.worker.signal("x", "go", "z" * 33_600_000)
        with self.assertRaisesRegex(ValueError, "cannot be written as application/json"):
            await self.worker.submit("x", good, object())
        with self.assertRaises(TooLong):
            await self.worker.submit_bytes("x", good, b"\xff" * (LONGEST // 2))
        await self.good_ends()

    async def test_keys_that_lack(self):
        for it in ("obj/put", put):
            with self.assertRaisesRegex(ValueError, "obj/put is called with a key"):
                await self.worker.submit("x", it)
        for it in ("svc/absent", "hengomaru/later"):
            with self.assertRaises(LookupError):
                await self.worker.submit("x", it)

    async def test_ended_that_raises_ends_nobody(self):
        def raises(*_):
            raise RuntimeError("no")

        await self.again(ended=raises)
        await self.good_ends()

    async def test_bytes_that_are_no_json(self):
        told = []

        @svc.handler()
        async def of_bytes(ctx, arg: bytes) -> bytes:
            return b"\xff" + arg

        self.addCleanup(svc.handlers.pop, "of_bytes")
        await self.again(ended=lambda *it: told.append(it))
        await self.worker.submit("a", of_bytes, b"\x00")
        self.assertEqual(await self.ended("a"), b"\xff\x00")
        self.assertEqual(told, [("a", b"\xff\x00", None)])


class Stores(Beside):
    """What the store's process does amiss."""

    def setUp(self):
        super().setUp()
        self.cut = Cut(self.folder, find_program())
        self.further = {"program": str(self.cut.program)}

    async def test_a_disk_that_is_full_once(self):
        for how in ("full", "full after"):
            for word in ("invoke", "tick", "due", "begin", "output", "next"):
                self.cut.tell(word=word, how=how, once=True)
                await self.good_ends(f"{how}-{word}")
                self.assertEqual(self.cut.told()["how"], "")
                self.worker.rest = 0.0  # the test does not wait for what is well
        # each was told, but where two came together
        self.assertGreaterEqual(self.said("the database refused a statement"), 6)

    async def test_a_process_that_ends_at_each_begin_rests(self):
        await self.end()
        self.cut.tell(how="all", word="begin")
        await self.begin()
        await self.worker.submit("a", good, 1)

        async def has_ended():
            return self.said("the store's process has ended") >= 4

        await self.is_so(has_ended)
        self.assertGreater(self.worker.rest, 0.1)
        self.cut.tell()
        self.assertEqual(await self.ended("a"), [1, "done"])

    async def test_a_worker_that_cannot_begin_leaves_no_process(self):
        await self.end()
        worker = hg.Worker(self.database, app)

        async def fails():
            raise RuntimeError("no")

        worker.recover = fails
        with self.assertRaisesRegex(RuntimeError, "no"):
            await worker.open()
        await hg.Store(self.database, patience=0).open()

    async def test_one_whose_records_cannot_be_read_is_put_aside(self):
        await self.worker.submit("a", waits)
        await self.end()
        worker = hg.Worker(self.database, app)
        reads = worker.post_again

        async def post_again(id, shown):
            if id == "a":
                raise KeyError("what nobody has thought of")
            await reads(id, shown)

        worker.post_again = post_again
        self.worker = await worker.open()
        self.going = asyncio.ensure_future(self.worker.run(is_watching=True))
        await self.good_ends()
        self.assertEqual(self.said("a: what is recorded of it cannot be read"), 1)


if __name__ == "__main__":
    unittest.main()
