"""What an attempt makes of its handler, whatever that does. It needs the machine's library, and no store."""
import asyncio
import json
import logging
import threading
import unittest
from collections import deque
from datetime import datetime, timedelta

import hengomaru as hg
from hengomaru import machine, pb
from hengomaru.attempt import Attempt
from hengomaru.services import Target

logging.getLogger("hengomaru").setLevel(logging.CRITICAL)
try:
    machine.find()
except OSError:
    HAS_LIBRARY = False
else:
    HAS_LIBRARY = True

V7 = "application/vnd.restate.invocation.v7"
START, ERROR, AWAITING_ON, PROPOSAL, ACK, INPUT, OUTPUT, SIGNAL_CAME = 0x0000, 0x0002, 0x0004, 0x0005, 0x0006, 0x0400, 0x0401, 0xFBFF
RUN = 0x0410


class Channel:
    """The other side: it hands over a journal of an input alone, and acknowledges outcomes; then, and what else it is given, or no more."""

    def __init__(self, argument, *further):
        start = pb.record((1, b"inv_1"), (2, "inv_1"), (3, 1), (9, 42))
        self.frames, self.further, self.waits, self.changed = [], deque(further), False, asyncio.Event()
        self.coming = deque([pb.frame(START, start) + pb.frame(INPUT, pb.record((14, pb.record((1, json.dumps(argument).encode())))))])

    async def read(self):
        while not self.coming:
            if self.waits:
                return None
            if self.further:
                return self.further.popleft()
            self.changed.clear()
            await self.changed.wait()
        return self.coming.popleft()

    async def write(self, stream):
        for it in pb.frames(stream):
            self.frames.append(it)
            self.waits = it.type == AWAITING_ON and not dict(pb.fields(it.payload)).get(2) and not self.further
            if it.type == PROPOSAL:
                self.coming.append(pb.frame(ACK, pb.record((1, dict(pb.fields(it.payload))[1]))))
        self.changed.set()


def told_in(frame):
    found = dict(pb.fields(frame.payload))
    if frame.type == ERROR:
        return "error", found.get(1, 0), found.get(2, b"").decode()
    if 15 in found:
        return "failure", *pb.read_failure(found[15])[:2]
    return "answer", json.loads(dict(pb.fields(found[14])).get(1, b"null"))


def gone_on_with(function, argument=None, *further):
    """The frames of an attempt at a handler, and what it has told."""
    service = hg.Service("svc")
    handler = service.handler("h")(function)
    service.handler("other")(other)
    told, channel = [], Channel(argument, *further)

    async def go():
        attempt = Attempt(hg.app([service, stock]), Target("svc", "h"), V7, channel, lambda: 1000, tell=lambda *it: told.append(it))
        await attempt.run()

    asyncio.run(asyncio.wait_for(go(), 60))
    return channel.frames, told


def come_to(function, argument=None, *further):
    """What an attempt has come to: an answer, a failure, an error after which it is tried again, or the type of its last frame."""
    frames, _ = gone_on_with(function, argument, *further)
    return next((told_in(it) for it in frames if it.type in (OUTPUT, ERROR)), frames[-1].type)


async def other(ctx, arg):
    return arg


stock = hg.VirtualObject("stock")


@stock.handler()
async def reserve(ctx, arg):
    return arg


def answering(value):
    async def handler(ctx, argument):
        return value

    return handler


def raising(error):
    async def handler(ctx, argument):
        raise error

    return handler


def doing(action):
    """A handler that does this with its context, and answers what it is."""

    async def handler(ctx, argument):
        return action(ctx)

    return handler


def running(body, **how):
    async def handler(ctx, argument):
        try:
            return await ctx.run("pay", body, **how)
        except hg.TerminalError as error:
            return [error.status_code, error.message]

    return handler


@unittest.skipUnless(HAS_LIBRARY, "the machine's library is not there")
class Ends(unittest.TestCase):
    def test_an_answer_and_a_failure(self):
        self.assertEqual(come_to(answering([1, "ü"])), ("answer", [1, "ü"]))
        self.assertEqual(come_to(raising(hg.TerminalError("no", 409))), ("failure", 409, "no"))

    def test_an_answer_that_json_has_not_is_a_failure_for_good(self):
        circular, deep = [], []
        circular.append(circular)
        for _ in range(5000):
            deep = [deep]
        for value in (object(), {1, 2}, circular, deep, "x\ud800", float("nan"), float("inf"), datetime(2026, 1, 1), {(1, 2): 3}, b"bytes"):
            kind, code, message = come_to(answering(value))
            self.assertEqual((kind, code), ("failure", 500), message)
            self.assertIn("the answer of svc/h cannot be written as application/json", message)

    def test_it_is_told_once_why(self):
        _, told = gone_on_with(answering(object()))
        self.assertEqual(len(told), 1)
        self.assertIn("JSON has no object", told[0][1])

    def test_odd_failures(self):
        self.assertEqual(come_to(raising(hg.TerminalError(ValueError("x")))), ("failure", 500, "ValueError: x"))
        self.assertEqual(come_to(raising(hg.TerminalError("\udcff"))), ("failure", 500, "\\udcff"))
        self.assertEqual(come_to(raising(hg.TerminalError("no", 418, {"why": 1}))), ("failure", 418, "no"))
        self.assertEqual(come_to(raising(hg.TerminalError("x" * 200_000)))[2][-3:], "x..")

    def test_a_code_that_is_none_is_told_where_it_is_made(self):
        for code in ("404", -1, 2**40, 70_000, True, None, 4.5):
            kind, _, message = come_to(made_with(code))
            self.assertEqual((kind, message[:42]), ("error", "ValueError: a TerminalError has a status_c"))

    def test_a_failure_that_was_spoilt(self):
        async def handler(ctx, argument):
            error = hg.TerminalError("no")
            error.status_code = "404"
            raise error

        class Own(hg.TerminalError):
            def __init__(self):
                pass

        self.assertEqual(come_to(handler)[:2], ("failure", 500))
        self.assertEqual(come_to(raising(Own()))[:2], ("failure", 500))

    def test_a_text_that_is_no_utf8(self):
        self.assertEqual(come_to(raising(ValueError("file \udcff"))), ("error", 500, "ValueError: file \\udcff"))

    def test_a_text_that_cannot_be_told(self):
        class Silent(Exception):
            def __str__(self):
                raise KeyError

        self.assertEqual(come_to(raising(Silent())), ("error", 500, "Silent: its text cannot be told"))

    def test_what_would_end_a_process(self):
        for error in (SystemExit(3), asyncio.CancelledError(), GeneratorExit(), BaseException("x")):
            kind, code, message = come_to(raising(error))
            self.assertEqual((kind, code), ("error", 500))
            self.assertIn(type(error).__name__, message)

    def test_an_argument_that_is_none(self):
        async def handler(ctx, argument: int):
            return argument

        frames, _ = gone_on_with(handler)
        self.assertEqual(told_in(frames[0]), ("answer", None))
        self.assertEqual(come_to_bytes(handler, b"{")[:2], ("failure", 400))

    def test_a_value_of_33_megabytes_is_refused_where_it_is_made(self):
        big = "z" * 33_600_000
        said = "33,600,002 bytes: a value has at most 32,000,000"
        self.assertEqual(come_to(answering(big)), ("failure", 413, f"the answer of svc/h has {said}"))
        self.assertEqual(come_to(running(lambda: big)), ("answer", [413, f"the run 'pay' is done, and is not executed again, but its answer has {said}"]))
        for action in (lambda ctx: ctx.set("k", big), lambda ctx: ctx.call(other, big), lambda ctx: ctx.send(other, big), lambda ctx: ctx.resolve_awakeable("a", big), lambda ctx: ctx.resolve_signal("i", "s", big)):
            kind, code, message = come_to(doing(action))
            self.assertEqual((kind, code), ("failure", 413))
            self.assertIn("33,600,002 bytes", message)

    def test_what_is_handed_on_takes_three_bytes_for_one(self):
        big = "ü" * 12_000_000
        self.assertEqual(come_to(doing(lambda ctx: ctx.set("k", big)))[0], "answer")
        kind, code, message = come_to(doing(lambda ctx: ctx.call(other, big)))
        self.assertEqual((kind, code), ("failure", 413))
        self.assertIn("64,000,000 bytes", message)


def made_with(code):
    async def handler(ctx, argument):
        raise hg.TerminalError("no", code)

    return handler


def come_to_bytes(function, body):
    """As `come_to`, of an argument that is these bytes."""
    frames = []

    class Bytes(Channel):
        def __init__(self):
            super().__init__(None)
            start = pb.record((1, b"inv_1"), (2, "inv_1"), (3, 1), (9, 42))
            self.frames, self.coming = frames, deque([pb.frame(START, start) + pb.frame(INPUT, pb.record((14, pb.record((1, body)))))])

    service = hg.Service("svc")
    service.handler("h")(function)

    async def go():
        await Attempt(hg.app([service]), Target("svc", "h"), V7, Bytes(), lambda: 1000).run()

    asyncio.run(asyncio.wait_for(go(), 60))
    return next(told_in(it) for it in frames if it.type in (OUTPUT, ERROR))


@unittest.skipUnless(HAS_LIBRARY, "the machine's library is not there")
class Runs(unittest.TestCase):
    def test_a_value_that_json_has_not_fails_the_run_for_good(self):
        executed = []

        def pay():
            executed.append(1)
            return datetime(2026, 1, 1)

        async def pay_beside():
            return pay()

        for body in (pay, pay_beside):
            executed.clear()
            kind, (code, message) = come_to(running(body))
            self.assertEqual((kind, code, len(executed)), ("answer", 500, 1))
            self.assertIn("the run 'pay' is done, and is not executed again, but its answer cannot be written", message)

    def test_what_would_end_a_process(self):
        def in_thread(error):
            def body():
                raise error

            return body

        def beside(error):
            async def body():
                raise error

            return body

        for how in (in_thread, beside):
            for error in (SystemExit(1), asyncio.CancelledError(), KeyError("k"), BaseException("x"), ValueError("\udcff")):
                kind, code, message = come_to(running(how(error)))
                self.assertEqual((kind, code), ("error", 500), how)
                self.assertIn(type(error).__name__, message)
        self.assertIn("StopIteration", come_to(running(in_thread(StopIteration(1))))[2])
        self.assertIn("StopIteration", come_to(running(beside(StopIteration(1))))[2])

    def test_a_body_that_asks_something_of_its_context(self):
        def asking(action, is_beside):
            async def handler(ctx, argument):
                kept = ctx.sleep(timedelta(hours=1))

                async def body():
                    return action(ctx, kept)

                async def awaiting():
                    return await action(ctx, kept)

                try:
                    return await ctx.run("pay", awaiting if is_beside else lambda: action(ctx, kept))
                except hg.TerminalError as error:
                    return error.message

            return handler

        cases = {
            "ctx.set": lambda ctx, _: ctx.set("k", 1), "ctx.get": lambda ctx, _: ctx.get("k"), "ctx.sleep": lambda ctx, _: ctx.sleep(timedelta(1)),
            "ctx.call": lambda ctx, _: ctx.call(other), "ctx.run": lambda ctx, _: ctx.run("x", lambda: 1), "ctx.random": lambda ctx, _: ctx.random(),
            "ctx.uuid": lambda ctx, _: ctx.uuid(), "ctx.awakeable": lambda ctx, _: ctx.awakeable(), "ctx.promise": lambda ctx, _: ctx.promise("p").value(),
        }
        for name, action in cases.items():
            for is_beside in (False, True):
                _, message = come_to(asking(action, is_beside))
                self.assertIn(f"{name} is used in the body of the run 'pay'", message)
        _, message = come_to(asking(lambda _, kept: kept, True))
        self.assertIn("a future is used in the body of the run 'pay'", message)

    def test_a_body_may_look_at_the_request(self):
        async def handler(ctx, argument):
            return await ctx.run("pay", lambda: [ctx.request().id, ctx.key()])

        self.assertEqual(come_to(handler), ("answer", ["inv_1", ""]))

    def test_several_go_side_by_side(self):
        barrier = threading.Barrier(5)

        async def handler(ctx, argument):
            return [await it for it in await hg.gather(*(ctx.run(f"r{n}", lambda: barrier.wait(30) >= 0) for n in range(5)))]

        self.assertEqual(come_to(handler), ("answer", [True] * 5))

    def test_a_request_is_written_before_its_body_is_executed(self):
        seen = []

        async def go():
            service = hg.Service("svc")
            channel = Channel(None)

            @service.handler()
            async def h(ctx):
                return await ctx.run("pay", lambda: seen.append([it.type for it in channel.frames]))

            await Attempt(hg.app([service]), Target("svc", "h"), V7, channel, lambda: 1000).run()

        asyncio.run(go())
        self.assertEqual(seen, [[RUN]])

    def test_what_is_no_function(self):
        self.assertIn("the run 'pay' takes a function", come_to(running(3))[2])


@unittest.skipUnless(HAS_LIBRARY, "the machine's library is not there")
class Awaits(unittest.TestCase):
    def awaiting(self, make):
        async def handler(ctx, argument):
            return await make(ctx)

        return come_to(handler)

    def test_nothing_to_wait_for(self):
        cases = {
            "select has nothing": lambda ctx: hg.select(), "wait_completed has nothing": lambda ctx: hg.wait_completed(),
            "first_succeeded has nothing": lambda ctx: hg.first_succeeded(), "at_least waits for 1 to 2 of 2 futures, and not for 3": lambda ctx: hg.at_least(3, ctx.get("a"), ctx.get("b")),
            "not for 0": lambda ctx: hg.at_least(0, ctx.get("a")),
        }
        for message, make in cases.items():
            kind, _, told = self.awaiting(make)
            self.assertEqual(kind, "error")
            self.assertIn(f"ValueError: {message}" if not message.startswith("not") else message, told)
        self.assertEqual(self.awaiting(lambda ctx: hg.gather()), ("answer", []))

    def test_what_is_not_of_the_context(self):
        async def asleep():
            await asyncio.sleep(0.01)

        for make in (lambda ctx: asyncio.sleep(0), lambda ctx: asleep(), lambda ctx: asyncio.get_running_loop().create_future()):
            kind, _, message = self.awaiting(make)
            self.assertEqual(kind, "error")
            self.assertIn("a handler awaits what its context gives, and nothing else", message)
        self.assertIn("what a context gives is awaited together", self.awaiting(lambda ctx: hg.gather(asyncio.sleep(0)))[2])

    def test_a_future_of_another_context(self):
        kept = []

        async def keeps(ctx, argument):
            kept.append(ctx.sleep(timedelta(hours=1)))

        come_to(keeps)
        for make in (lambda ctx: kept[0], lambda ctx: hg.gather(kept[0], ctx.sleep(timedelta(1)))):
            self.assertIn("this future is of another invocation", self.awaiting(make)[2])

    def test_a_handler_that_catches_all(self):
        async def handler(ctx, argument):
            while True:
                try:
                    await ctx.sleep(timedelta(hours=1))
                except BaseException:
                    return "went on"

        self.assertEqual(come_to(handler), 0x0001)  # suspended

    def test_a_handler_that_does_not_let_itself_be_left(self):
        async def awaits(ctx, argument):
            try:
                await ctx.sleep(timedelta(hours=1))
            finally:
                await ctx.run("undo", lambda: 1)

        async def ignores(ctx, argument):
            for _ in range(3):
                try:
                    await ctx.sleep(timedelta(hours=1))
                except GeneratorExit:
                    pass

        for handler in (awaits, ignores):
            self.assertEqual(come_to(handler), 0x0001)

    def test_a_channel_that_fails_is_no_failure_of_the_handler(self):
        class Fails(Channel):
            async def write(self, stream):
                raise hg.StoreGone

        caught = []

        async def go():
            service = hg.Service("svc")

            @service.handler()
            async def h(ctx):
                try:
                    await ctx.sleep(timedelta(1))
                except Exception as error:
                    caught.append(error)
                    raise

            await Attempt(hg.app([service]), Target("svc", "h"), V7, Fails(None), lambda: 1000).run()

        self.assertRaises(hg.StoreGone, asyncio.run, go())
        self.assertEqual(caught, [])

    def test_a_cancellation(self):
        async def handler(ctx, argument):
            ctx.set("before", 1)
            try:
                await ctx.sleep(timedelta(hours=1))
            except hg.Cancelled:
                return "undone"

        self.assertEqual(come_to(handler, None, pb.frame(SIGNAL_CAME, pb.record((2, 1), (4, b"")))), ("answer", "undone"))


@unittest.skipUnless(HAS_LIBRARY, "the machine's library is not there")
class Calls(unittest.TestCase):
    def test_what_is_called_amiss(self):
        cases = [
            (lambda ctx: ctx.call(reserve), "failure", 400, "stock/reserve is called with a key"),
            (lambda ctx: ctx.send(reserve), "failure", 400, "stock/reserve is called with a key"),
            (lambda ctx: ctx.call(other, headers={"hengomaru-id": "zgood"}), "failure", 400, "a header hengomaru-id is no caller's"),
            (lambda ctx: ctx.send(other, headers={"Hengomaru-Caller": "x"}), "failure", 400, "a header Hengomaru-Caller is no caller's"),
            (lambda ctx: ctx.call(other, headers={"x": 1}), "failure", 400, "a header is a text"),
            (lambda ctx: ctx.call(other, idempotency_key=""), "failure", 400, "an idempotency key that is empty"),
            (lambda ctx: ctx.call(other, object()), "failure", 500, "the argument of svc/other cannot be written"),
            (lambda ctx: ctx.set("k", {1}), "failure", 500, "the value of k cannot be written"),
            (lambda ctx: ctx.resolve_awakeable("", 1), "failure", 400, "'' is no awakeable's id"),
            (lambda ctx: ctx.reject_awakeable("", "no"), "failure", 400, "'' is no awakeable's id"),
            (lambda ctx: ctx.resolve_awakeable("sign_1\udcff", 1), "failure", 400, "is no awakeable's id"),
            (lambda ctx: ctx.promise("p").resolve({1}), "failure", 500, "the value of the promise p cannot be written"),
            (lambda ctx: ctx.sleep(5), "error", 500, "a timedelta is wanted, such as timedelta(seconds=5), and not 5"),
            (lambda ctx: ctx.call(lambda ctx, arg: 1), "error", 500, "is no handler: `@service.handler()` makes a function one"),
            (lambda ctx: ctx.call("other"), "error", 500, "'other' names no handler: SERVICE/HANDLER does"),
            (lambda ctx: ctx.set("\udcff", 1), "error", 500, "UnicodeEncodeError"),
        ]
        for action, *wanted, message in cases:
            *told, said = come_to(doing(action))
            self.assertEqual(told, wanted, said)
            self.assertIn(message, said)

    def test_the_names_of_the_sdk(self):
        async def handler(ctx, argument):
            def add(a, b=0):
                return a + b

            first = await ctx.run_typed("add", add, hg.RunOptions(max_attempts=2), 1, b=2)
            sent = ctx.generic_send("svc", "other", b"1")
            assert hasattr(sent, "invocation_id")
            return first

        self.assertEqual(come_to(handler), ("answer", 3))


class Policies(unittest.TestCase):
    def test_what_is_no_policy(self):
        for how in ({"max_attempts": 0}, {"max_attempts": "3"}, {"retry_interval_factor": 0.5}, {"retry_interval_factor": float("nan")}):
            self.assertRaises(ValueError, hg.RunOptions, **how)
        self.assertRaises(TypeError, hg.RunOptions, max_duration=5)


if __name__ == "__main__":
    unittest.main()
