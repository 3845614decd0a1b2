"""What a worker forgets, and what it keeps, over a stand-in of the store's process."""
import asyncio
import json
import logging
import unittest
import unittest.mock
from datetime import timedelta

import hengomaru as hg
from hengomaru import forgetting, pb
from hengomaru.endpoint import manifest_of
from hengomaru.delivery import AS_ID, ATTACH, CALL, SEND
from hengomaru.promises import COMPLETE_PROMISE
from hengomaru.recovery import NEVER
from hengomaru.services import MILLISECOND, span_of
from hengomaru.store import Arrival, Ending, Listed, OpenRequest, Recorded, Refused, Shown, Store
from hengomaru.web import Web
from hengomaru.worker import Worker
from tests.needs import lacks

DAY = timedelta(days=1)
svc, obj, flow = hg.Service("svc"), hg.VirtualObject("obj", retention=2 * DAY), hg.Workflow("flow")
# Of these some have a retention of their own, and of those none has.
app, without = hg.app([svc, obj, flow]), hg.app([hg.Service("svc"), hg.VirtualObject("obj"), hg.Workflow("flow")])


@svc.handler()
async def plain(ctx):
    pass


@svc.handler(retention=timedelta(0))
async def brief(ctx):
    pass


@svc.handler(retention=timedelta.max)
async def lasting(ctx):
    pass


@obj.handler()
async def put(ctx):
    pass


@obj.handler(retention=DAY)
async def get(ctx):
    pass


@flow.main(retention=3 * DAY)
async def main(ctx):
    pass


@flow.handler()
async def beside(ctx):
    pass


def call(place, service="svc", handler="plain", key="", idempotency_key=None, headers=None, type=CALL):
    return OpenRequest(place, 1, 2, type, pb.call_target(service, handler, key, idempotency_key, headers or {}))


class StandIn:
    """What a worker asks of a store as it forgets; `asked` has what it was told to forget."""

    is_gone, rows, list = False, Store.rows, Store.list

    def __init__(self):
        self.invocations, self.asked, self.amiss = {}, [], None

    def put(self, id, object=None, status="ended", requests=(), completed=()):
        self.invocations[id] = object or id, status, list(requests), list(completed)

    async def page(self, after="", most=1000):
        await asyncio.sleep(0)
        found = sorted((it for it in self.invocations if it.encode() > after.encode()), key=str.encode)
        return [Listed(it, *self.invocations[it][:2], 1, 1, "none") for it in found[:3]]

    def found(self, id):
        if id not in self.invocations:
            raise Refused("S4", id)
        return self.invocations[id]

    async def show(self, id):
        await asyncio.sleep(0)
        _, status, _, completed = self.found(id)
        asked = [Recorded(n, COMPLETE_PROMISE, pb.record((1, name), (2, pb.record((1, b"1"))), (11, n))) for n, name in enumerate(completed)]
        return Shown(asked, [Arrival(9, f"c{n}", "void", None) for n in range(len(completed))], b"", status == "due")

    async def ending(self, id):
        await asyncio.sleep(0)
        return Ending(b"", self.found(id)[1] == "due")

    async def requests(self, id):
        await asyncio.sleep(0)
        return list(self.found(id)[2])

    async def forget(self, ids):
        self.asked.append(list(ids))
        if self.amiss:
            raise self.amiss
        for it in ids:
            if self.found(it)[1] == "due":
                raise Refused("S1", it)
        for it in ids:
            del self.invocations[it]


class Forgets(unittest.IsolatedAsyncioTestCase):
    def setUp(self):
        self.store, self.now = StandIn(), 1_000_000

    async def begin(self, app=without, **how):
        """A worker that has listed what there is, and has looked at no request."""
        self.worker = Worker(":memory:", app, program="none", clock=lambda: self.now, **how)
        self.worker.store = self.store
        self.worker.prepare()
        await self.worker.survey()
        return self.worker

    def pass_by(self, time):
        self.now += time // timedelta(milliseconds=1)

    async def by_itself(self, *left):
        """Looks at what may be forgotten as a worker does from time to time; these are left."""
        await self.worker.purge_by_itself()
        self.worker.purges_again()
        self.assertEqual(sorted(self.store.invocations), sorted(left))

    async def purged(self, *left):
        many = len(self.store.invocations)
        self.assertEqual(await self.worker.purge(), many - len(left))
        self.assertEqual(sorted(self.store.invocations), sorted(left))

    # ---- what goes
    async def test_what_has_ended_goes_page_by_page(self):
        for n in range(10):
            self.store.put(f"j{n}", status=("ended", "failed", "due")[n % 3])
        await self.begin()
        with self.assertLogs("hengomaru", logging.INFO) as told:
            await self.purged("j2", "j5", "j8")
        self.assertEqual(self.store.asked, [["j0", "j1"], ["j3", "j4"], ["j6", "j7"], ["j9"]])
        self.assertEqual([it.split(":")[-1] for it in told.output], ["2 that had ended are forgotten, up to j1", "2 that had ended are forgotten, up to j4", "2 that had ended are forgotten, up to j7", "1 that had ended are forgotten, up to j9"])
        await self.purged("j2", "j5", "j8")
        self.assertEqual(len(self.store.asked), 4)

    async def test_not_more_at_once_than_there_may_be(self):
        for n in range(3):
            self.store.put(f"j{n}")
        await self.begin()
        with unittest.mock.patch.object(forgetting, "AT_ONCE", 2):
            await self.purged()
        self.assertEqual(self.store.asked, [["j0", "j1"], ["j2"]])

    async def test_one_that_the_store_refuses_keeps_no_other(self):
        for n in range(3):
            self.store.put(f"j{n}")
        worker = await self.begin()
        self.store.put("j1", status="due")  # the page is older
        groups = [["j0"], ["j1"], ["j2"], ["j3"]]
        with self.assertLogs("hengomaru", logging.WARNING) as told:
            await worker.forget_groups(groups)
        self.assertEqual(list(self.store.invocations), ["j1"])
        self.assertEqual(len(told.output), 2)  # j1 is open, j3 is not there

    # ---- when
    async def test_without_a_retention_nothing_goes_by_itself(self):
        self.store.put("a")
        worker = await self.begin()
        worker.note_end("a", None)
        self.pass_by(1000 * DAY)
        self.assertEqual((worker.between(), worker.purges_at, worker.ended), (NEVER, NEVER, {}))
        await self.by_itself("a")
        self.assertEqual(self.store.asked, [])

    async def test_a_retention_counts_from_the_end(self):
        for id in "ab":
            self.store.put(id, status="due")
        worker = await self.begin(retention=DAY)
        for id in "ab":
            self.store.put(id)
            worker.objects.pop(id)
            worker.note_end(id, None)
            self.pass_by(DAY / 2)
        await self.by_itself("b")
        self.assertEqual(worker.purges_at - self.now, 3_600_000)
        self.pass_by(DAY / 2)
        await self.by_itself()
        self.assertEqual(worker.ended, {})

    async def test_of_what_had_ended_before_from_the_beginning(self):
        """It may be of any handler of its service, so that the longest retention counts."""
        for id, object in (("a", "a"), ("svc/plain//i", "svc/plain//i"), ("b", "obj/k"), ("flow/k", "flow/k"), ("c", "flow/k/~c"), ("d", "absent/k")):
            self.store.put(id, object)
        await self.begin(app, retention=4 * DAY)
        for left in (["a", "b", "c", "d", "flow/k", "svc/plain//i"], ["a", "c", "d", "flow/k", "svc/plain//i"], ["a", "d", "svc/plain//i"]):
            await self.by_itself(*left)
            self.pass_by(2 * DAY)
        self.pass_by(1000 * DAY)
        await self.purged("a", "d", "svc/plain//i")  # one of these is kept for good
        for id in ("a", "d", "svc/plain//i"):
            await self.worker.forget(id)
        self.assertEqual(self.store.invocations, {})

    async def test_handlers_have_their_own(self):
        worker = await self.begin(app, retention=5 * DAY)
        handlers = {"plain": 5 * DAY, "brief": 0 * DAY, "put": 2 * DAY, "get": DAY, "main": 3 * DAY, "beside": 5 * DAY}
        for name, lasts in handlers.items():
            service = next(it for it in app.values() if name in it.handlers)
            self.assertEqual(worker.lasts(service.handlers[name]), lasts / timedelta(milliseconds=1), name)
            self.store.put(name)
            worker.note_end(name, service.handlers[name])
        self.assertEqual(worker.between(), 1000)  # of the shortest one
        for day in range(6):
            await self.by_itself(*(name for name, lasts in handlers.items() if lasts > day * DAY))
            self.pass_by(DAY)

    @unittest.skipIf(lacks("h2", "cryptography"), lacks("h2", "cryptography"))
    def test_handlers_that_are_elsewhere_tell_theirs(self):
        from hengomaru import remote

        for version, told in ((2, {None}), (3, {it.retention for service in app.values() for it in service.handlers.values()})):
            found = remote.app_of(json.loads(json.dumps(manifest_of(app, True, version))))
            self.assertEqual({it.retention and it.retention // MILLISECOND for service in found.values() for it in service.handlers.values()}, {it and it // MILLISECOND for it in told})

    def test_what_is_no_retention(self):
        for bad, error in ((5, TypeError), ("1d", TypeError), (-DAY, ValueError)):
            for make in (lambda it: Worker(":memory:", without, program="none", retention=it), lambda it: hg.Service("s", it), lambda it: svc.handler("x", it)(plain)):
                self.assertRaises(error, make, bad)
        self.assertEqual([span_of(it) for it in ("1d", "1h30m", "250ms", "0s")], [DAY, timedelta(hours=1.5), timedelta(seconds=0.25), timedelta(0)])
        for bad in ("", "1", "d", "1d ", "-1d", "1w"):
            self.assertRaises(ValueError, span_of, bad)

    async def test_a_clock_that_goes_back_forgets_late(self):
        self.store.put("a", status="due")
        worker = await self.begin(retention=DAY)
        self.store.put("a")
        worker.note_end("a", None)
        self.pass_by(-DAY)
        for left in (["a"], ["a"], []):
            await self.by_itself(*left)
            self.pass_by(DAY)

    # ---- what stays
    async def test_what_a_caller_waits_for(self):
        self.store.put("c", status="due", requests=[call(1), call(2, key="k", service="flow", handler="main"), call(3, idempotency_key="i"), call(4, type=SEND)])
        self.store.put("d", status="due", requests=[OpenRequest(1, 1, None, ATTACH, pb.record((1, "j")))])
        for id in ("c~1", "flow/k", "svc/plain//i", "c~4", "j", "c~5", "other"):
            self.store.put(id)
        await self.begin()
        await self.purged("c", "d", "c~1", "flow/k", "svc/plain//i", "c~4", "j")
        self.store.put("c", status="due", requests=[call(4, type=SEND)])  # the others were answered
        await self.purged("c", "d", "c~4", "j")
        self.store.put("c")
        self.worker.objects.pop("c")
        self.worker.note_end("c", None)
        await self.purged("d", "j")

    async def test_what_somebody_awaits(self):
        self.store.put("a")
        worker = await self.begin()
        with worker.reading("a"), worker.reading("a"):
            await self.purged("a")
            with self.assertRaisesRegex(hg.Awaited, "a is waited for"):
                await worker.forget("a")
        await self.purged()
        self.assertEqual(worker.readers, {})

    async def test_one_whose_attempt_is_not_over(self):
        self.store.put("a")
        worker = await self.begin()
        worker.live["a"] = None
        await self.purged("a")
        worker.cut_off["a"] = worker.live.pop("a")
        await self.purged("a")

    async def test_what_is_asked_for_meanwhile(self):
        """A request that comes between the look and the forgetting is either before it, and keeps, or behind it, and begins anew."""
        self.store.put("a")
        self.store.put("c", status="due")
        worker = await self.begin()
        looks = worker.look

        async def look(id):
            await looks(id)
            worker.named["c"] = {"a"}  # as a delivery does, once it has read the request

        worker.look = look
        await self.purged("a", "c")

    async def test_requests_that_cannot_be_read_keep_all(self):
        self.store.put("a")
        self.store.put("c", status="due")
        await self.begin(retention=timedelta(0))

        async def requests(id):
            raise Refused("S20", id)

        self.store.requests, was = requests, self.store.requests
        with self.assertLogs("hengomaru") as told:
            await self.by_itself("a", "c")
        self.assertIn("forgotten later: S20", told.output[0])
        self.store.requests = was
        await self.by_itself("c")

    # ---- what goes together
    async def test_what_waited_to_call_goes_with_what_it_called(self):
        for id in ("a", "a~later", "c~1", "c~1~later"):
            self.store.put(id)
        self.store.put("z~later")  # it was cancelled, and has called nobody
        self.store.put("b")
        self.store.put("b~later", status="due")
        worker = await self.begin()
        with self.assertRaisesRegex(hg.Awaited, "a~later goes with a"):
            await worker.forget("a~later")
        await self.purged("b", "b~later")
        self.assertIn(["a", "a~later"], self.store.asked)
        self.assertIn(["c~1", "c~1~later"], self.store.asked)
        self.assertEqual(worker.laters, {"b~later"})

    async def test_one_that_waits_to_call_keeps_what_it_calls(self):
        self.store.put("a~later", status="due", requests=[call(1, headers={AS_ID: "a"})])
        self.store.put("a")
        await self.begin()
        await self.purged("a", "a~later")

    async def test_a_workflow_and_what_has_completed_its_promises_go_together(self):
        self.store.put("flow/k", status="due")
        self.store.put("p~1", "flow/k/~p%7E1", completed=["done"])
        self.store.put("q", "flow/k/~q")  # it has asked alone
        self.store.put("svc/plain//~t1")  # this is of no workflow
        self.store.put("alone", "flow/l/~alone", completed=["done"])  # its workflow has not begun
        worker = await self.begin()
        await self.purged("flow/k", "p~1", "alone")
        for id in ("p~1", "alone"):
            with self.assertRaisesRegex(hg.Awaited, f"{id} has completed promises"):
                await worker.forget(id)
        self.store.put("flow/k")
        worker.objects.pop("flow/k")
        self.store.put("r", "flow/k/~r", status="due")
        worker.objects["r"] = "flow/k/~r"
        await self.purged("flow/k", "p~1", "r", "alone")  # one beside it is open
        with self.assertRaisesRegex(hg.Awaited, "flow/k is waited for"):
            await worker.forget("flow/k")
        self.store.put("r", "flow/k/~r")
        worker.objects.pop("r")
        self.store.asked.clear()
        await self.purged("alone")
        self.assertEqual(self.store.asked, [["r", "flow/k", "p~1"]])

    async def test_what_ends_beside_a_workflow_behind_the_list_keeps_it(self):
        self.store.put("flow/k")
        worker = await self.begin()
        lists = self.store.page

        async def page(after="", most=1000):
            rows = await lists(after, most)
            if not rows:  # one more has come, and has ended
                self.store.put("p~1", "flow/k/~p%7E1", completed=["done"])
                worker.objects["p~1"] = "flow/k/~p%7E1"
                worker.note_end("p~1", None)
                worker.objects.pop("p~1")
            return rows

        self.store.page = page
        await worker.purge()
        self.assertEqual(sorted(self.store.invocations), ["flow/k", "p~1"])
        self.store.page = lists
        await self.purged()

    async def test_a_workflow_by_hand(self):
        for id, completed in (("p~1", ["done"]), ("q", [])):
            self.store.put(id, f"flow/k/~{id}", completed=completed)
        self.store.put("flow/k")
        worker = await self.begin()
        await worker.forget("flow/k")
        self.assertEqual(list(self.store.invocations), ["q"])

    async def test_promises_are_those_of_what_is_left(self):
        self.store.put("flow/k", completed=["first"])
        self.store.put("p~1", "flow/k/~p%7E1", completed=["second"])
        worker = await self.begin()
        found = lambda: asyncio.gather(*(worker.promises.find(("flow", "k"), it) for it in ("first", "second")))
        self.assertEqual(await found(), [b"1", b"1"])
        await self.purged()
        self.assertEqual(await found(), [None, None])
        self.store.put("flow/k", completed=["second"])
        worker.promises.note("flow/k", "flow/k")
        worker.promises.forget("p~1")
        self.assertEqual(await found(), [None, None])  # as of when they were read

    # ---- what is refused
    async def test_by_hand(self):
        self.store.put("a")
        self.store.put("b", status="due")
        worker = await self.begin(retention=DAY)
        await self.purged("a", "b")
        await worker.forget("a")
        for id, cause in (("a", "S4"), ("b", "S1")):
            with self.assertRaises(Refused) as told:
                await worker.forget(id)
            self.assertEqual(told.exception.name, cause)

    async def test_by_http(self):
        for id in "abc":
            self.store.put(id)
        self.store.put("d", status="due")
        web = Web(await self.begin(), ["h"])

        async def ask(path):
            out = []

            async def receive():
                return {"type": "http.request", "body": b"null"}

            async def send(message):
                out.append(message)

            await web({"type": "http", "method": "POST", "path": path, "query_string": b"", "headers": [(b"host", b"h")]}, receive, send)
            return out[0]["status"], json.loads(out[1]["body"])

        self.assertEqual(await ask("/restate/invocation/a/forget"), (202, {"invocationId": "a"}))
        self.assertEqual([(await ask(f"/restate/invocation/{it}/forget"))[0] for it in "ad"], [404, 409])
        with self.worker.reading("b"):
            self.assertEqual((await ask("/restate/invocation/b/forget"))[0], 409)
            self.assertEqual(await ask("/restate/purge"), (200, {"forgotten": 1}))
        self.assertEqual(sorted(self.store.invocations), ["b", "d"])

    async def test_an_older_process_keeps_all_and_it_is_told_once(self):
        self.store.put("a")
        worker = await self.begin(retention=DAY)
        self.store.amiss = hg.NotUnderstood("not understood: forget a")
        self.pass_by(DAY)
        with self.assertLogs("hengomaru") as told:
            await self.by_itself("a")
        self.assertEqual((len(told.output), worker.purges_at), (1, NEVER))
        with self.assertRaises(hg.NotUnderstood):
            await worker.purge()

    async def test_those_that_are_gone_are_not_known_any_more(self):
        self.store.put("a", status="due")
        worker = await self.begin(retention=DAY)
        for id in "ab":
            worker.note_end(id, None)
        self.store.put("a")
        await worker.survey()  # b was forgotten, and the answer was lost
        self.assertEqual(list(worker.ended), ["a"])


if __name__ == "__main__":
    unittest.main()
