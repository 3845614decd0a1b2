"""The ingress and what the page asks, in this process: each request as a server of HTTP hands it over."""
import asyncio
import json
import logging
import tempfile
import unittest
from datetime import timedelta
from pathlib import Path
from urllib.parse import quote

import hengomaru as hg
from hengomaru.web import SAFE, Told, Web, delay_in, is_here_alone, read_token

logging.getLogger("hengomaru").setLevel(logging.CRITICAL)
svc, obj, flow = hg.Service("svc"), hg.VirtualObject("obj"), hg.Workflow("flow")
app = hg.app([svc, obj, flow])
HOST = "127.0.0.1:8080"
ids = []


@svc.handler()
async def echo(ctx, arg):
    return [arg, ctx.request().headers]


@svc.handler()
async def fails(ctx, arg):
    raise hg.TerminalError("<b>no</b>", arg)


@svc.handler()
async def waits(ctx):
    id, future = ctx.awakeable()
    ids.append(id)
    return await future


@svc.handler()
async def signalled(ctx):
    return await ctx.signal("go")


@obj.handler()
async def slow(ctx, arg):
    await ctx.sleep(timedelta(milliseconds=100))
    ctx.set("by", arg)
    return ctx.key()


@flow.main()
async def main(ctx):
    return ctx.key()


class Answered:
    def __init__(self, status, headers, body):
        self.status, self.headers, self.body = status, headers, body
        self.json = json.loads(body) if body and headers.get("content-type") == "application/json" else None


class WebTests(unittest.IsolatedAsyncioTestCase):
    async def asyncSetUp(self):
        folder = tempfile.TemporaryDirectory()
        self.addCleanup(folder.cleanup)
        self.database = folder.name + "/jobs.db"
        ids.clear()
        self.leaves = asyncio.Event()
        await self.begin()

    async def begin(self):
        self.worker = await hg.Worker(self.database, app, linger=0.2).open()
        self.web, self.going = Web(self.worker, [HOST]), asyncio.ensure_future(self.worker.run(is_watching=True))

    async def end(self):
        self.worker.is_stopping = True
        self.worker.pulse.set()
        await self.going
        await self.worker.close()

    async def asyncTearDown(self):
        await self.end()

    async def ask(self, method, path, body=b"", host=HOST, leaves=False, **headers):
        path, _, query = path.partition("?")
        told = [(b"host", host.encode()), *((name.replace("_", "-").encode(), it.encode()) for name, it in headers.items())]
        body = body if isinstance(body, bytes) else json.dumps(body).encode()
        scope = {"type": "http", "method": method, "path": path, "raw_path": path.encode(), "query_string": query.encode(), "headers": told}
        came, out = [{"type": "http.request", "body": body}], []

        async def receive():
            if not came:
                await (self.leaves.wait() if leaves else asyncio.Event().wait())
                return {"type": "http.disconnect"}
            return came.pop(0)

        async def send(message):
            out.append(message)

        await asyncio.wait_for(self.web(scope, receive, send), 60)
        if not out:
            return None
        return Answered(out[0]["status"], {a.decode(): b.decode() for a, b in out[0]["headers"]}, out[1]["body"])

    async def status(self, *given, **headers):
        return (await self.ask(*given, **headers)).status

    async def test_a_call(self):
        told = await self.ask("POST", "/svc/echo", {"a": "ü"}, x_mine="1", hengomaru_caller="evil", cookie="secret", idempotency_key="k")
        self.assertEqual((told.status, told.json), (200, [{"a": "ü"}, {"x-mine": "1"}]))
        again = await self.ask("POST", "/svc/echo", "other", idempotency_key="k")
        self.assertEqual((again.json, again.headers["x-restate-id"]), (told.json, told.headers["x-restate-id"]))
        self.assertEqual((await self.ask("POST", "/svc/fails", 418)).json, {"code": 418, "message": "<b>no</b>"})
        self.assertEqual([await self.status("POST", "/svc/fails", it) for it in (418, 7, 999)], [418, 500, 500])

    async def test_an_id_of_ones_own(self):
        told = await self.ask("POST", "/svc/echo/send", 1, x_hengomaru_id="mine")
        self.assertEqual(told.json, {"invocationId": "mine", "status": "Accepted"})
        self.assertEqual((await self.ask("GET", "/restate/invocation/mine/attach")).json, [1, {}])
        self.assertEqual((await self.ask("POST", "/svc/echo/send", 1, x_hengomaru_id="mine")).json["status"], "PreviouslyAccepted")

    async def test_by_its_idempotency_key(self):
        await self.ask("POST", "/svc/echo", 1, idempotency_key="k/1")
        self.assertEqual((await self.ask("GET", "/restate/invocation/svc/echo/k%2F1/attach")).json, [1, {}])
        await self.ask("POST", "/obj/a/slow", 1, idempotency_key="k")
        self.assertEqual((await self.ask("GET", "/restate/invocation/obj/a/slow/k/output")).json, "a")
        self.assertEqual(await self.status("GET", "/restate/invocation/obj/b/slow/k/output"), 404)

    async def test_whoever_waits_may_go_away(self):
        id, word = await self.open_one("waits")
        waits = asyncio.ensure_future(self.ask("GET", f"/restate/invocation/{word}/attach", leaves=True))
        while id not in self.worker.asked:
            await asyncio.sleep(0.01)
        self.leaves.set()
        self.assertIsNone(await waits)
        self.assertEqual(self.worker.asked, {})
        await self.ask("POST", f"/restate/awakeables/{ids[0]}/resolve", 5)
        self.assertEqual((await self.ask("GET", f"/restate/invocation/{word}/attach")).json, 5)

    async def test_a_token(self):
        self.web = Web(self.worker, [HOST], "a-token-for-tests")
        for status, given, headers in (
            (200, ("GET", "/ui"), {}), (200, ("GET", "/ui/page.js"), {}), (200, ("GET", "/restate/health"), {}), (401, ("GET", "/ui/api/list"), {}),
            (401, ("POST", "/svc/echo", 1), {}), (401, ("POST", "/svc/echo", 1), {"authorization": "Bearer a-token-for-test"}),
            (401, ("POST", "/svc/echo", 1), {"authorization": "Basic a-token-for-tests"}), (401, ("POST", "/svc/echo", 1), {"authorization": "Bearer \u00e9"}),
            (200, ("POST", "/svc/echo", 1), {"authorization": "Bearer a-token-for-tests"}),
            (200, ("GET", "/ui/api/list"), {"authorization": "Bearer a-token-for-tests", "host": "any.example"}),
        ):
            self.assertEqual(await self.status(*given, **headers), status, (given[:2], headers))

    async def test_the_file_of_a_token(self):
        self.assertIsNone(read_token(None))
        for content, told in (("0123456789abcdef\n", "0123456789abcdef"), ("short\n", None), ("", None), ("0123456789 abcdef", None), ("0123456789\u00e9abcdef", None)):
            file = Path(self.database + ".token")
            file.write_text(content)
            if told is None:
                self.assertRaises(ValueError, read_token, str(file))
            else:
                self.assertEqual(read_token(str(file)), told)

    async def test_objects_and_workflows(self):
        both = await asyncio.gather(*(self.ask("POST", f"/obj/{quote('a/<b>', safe='')}/slow", it) for it in (1, 2)))  # the second one waits
        self.assertEqual([it.json for it in both], ["a/<b>", "a/<b>"])
        self.assertEqual((await self.ask("POST", "/flow/ada/main")).json, "ada")
        self.assertEqual((await self.ask("GET", "/restate/workflow/flow/ada/attach")).json, "ada")
        self.assertEqual(await self.status("POST", "/obj/slow", 1), 400)

    async def test_sends(self):
        told = await self.ask("POST", "/svc/echo/send?delay=300ms", 1)
        self.assertEqual((told.status, told.json["status"]), (202, "Accepted"))
        id = quote(told.json["invocationId"], safe="")
        self.assertEqual(await self.status("GET", f"/restate/invocation/{id}/output"), 470)
        self.assertEqual((await self.ask("GET", f"/restate/invocation/{id}/attach")).json, [1, {}])
        self.assertEqual((await self.ask("GET", f"/restate/invocation/{id}/output")).status, 200)
        twice = [(await self.ask("POST", "/svc/echo/send", 1, idempotency_key="s")).json["status"] for _ in range(2)]
        self.assertEqual(twice, ["Accepted", "PreviouslyAccepted"])
        self.assertEqual([delay_in(it) for it in ("10s", "1h30m", "250ms", None)], [10_000, 5_400_000, 250, 0])
        self.assertRaises(Told, delay_in, "soon")
        self.assertEqual([is_here_alone(it) for it in ("127.0.0.1:1", "localhost:1", "[::1]:1", "0.0.0.0:1", "[::]:1", "10.0.0.1:1", ":1")], [True] * 3 + [False] * 4)

    async def open_one(self, handler):
        id = (await self.ask("POST", f"/svc/{handler}/send")).json["invocationId"]
        while not (await self.ask("GET", f"/ui/api/one?id={quote(id, safe='')}")).json["status"] == "waits":
            await asyncio.sleep(0.05)
        return id, quote(id, safe="")

    async def test_what_comes_from_outside(self):
        id, word = await self.open_one("waits")
        self.assertEqual(await self.status("POST", f"/restate/awakeables/{ids[0]}/resolve", 5), 202)
        self.assertEqual((await self.ask("GET", f"/restate/invocation/{word}/attach")).json, 5)
        self.assertEqual(await self.status("POST", f"/restate/awakeables/{ids[0]}/resolve", 6), 404)
        id, word = await self.open_one("signalled")
        self.assertEqual(await self.status("POST", f"/restate/invocation/{word}/signal/go", [1]), 202)
        self.assertEqual((await self.ask("GET", f"/restate/invocation/{word}/attach")).json, [1])
        id, word = await self.open_one("waits")
        self.assertEqual(await self.status("POST", f"/restate/invocation/{word}/cancel"), 202)
        self.assertEqual((await self.ask("GET", f"/restate/invocation/{word}/attach")).status, 409)

    async def test_a_pause_outlives_the_worker(self):
        id, word = await self.open_one("signalled")
        act = lambda what: self.ask("POST", "/ui/api/act", {"act": what, "id": id}, content_type="application/json")
        how = lambda: self.ask("GET", f"/ui/api/one?id={word}")
        self.assertEqual((await act("pause")).status, 200)
        await self.ask("POST", f"/restate/invocation/{word}/signal/go", 1)
        await asyncio.sleep(0.3)
        self.assertEqual((await how()).json["status"], "paused")
        await self.end()
        await self.begin()
        self.assertEqual((await how()).json["status"], "paused")
        self.assertEqual((await act("resume")).status, 200)
        self.assertEqual((await self.ask("GET", f"/restate/invocation/{word}/attach")).json, 1)
        self.assertEqual((await act("pause")).status, 410)

    async def test_a_resumed_one_stays_so(self):
        id, word = await self.open_one("signalled")
        for what in ("pause", "resume"):
            await self.ask("POST", f"/restate/invocation/{word}/{what}")
        await asyncio.sleep(0.5)
        await self.end()
        await self.begin()
        await self.ask("POST", f"/restate/invocation/{word}/signal/go", 1)
        self.assertEqual((await self.ask("GET", f"/restate/invocation/{word}/attach")).json, 1)

    async def test_what_is_refused(self):
        for status, given, headers in (
            (404, ("POST", "/svc/absent"), {}), (404, ("POST", "/hengomaru/later", {}), {}), (404, ("POST", "/a/b/c/d"), {}), (405, ("GET", "/svc/echo"), {}),
            (400, ("POST", "/svc/echo", b"{"), {}), (413, ("POST", "/svc/echo", b" " * (2**24 + 1)), {}), (404, ("GET", "/restate/invocation/absent/attach"), {}),
            (421, ("POST", "/svc/echo"), {"host": "rebound.example:8080"}), (421, ("GET", "/ui/api/list"), {"host": "rebound.example:8080"}),
            (403, ("POST", "/svc/echo"), {"origin": "http://evil.example"}), (403, ("POST", "/svc/echo"), {"origin": "null"}),
            (403, ("POST", "/svc/echo"), {"sec_fetch_site": "cross-site"}), (403, ("POST", "/svc/echo"), {"sec_fetch_site": "same-site"}),
            (403, ("GET", "/ui/api/list"), {"sec_fetch_site": "cross-site"}), (200, ("GET", "/ui"), {"sec_fetch_site": "cross-site", "sec_fetch_mode": "navigate"}),
            (200, ("POST", "/svc/echo", 1), {"origin": f"http://{HOST}", "sec_fetch_site": "same-origin"}),
            (415, ("POST", "/ui/api/act", {"act": "cancel", "id": "x"}), {"content_type": "text/plain"}), (400, ("POST", "/ui/api/act", [1]), {"content_type": "application/json"}),
            (404, ("GET", "/ui/../worker.py"), {}), (404, ("GET", "/ui/page.html"), {}),
        ):
            self.assertEqual(await self.status(*given, **headers), status, (given[:2], headers))

    async def test_the_page(self):
        await self.ask("POST", "/svc/fails", 418, idempotency_key="<script>alert(1)</script>")
        for path in ("/ui", "/ui/page.js", "/ui/page.css"):
            told = await self.ask("GET", path)
            self.assertEqual((told.status, told.headers["content-security-policy"]), (200, SAFE[0][1].decode()))
            self.assertNotIn(b"http://", told.body)
        page = (await self.ask("GET", "/ui")).body + (await self.ask("GET", "/ui/page.js")).body
        for it in (b"innerHTML", b"outerHTML", b"insertAdjacent", b"document.write", b"eval(", b"onclick="):
            self.assertNotIn(it, page)
        [row] = (await self.ask("GET", "/ui/api/list")).json["rows"]
        one = (await self.ask("GET", f"/ui/api/one?id={quote(row['id'], safe='')}")).json
        self.assertEqual((one["answer"], one["steps"][0]["kind"]), ("(418) <b>no</b>", "answer"))


if __name__ == "__main__":
    unittest.main()
