"""The page at /ui as a browser shows it, over a worker that its user has begun: the list, a journal, its buttons, hostile texts, and the token."""
import json
import os
import signal
import socket
import subprocess
import sys
import tempfile
import time
import unittest
import urllib.error
import urllib.request
from pathlib import Path
from urllib.parse import quote

import hengomaru as hg

from tests.browser import Browser
from tests.needs import lacks

LACKS = lacks("hypercorn", "chromium")
TOP = str(Path(__file__).resolve().parents[1])
HOSTILE = "<img src=x onerror=\"window.hit=1\"><script>window.hit=2</script>'\u202e&lt;"
TOKEN = "a-token-for-tests-0123456789"
svc, obj = hg.Service("svc"), hg.VirtualObject("obj")
app = hg.app([svc, obj])


@obj.handler()
async def waits(ctx, arg):
    """Looks into what it is called with, and waits for an awakeable; undone where it is cancelled."""
    seen = await ctx.run(HOSTILE, lambda: arg)
    ctx.set("seen", seen)
    _, future = ctx.awakeable()
    try:
        return await future
    except hg.Cancelled:
        await ctx.run("undo", lambda: "undone")
        raise


@svc.handler()
async def fails(ctx, arg):
    raise hg.TerminalError(HOSTILE, 418)


def free_port():
    with socket.socket() as it:
        it.bind(("127.0.0.1", 0))
        return it.getsockname()[1]


@unittest.skipIf(LACKS, LACKS)
class PageTests(unittest.TestCase):
    @classmethod
    def setUpClass(cls):
        cls.folder = tempfile.TemporaryDirectory()
        cls.browser = Browser(cls.folder.name + "/browser")

    @classmethod
    def tearDownClass(cls):
        cls.browser.close()
        cls.folder.cleanup()

    def begin(self, *words):
        self.at = f"http://127.0.0.1:{free_port()}"
        database = tempfile.TemporaryDirectory()
        self.addCleanup(database.cleanup)
        told = [sys.executable, "-m", "hengomaru", "worker", database.name + "/jobs.db", "tests.test_page:app", "--http", self.at[7:], *words]
        worker = subprocess.Popen(told, cwd=TOP, env={**os.environ, "PYTHONPATH": TOP}, stdout=subprocess.DEVNULL, stderr=subprocess.DEVNULL)
        self.addCleanup(worker.wait)
        self.addCleanup(worker.send_signal, signal.SIGTERM)
        ends = time.monotonic() + 60
        while True:
            try:
                return self.ask("GET", "/restate/health")
            except OSError:
                if time.monotonic() > ends or worker.poll() is not None:
                    raise AssertionError("the worker does not begin") from None
                time.sleep(0.1)

    def ask(self, method, path, body=None, **headers):
        asked = urllib.request.Request(self.at + path, None if body is None else json.dumps(body).encode(), {it.replace("_", "-"): told for it, told in headers.items()}, method=method)
        with urllib.request.urlopen(asked, timeout=60) as answer:
            return json.loads(answer.read() or b"null")

    def text(self):
        return self.browser.value("document.body.innerText")

    def test_a_job_is_looked_at_paused_resumed_and_cancelled(self):
        browser = self.browser
        self.begin()
        id = self.ask("POST", f"/obj/{quote(HOSTILE, safe='')}/waits/send", HOSTILE)["invocationId"]
        with self.assertRaises(urllib.error.HTTPError) as failed:
            self.ask("POST", "/svc/fails", 1, idempotency_key=HOSTILE.encode("ascii", "ignore").decode())
        self.assertEqual(failed.exception.code, 418)

        # The list has both, each text as it is.
        browser.open(self.at + "/ui")
        browser.wait("document.querySelectorAll('tbody tr').length === 2")
        browser.wait("document.querySelector('.status.failed')")
        self.assertIn("1 ended since the worker began", self.text())
        shown = browser.value("[...document.querySelectorAll('tbody a')].map(it => decodeURIComponent(it.hash.slice(1)))")
        self.assertIn(id, shown)

        # The journal of the first, as steps.
        browser.value(f"location.hash = {json.dumps('#' + quote(id, safe=''))}; true")
        browser.wait("document.body.innerText.includes('run') && document.body.innerText.includes('set')")
        self.assertIn("onerror=", self.text())
        self.assertIn("\\u202e", self.text())  # what turns the direction of text around is spelled
        steps = browser.value("[...document.querySelectorAll('tbody tr')].map(it => it.children[1].textContent)")
        self.assertEqual(steps[:2], ["run", "set"])

        browser.click("pause")
        browser.wait("document.querySelector('.status.paused')")
        browser.click("resume")
        browser.wait("!document.querySelector('.status.paused') && document.querySelector('.status')")
        self.assertTrue(self.ask("GET", f"/ui/api/one?id={quote(id, safe='')}")["is_open"])
        browser.click("cancel")
        browser.wait("document.body.innerText.includes('undone') && document.querySelector('.status.failed')")
        self.assertIn("(409)", self.text())
        self.assertNotIn("cancel", browser.value("[...document.querySelectorAll('button')].map(it => it.textContent)"))

        # The failure's text, as it is.
        browser.click("Hengomaru")
        browser.wait("document.querySelectorAll('tbody tr').length === 2")
        other = next(it for it in shown if it != id)
        browser.value(f"location.hash = {json.dumps('#' + quote(other, safe=''))}; true")
        browser.wait("document.body.innerText.includes('(418)')")
        self.assertIn("<script>window.hit=2</script>", self.text())

        # Nothing of it was taken for a page.
        self.assertEqual(browser.value("[window.hit ?? null, document.images.length, document.scripts.length]"), [None, 0, 1])
        self.assertEqual(browser.problems, [])

    def test_a_token_is_asked_for(self):
        browser, file = self.browser, self.folder.name + "/token"
        Path(file).write_text(TOKEN + "\n")
        self.begin("--token", file)
        with self.assertRaises(urllib.error.HTTPError) as failed:
            self.ask("POST", "/obj/a/waits/send", 1)
        self.assertEqual(failed.exception.code, 401)
        self.ask("POST", "/obj/a/waits/send", 1, authorization=f"Bearer {TOKEN}")
        browser.open(self.at + "/ui")
        browser.wait("document.getElementById('token')")
        for told in ("another-token-0123456789", TOKEN):
            browser.wait("document.getElementById('token')")
            browser.value(f"document.getElementById('token').value = {json.dumps(told)}; true")
            browser.click("go on")
            browser.wait("!document.getElementById('token') || !document.getElementById('token').value")
        browser.wait("document.querySelectorAll('tbody tr').length === 1")
        self.assertEqual(browser.problems, [])


if __name__ == "__main__":
    unittest.main()
