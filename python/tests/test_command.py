"""The command `hengomaru`, as people use it: over a file, over lines, and over the HTTP of a worker that runs."""
import asyncio
import os
import signal
import socket
import subprocess
import sys
import tempfile
import time
import unittest
from datetime import timedelta
from pathlib import Path

import hengomaru as hg
from hengomaru.__main__ import Line, line_of, printed, words_of
from hengomaru.worker import Worker
from tests.needs import lacks

TOP = Path(__file__).resolve().parents[1]
LONGEST = 300
jobs = hg.Service("jobs")
app = hg.app([jobs])


@jobs.handler()
async def adds(ctx, numbers):
    await ctx.sleep(timedelta(milliseconds=1))
    return sum(numbers)


@jobs.handler()
async def waits(ctx):
    try:
        return await ctx.signal("go")
    except hg.Cancelled:
        return "undone"


@jobs.handler()
async def fails(ctx):
    raise hg.TerminalError("no\nx: \u202e", 418)


@jobs.handler()
async def works(ctx):
    def body():
        Path(os.environ["WORKS_FILE"]).write_text("began")
        time.sleep(2)
        return "done"

    return await ctx.run("body", body)


class Words(unittest.TestCase):
    def test_one_line_is_one_line(self):
        self.assertEqual(printed("a\nb\u202e\t\udcff"), "a\\nb\\u202e\\t\\udcff")
        self.assertEqual(line_of("i", {"ü": "\n"}, None), 'i: {"ü": "\\n"}')
        self.assertEqual(line_of("i", None, (5, "a\nb")), "i: failed (5) a\\nb")
        self.assertEqual(line_of("i", b"\xff", None), "i: 1 bytes b'\\xff'")

    def test_the_database_first(self):
        told = {
            "a.db m:app": "worker a.db m:app", "a.db m:app --http x:1": "worker a.db m:app --http x:1", "a.db m:app watch": "worker a.db m:app --lines",
            "a.db m:app submit i s/h 1": "submit a.db m:app i s/h 1", "a.db m:app show i": "show a.db i", "list a.db": "list a.db", "--help": "--help",
        }
        for before, now in told.items():
            self.assertEqual(words_of(before.split()), now.split())

    def test_the_line_of_a_terminal(self):
        worker = Worker(":memory:", app, program="none")
        worker.not_before.update(a=float("inf"), b=5)
        worker.done = 3
        self.assertEqual(Line(worker, time.monotonic() - 1).text(), "0 live, 1 tried again later, 1 paused, 3 ended, 3/s")


class Commands(unittest.TestCase):
    def setUp(self):
        folder = tempfile.TemporaryDirectory(dir="/dev/shm" if os.access("/dev/shm", os.W_OK) else None)
        self.addCleanup(folder.cleanup)
        self.folder, self.database = folder.name, folder.name + "/jobs.db"
        self.environment = {**os.environ, "PYTHONPATH": str(TOP), "WORKS_FILE": folder.name + "/works"}

    def begin(self, *words, **how):
        pipe = subprocess.PIPE
        it = subprocess.Popen([sys.executable, "-m", "hengomaru", *words], env=self.environment, cwd=TOP, stdin=pipe, stdout=pipe, stderr=pipe, text=True, **how)
        self.addCleanup(self.end, it)
        return it

    def end(self, process):
        process.kill()
        process.communicate()

    def asked(self, *words, status=0):
        """What a command prints, where it ends with a status."""
        it = self.begin(*words)
        out, error = it.communicate(timeout=LONGEST)
        self.assertEqual(it.returncode, status, error)
        return (out if status < 2 else error).strip()

    def is_so(self, what):
        ends = time.monotonic() + LONGEST
        while not what():
            self.assertLess(time.monotonic(), ends)
            time.sleep(0.05)

    def test_jobs_of_a_file(self):
        it, app_name = self.database, "tests.test_command:app"
        self.assertEqual(self.asked("submit", it, app_name, "j1", "jobs/adds", "[1, 2]"), "j1: there")
        self.assertEqual(self.asked("submit", it, app_name, "j2", "jobs/waits"), "j2: there")
        self.assertEqual(self.asked("submit", it, app_name, "j3", "jobs/fails"), "j3: there")
        self.assertEqual(self.asked("submit", it, app_name, "a/b", "jobs/adds", "[]", status=1), "refused: 'a/b' is no id: one is of printable characters, without `/` and `~`, as the package makes ids with these itself")
        self.assertEqual(self.asked("submit", it, app_name, "j4", "jobs/absent", status=1), "refused: there is no handler jobs/absent")
        self.assertIn("is no JSON", self.asked("submit", it, app_name, "j4", "jobs/adds", "[1", status=1))
        ended = set(self.asked("worker", it, app_name).splitlines())
        self.assertEqual(ended, {"j1: 3", "j3: failed (418) no\\nx: \\u202e"})
        self.assertEqual(self.asked("pause", it, "j2"), "done")
        self.assertEqual([row.split()[2] for row in self.asked("list", it).splitlines()], ["ended", "paused", "failed"])
        self.assertEqual(self.asked("signal", it, "j2", "go", "7"), "done")
        self.assertEqual(self.asked("worker", it, app_name), "")
        self.assertEqual(self.asked("show", it, "j2"), "j2: open")
        self.assertEqual(self.asked("resume", it, "j2"), "done")
        self.assertEqual(self.asked("worker", it, app_name), "j2: 7")
        self.assertEqual(self.asked("show", it, "j1", "--steps").splitlines()[-1], "j1: 3")
        self.assertEqual(self.asked("signal", it, "absent", "go", status=1), "refused S4: there is no such invocation")
        self.assertEqual(self.asked("cancel", it, "j1", status=1), "refused S5: the invocation has ended")
        self.assertEqual(self.asked("resolve", it, "x"), "nothing waits for it")
        self.assertEqual(self.asked("submit", it, app_name, "j5", "jobs/waits"), "j5: there")
        self.assertEqual(self.asked("forget", it, "j1"), "done")
        self.assertEqual(self.asked("show", it, "j1", status=1), "refused: there is no invocation j1")
        self.assertEqual(self.asked("forget", it, "j1", status=1), "refused S4: there is no such invocation")
        self.assertEqual(self.asked("forget", it, "j5", status=1), "refused S1: the object has an open invocation")
        self.assertEqual(self.asked("purge", it), "2 forgotten")
        self.assertEqual([row.split()[0] for row in self.asked("list", it).splitlines()], ["j5"])

    def test_what_cannot_begin(self):
        self.assertIn("names no app", self.asked("worker", self.database, "tests.test_command:absent", status=2))
        self.assertIn("a worker has an app, or an endpoint", self.asked("worker", self.database, status=2))
        self.assertIn("usage: hengomaru signal DATABASE ID NAME [JSON]", self.asked("signal", self.database, "i", status=2))
        self.assertIn("it is a folder", self.asked("list", self.folder, status=2))

    def test_lines(self):
        it = self.begin("worker", self.database, "tests.test_command:app", "--lines")
        told, _ = it.communicate("submit j1 jobs/adds [1, 2]\nsubmit j2 jobs/waits\nsignal j2 go {\"a\": 1}\nresolve x\n\nodd\nshow j2 odd\nsubmit a~b jobs/adds []\n", LONGEST)
        self.assertEqual(it.returncode, 0)
        lines = told.splitlines()
        self.assertEqual({"j1: there", "j2: there", "done", "nothing waits for it", "not understood: odd", "not understood: show j2 odd", "j1: 3", 'j2: {"a": 1}'} - set(lines), set(), lines)
        self.assertEqual(sum(it.startswith("refused: 'a~b' is no id") for it in lines), 1)

    def test_it_ends_in_order_where_it_is_told_to(self):
        self.asked("submit", self.database, "tests.test_command:app", "j1", "jobs/works")
        self.asked("submit", self.database, "tests.test_command:app", "j2", "jobs/waits")
        it = self.begin("worker", self.database, "tests.test_command:app", "--watch")
        self.is_so(Path(self.environment["WORKS_FILE"]).exists)
        it.send_signal(signal.SIGTERM)
        _, error = it.communicate(timeout=LONGEST)
        self.assertEqual((it.returncode, error), (0, ""))
        # what was executed has ended, and its outcome is recorded
        self.assertIn("run body -> ", self.asked("show", self.database, "j1", "--steps"))
        self.assertEqual(self.asked("worker", self.database, "tests.test_command:app"), 'j1: "done"' if self.asked("show", self.database, "j1") == "j1: open" else "")

    @unittest.skipIf(lacks("hypercorn"), lacks("hypercorn"))
    def test_a_worker_that_runs(self):
        with socket.socket() as free:
            free.bind(("127.0.0.1", 0))
            address = "http://127.0.0.1:%d" % free.getsockname()[1]
        token = Path(self.folder, "token")
        token.write_text("0123456789abcdef" * 4)
        self.begin("worker", self.database, "tests.test_command:app", "--http", address[7:], "--token", str(token))
        asked = lambda word, *words, **how: self.asked(word, address, *words, "--token", str(token), **how)

        def is_there():
            it = self.begin("list", address, "--token", str(token))
            it.communicate()
            return it.returncode == 0

        self.is_so(is_there)
        self.assertEqual(asked("submit", "j1", "jobs/adds", "[1, 2]"), "j1: there")
        self.assertEqual(asked("submit", "j2", "jobs/waits"), "j2: there")
        self.assertEqual(asked("submit", "a~b", "jobs/waits", status=1).split(" is ")[0], "refused: 'a~b'")
        self.is_so(lambda: asked("show", "j1") == "j1: 3")
        self.assertEqual(asked("show", "j2"), "j2: open")
        self.assertEqual({row.split()[0] for row in asked("list").splitlines()}, {"j1", "j2"})
        self.assertEqual([asked("pause", "j2"), asked("resume", "j2"), asked("signal", "j2", "go", "[7]")], ["done"] * 3)
        self.is_so(lambda: asked("show", "j2", "--steps").splitlines()[-1] == "j2: [7]")
        self.assertEqual(asked("cancel", "absent", status=1).split(":")[0], "refused")
        self.assertEqual([asked("forget", "j1"), asked("purge"), asked("list")], ["done", "1 forgotten", "none"])
        self.assertIn("a worker that has it is asked by its address", self.asked("list", self.database, status=2))


if __name__ == "__main__":
    unittest.main()
