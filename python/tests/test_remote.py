"""A worker whose handlers are in other processes, behind HTTP/2: what these processes' ends leave, too. It needs hypercorn and h2, and to sign
cryptography."""
import asyncio
import collections
import json
import logging
import os
import random
import signal
import subprocess
import sys
import tempfile
import time
import unittest
import urllib.error
import urllib.request
from datetime import timedelta
from pathlib import Path

import hengomaru as hg
from hengomaru.identity import Signer
from hengomaru.services import Target

from tests.needs import lacks

logging.getLogger("hengomaru").setLevel(logging.CRITICAL)
if not lacks("h2", "hypercorn"):
    from hengomaru import http2
    from hengomaru.remote import Remote
    from hengomaru.worker import HostGone

svc, obj = hg.Service("svc"), hg.VirtualObject("obj")
app = hg.app([svc, obj])
less = hg.app([hg.Service("svc")])
LOG = os.environ.get("REMOTE_LOG", "")


def tell(line):
    with open(LOG, "a") as file:
        file.write(line + "\n")
    return line


@svc.handler()
async def all_together(ctx, arg):
    async def body():
        await asyncio.sleep(0.3)
        return tell(f"work {ctx.request().id}")

    first = await ctx.run("work", body)
    await ctx.sleep(timedelta(milliseconds=20))
    counts = [await it for it in await hg.gather(*(ctx.call(count, n, key="ü/<k>") for n in (1, 2)))]
    return [first, sorted(counts), ctx.random().randint(1, 1000)]


@svc.handler()
async def rounds(ctx, arg):
    """Tells the host of each of its runs."""
    return [await ctx.run(f"round {n}", lambda: (os.getpid(), tell(f"round {ctx.request().id} {n}"))[0]) for n in range(arg)]


@svc.handler()
async def turned(ctx, arg: bytes) -> bytes:
    return arg[::-1]


@svc.handler()
async def big(ctx, arg):
    return await ctx.run("big", lambda: "x" * arg)


@obj.handler()
async def count(ctx, by):
    total = (await ctx.get("n") or 0) + by
    ctx.set("n", total)
    return [ctx.key(), total]


def new_signer():
    from cryptography.hazmat.primitives.asymmetric.ed25519 import Ed25519PrivateKey
    from cryptography.hazmat.primitives.serialization import Encoding, NoEncryption, PrivateFormat

    return Signer(Ed25519PrivateKey.generate().private_bytes(Encoding.PEM, PrivateFormat.PKCS8, NoEncryption()))


def free_port():
    import socket

    with socket.socket() as it:
        it.bind(("127.0.0.1", 0))
        return it.getsockname()[1]


@unittest.skipIf(lacks("h2", "hypercorn"), lacks("h2", "hypercorn"))
class RemoteTests(unittest.IsolatedAsyncioTestCase):
    async def asyncSetUp(self):
        folder = tempfile.TemporaryDirectory()
        self.addCleanup(folder.cleanup)
        self.folder, self.log, self.hosts, self.ports, self.worker = folder.name, folder.name + "/log", {}, [], None

    async def begin(self, hosts=1, words=(), signer=None):
        """A worker over so many hosts."""
        self.ports = [free_port() for _ in range(hosts)]
        for it in self.ports:
            self.begin_host(it, *words)
        self.remote = Remote([f"http://127.0.0.1:{it}" for it in self.ports], signer)
        found = await self.remote.discover(60)
        while len(self.remote.hosts[("svc", "big")]) < hosts:
            await asyncio.sleep(0.2)
            found = await self.remote.discover(60)
        self.worker = hg.Worker(self.folder + "/jobs.db", found, host=self.remote.attend, linger=0.2)
        self.remote.attach(self.worker)
        await self.worker.open()

    def begin_host(self, port, *words, app="app"):
        top = str(Path(__file__).resolve().parents[1])
        env = {**os.environ, "PYTHONPATH": top, "REMOTE_LOG": self.log}
        told = [sys.executable, "-m", "hengomaru", "endpoint", f"tests.test_remote:{app}", "--bind", f"127.0.0.1:{port}", *words]
        self.hosts[port] = subprocess.Popen(told, env=env, cwd=top, stderr=subprocess.DEVNULL)

    def end_host(self, port, how=signal.SIGKILL):
        host = self.hosts.pop(port)
        host.send_signal(how)
        host.wait()

    async def asyncTearDown(self):
        if self.worker:
            await self.worker.close()
            self.remote.close()
        for it in list(self.hosts):
            self.end_host(it)

    async def run_one(self, handler, argument=None, count=1):
        ids = [await self.worker.submit(f"i{n}", ("svc", handler), argument) for n in range(count)]
        await asyncio.wait_for(self.worker.run(), 100)
        return [(await self.worker.status(it)).value for it in ids]

    async def begun(self, line):
        """Goes on until a host has told this line."""
        going = asyncio.ensure_future(self.worker.run())
        while not going.done() and line not in (Path(self.log).read_text() if os.path.exists(self.log) else ""):
            await asyncio.sleep(0.01)
        return going

    async def test_all_together(self):
        await self.begin()
        [came] = await self.run_one("all_together")
        self.assertEqual(came[:2], ["work i0", [["ü/<k>", 1], ["ü/<k>", 3]]])
        self.assertEqual(await self.worker.store.state("obj/%C3%BC%2F%3Ck%3E"), {b"n": b"3"})

    async def test_past_the_windows_of_the_connection(self):
        await self.begin()
        came = await self.run_one("big", 1_000_000, 2)
        self.assertEqual([len(it) for it in came], [1_000_000] * 2)

    async def test_bytes_go_through_as_they_are(self):
        await self.begin()
        handler = self.worker.app["svc"].handlers["turned"]
        self.assertEqual((handler.input.content_type, handler.input.write(b"\xff\0")), ("application/octet-stream", b"\xff\0"))
        id = await self.worker.submit_bytes("i0", ("svc", "turned"), b"\xff\0{")
        await asyncio.wait_for(self.worker.run(), 100)
        self.assertEqual((await self.worker.store.show(id)).answer, b"{\0\xff")

    async def test_each_attempt_takes_the_next_host(self):
        await self.begin(2)
        came = await self.run_one("rounds", 1, 4)
        self.assertEqual({it for [it] in came}, {it.pid for it in self.hosts.values()})

    async def test_the_host_is_killed_and_another_goes_on(self):
        await self.begin(2)
        await self.worker.submit("i0", ("svc", "rounds"), 60)
        going = await self.begun("round i0 5")
        first = next(it for it in self.ports if len(self.remote.clients[self.ports.index(it)].connection.streams) > 0)
        self.end_host(first)
        await asyncio.wait_for(going, 100)
        came = (await self.worker.status("i0")).value
        lines = Path(self.log).read_text().split("\n")[:-1]
        self.assertEqual(len(came), 60)
        self.assertEqual(len(set(came)), 2)
        # What was recorded is not executed again: at most the run that was under way.
        self.assertLessEqual(len(lines), 61)

    async def test_a_silent_host_is_left(self):
        self.addCleanup(setattr, http2, "SILENT", http2.SILENT)
        self.addCleanup(setattr, http2, "ANSWERS", http2.ANSWERS)
        http2.SILENT = http2.ANSWERS = 1.0
        await self.begin(2)
        await self.worker.submit("i0", ("svc", "rounds"), 60)
        going = await self.begun("round i0 5")
        first = next(it for it in self.ports if len(self.remote.clients[self.ports.index(it)].connection.streams) > 0)
        self.hosts[first].send_signal(signal.SIGSTOP)
        await asyncio.wait_for(going, 100)
        self.hosts[first].send_signal(signal.SIGCONT)
        self.assertEqual(len(set((await self.worker.status("i0")).value)), 2)

    async def test_the_only_host_is_killed(self):
        await self.begin()
        await self.worker.submit("i0", ("svc", "all_together"))
        going = asyncio.ensure_future(self.worker.run())
        while not self.worker.began:
            await asyncio.sleep(0.01)
        [port] = self.ports
        self.end_host(port)
        await asyncio.sleep(0.3)
        self.begin_host(port)
        await asyncio.wait_for(going, 100)
        self.assertEqual((await self.worker.status("i0")).value[0], "work i0")

    async def test_the_host_stops_in_order(self):
        await self.begin()
        await self.worker.submit("i0", ("svc", "all_together"))
        going = asyncio.ensure_future(self.worker.run())
        while not self.worker.began:
            await asyncio.sleep(0.01)
        [port] = self.ports
        self.end_host(port, signal.SIGTERM)
        self.begin_host(port)
        await asyncio.wait_for(going, 100)
        self.assertEqual((await self.worker.status("i0")).value[0], "work i0")

    async def test_a_host_that_comes_later_brings_its_handlers(self):
        self.ports = [free_port(), free_port()]
        self.begin_host(self.ports[0], app="less")
        self.remote = Remote([f"http://127.0.0.1:{it}" for it in self.ports])
        self.worker = hg.Worker(self.folder + "/jobs.db", await self.remote.discover(60), host=self.remote.attend, linger=0.2)
        self.remote.attach(self.worker)
        await self.worker.open()
        self.assertIsNone(await self.worker.find(Target("svc", "rounds")))
        self.begin_host(self.ports[1])
        for _ in range(300):
            if await self.worker.find(Target("svc", "rounds")):
                break
            await asyncio.sleep(0.2)
        self.assertEqual(await self.run_one("rounds", 1), [[self.hosts[self.ports[1]].pid]])

    async def test_a_host_that_comes_later_takes_over(self):
        self.ports = [free_port(), free_port()]
        first, second = self.ports
        self.begin_host(first)
        self.remote = Remote([f"http://127.0.0.1:{it}" for it in self.ports])
        self.worker = hg.Worker(self.folder + "/jobs.db", await self.remote.discover(60), host=self.remote.attend, linger=0.2)
        self.remote.attach(self.worker)
        await self.worker.open()
        self.assertEqual(list(self.remote.manifests), self.remote.clients[:1])
        self.begin_host(second)
        again = Remote([f"http://127.0.0.1:{second}"])
        await again.discover(60)
        again.close()
        self.end_host(first)
        self.assertEqual(await self.run_one("rounds", 2), [[self.hosts[second].pid] * 2])

    async def test_nobody_is_there(self):
        with self.assertRaises(HostGone) as gone:
            await Remote([f"http://127.0.0.1:{free_port()}"]).discover(0)
        self.assertIn("can be reached", str(gone.exception))

    @unittest.skipIf(lacks("cryptography"), lacks("cryptography"))
    async def test_requests_are_signed(self):
        signer = new_signer()
        await self.begin(1, ("--key", signer.key), signer)
        self.assertEqual(len(await self.run_one("rounds", 2)), 1)
        for other in (None, new_signer()):
            with self.assertRaises(HostGone) as gone:
                await Remote([f"http://127.0.0.1:{self.ports[0]}"], other).discover(0)
            self.assertIn("401", str(gone.exception))


ORDERS = {"o1": ["tea", 2], "o2": ["tea", 3], "o3": ["cup", 11], "o4": ["cup", 1]}
KILLS = int(os.environ.get("REMOTE_KILLS", "8"))


@unittest.skipIf(lacks("h2", "hypercorn"), lacks("h2", "hypercorn"))
class KillTests(unittest.TestCase):
    """Orders of examples/shop.py, whose hosts and whose worker are killed at random moments."""

    def begin(self, name, *words):
        top = Path(__file__).resolve().parents[1]
        env = {**os.environ, "PYTHONPATH": f"{top}:{top.parent / 'examples'}", "SHOP_LOG": self.log, "SHOP_PACKING": "150"}
        self.running[name] = subprocess.Popen([sys.executable, "-m", "hengomaru", *words], env=env, cwd=top, stdout=subprocess.DEVNULL, stderr=subprocess.DEVNULL)

    def begin_host(self, port):
        self.begin(port, "endpoint", "shop:app", "--bind", f"127.0.0.1:{port}")

    def begin_worker(self):
        hosts = [it for port in self.ports for it in ("--endpoint", f"http://127.0.0.1:{port}")]
        self.begin("worker", "worker", self.database, *hosts, "--http", f"127.0.0.1:{self.http}", "--linger", random.choice(["0", "0.2"]))

    def end(self, name):
        it = self.running.pop(name)
        it.kill()
        it.wait()

    def orders(self, folder, kills):
        """What the orders come to, the stock, and what reached the world, with so many kills before."""
        self.database, self.log, self.running = f"{folder}/jobs.db", f"{folder}/log", {}
        Path(self.log).touch()
        self.http, *self.ports = free_port(), free_port(), free_port()
        for id, (item, amount) in ORDERS.items():
            self.begin("submit", "submit", self.database, "shop:app", id, "order/place", json.dumps({"item": item, "amount": amount}))
            self.assertEqual(self.running.pop("submit").wait(), 0)
        for it in self.ports:
            self.begin_host(it)
        self.begin_worker()
        try:
            for _ in range(kills):
                time.sleep(random.uniform(0.2, 2))
                name = random.choice([*self.ports, "worker"])
                self.end(name)
                self.begin_worker() if name == "worker" else self.begin_host(name)
            return self.ended(), collections.Counter(Path(self.log).read_text().split("\n")[:-1])
        finally:
            for it in list(self.running):
                self.end(it)

    def ended(self):
        """Waits until all orders have ended."""
        for id in ORDERS:
            ends = time.monotonic() + 120
            while not self.has_ended(id):
                self.assertLess(time.monotonic(), ends, f"{id} does not end")
                time.sleep(0.2)
        self.end("worker")
        return asyncio.run(look(self.database))

    def has_ended(self, id):
        try:
            urllib.request.urlopen(f"http://127.0.0.1:{self.http}/restate/invocation/{id}/output", timeout=30).close()
        except urllib.error.HTTPError as error:
            return error.code not in (470, 503)
        except OSError:
            return False
        return True

    def test_orders_end_as_undisturbed_ones(self):
        with tempfile.TemporaryDirectory() as quiet, tempfile.TemporaryDirectory() as disturbed:
            wanted, done = self.orders(quiet, 0)
            self.assertEqual(set(done.values()), {1})
            came, told = self.orders(disturbed, KILLS)
        self.assertEqual(came, wanted)
        self.assertEqual(set(told), set(done))
        # A kill may have one effect executed again, whose outcome was not recorded.
        self.assertLessEqual(sum(told.values()) - len(told), KILLS)


async def look(database):
    """The answers of the orders, and the stock."""
    store = hg.Store(database)
    await store.open()
    try:
        shown = {id: await store.show(id) for id in ORDERS}
        return {id: it.answer for id, it in shown.items()}, {it: await store.state(f"stock/{it}") for it in ("tea", "cup")}
    finally:
        await store.close()


if __name__ == "__main__":
    unittest.main()
