"""The endpoint, by a client that plays the server strictly: what it sends and takes is by the protocol alone."""
import asyncio
import base64
import json
import logging
import time
import unittest

import hengomaru as hg
from hengomaru import endpoint, identity, pb

from tests.needs import lacks

logging.getLogger("hengomaru").setLevel(logging.CRITICAL)
svc, obj, flow = hg.Service("svc"), hg.VirtualObject("obj"), hg.Workflow("flow")
app = hg.app([svc, obj, flow])
START, SUSPENSION, ERROR, END, AWAITING, PROPOSAL, ACK = 0, 1, 2, 3, 4, 5, 6
INPUT, OUTPUT, SEND_SIGNAL, CALL, RUN, RUN_CAME, CALL_CAME, CALL_ID_CAME, SIGNAL_CAME = 0x400, 0x401, 0x40F, 0x40D, 0x410, 0x8010, 0x800D, 0x800E, 0xFBFF
V = "application/vnd.restate.invocation.v%d"


@svc.handler()
async def works(ctx, arg):
    done = await ctx.run("work", lambda: arg * 2)
    try:
        return [done, await ctx.call(other, 5, key=None)]
    except hg.Cancelled:
        return "cancelled"


@svc.handler()
async def other(ctx, arg: int) -> int:
    return arg


@obj.handler()
async def keyed(ctx, arg):
    seen = await ctx.get("n")
    ctx.set("n", 7)
    return [ctx.key(), seen]


@flow.main()
async def main(ctx):
    return "main"


@flow.handler()
async def shared(ctx):
    return "shared"


class Server:
    """One request to the application, as a server of HTTP/2 hands it over, or of HTTP/1.1."""

    def __init__(self, path, content_type="", http="2", method="POST", headers=(), app=app, **further):
        self.came, self.out, self.status, self.headers = asyncio.Queue(), [], None, {}
        self.arrived = asyncio.Event()
        told = [(b"content-type", content_type.encode()), *((a.encode(), b.encode()) for a, b in headers)]
        scope = {"type": "http", "path": path, "method": method, "headers": told, "http_version": http}
        self.task = asyncio.ensure_future(endpoint.Endpoint(app, **further)(scope, self.came.get, self.take))
        self.kept = b""

    async def take(self, message):
        if message["type"] == "http.response.start":
            self.status, self.headers = message["status"], {a.decode(): b.decode() for a, b in message["headers"]}
        else:
            self.kept += message.get("body", b"")
        self.arrived.set()

    def send(self, *frames, ends=False):
        self.came.put_nowait({"type": "http.request", "body": b"".join(pb.frame(*it) for it in frames), "more_body": not ends})

    def leave(self):
        self.came.put_nowait({"type": "http.disconnect"})

    async def frames(self, last):
        """The frames up to one of this type."""
        found = []
        while not found or found[-1].type != last:
            whole = pb.frames(self.kept)
            if not whole:
                self.arrived.clear()
                await asyncio.wait_for(self.arrived.wait(), 30)
                continue
            self.kept = self.kept[len(whole[0].whole):]
            found.append(whole[0])
        return found

    async def over(self):
        await asyncio.wait_for(self.task, 30)
        return self.status, self.kept


def waits_for(payload):
    """The ids of a suspension's tree."""

    def leaves(tree):
        for number, content in pb.fields(tree):
            if number == 4:
                yield from leaves(content)
            elif number in (1, 2):
                yield from ((("completion", "signal")[number - 1], it) for it in ([content] if isinstance(content, int) else content))

    return list(leaves(dict(pb.fields(payload))[1]))


def start(known, key=""):
    return START, pb.record((1, b"inv_1"), (2, "inv_1"), (3, known), (6, key or None), (9, 42))


def input_of(value):
    return INPUT, pb.record((14, pb.record((1, json.dumps(value).encode()))))


def value_of(payload):
    return json.loads(dict(pb.fields(dict(pb.fields(payload))[14]))[1])


class Invocations(unittest.IsolatedAsyncioTestCase):
    async def test_both_directions_side_by_side(self):
        server = Server("/any/prefix/invoke/svc/works", V % 7)
        server.send(start(1), input_of(21))
        [run] = await server.frames(RUN)
        [proposal] = await server.frames(PROPOSAL)
        self.assertEqual((server.status, server.headers["content-type"]), (200, V % 7))
        self.assertEqual(proposal.whole[2:4], b"\x80\x00")  # it asks for an acknowledgement
        number = dict(pb.fields(run.payload))[11]
        self.assertEqual(dict(pb.fields(proposal.payload)), {1: number, 14: b"42"})
        server.send((ACK, pb.record((1, number))))
        call = (await server.frames(CALL))[-1]
        found = dict(pb.fields(call.payload))
        self.assertEqual((found[1], found[2], found[3]), (b"svc", b"other", b"5"))
        server.send((CALL_ID_CAME, pb.record((1, found[10]), (7, "inv_2"))), (CALL_CAME, pb.record((1, found[11]), (5, pb.record((1, b"6"))))))
        output, end = (await server.frames(END))[-2:]
        self.assertEqual((output.type, value_of(output.payload)), (OUTPUT, [42, 6]))
        self.assertFalse(server.task.done())  # the answer ends behind the request
        server.send(ends=True)
        self.assertEqual(await server.over(), (200, b""))

    async def test_an_attempt_is_suspended_and_goes_on(self):
        server = Server("/invoke/svc/works", V % 7)
        server.send(start(1), input_of(1))
        [run] = await server.frames(RUN)
        await server.frames(PROPOSAL)
        number = dict(pb.fields(run.payload))[11]
        server.send((ACK, pb.record((1, number))))
        await server.frames(CALL)
        server.send(ends=True)
        suspension = (await server.frames(SUSPENSION))[-1]
        self.assertEqual(sorted(waits_for(suspension.payload)), [("completion", 3), ("signal", 1)])
        await server.over()
        again = Server("/invoke/svc/works", V % 7)
        call = (CALL, pb.record((1, "svc"), (2, "other"), (3, b"5"), (10, 2), (11, 3)))
        again.send(start(5), input_of(1), (RUN, run.payload), (RUN_CAME, pb.record((1, number), (5, pb.record((1, b"2"))))), call, (CALL_CAME, pb.record((1, 3), (5, pb.record((1, b"8"))))))
        output, _ = await again.frames(END)
        self.assertEqual(value_of(output.payload), [2, 8])

    async def test_request_and_response(self):
        server = Server("/invoke/svc/works", V % 7, http="1.1")
        server.send(start(1), input_of(1), ends=True)
        found = [it.type for it in await server.frames(SUSPENSION)]
        self.assertEqual(found, [RUN, PROPOSAL, SUSPENSION])
        await server.over()

    async def test_cancellation(self):
        server = Server("/invoke/svc/works", V % 7)
        server.send(start(1), input_of(1))
        await server.frames(PROPOSAL)
        server.send((ACK, pb.record((1, 1))))
        await server.frames(CALL)
        server.send((SIGNAL_CAME, pb.record((2, 1), (4, b""))), (CALL_ID_CAME, pb.record((1, 2), (7, "inv_2"))))
        frames = [it for it in await server.frames(END) if it.type != AWAITING]
        self.assertEqual(value_of(frames[-2].payload), "cancelled")
        self.assertEqual((frames[0].type, dict(pb.fields(frames[0].payload))[1]), (SEND_SIGNAL, b"inv_2"))

    async def test_each_version(self):
        for version in range(endpoint.VERSIONS[0], endpoint.VERSIONS[1] + 1):
            server = Server("/invoke/svc/other", V % version)
            server.send(start(1), input_of(version), ends=True)
            output, _ = (await server.frames(END))[-2:]
            self.assertEqual((server.status, server.headers["content-type"], value_of(output.payload)), (200, V % version, version))

    async def test_an_object(self):
        server = Server("/invoke/obj/keyed", V % 5)
        server.send((START, start(1, "k")[1] + pb.record((4, pb.record((1, b"n"), (2, b"3"))))), input_of(None), ends=True)
        output, _ = (await server.frames(END))[-2:]
        self.assertEqual(value_of(output.payload), ["k", 3])

    async def test_who_asked_goes_away(self):
        server = Server("/invoke/svc/works", V % 7)
        server.send(start(1), input_of(1))
        await server.frames(PROPOSAL)
        server.leave()
        await server.over()

    async def test_what_is_not_taken(self):
        for path, content_type, status in (("/invoke/svc/absent", V % 7, 404), ("/invoke/absent/works", V % 7, 404), ("/elsewhere", V % 7, 404), ("/invoke/svc/works", V % 99, 415), ("/invoke/svc/works", "text/plain", 415)):
            self.assertEqual((await Server(path, content_type).over())[0], status, path)
        server = Server("/invoke/svc/works", V % 7)
        server.send((0x7777, b""))  # no type of the protocol
        [error] = await server.frames(ERROR)
        self.assertEqual(dict(pb.fields(error.payload))[1], 571)

    async def test_the_manifest(self):
        _, body = await Server("/discover", method="GET", headers=[("accept", endpoint.MANIFEST % 2 + ", " + endpoint.MANIFEST % 1)]).over()
        told = json.loads(body)
        self.assertEqual((told["protocolMode"], told["minProtocolVersion"], told["maxProtocolVersion"]), ("BIDI_STREAM", 5, 8))
        kinds = {it["name"]: (it["ty"], [(h["name"], h.get("ty")) for h in it["handlers"]]) for it in told["services"]}
        self.assertEqual(kinds, {
            "svc": ("SERVICE", [("works", None), ("other", None)]), "obj": ("VIRTUAL_OBJECT", [("keyed", "EXCLUSIVE")]),
            "flow": ("WORKFLOW", [("main", "WORKFLOW"), ("shared", "SHARED")]),
        })
        self.assertEqual((await Server("/discover", method="GET", headers=[("accept", "application/xml")]).over())[0], 415)
        self.assertEqual((await Server("/health", method="GET").over())[0], 200)


@unittest.skipIf(lacks("cryptography"), lacks("cryptography"))
class Signed(unittest.IsolatedAsyncioTestCase):
    def setUp(self):
        from cryptography.hazmat.primitives.asymmetric.ed25519 import Ed25519PrivateKey

        self.key = Ed25519PrivateKey.generate()
        self.told = identity.PREFIX + identity.base58(self.key.public_key().public_bytes_raw() if hasattr(self.key.public_key(), "public_bytes_raw") else raw(self.key))

    def token(self, **claims):
        part = lambda it: base64.urlsafe_b64encode(it).rstrip(b"=")
        now = int(time.time())
        claims = {"aud": "/discover", "nbf": now - 60, "iat": now, "exp": now + 60, **claims}
        signed = part(json.dumps({"alg": "EdDSA", "typ": "JWT", "kid": self.told}).encode()) + b"." + part(json.dumps(claims).encode())
        return (signed + b"." + part(self.key.sign(signed))).decode()

    async def status(self, headers, path="/discover"):
        return (await Server(path, method="GET", headers=headers, keys=[self.told]).over())[0]

    async def test_signatures(self):
        v1 = (identity.SCHEME, "v1")
        self.assertEqual(await self.status([v1, (identity.TOKEN, self.token())]), 200)
        self.assertEqual(await self.status([v1, (identity.TOKEN, self.token())], "/some/prefix/discover"), 200)
        now = time.time()
        for claims in ({"aud": "/invoke/a/b"}, {"exp": now - 1}, {"nbf": now + 9}, {"exp": None}, {"aud": None}):
            self.assertEqual(await self.status([v1, (identity.TOKEN, self.token(**claims))]), 401, claims)
        whole = self.token()
        for token in ("", "a.b.c", whole[:-8] + "AAAAAAAA", "e30." + whole.partition(".")[2], "é.é.é"):
            self.assertEqual(await self.status([v1, (identity.TOKEN, token)] if token.isascii() else [v1]), 401, token)
        self.assertEqual(await self.status([(identity.SCHEME, "unsigned")]), 401)
        self.assertEqual(await self.status([]), 401)
        self.assertEqual(await self.status([], "/health"), 200)
        deep = base64.urlsafe_b64encode(b"[" * 100_000).decode()
        self.assertEqual(await self.status([v1, (identity.TOKEN, f"{deep}.{deep}.AAAA")]), 401)

    async def test_what_a_worker_signs(self):
        from cryptography.hazmat.primitives.serialization import Encoding, NoEncryption, PrivateFormat

        signer = identity.Signer(self.key.private_bytes(Encoding.PEM, PrivateFormat.PKCS8, NoEncryption()))
        self.assertEqual(signer.key, self.told)
        now = time.time()
        for at, status in ((now, 200), (now - 50, 200), (now + 50, 200), (now - 200, 401), (now + 200, 401)):
            self.assertEqual(await self.status(signer.headers("/discover", at)), status, at - now)
        self.assertEqual(await self.status(signer.headers("/health", now)), 401)

    async def test_keys(self):
        for told in ("", "publickeyv1_", "publickeyv1_0", "publickeyv2_abc", self.told + "1"):
            self.assertRaises(ValueError, identity.read_key, told)


def raw(key):
    from cryptography.hazmat.primitives import serialization

    return key.public_key().public_bytes(serialization.Encoding.Raw, serialization.PublicFormat.Raw)


if __name__ == "__main__":
    unittest.main()
