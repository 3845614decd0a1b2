"""The handlers of an app behind HTTP, as an ASGI application that speaks the service protocol of Restate: a Restate cluster, or a worker
with `--endpoint` (`remote.py`), keeps the journal and drives them.

    hengomaru endpoint MODULE:APP --bind 0.0.0.0:9080       or `Endpoint(app)` under a server of ASGI, such as hypercorn

It answers GET /discover, GET /health, and POST /invoke/SERVICE/HANDLER, each behind any prefix. Over HTTP/2 the two directions of a call go
side by side (`is_bidirectional`); without, the journal comes whole, the answer goes, and an attempt that waits is suspended.
"""
import asyncio
import json
import logging
import time
from concurrent.futures import Executor, ThreadPoolExecutor
from typing import Any, Awaitable, Callable, Dict, List, NamedTuple, Optional, Sequence, Tuple

from . import identity
from . import machine as machines
from .attempt import Attempt
from .machine import MachineFailed
from .services import MILLISECOND, App, Handler, Service, Target, VirtualObject, Workflow

log = logging.getLogger("hengomaru")
Scope = Dict[str, Any]
Message = Dict[str, Any]
Receive = Callable[[], Awaitable[Message]]
Send = Callable[[Message], Awaitable[None]]

SERVER = (b"x-restate-server", b"hengomaru/0.2")
MANIFEST = "application/vnd.restate.endpointmanifest.v%d+json"
VERSIONS = 5, 8
KINDS = {VirtualObject: "VIRTUAL_OBJECT", Workflow: "WORKFLOW"}


class Gone(Exception):
    """Whoever asked has gone away: the attempt ends, and what was recorded of it stays."""


class HttpChannel:
    """The two directions of a request as an attempt's channel."""

    def __init__(self, receive: Receive, send: Send, content_type: str, is_bidirectional: bool) -> None:
        self.receive, self.send, self.content_type, self.is_bidirectional = receive, send, content_type, is_bidirectional
        self.is_closed = self.has_begun = False

    async def read(self) -> Optional[bytes]:
        while not self.is_closed:
            message = await self.receive()
            if message["type"] == "http.disconnect":
                raise Gone
            self.is_closed = not message.get("more_body", False)
            body: bytes = message.get("body", b"")
            if body:
                return body
        return None

    async def begin(self) -> None:
        if not self.has_begun:
            self.has_begun = True
            await self.send({"type": "http.response.start", "status": 200, "headers": [(b"content-type", self.content_type.encode()), SERVER]})

    async def write(self, stream: bytes) -> None:
        await self.begin()
        await self.send({"type": "http.response.body", "body": stream, "more_body": True})

    async def end(self) -> None:
        """Ends the answer, where it can behind the request: some servers let a stream go as soon as its answer has ended."""
        await self.begin()
        try:
            while self.is_bidirectional and await asyncio.wait_for(self.read(), 5) is not None:
                pass
        except asyncio.TimeoutError:
            pass
        await self.send({"type": "http.response.body", "body": b"", "more_body": False})


class Path(NamedTuple):
    """What is asked for, without the prefix of where the application is."""

    whole: str
    service: str = ""
    handler: str = ""


def path_of(path: str) -> Optional[Path]:
    words = [it for it in path.split("/") if it]
    if words and words[-1] in ("discover", "health"):
        return Path("/" + words[-1])
    if len(words) > 2 and words[-3] == "invoke":
        return Path("/" + "/".join(words[-3:]), *words[-2:])
    return None


class Endpoint:
    """An ASGI application. Where `keys` are given, as `publickeyv1_..`, it takes what is signed by one of them alone."""

    def __init__(self, app: App, keys: Sequence[str] = (), is_bidirectional: bool = True, threads: int = 64) -> None:
        self.app, self.is_bidirectional = app, is_bidirectional
        self.keys = [identity.read_key(it) for it in keys]
        self.pool: Executor = ThreadPoolExecutor(threads, "hengomaru-run")
        if not self.keys:
            log.warning("the endpoint takes what anybody asks: give it the keys of who may, or let nobody else reach it")

    async def __call__(self, scope: Scope, receive: Receive, send: Send) -> None:
        if scope["type"] == "lifespan":
            return await lifespan(receive, send)
        if scope["type"] != "http":
            raise NotImplementedError(scope["type"])
        headers = {name.decode("latin-1").lower(): value.decode("latin-1") for name, value in scope["headers"]}
        path = path_of(scope["path"])
        if path is None:
            return await told(send, 404, "nothing is there")
        if path.whole == "/health":
            return await told(send, 200, "")
        if self.keys and not identity.is_signed(headers, path.whole, self.keys, time.time()):
            return await told(send, 401, "not signed, or by nobody who may ask")
        if path.whole == "/discover":
            return await self.discover(headers.get("accept", ""), send)
        if scope["method"] != "POST":
            return await told(send, 405, "an invocation is a POST")
        await self.invoke(Target(path.service, path.handler), headers, scope.get("http_version", "1.1"), receive, send)

    async def invoke(self, target: Target, headers: Dict[str, str], http: str, receive: Receive, send: Send) -> None:
        if self.app.find(target) is None:
            return await told(send, 404, f"there is no handler {target.service}/{target.handler}")
        content_type = headers.get("content-type", "")
        channel = HttpChannel(receive, send, content_type, self.is_bidirectional and http.startswith("2"))
        try:
            attempt = Attempt(self.app, target, content_type, channel, lambda: int(time.time() * 1000), self.pool, lambda: None)
        except MachineFailed as error:
            return await told(send, error.code, error.message)
        status, channel.content_type = attempt.machine.response_head()
        try:
            await attempt.run()
            await channel.end()
        except Gone:
            log.info("%s: who asked has gone away", attempt.id)

    async def discover(self, accept: str, send: Send) -> None:
        asked = [it for it in (4, 3, 2, 1) if MANIFEST % it in accept]
        if not asked and accept and "*/*" not in accept and "application/json" not in accept:
            return await told(send, 415, f"a manifest that is not told: {accept}")
        version = asked[0] if asked else 1
        manifest = json.dumps(manifest_of(self.app, self.is_bidirectional, version)).encode()
        await told(send, 200, manifest, MANIFEST % version)


def manifest_of(app: App, is_bidirectional: bool, version: int) -> Dict[str, Any]:
    return {
        "protocolMode": "BIDI_STREAM" if is_bidirectional else "REQUEST_RESPONSE",
        "minProtocolVersion": VERSIONS[0],
        "maxProtocolVersion": VERSIONS[1],
        "services": [service_of(it, version) for name, it in sorted(app.items()) if not name.startswith("hengomaru")],
    }


def service_of(service: Service, version: int) -> Dict[str, Any]:
    kind = next((told for it, told in KINDS.items() if isinstance(service, it)), "SERVICE")
    return {"name": service.name, "ty": kind, "handlers": [handler_of(it, kind, version) for it in service.handlers.values()]}


def handler_of(handler: Handler, kind: str, version: int) -> Dict[str, Any]:
    told: Dict[str, Any] = {"name": handler.name}
    if kind != "SERVICE":
        told["ty"] = ("WORKFLOW" if kind == "WORKFLOW" else "EXCLUSIVE") if handler.has_key else "SHARED"
    told["input"] = {"required": False, "contentType": handler.input.content_type}
    told["output"] = {"contentType": handler.output.content_type, "setContentTypeIfEmpty": False}
    for where, serde in (("input", handler.input), ("output", handler.output)):
        if version >= 2 and serde.schema:
            told[where]["jsonSchema"] = serde.schema
    if version >= 3 and handler.retention is not None:
        again = "workflowCompletionRetention" if told.get("ty") == "WORKFLOW" else "idempotencyRetention"
        told["journalRetention"] = told[again] = handler.retention // MILLISECOND
    return told


async def told(send: Send, status: int, body: "bytes | str", content_type: str = "text/plain; charset=utf-8") -> None:
    body = body.encode() if isinstance(body, str) else body
    await send({"type": "http.response.start", "status": status, "headers": [(b"content-type", content_type.encode()), SERVER]})
    await send({"type": "http.response.body", "body": body})


async def lifespan(receive: Receive, send: Send) -> None:
    """Looks for the machine before a request comes."""
    await receive()
    try:
        machines.find()
    except OSError as error:
        await send({"type": "lifespan.startup.failed", "message": str(error)})
        return
    await send({"type": "lifespan.startup.complete"})
    await receive()
    await send({"type": "lifespan.shutdown.complete"})
