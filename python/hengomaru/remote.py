"""Handlers on other machines: a worker keeps the journal, and drives the endpoints of an app (`endpoint.py`) by Restate's service protocol, as
a Restate server does."""
import asyncio
import itertools
import json
import logging
import time
from datetime import timedelta
from typing import Any, Dict, List, Optional, Sequence, Tuple
from urllib.parse import quote

from .endpoint import MANIFEST, VERSIONS
from .http2 import Client, Lost, Stream
from .identity import Signer
from .serdes import BYTES, JSON
from .services import MILLISECOND, App, Handler, Service, VirtualObject, Workflow
from .session import Session
from .worker import HostGone

log = logging.getLogger("hengomaru")
KINDS = {"SERVICE": Service, "VIRTUAL_OBJECT": VirtualObject, "WORKFLOW": Workflow}
# A host that could not be reached is left out for so long, while others are there.
LEFT_OUT = 5.0
# A worker waits for so long for its first host.
PATIENCE = 30.0


async def elsewhere(ctx: Any, argument: Any) -> Any:
    raise RuntimeError("this handler is on another machine")


def serde_of(told: Any) -> Any:
    """JSON is looked at before it is recorded; what is of another kind goes through as it is."""
    kind = (told or {}).get("contentType") or "application/json"
    return JSON if kind in ("application/json", "*/*") else BYTES


def retention_of(millis: Optional[int]) -> Optional[timedelta]:
    return None if millis is None else timedelta(milliseconds=min(millis, timedelta.max // MILLISECOND))


def app_of(manifest: Dict[str, Any]) -> App:
    """The services that an endpoint tells of. They are called there."""
    app = App([])
    for told in manifest["services"]:
        service = app[told["name"]] = KINDS[told["ty"]](told["name"])
        for it in told["handlers"]:
            has_key = told["ty"] == "VIRTUAL_OBJECT" and it.get("ty") != "SHARED" or it.get("ty") == "WORKFLOW"
            lasts = retention_of(it.get("journalRetention"))
            service.handlers[it["name"]] = Handler(service, it["name"], elsewhere, has_key, serde_of(it.get("input")), serde_of(it.get("output")), lasts)
    return app


def whole_frames(stream: bytearray) -> int:
    """How many bytes the whole frames have that a stream begins with."""
    at = 0
    while len(stream) - at >= 8:
        ends = at + 8 + int.from_bytes(stream[at + 4 : at + 8], "big")
        if ends > len(stream):
            break
        at = ends
    return at


class Remote:
    """Hosts of handlers, of which each attempt takes the next that has its handler and can be reached. `attend` is a worker's host."""

    def __init__(self, addresses: Sequence[str], signer: Optional[Signer] = None) -> None:
        self.clients = [Client(it) for it in addresses]
        self.signer = signer
        self.turns = itertools.count()
        self.worker: Any = None
        self.version = VERSIONS[1]
        # What hosts have told, which of them have a handler, and until when a host is left out.
        self.manifests: Dict[Client, Dict[str, Any]] = {}
        self.hosts: Dict[Tuple[str, str], List[Client]] = {}
        self.left_out: Dict[Client, float] = {}
        self.looking: "Optional[asyncio.Task[None]]" = None

    def attach(self, worker: Any) -> None:
        """Makes this the host of a worker, which has been given `attend`."""
        self.worker, worker.version, worker.refresh = worker, self.version, self.refresh

    def headers(self, path: str) -> List[Tuple[str, str]]:
        return self.signer.headers(path, time.time()) if self.signer else []

    # ---- who has what
    async def discover(self, patience: float = PATIENCE) -> App:
        """The handlers of all hosts that answer. Waits for the first of them; HostGone where none comes, or one tells what cannot be."""
        ends, has_told = time.monotonic() + patience, False
        while True:
            found = await asyncio.gather(*(self.ask(it) for it in self.clients), return_exceptions=True)
            manifests = [(client, it) for client, it in zip(self.clients, found) if isinstance(it, dict)]
            for client, error in zip(self.clients, found):
                if isinstance(error, BaseException) and not isinstance(error, OSError):
                    raise HostGone(f"{client.address}: {error}") from None
                if isinstance(error, OSError) and (manifests or not has_told):
                    log.warning("%s cannot be reached: %s", client.address, error)
            if manifests:
                self.manifests.update(manifests)
                return self.take()
            if time.monotonic() >= ends:
                raise HostGone(f"none of {', '.join(it.address for it in self.clients)} can be reached")
            has_told = True
            await asyncio.sleep(0.5)

    async def ask(self, client: Client) -> Dict[str, Any]:
        accept = ", ".join(MANIFEST % it for it in (3, 2, 1))
        status, _, body = await client.get("/discover", [("accept", accept), *self.headers("/discover")])
        if status != 200:
            raise HostGone(f"/discover is answered {status} {body[:200].decode(errors='replace')}")
        manifest: Dict[str, Any] = json.loads(body)
        least, most = manifest["minProtocolVersion"], manifest["maxProtocolVersion"]
        if most < VERSIONS[0] or least > VERSIONS[1]:
            raise HostGone(f"it speaks versions {least} to {most} of the protocol, and a worker {VERSIONS[0]} to {VERSIONS[1]}")
        return manifest

    def take(self) -> App:
        self.version = min([VERSIONS[1], *(it["maxProtocolVersion"] for it in self.manifests.values())])
        self.hosts = {}
        app = App([])
        for client, manifest in self.manifests.items():
            for name, service in app_of(manifest).items():
                if name in app and type(app[name]) is not type(service):
                    raise HostGone(f"{client.address} tells another kind of {name} than another host")
                for handler in service.handlers.values():
                    self.hosts.setdefault((name, handler.name), []).append(client)
                app.setdefault(name, service).handlers.update(service.handlers)
        if self.worker:
            self.worker.version = self.version
        return app

    async def refresh(self) -> None:
        """Asks all hosts anew: one may have come, or have more handlers than it had."""
        self.worker.app.update(await self.discover(0))

    async def look_again(self) -> None:
        """Asks the hosts that have told nothing yet, as they could not be reached."""
        left = [it for it in self.clients if it not in self.manifests]
        for client, found in zip(left, await asyncio.gather(*(self.ask(it) for it in left), return_exceptions=True)):
            try:
                if isinstance(found, BaseException):
                    raise found
                self.manifests[client] = found
                self.worker.app.update(self.take())
                self.left_out.pop(client, None)
            except (OSError, HostGone, ValueError, LookupError) as error:
                self.manifests.pop(client, None)
                self.left_out[client] = time.monotonic() + LEFT_OUT
                if not isinstance(error, OSError):
                    log.error("%s is no host: %s", client.address, error)
        self.take()

    def look_beside(self) -> None:
        """The same beside what is done, now and then."""
        now = time.monotonic()
        wanted = any(it not in self.manifests and self.left_out.get(it, 0) <= now for it in self.clients)
        if wanted and (self.looking is None or self.looking.done()):
            self.looking = asyncio.ensure_future(self.look_again())

    def order(self, target: Tuple[str, str]) -> List[Client]:
        """The hosts of a handler, each attempt beginning with another one; those that could not be reached are the last."""
        hosts = self.hosts.get(target) or self.clients
        at, now = next(self.turns) % len(hosts), time.monotonic()
        return sorted([*hosts[at:], *hosts[:at]], key=lambda it: self.left_out.get(it, 0) > now)

    # ---- an attempt
    async def attend(self, session: Session) -> None:
        """Drives an attempt: what has come goes there, and what is put out is recorded, whole frames at a time."""
        if session.target.service == "hengomaru":
            await self.worker.here(session)
            return
        stream = await self.begin(session)
        sending = asyncio.ensure_future(self.send(session, stream))
        try:
            await self.receive(session, stream)
        except Lost as error:
            raise HostGone(f"{stream.address}: {error}") from None
        finally:
            sending.cancel()
            await asyncio.gather(sending, return_exceptions=True)
            stream.end()
            stream.close()

    async def begin(self, session: Session) -> Stream:
        """Asks the first host that can be reached. Nothing of the attempt was sent to those before it."""
        target, why = session.target, ""
        path = f"/invoke/{quote(target.service, safe='')}/{quote(target.handler, safe='')}"
        headers = [("content-type", session.content_type), *self.headers(path)]
        self.look_beside()
        for is_last in (False, True):
            for client in self.order((target.service, target.handler)):
                try:
                    stream = await client.ask("POST", path, headers)
                    self.left_out.pop(client, None)
                    return stream
                except OSError as error:
                    self.left_out[client] = time.monotonic() + LEFT_OUT
                    why = f"{client.address}: {error or type(error).__name__}"
            if is_last or len(self.manifests) == len(self.clients):
                break
            await self.look_again()
        raise HostGone(why)

    async def send(self, session: Session, stream: Stream) -> None:
        while (came := await session.read()) is not None:
            await stream.send(came)
        stream.end()

    async def receive(self, session: Session, stream: Stream) -> None:
        await stream.begun
        if stream.status != 200 or stream.headers.get("content-type") != session.content_type:
            raise HostGone(f"{stream.address} answers {stream.status} {stream.headers.get('content-type')}")
        kept = bytearray()
        while not session.ended:
            came = await stream.receive()
            if came is None:
                raise HostGone(f"{stream.address} ends its answer before the attempt has ended")
            kept += came
            length = whole_frames(kept)
            if length:
                whole = bytes(kept[:length])
                del kept[:length]
                await session.write(whole)

    def close(self) -> None:
        if self.looking:
            self.looking.cancel()
        for it in self.clients:
            it.close()
