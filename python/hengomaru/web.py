"""A worker behind HTTP, as an ASGI application: calls come in by Restate's ingress paths, and people see what is recorded at /ui.

    POST /SERVICE/HANDLER, /SERVICE/KEY/HANDLER          calls, and answers what the handler answers; header idempotency-key
    POST /SERVICE/HANDLER/send?delay=10s, ../KEY/..      calls without waiting: {"invocationId": .., "status": "Accepted"}
    GET  /restate/invocation/ID/attach, /output          waits for the answer; the answer, or 470 where there is none yet
    GET  /restate/invocation/SERVICE[/KEY]/HANDLER/IDEMPOTENCY-KEY/attach, /output
    GET  /restate/workflow/NAME/KEY/attach, /output
    GET  /restate/health
    POST /restate/awakeables/ID/resolve, /reject         with a JSON value; with a text
    POST /restate/invocation/ID/signal/NAME              with a JSON value
    POST /restate/invocation/ID/cancel, /pause, /resume  a cancellation behind another counts with ?again=true alone
    POST /restate/invocation/ID/forget, /restate/purge   one that has ended; all that have: {"forgotten": ..}

The header x-hengomaru-id of a call is its id. It takes no request that a page of another site makes, and answers to its own names alone:
whoever opens a page somewhere should not start jobs here. Where it has a token, it does what is asked with `authorization: Bearer TOKEN`
alone, by whatever name; the page asks its reader for it. Without one it asks nobody who they are, and is for this machine alone.
"""
import asyncio
import hmac
import json
import logging
import pkgutil
from typing import Any, Awaitable, Callable, Dict, List, Optional, Sequence, Tuple
from urllib.parse import parse_qs, unquote

from .endpoint import Receive, Scope, Send
from .journal import steps_of
from .services import MILLISECOND, OWN_HEADERS, Target, named, span_of
from .store import Ending, Listed, Refused, Shown, StoreGone, TooLong
from .worker import NEVER, Awaited, Busy, Worker

log = logging.getLogger("hengomaru")
MOST = 2**24
SHORTEST_TOKEN = 16
FILES = {"": ("page.html", "text/html"), "page.js": ("page.js", "text/javascript"), "page.css": ("page.css", "text/css")}
SAFE = [
    (b"content-security-policy", b"default-src 'none'; script-src 'self'; style-src 'self'; connect-src 'self'; base-uri 'none'; form-action 'none'; frame-ancestors 'none'"),
    (b"x-content-type-options", b"nosniff"), (b"referrer-policy", b"no-referrer"), (b"cache-control", b"no-store"), (b"cross-origin-resource-policy", b"same-origin"),
]
# Headers of a request that a handler is shown: those that tell of the connection are none.
OWN_ID = "x-hengomaru-id"
UNSHOWN = {"host", "connection", "content-length", "transfer-encoding", "idempotency-key", "cookie", "authorization", "origin", "referer", OWN_ID}
NOT_READY = 470


class Gone(Exception):
    """Whoever asked has gone away."""


class Told(Exception):
    """What a request comes to, where that is not what it has asked for."""

    def __init__(self, status: int, message: str) -> None:
        super().__init__(message)
        self.status, self.message = status, message


class Request:
    def __init__(self, scope: Scope, receive: Receive) -> None:
        self.method, self.receive = scope["method"], receive
        path = scope.get("raw_path") or scope["path"].encode()
        self.words = [unquote(it) for it in path.split(b"?")[0].decode("latin-1").split("/")[1:]]
        self.query = {name: it[-1] for name, it in parse_qs(scope.get("query_string", b"").decode("latin-1")).items()}
        self.headers = {name.decode("latin-1").lower(): value.decode("latin-1") for name, value in scope["headers"]}

    async def body(self) -> bytes:
        came, more = [], True
        while more:
            message = await self.receive()
            if message["type"] == "http.disconnect":
                raise Told(400, "the request was cut off")
            came.append(message.get("body", b""))
            more = message.get("more_body", False)
            if sum(map(len, came)) > MOST:
                raise Told(413, f"a body has at most {MOST} bytes")
        return b"".join(came)

    async def gone(self) -> None:
        """Comes when whoever asked has gone away."""
        while (await self.receive())["type"] != "http.disconnect":
            pass

    async def json(self) -> Any:
        try:
            return json.loads(await self.body() or b"null")
        except ValueError:
            raise Told(400, "the body is no JSON") from None


class Answer:
    def __init__(self, status: int, body: bytes = b"", content_type: str = "application/json", headers: Sequence[Tuple[str, str]] = ()) -> None:
        self.status, self.body = status, body
        self.headers = [(b"content-type", content_type.encode()), (b"content-length", str(len(body)).encode()), *SAFE, *((a.encode(), b.encode()) for a, b in headers)]


def of_json(value: Any, status: int = 200, headers: Sequence[Tuple[str, str]] = ()) -> Answer:
    return Answer(status, json.dumps(value, ensure_ascii=False).encode(), headers=headers)


def delay_in(told: Optional[str]) -> int:
    """Milliseconds of a text such as 10s, or 1h30m."""
    try:
        return span_of(told) // MILLISECOND if told else 0
    except ValueError as error:
        raise Told(400, str(error)) from None


def read_token(file: Optional[str]) -> Optional[str]:
    """The token that a file holds; None where no file is told, and ValueError where it has none that is long enough."""
    if file is None:
        return None
    with open(file, encoding="utf-8") as it:
        token = it.read().strip()
    if len(token) < SHORTEST_TOKEN or not token.isascii() or not token.isprintable() or " " in token:
        raise ValueError(f"{file} holds no token: {SHORTEST_TOKEN} letters, digits and signs or more, as of `openssl rand -hex 32`")
    return token


def is_here_alone(bind: str) -> bool:
    """Whether what is bound there is asked from this machine alone."""
    return bind.rpartition(":")[0].strip("[]") in ("127.0.0.1", "localhost", "::1")


class Web:
    """The ASGI application of a worker, which answers to these names, as `host:port`, or to whoever has the token."""

    def __init__(self, worker: Worker, names: Sequence[str], token: Optional[str] = None) -> None:
        self.worker, self.names, self.token = worker, set(names), token

    async def __call__(self, scope: Scope, receive: Receive, send: Send) -> None:
        if scope["type"] == "lifespan":
            for told in ("startup", "shutdown"):
                await receive()
                await send({"type": f"lifespan.{told}.complete"})
            return
        if scope["type"] != "http":
            raise NotImplementedError(scope["type"])
        try:
            request = Request(scope, receive)
            self.check(request)
            answer = await self.answer(request)
        except Gone:
            return
        except Told as told:
            answer = of_json({"message": told.message}, told.status)
        except TooLong as error:
            answer = of_json({"message": str(error)}, 413)
        except StoreGone:
            answer = of_json({"message": "the worker is closed, or its store does not answer"}, 503)
        except (Awaited, Busy) as kept:
            answer = of_json({"message": str(kept)}, 409)
        except LookupError as error:
            answer = of_json({"message": str(error.args[0])}, 404)
        except ValueError as error:
            answer = of_json({"message": str(error)}, 400)
        except Refused as refused:
            answer = of_json({"message": f"refused {refused}"}, {"S4": 404, "S5": 410}.get(refused.name, 409))
        except Exception:
            log.exception("%s %s", scope["method"], ascii(scope["path"]))
            answer = of_json({"message": "an error of the worker, which its log tells"}, 500)
        await send({"type": "http.response.start", "status": answer.status, "headers": answer.headers})
        await send({"type": "http.response.body", "body": answer.body})

    def check(self, request: Request) -> None:
        """Refuses what a page of another site has asked for, by whatever name of this host, and what is asked without the token."""
        if self.token is not None:
            return self.check_token(request, self.token)
        host = request.headers.get("host", "")
        if host not in self.names:
            raise Told(421, f"{host} is no name of this worker: `--name` tells it one")
        site = request.headers.get("sec-fetch-site")
        if site not in (None, "same-origin", "none") or request.headers.get("origin", f"http://{host}") not in (f"http://{host}", f"https://{host}"):
            if not (request.method == "GET" and request.words[0] == "ui" and request.headers.get("sec-fetch-mode") == "navigate"):
                raise Told(403, "a page of another site may not ask here")

    def check_token(self, request: Request, token: str) -> None:
        """What shows nothing of the worker is for all: the page itself, and whether it is there. No other site's page has the token."""
        is_open = request.words in ([""], [], ["restate", "health"]) or (request.words[0] == "ui" and "/".join(request.words[1:]) in FILES)
        told = request.headers.get("authorization", "")
        if not is_open and not hmac.compare_digest(told.encode(), f"Bearer {token}".encode()):
            raise Told(401, "authorization: Bearer TOKEN is wanted, as of the file that `--token` names")

    async def answer(self, request: Request) -> Answer:
        words, method = request.words, request.method
        if words in ([""], []):
            return Answer(303, headers=[("location", "/ui")])
        if words[0] == "ui":
            return await self.page(request, words[1:])
        if words[0] == "restate":
            return await self.restate(request, words[1:])
        if method != "POST":
            raise Told(405, "a call is a POST")
        return await self.call(request, words)

    # ---- calls
    async def call(self, request: Request, words: List[str]) -> Answer:
        is_send = words[-1] == "send" and len(words) > 2
        words = words[:-1] if is_send else words
        if len(words) not in (2, 3):
            raise Told(404, "a call is of /SERVICE/HANDLER or /SERVICE/KEY/HANDLER")
        service, key, handler = words[0], words[1] if len(words) == 3 else None, words[-1]
        it = None if service.startswith("hengomaru") else await self.worker.find(Target(service, handler, key or ""))
        if it is None:
            raise Told(404, f"there is no handler {service}/{handler}")
        body = await request.body()
        try:
            it.input.read(body)
        except Exception as error:
            raise Told(400, f"not what {service}/{handler} takes: {error}") from None
        headers = {name: value for name, value in request.headers.items() if name not in UNSHOWN and not name.startswith((OWN_HEADERS, "sec-"))}
        delay = delay_in(request.query.get("delay")) if is_send else 0
        own, again = request.headers.get(OWN_ID), request.headers.get("idempotency-key")
        target, _, id = await self.worker.call_of((service, handler), key, again, own)
        with self.worker.reading(id):
            is_new = await self.worker.take_on(id, target, body, headers, delay)
            if is_send:
                return of_json({"invocationId": id, "status": "Accepted" if is_new else "PreviouslyAccepted"}, 202, [("x-restate-id", word_of(id))])
            return told_answer(await self.outcome(request, id), id, it.output.content_type)

    async def outcome(self, request: Request, id: str) -> Ending:
        """What an invocation has come to, once it has ended, as long as somebody waits for it. It goes on also where nobody does."""
        waits, gone = asyncio.ensure_future(self.worker.outcome(id)), asyncio.ensure_future(request.gone())
        try:
            await asyncio.wait({waits, gone}, return_when=asyncio.FIRST_COMPLETED)
            if not waits.done():
                raise Gone
            return waits.result()
        finally:
            for it in (waits, gone):
                it.cancel()
            await asyncio.gather(waits, gone, return_exceptions=True)

    # ---- what is called, and what it waits for
    async def restate(self, request: Request, words: List[str]) -> Answer:
        what, *rest = words or [""]
        if (what, rest) == ("health", []):
            return of_json({})
        if (what, rest, request.method) == ("purge", [], "POST"):
            return of_json({"forgotten": await self.worker.purge()})
        if what == "awakeables" and len(rest) == 2 and request.method == "POST" and rest[1] in ("resolve", "reject"):
            return await self.awakeable(request, *rest)
        if what == "workflow" and len(rest) == 3:
            what, rest = "invocation", [named(rest[0], rest[1]), rest[2]]
        elif what == "invocation" and len(rest) in (4, 5) and rest[-1] in ("attach", "output"):
            service, *key, handler, again = rest[:-1]
            rest = [named(service, handler, *(key or [""]), again), rest[-1]]
        if what != "invocation" or len(rest) < 2:
            raise Told(404, "nothing is there")
        id, act, *names = rest
        if request.method == "GET" and act in ("attach", "output"):
            if act == "output" and (await self.worker.status(id)).is_open:
                raise Told(NOT_READY, f"{id} has not ended")
            await request.body()
            return told_answer(await self.outcome(request, id), id)
        if request.method != "POST":
            raise Told(405, "that is a POST")
        if act == "signal" and len(names) == 1:
            await self.worker.signal(id, names[0], await request.json())
        elif act in ("cancel", "pause", "resume", "forget") and not names:
            await self.act(act, id, request.query.get("again") == "true")
        else:
            raise Told(404, "nothing is there")
        return of_json({"invocationId": id}, 202)

    async def awakeable(self, request: Request, id: str, how: str) -> Answer:
        if how == "resolve":
            is_taken = await self.worker.resolve_awakeable(id, await request.json())
        else:
            is_taken = await self.worker.reject_awakeable(id, (await request.body()).decode(errors="replace"))
        if not is_taken:
            raise Told(404, "nothing waits for it")
        return of_json({}, 202)

    async def act(self, act: str, id: str, again: bool = False) -> None:
        if act == "cancel":
            await self.worker.cancel_invocation(id, again=again)
        else:
            await {"pause": self.worker.pause, "resume": self.worker.resume, "forget": self.worker.forget}[act](id)

    # ---- the page
    async def page(self, request: Request, words: List[str]) -> Answer:
        name = "/".join(words)
        if request.method == "GET" and name in FILES:
            file, kind = FILES[name]
            return Answer(200, pkgutil.get_data(__package__, f"page/{file}") or b"", f"{kind}; charset=utf-8")
        if request.method == "GET" and name == "api/list":
            return of_json(await self.listed(request.query.get("after", ""), request.query.get("only", ""), 100))
        if request.method == "GET" and name == "api/one":
            return of_json(await self.one(request.query.get("id", "")))
        if request.method == "POST" and name == "api/act":
            if request.headers.get("content-type") != "application/json":
                raise Told(415, "what the page asks is JSON")
            asked = await request.json()
            if not isinstance(asked, dict) or asked.get("act") not in ("cancel", "pause", "resume") or not isinstance(asked.get("id"), str):
                raise Told(400, "not understood")
            await self.act(asked["act"], asked["id"])
            return of_json({})
        raise Told(404, "nothing is there")

    def row(self, it: Listed) -> Dict[str, Any]:
        until = self.worker.not_before.get(it.id)
        status = it.went if until is None or it.status != "due" else "paused" if until == NEVER else "again"
        return {"id": it.id, "object": it.object, "status": status, "attempts": it.attempts, "entries": it.entries, "until": None if until in (None, NEVER) else until}

    async def listed(self, after: str, only: str, most: int) -> Dict[str, Any]:
        """The first invocations behind an id: all, those that are open, or those that have not gone well."""
        statuses = {"open": {"live", "due", "suspended", "again", "paused"}, "amiss": {"again", "paused", "failed"}}.get(only)
        found: List[Dict[str, Any]] = []
        scanned, last = 0, after
        while len(found) < most and scanned < 20_000:
            page = await self.worker.store.page(last, 1000)
            if not page:
                return {"rows": found, "next": None, **self.counts()}
            for it in page:
                last, scanned = it.id, scanned + 1
                row = self.row(it)
                if statuses is None or row["status"] in statuses:
                    found.append(row)
                    if len(found) == most:
                        break
        return {"rows": found, "next": last, **self.counts()}

    def counts(self) -> Dict[str, Any]:
        return {"live": len(self.worker.live), "done": self.worker.done, "now": self.worker.clock()}

    async def one(self, id: str) -> Dict[str, Any]:
        shown, error = await self.worker.store.show(id), await self.worker.store.error(id)
        until = self.worker.not_before.get(id)
        status = "ended" if not shown.is_open else "paused" if until == NEVER else "again" if until else "live" if id in self.worker.live else "waits"
        return {
            "id": id, "status": status, "is_open": shown.is_open, "until": None if until == NEVER else until, "now": self.worker.clock(),
            "object": self.worker.objects.get(id), "answer": told_of(shown) if not shown.is_open else None, "is_failure": isinstance(shown.answer, tuple),
            "error": error and {"code": error[0], "message": error[3]}, "steps": [it._asdict() for it in steps_of(shown)],
        }


def word_of(id: str) -> str:
    return id if id.isascii() and id.isprintable() else ascii(id)


def told_of(shown: Shown) -> str:
    if isinstance(shown.answer, tuple):
        return f"({shown.answer[0]}) {shown.answer[1]}"
    return shown.answer.decode(errors="replace") if isinstance(shown.answer, bytes) else ""


def told_answer(ending: Ending, id: str, content_type: str = "application/json") -> Answer:
    """The answer of an invocation that has ended. A failure is told by its code, where that is one of HTTP's."""
    headers = [("x-restate-id", word_of(id))]
    if isinstance(ending.answer, tuple):
        code, message = ending.answer
        return of_json({"code": code, "message": message}, code if 400 <= code < 600 else 500, headers)
    return Answer(200, ending.answer if isinstance(ending.answer, bytes) else b"", content_type, headers)
