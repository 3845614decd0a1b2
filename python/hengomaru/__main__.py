"""hengomaru: handlers whose steps are recorded in a SQLite file, and which go on where they were.

    hengomaru worker DATABASE MODULE:APP             goes on until nothing sleeps, and tells what each job that ends answers
    hengomaru worker DATABASE MODULE:APP --http 127.0.0.1:8080     for good: calls come in over HTTP, and the page is at /ui
    hengomaru worker DATABASE --endpoint http://a:9080 [..]        for good, with handlers on other machines
    hengomaru endpoint MODULE:APP --bind 0.0.0.0:9080              handlers for such a worker, or for a Restate cluster

    hengomaru submit DATABASE MODULE:APP ID SERVICE/HANDLER[/KEY] [JSON]
    hengomaru resolve DATABASE AWAKEABLE [JSON]
    hengomaru signal DATABASE ID NAME [JSON]
    hengomaru cancel | pause | resume | forget | show DATABASE ID
    hengomaru list | purge DATABASE

DATABASE may be the address of a worker that runs, as http://127.0.0.1:8080, whose file nobody else can open; `submit` then has no
MODULE:APP. ID may be `.` for one that no other job has. `hengomaru DATABASE MODULE:APP [WORD ..]` is the same, without `worker`, and with
the database first. A worker with `--lines` goes on for good, and takes `submit`, `resolve`, `signal`, `cancel`, `pause`, `resume`,
`forget`, `show`, `list` and `purge` as lines of its standard input, without a database. The module is looked for here first. It ends with 1 where what was asked for
is refused, and with 2 where it cannot begin.

`forget` forgets one that has ended, `purge` all: of a worker that runs what its retention no longer keeps. Their ids are free again then.
"""
import argparse
import asyncio
import importlib
import json
import logging
import os
import signal
import stat
import sys
import time
from pathlib import Path
from typing import Any, Callable, Dict, Iterable, List, Optional

from .client import Client, NotDone
from .journal import Step, steps_of
from .services import App, span_of
from .serving import serve_http
from .store import HELD, NotOpened, Refused, StoreGone
from .worker import NEVER, PAUSE, Awaited, Busy, HostGone, Worker

REFUSED, CANNOT = 1, 2
LINES = "submit", "resolve", "signal", "cancel", "pause", "resume", "forget", "show", "list", "purge"
# How many words stand behind the database, at least and at most: JSON is the last one, where it may stand.
WORDS = {"submit": (2, 3), "resolve": (1, 2), "signal": (2, 3), "cancel": (1, 1), "pause": (1, 1), "resume": (1, 1), "forget": (1, 1), "show": (1, 1), "list": (0, 0), "purge": (0, 0)}
BEHIND = {"submit": "ID SERVICE/HANDLER[/KEY] [JSON]", "resolve": "AWAKEABLE [JSON]", "signal": "ID NAME [JSON]", "list": "", "purge": ""}
CAUSES = {
    "S4": "there is no such invocation", "S5": "the invocation has ended", "S1": "the object has an open invocation", "S3": "the id was used before",
    "S20": "the store has no memory for it now",
}


class Misused(Exception):
    """What is asked is not understood."""


class CannotBegin(Exception):
    """What a worker needs is not there."""


def usable(make: Callable[..., Any], *given: Any) -> Any:
    """What a function makes of what was given; CannotBegin where that is none."""
    try:
        return make(*given)
    except ValueError as error:
        raise CannotBegin(str(error)) from None


# ---- what is printed
def printed(text: str) -> str:
    """On one line: what is no plain character is escaped, so that nothing looks like another line, or is hidden."""
    return "".join(it if it.isprintable() else it.encode("unicode_escape", "surrogatepass").decode() for it in text)


def json_line(value: Any) -> str:
    if isinstance(value, bytes):
        return f"{len(value)} bytes {value[:100]!r}"
    return printed(json.dumps(value, ensure_ascii=False))


def line_of(id: str, value: Any, failure: Any) -> str:
    return printed(f"{id}: failed ({failure[0]}) {failure[1]}") if failure else f"{printed(id)}: {json_line(value)}"


def print_ended(*told: Any) -> None:
    if sys.stderr.isatty():
        print("\r\x1b[K", end="", file=sys.stderr, flush=True)  # the line that tells how the worker does
    print(line_of(*told), flush=True)


class Line:
    """One line of a terminal that tells how the worker does."""

    def __init__(self, worker: Worker, began: float) -> None:
        self.worker, self.began, self.last, self.done = worker, began, began, 0

    def text(self) -> str:
        worker, now = self.worker, time.monotonic()
        rate, self.last, self.done = (worker.done - self.done) / max(now - self.last, 0.001), now, worker.done
        again = sum(it != NEVER for it in worker.not_before.values())
        told = [f"{len(worker.live)} live", f"{len(worker.backlog)} due", f"{again} tried again later", f"{len(worker.not_before) - again} paused", f"{worker.done} ended", f"{rate:.0f}/s"]
        return ", ".join(it for it in told if not it.startswith("0 ") or it.endswith(("live", "ended")))

    async def show(self) -> None:
        while True:
            await asyncio.sleep(0.5)
            print(f"\r\x1b[K{self.text()}", end="", file=sys.stderr, flush=True)


# ---- a worker
def find_app(told: str) -> App:
    module, _, name = told.partition(":")
    sys.path.insert(0, os.getcwd())
    found = getattr(importlib.import_module(module), name or "app", None)
    if not isinstance(found, App):
        raise CannotBegin(f"{told} names no app: in the module {module}, `{name or 'app'} = hengomaru.app([service, ..])` makes one")
    return found


def names_of(bind: str, further: List[str]) -> List[str]:
    port = bind.rpartition(":")[2]
    return [f"127.0.0.1:{port}", f"localhost:{port}", f"[::1]:{port}", *further]


def stopped_by_signals(worker: Optional[Worker]) -> asyncio.Event:
    """An event that comes with SIGTERM or SIGINT."""
    stop = asyncio.Event()

    def told() -> None:
        stop.set()
        if worker:
            stop_worker(worker)

    for it in (signal.SIGTERM, signal.SIGINT):
        asyncio.get_running_loop().add_signal_handler(it, told)
    return stop


def stop_worker(worker: Worker) -> None:
    worker.is_stopping = True
    worker.pulse.set()


async def work(given: argparse.Namespace) -> int:
    remote: Any = None
    if given.http:
        from .web import is_here_alone

        if not is_here_alone(given.http) and not given.token:
            raise CannotBegin(f"{given.http} is reached from other machines: `--token FILE` tells what who asks has to know")
    if given.endpoint:
        from .identity import Signer
        from .remote import Remote

        signer = usable(Signer, Path(given.identity).read_bytes()) if given.identity else None
        if signer:
            print(f"requests are signed: `hengomaru endpoint .. --key {signer.key}` takes these alone", file=sys.stderr)
        remote = Remote(given.endpoint, signer)
        app = await remote.discover()
    elif given.app:
        app = find_app(given.app)
    else:
        raise CannotBegin("a worker has an app, or an endpoint: hengomaru worker DATABASE MODULE:APP")
    host = remote.attend if remote else None
    retention = usable(span_of, given.retention) if given.retention else None
    worker = Worker(
        given.database, app, ended=print_ended, limit=given.limit, linger=given.linger, threads=given.threads, tries=given.tries, host=host, retention=retention,
    )
    if remote:
        remote.attach(worker)
    async with worker:
        await go_on(worker, given)
    if remote:
        remote.close()
    return 0


async def go_on(worker: Worker, given: argparse.Namespace) -> None:
    """Until it has nothing to do, or a signal stops it."""
    stop = stopped_by_signals(worker)
    line = asyncio.ensure_future(Line(worker, time.monotonic()).show()) if sys.stderr.isatty() else None
    serving = [asyncio.ensure_future(serve_http(web_of(worker, given), given.http, stop))] if given.http else []
    going = asyncio.ensure_future(worker.run(is_watching=given.watch or given.lines or bool(given.http or given.endpoint)))
    lines = asyncio.ensure_future(take_lines(worker)) if given.lines else None
    try:
        if lines:
            await asyncio.wait({going, lines, *serving}, return_when=asyncio.FIRST_COMPLETED)
            if not going.done():  # the lines have ended: what is there is done to its end
                worker.is_watching = bool(given.http)
                worker.pulse.set()
        await asyncio.wait({going, *serving}, return_when=asyncio.FIRST_COMPLETED)
        stop.set()
        stop_worker(worker)
        await asyncio.gather(going, *serving)
    finally:
        for it in (line, lines):
            if it:
                it.cancel()


def web_of(worker: Worker, given: argparse.Namespace) -> Any:
    from .web import Web, read_token

    print(f"http://{given.http}/ui", file=sys.stderr)
    return Web(worker, names_of(given.http, given.name), token=usable(read_token, given.token))


async def take_lines(worker: Worker) -> None:
    """Does what the lines of the standard input ask, until they end."""
    reader, kind = asyncio.StreamReader(limit=2**26), os.fstat(sys.stdin.fileno()).st_mode
    if stat.S_ISFIFO(kind) or stat.S_ISSOCK(kind) or sys.stdin.isatty():
        await asyncio.get_running_loop().connect_read_pipe(lambda: asyncio.StreamReaderProtocol(reader), sys.stdin)
    else:  # a file, which does not keep anybody waiting
        reader.feed_data(sys.stdin.buffer.read())
        reader.feed_eof()
    while line := (await reader.readline()).decode(errors="replace"):
        if line.strip():
            print(await answer_to_line(worker, line), flush=True)


async def answer_to_line(worker: Worker, line: str) -> str:
    word = line.split(None, 1)[0]
    try:
        if word not in WORDS:
            raise Misused
        least, most = WORDS[word]
        words = line.strip().split(None, most if least < most else -1)[1:]  # the last one, JSON, may hold spaces
        return await told(worker, word, checked(word, words))
    except Misused:
        return f"not understood: {printed(line.strip())}"
    except (Awaited, Busy, LookupError, ValueError, Refused) as error:
        return refusal(error)


def checked(word: str, words: List[str]) -> List[Any]:
    """The words behind a word, of which JSON is read."""
    least, most = WORDS[word]
    if not least <= len(words) <= most:
        raise Misused(f"hengomaru {word} DATABASE {'MODULE:APP ' if word == 'submit' else ''}{BEHIND.get(word, 'ID')}")
    if len(words) == most and least < most:
        try:
            return [*words[:-1], json.loads(words[-1])]
        except ValueError as error:
            raise ValueError(f"{words[-1]} is no JSON ({error}): a text stands in double quotes") from None
    return list(words)


def refusal(error: Exception) -> str:
    if isinstance(error, Refused):
        return f"refused {error.name}: {CAUSES.get(error.name, 'docs/FORMATS.md tells the cause')}"
    return f"refused: {printed(str(error.args[0] if error.args else error))}"


async def endpoint(given: argparse.Namespace) -> int:
    from .endpoint import Endpoint

    app = find_app(given.app)
    await serve_http(usable(Endpoint, app, given.key), given.bind, stopped_by_signals(None), http2=True)
    return 0


# ---- one thing that is asked
async def asked(given: argparse.Namespace) -> int:
    """Does one thing to a database, or asks it of a worker that has it, and prints what it comes to."""
    is_running = given.database.startswith(("http://", "https://"))
    words = given.words if given.word != "submit" or is_running else given.words[1:]
    try:
        if is_running:
            from .web import read_token

            client = Client(given.database, read_token(given.token))
            print(told_by(client, given.word, checked(given.word, words), given.steps, given.again), flush=True)
            return 0
        if given.word == "submit" and not given.words:
            raise Misused("hengomaru submit DATABASE MODULE:APP ID SERVICE/HANDLER[/KEY] [JSON]")
        worker = Worker(given.database, find_app(given.words[0]) if given.word == "submit" else App([]), host=nowhere)
        worker.prepare()
        ready = checked(given.word, words)
        await worker.store.open()
        try:
            if given.word in ("forget", "purge"):
                await worker.survey()
            print(await told(worker, given.word, ready, given.steps, given.again), flush=True)
        finally:
            await worker.store.close()
        return 0
    except Misused as error:
        print(f"usage: {error}", file=sys.stderr)
        return CANNOT
    except (Awaited, Busy, ValueError, Refused, NotDone, LookupError) as error:
        print(refusal(error), flush=True)
        return REFUSED


async def nowhere(session: Any) -> None:
    raise AssertionError("this is no worker")


def id_in(told: str) -> Optional[str]:
    return None if told == "." else told


async def told(worker: Worker, word: str, words: List[Any], with_steps: bool = False, is_again: bool = False) -> str:
    if word == "submit":
        return printed(f"{await worker.submit(id_in(words[0]), *words[1:])}: there")
    if word == "resolve":
        return "resolved" if await worker.resolve_awakeable(*words) else "nothing waits for it"
    if word == "signal":
        await worker.signal(*words)
    elif word == "cancel":
        await worker.cancel_invocation(words[0], is_again)
    elif word in ("pause", "resume", "forget"):
        await getattr(worker, word)(words[0])
    elif word == "purge":
        return f"{await worker.purge()} forgotten"
    elif word == "show":
        return await shown(worker, words[0], with_steps)
    else:
        return lines_of([[printed(it.id), printed(it.object), await status_of(worker, it.id, it.went), it.attempts, it.entries] for it in await worker.store.list()])
    return "done"


async def status_of(worker: Worker, id: str, status: str) -> str:
    """One that is paused is due, as the store has it."""
    if status != "due":
        return status
    error = await worker.store.error(id)
    return "paused" if error and error[1] == PAUSE else status


async def shown(worker: Worker, id: str, with_steps: bool) -> str:
    status = await worker.status(id)
    steps = steps_of(await worker.shown(id)) if with_steps else []
    error = await worker.store.error(id) if status.is_open and await worker.is_known(id) else None
    return shown_lines(id, steps, status.is_open, status.value, status.failure, error and (error[0], error[3]))


def shown_lines(id: str, steps: Iterable[Step], is_open: bool, value: Any, failure: Any, error: Any) -> str:
    lines = [printed(str(it)) for it in steps]
    if is_open and error and lines:
        lines.append(printed(f"its last attempt that failed: ({error[0]}) {error[1]}"))
    return "\n".join([*lines, f"{printed(id)}: open" if is_open else line_of(id, value, failure)])


def lines_of(rows: List[List[Any]]) -> str:
    return "\n".join(" ".join(map(str, it)) for it in rows) or "none"


def told_by(client: Client, word: str, words: List[Any], with_steps: bool, is_again: bool) -> str:
    """As `told`, of a worker that runs."""
    if word == "submit":
        return printed(f"{client.submit(id_in(words[0]), *words[1:])}: there")
    if word == "resolve":
        client.resolve(*words)
        return "resolved"
    if word == "signal":
        client.signal(*words)
    elif word in ("cancel", "pause", "resume", "forget"):
        client.act(word, words[0], is_again)
    elif word == "purge":
        return f"{client.purge()} forgotten"
    elif word == "show":
        return told_one(words[0], client.show(words[0]), with_steps)
    else:
        return lines_of([[printed(it["id"]), printed(it["object"]), it["status"], it["attempts"], it["entries"]] for it in client.list()])
    return "done"


def told_one(id: str, told: Dict[str, Any], with_steps: bool) -> str:
    steps, error = told["steps"] if with_steps else [], told.get("error")
    if told["is_open"]:
        return shown_lines(id, steps, True, None, None, error and (error["code"], error["message"]))
    if told["is_failure"]:
        return "\n".join([*(printed(str(it)) for it in steps), printed(f"{id}: failed {told['answer']}")])
    try:
        value = json.loads(told["answer"] or "null")
    except ValueError:
        value = told["answer"]
    return shown_lines(id, steps, False, value, None, None)


# ---- the command
def parser() -> argparse.ArgumentParser:
    top = argparse.ArgumentParser("hengomaru", description=__doc__, formatter_class=argparse.RawDescriptionHelpFormatter, usage="hengomaru WORD ..")
    words = top.add_subparsers(dest="word", required=True, metavar="WORD")

    it = words.add_parser("worker")
    it.set_defaults(what=work)
    it.add_argument("database")
    it.add_argument("app", nargs="?", metavar="MODULE:APP")
    it.add_argument("--http", metavar="HOST:PORT", help="calls come in here, and the page is at /ui")
    it.add_argument("--name", action="append", default=[], metavar="HOST:PORT", help="a further name by which this host is asked")
    it.add_argument("--token", metavar="FILE", help="who asks over HTTP tells what stands in this file")
    it.add_argument("--endpoint", action="append", metavar="URL", help="handlers are there")
    it.add_argument("--identity", metavar="FILE", help="endpoints are asked with the signature of the key in this file")
    it.add_argument("--watch", action="store_true", help="goes on for good")
    it.add_argument("--lines", action="store_true", help="and takes lines of its standard input")
    it.add_argument("--limit", type=int, default=256, help="attempts at a time (256)")
    it.add_argument("--linger", type=float, default=0.5, metavar="SECONDS", help="an attempt that waits is suspended after so long (0.5)")
    it.add_argument("--threads", type=int, default=64, help="bodies of runs that are plain functions, at a time (64)")
    it.add_argument("--retention", metavar="TIME", help="what has ended is forgotten so much later, as 1d or 12h, and its id is free again (never)")
    it.add_argument("--tries", type=int, default=100, help="an invocation that fails so often in a row is paused (100; 0: never)")

    it = words.add_parser("endpoint")
    it.set_defaults(what=endpoint)
    it.add_argument("app", metavar="MODULE:APP")
    it.add_argument("--bind", default="127.0.0.1:9080", metavar="HOST:PORT")
    it.add_argument("--key", action="append", default=[], metavar="publickeyv1_..", help="takes what is signed by this key alone")

    for name in LINES:
        behind = ("[MODULE:APP] " if name == "submit" else "") + BEHIND.get(name, "ID")
        it = words.add_parser(name, usage=f"hengomaru {name} DATABASE {behind}".strip())
        it.set_defaults(what=asked, steps=False, again=False)
        it.add_argument("database", help="a file, or the address of a worker that runs")
        it.add_argument("words", nargs="*", metavar="WORD")
        it.add_argument("--token", metavar="FILE", help="of a worker that runs")
        if name == "show":
            it.add_argument("--steps", action="store_true", help="and what is recorded")
        if name == "cancel":
            it.add_argument("--again", action="store_true", help="also one that is cancelled already: what it undoes is cut off")
    return top


def words_of(words: List[str]) -> List[str]:
    """Words as they were before the first of them told what is to be done."""
    if len(words) < 2 or words[0] in (*LINES, "worker", "endpoint") or words[0].startswith("-"):
        return words
    database, app, *rest = words
    if not rest or rest[0].startswith("-"):
        return ["worker", database, app, *rest]
    if rest == ["watch"]:
        return ["worker", database, app, "--lines"]
    return [rest[0], database, *([app] if rest[0] == "submit" else []), *rest[1:]]


def main() -> int:
    given = parser().parse_args(words_of(sys.argv[1:]))
    logging.basicConfig(format="%(name)s: %(message)s", level=logging.WARNING)
    try:
        return int(asyncio.run(given.what(given)))
    except NotOpened as error:
        print(f"hengomaru: {error}" + ("; a worker that has it is asked by its address: `hengomaru WORD http://HOST:PORT ..`" if HELD in str(error) else ""), file=sys.stderr)
        return CANNOT
    except (CannotBegin, HostGone, OSError, ImportError, Refused, StoreGone) as error:
        print(f"hengomaru: {error}", file=sys.stderr)
        return CANNOT
    except KeyboardInterrupt:
        return 130


if __name__ == "__main__":
    sys.exit(main())
