"""One attempt at an invocation, where its handler is: its machine, its handler's coroutine, and the bodies of its runs. What comes to it and
what it puts out go by a channel: to the store of this worker, or over HTTP to whoever keeps the journal."""
import asyncio
import contextvars
import inspect
import logging
import time
from concurrent.futures import Executor
from typing import Any, Callable, Coroutine, NamedTuple, NoReturn, Optional, Protocol, Set, Tuple

from . import machine as machines
from . import pb
from .context import Context, Request, Run
from .futures import Awaited, Cancelled, DurableFuture, TerminalError, Together, body_of, told_of
from .machine import CANCELLED, COMPLETED, EXECUTE_RUN, ID, KEY, AttemptMachine, AttemptOver, MachineFailed, Suspended
from .serdes import spelled
from .services import App, Handler, Target

log = logging.getLogger("hengomaru")
# The attempt whose handler, or body of a run, is executed now.
current: "contextvars.ContextVar[Optional[Attempt]]" = contextvars.ContextVar("hengomaru.attempt", default=None)
# Milliseconds until a handler is tried again that has raised, where nobody else tells.
AGAIN = 500
AWAITS_ALONE = "a handler awaits what its context gives, and nothing else: what else waits is called by ctx.run"
OF_ANOTHER = "a handler awaits what its own context gives, and this future is of another invocation, or of an earlier attempt"
# What a message of a failure has at most.
MOST_TEXT = 100_000


class Ended(NamedTuple):
    """What a handler has answered: bytes, and whether they are a failure."""

    content: bytes
    is_failure: bool


def warn(id: str, text: str, error: Optional[BaseException]) -> None:
    log.warning("%s: %s", id, text, exc_info=error)


class Channel(Protocol):
    """The two ways between an attempt and its journal."""

    async def read(self) -> Optional[bytes]:
        """What has come, once there is some; None once no more comes."""

    async def write(self, stream: bytes) -> None:
        """Hands on what the attempt has put out. Done where it is recorded, or, over HTTP, sent."""


class Attempt:
    """Goes on with a handler as far as it can: until it has ended, has failed, or waits for what does not come now."""

    def __init__(
        self, app: App, target: Target, content_type: str, channel: Channel, clock: Callable[[], int],
        pool: Optional[Executor] = None, interval: Callable[[], Optional[int]] = lambda: AGAIN,
        tell: Callable[[str, str, Optional[BaseException]], None] = warn,
    ) -> None:
        self.app, self.target, self.channel, self.clock, self.pool, self.interval = app, target, channel, clock, pool, interval
        self.tell = tell
        self.machine: AttemptMachine = machines.open(content_type)
        self.context: Optional[Context] = None
        self.bodies: Set["asyncio.Task[None]"] = set()
        self.reading: "Optional[asyncio.Task[Optional[bytes]]]" = None
        self.is_closed = self.is_leaving = self.has_bound = False
        self.id = ""

    async def run(self) -> None:
        current.set(self)
        try:
            try:
                await self.go()
            except AttemptOver:
                pass
            finally:
                await self.leave()
            await self.move()
        finally:
            self.machine.close()

    def is_processing(self) -> bool:
        """Whether what the handler does now is done for the first time."""
        try:
            return self.machine.state() == "processing"
        except (MachineFailed, MemoryError, RuntimeError):
            return False

    async def leave(self) -> None:
        """Ends what the attempt has begun. A body in a thread goes on to its end, and nobody asks what it comes to."""
        self.is_leaving = True
        left = [*self.bodies, *([self.reading] if self.reading else [])]
        for it in left:
            it.cancel()
        await asyncio.gather(*left, return_exceptions=True)

    async def go(self) -> None:
        while not self.machine.is_ready_to_execute():
            self.take_in(await self.channel.read())
        body, seed = self.machine.sys_input()
        self.id = self.machine.input_part(ID) or ""
        handler = self.app.find(self.target)
        if handler is None:
            self.fail(f"there is no handler {self.target.service}/{self.target.handler}")
        target = self.target._replace(key=self.machine.input_part(KEY) or "")
        self.context = Context(self.machine, handler, target, Request(self.id, self.machine.headers(), body), seed, self.clock)
        ended = await self.drive(handler, body)
        try:
            self.machine.sys_write_output(ended.content, ended.is_failure)
            self.machine.sys_end()
        except (ValueError, MemoryError) as error:
            self.fail(told_of(error))

    def fail(self, message: str) -> NoReturn:
        """The attempt has failed: the next one tries again, after an interval."""
        self.machine.notify_error(500, cut(message), self.interval())
        raise Suspended

    # ---- the handler
    async def drive(self, handler: Handler, body: bytes) -> Ended:
        """Goes on with the handler until it has ended. What comes of the channel on the way is no matter of the handler's."""
        coroutine: Any = None
        try:
            try:
                argument = self.argument(handler, body)
            except TerminalError as error:
                return self.failure(error)
            coroutine = handler.function(self.context, argument)
            came = self.turn(handler, lambda: coroutine.send(None))
            while not isinstance(came, Ended):
                came = self.turn(handler, await self.wait(coroutine, came))
            return came
        finally:
            if coroutine is not None:
                leave(coroutine)

    def turn(self, handler: Handler, goes_on: Callable[[], Any]) -> Any:
        """Lets the handler go on to its next await, and returns what it awaits, or how it has ended. Whatever it raises is of this
        invocation alone, also what would end a process."""
        try:
            return goes_on()
        except StopIteration as end:
            return self.answer(handler, end.value)
        except TerminalError as error:
            return self.failure(error)
        except (AttemptOver, KeyboardInterrupt):
            raise
        except BaseException as error:
            why = told_of(error)
            self.tell(self.id, why, error)
        self.fail(why)

    def answer(self, handler: Handler, value: Any) -> Ended:
        try:
            return Ended(spelled(handler.output, value, f"the answer of {handler.service.name}/{handler.name}", False), False)
        except TerminalError as error:
            self.tell(self.id, f"it ends with a failure, as trying again makes the answer no other: {error.message}", None)
            return self.failure(error)

    def failure(self, error: TerminalError) -> Ended:
        """A failure as it is recorded; its text alone, where what else it holds is none."""
        try:
            it = TerminalError(error.message, error.status_code, error.metadata)
            return Ended(pb.failure(it.status_code, cut(it.message), it.metadata), True)
        except Exception:
            return Ended(pb.failure(500, cut(told_of(error))), True)

    def argument(self, handler: Handler, body: bytes) -> Any:
        """What the handler is called with. What it cannot be is its caller's fault, and is not tried again."""
        try:
            return handler.input.read(body)
        except Exception as error:
            raise TerminalError(f"not what {self.target.service}/{self.target.handler} takes: {told_of(error)}", 400) from None

    async def wait(self, coroutine: "Coroutine[Any, Any, Any]", awaited: Awaited) -> Callable[[], Any]:
        """Waits for what is awaited, and returns how the handler goes on."""
        if not isinstance(awaited, (DurableFuture, Together)):
            return lambda: coroutine.throw(TypeError(AWAITS_ALONE))
        if any(it is not self.machine for it in awaited.machines()):
            return lambda: coroutine.throw(RuntimeError(OF_ANOTHER))
        tree = awaited.tree()
        while True:
            outcome, detail = self.machine.do_await(tree)
            if outcome == COMPLETED:
                return lambda: coroutine.send(None)
            if outcome == CANCELLED:
                return lambda: coroutine.throw(Cancelled())
            await self.move()  # what is asked for is recorded before it is executed
            if outcome == EXECUTE_RUN:
                assert self.context is not None
                self.bodies.add(asyncio.ensure_future(self.execute(detail, self.context._runs.pop(detail))))
            else:
                await self.come()

    # ---- what comes and goes
    async def come(self) -> None:
        """Waits until something has come: bytes, or the end of a body."""
        if not self.bodies and not self.reading:
            self.take_in(await self.channel.read())
            return
        if not self.reading and not self.is_closed:
            self.reading = asyncio.ensure_future(self.channel.read())
        asked: Set[Any] = self.bodies | ({self.reading} if self.reading else set())
        done, _ = await asyncio.wait(asked, return_when=asyncio.FIRST_COMPLETED)
        reading = self.reading
        if reading and reading in done:
            self.reading = None
            self.take_in(reading.result())
        for it in done & self.bodies:
            self.bodies.discard(it)
            it.result()  # the attempt cannot go on without what it has ended with

    def take_in(self, came: Optional[bytes]) -> None:
        if came is None:
            self.is_closed = True
            self.machine.notify_input_closed()
        else:
            self.machine.notify_input(came)

    async def move(self) -> None:
        stream = self.machine.take_output()
        if stream:
            await self.channel.write(stream)

    # ---- runs
    async def execute(self, handle: int, run: Run) -> None:
        """Executes the body of a run, and proposes what it has ended with."""
        body_of.set(run.name)
        began = time.monotonic()
        is_done, came = await self.called(run.body)
        content = b""
        if is_done:
            try:
                content = spelled(run.serde, came, f"the run {run.name!r} is done, and is not executed again, but its answer", False)
            except TerminalError as error:
                self.tell(self.id, error.message, None)
                is_done, came = False, error
        try:
            if is_done:
                self.machine.propose_run_success(handle, content)
            elif isinstance(came, TerminalError):
                self.machine.propose_run_failure(handle, self.failure(came).content)
            else:
                why, took = cut(told_of(came)), int((time.monotonic() - began) * 1000)
                self.tell(self.id, f"run {run.name}: {why}", came)
                self.has_bound = bool(run.policy.max_attempts or run.policy.max_duration_millis)
                self.machine.propose_run_retryable(handle, took, 500, why, run.policy)
        except AttemptOver:
            pass  # each later call tells so too

    async def called(self, body: Callable[[], Any]) -> Tuple[bool, Any]:
        """What a function comes to, and whether that is a value: else it is an exception, whichever it is. A coroutine function goes here,
        beside all else, and any other one in a thread."""
        try:
            if is_coroutine_function(body):
                return True, await body()
            loop, context = asyncio.get_running_loop(), contextvars.copy_context()
            is_done, value = await loop.run_in_executor(self.pool, lambda: context.run(caught, body))
            return is_done, await value if is_done and inspect.isawaitable(value) else value
        except KeyboardInterrupt:
            raise
        except BaseException as error:
            if self.is_leaving and isinstance(error, (asyncio.CancelledError, GeneratorExit)):
                raise
            return False, error


def caught(body: Callable[[], Any]) -> Tuple[bool, Any]:
    """What a function comes to in a thread: no future takes each exception as it is."""
    try:
        return True, body()
    except BaseException as error:
        return False, error


def leave(coroutine: Any) -> None:
    """Ends a handler that is not gone on with. What it does then is of no account."""
    try:
        coroutine.close()
    except KeyboardInterrupt:
        raise
    except BaseException as error:
        log.debug("a handler that is left: %s", told_of(error))


def cut(text: str) -> str:
    return text if len(text) <= MOST_TEXT else text[:MOST_TEXT] + ".."


def is_coroutine_function(body: Any) -> bool:
    while hasattr(body, "func"):
        body = body.func
    return inspect.iscoroutinefunction(body) or inspect.iscoroutinefunction(getattr(body, "__call__", None))
