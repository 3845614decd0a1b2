"""What a handler awaits: what a call is to bring, and several of these together."""
import contextvars
from typing import Any, Dict, Generator, Generic, Iterable, List, Optional, Set, Tuple, TypeVar, Union

from .machine import ALL_COMPLETED, ALL_SUCCEEDED, AT_LEAST, FAILURE, FIRST_COMPLETED, FIRST_SUCCEEDED


T = TypeVar("T")


# The run whose body is executed now, by its name.
body_of: "contextvars.ContextVar[Optional[str]]" = contextvars.ContextVar("hengomaru.body", default=None)


def told_of(error: BaseException) -> str:
    """Its kind and its text, in which what is no text of UTF-8, as of a file's name, is escaped."""
    try:
        text = str(error)
    except Exception:
        text = "its text cannot be told"
    return in_utf8(f"{type(error).__name__}: {text}")


def in_utf8(text: str) -> str:
    return text.encode(errors="backslashreplace").decode()


class TerminalError(Exception):
    """A failure that is not tried again: what a handler raises so is its answer. The code is such as HTTP has."""

    def __init__(self, message: Any, status_code: int = 500, metadata: Any = ()) -> None:
        if type(status_code) is not int or not 0 <= status_code < 65536:
            raise ValueError(f"a TerminalError has a status_code such as 404, a number of 0 to 65535, and not {status_code!r}")
        message = in_utf8(message if isinstance(message, str) else told_of(message) if isinstance(message, BaseException) else str(message))
        super().__init__(message)
        self.message, self.status_code = message, status_code
        self.metadata: Dict[str, str] = {in_utf8(str(name)): in_utf8(str(it)) for name, it in dict(metadata or ()).items()}


class Cancelled(TerminalError):
    """The invocation was cancelled. It is raised where a handler awaits, which may catch it, undo what it did, and go on."""

    def __init__(self) -> None:
        super().__init__("cancelled", 409)


def outside_bodies(what: str) -> None:
    """A TerminalError in the body of a run: what a context does there is not recorded where it would be replayed."""
    name = body_of.get()
    if name is not None:
        raise TerminalError(f"{what} is used in the body of the run {name!r}: the body of a run asks nothing of its context, and awaits none of its futures")


class DurableFuture(Generic[T]):
    """What a call is to bring. It may be awaited more than once. A failure is raised as TerminalError."""

    def __init__(self, machine: Any, handle: int, read: Any) -> None:
        self.machine, self.handle, self.read = machine, handle, read
        self.came: Any = None

    def tree(self) -> Any:
        return self.handle

    def machines(self) -> Set[Any]:
        return {self.machine}

    def take(self) -> None:
        """Takes what has come, where it has."""
        if self.came is None and self.machine.is_completed(self.handle):
            self.came = self.machine.take_notification(self.handle)

    def is_completed(self) -> bool:
        return self.came is not None

    def has_failed(self) -> bool:
        return self.is_completed() and self.came[0] == FAILURE

    def result(self) -> T:
        """What has come; it raises what has failed."""
        if self.came is None:
            raise RuntimeError("what a future brings has not come: `await` it")
        kind, content = self.came
        if kind == FAILURE:
            code, message, metadata = content
            raise TerminalError(message, min(code, 65535), metadata)
        value: T = self.read(kind, content)
        return value

    def __await__(self) -> Generator[Any, None, T]:
        yield from until_completed(self)
        return self.result()


class SendFuture(DurableFuture[str]):
    """The id of what is called, without its answer."""

    async def invocation_id(self) -> str:
        return await self


class CallFuture(DurableFuture[T]):
    """What a called handler answers."""

    def __init__(self, machine: Any, handle: int, read: Any, id: "DurableFuture[str]") -> None:
        super().__init__(machine, handle, read)
        self.id = id

    async def invocation_id(self) -> str:
        """The id of what is called."""
        return await self.id


class Together:
    """Some futures, of which so many are waited for."""

    def __init__(self, kind: int, futures: Iterable["DurableFuture[Any]"], required: int = 0) -> None:
        self.kind, self.futures, self.required = kind, list(futures), required
        for it in self.futures:
            if not hasattr(it, "handle"):
                raise TypeError(f"what a context gives is awaited together, and {it!r} is none of it")

    def left(self) -> "List[DurableFuture[Any]]":
        return [it for it in self.futures if not it.is_completed()]

    def succeeded(self) -> "List[DurableFuture[Any]]":
        return [it for it in self.futures if it.is_completed() and not it.has_failed()]

    def failed(self) -> "List[DurableFuture[Any]]":
        return [it for it in self.futures if it.has_failed()]

    def machines(self) -> Set[Any]:
        return {it.machine for it in self.futures}

    def tree(self) -> Any:
        """Of those that are left, since what has come was taken."""
        trees = [it.tree() for it in self.left()]
        return (self.kind, trees, self.required - len(self.succeeded())) if self.kind == AT_LEAST else (self.kind, trees)

    def take(self) -> None:
        for it in self.futures:
            it.take()

    def is_completed(self) -> bool:
        """As the machine has it of the whole tree."""
        left, good, bad = len(self.left()), len(self.succeeded()), len(self.failed())
        return left == 0 or {
            FIRST_COMPLETED: good + bad > 0,
            ALL_COMPLETED: False,
            FIRST_SUCCEEDED: good > 0,
            ALL_SUCCEEDED: bad > 0,
            AT_LEAST: good >= self.required or good + left < self.required,
        }[self.kind]

    def has_failed(self) -> bool:
        if not self.is_completed():
            return False
        good, bad = len(self.succeeded()), len(self.failed())
        return {
            FIRST_COMPLETED: good == 0,
            ALL_COMPLETED: False,
            FIRST_SUCCEEDED: good == 0,
            ALL_SUCCEEDED: bad > 0,
            AT_LEAST: good < self.required,
        }[self.kind]


Awaited = Union["DurableFuture[Any]", Together]


def until_completed(awaited: Awaited) -> Generator[Any, None, None]:
    """Hands what is awaited to whoever drives the handler, who says each time that something of it has come."""
    outside_bodies("a future")
    while not awaited.is_completed():
        yield awaited
        awaited.take()


class Waits:
    def __init__(self, awaited: Awaited) -> None:
        self.awaited = awaited

    def __await__(self) -> Generator[Any, None, None]:
        return until_completed(self.awaited)


def at_least_one(futures: Any, what: str) -> None:
    if not futures:
        raise ValueError(f"{what} has nothing to wait for: it takes one future or more")


def first_failure(together: Together) -> None:
    """Raises the failure of the first that has failed."""
    for it in together.failed():
        it.result()


async def gather(*futures: DurableFuture[Any]) -> List[DurableFuture[Any]]:
    """Waits for all of them, and returns them, each to be awaited at once."""
    await Waits(Together(ALL_COMPLETED, futures))
    return list(futures)


async def select(**futures: DurableFuture[Any]) -> Tuple[str, Any]:
    """Waits for the first of them: its name, and its result."""
    at_least_one(futures, "select")
    await Waits(Together(FIRST_COMPLETED, futures.values()))
    name = next(name for name, it in futures.items() if it.is_completed())
    return name, futures[name].result()


async def wait_completed(*futures: DurableFuture[Any]) -> Tuple[List[DurableFuture[Any]], List[DurableFuture[Any]]]:
    """Waits for the first of them: a list of those that have come, and a list of the others."""
    at_least_one(futures, "wait_completed")
    together = Together(FIRST_COMPLETED, futures)
    await Waits(together)
    return [it for it in futures if it.is_completed()], together.left()


class as_completed:
    """Those that have come, one after the other: `async for future in as_completed(a, b)`."""

    def __init__(self, *futures: DurableFuture[Any]) -> None:
        self.came: List[DurableFuture[Any]] = []
        self.left = list(futures)

    def __aiter__(self) -> "as_completed":
        return self

    async def __anext__(self) -> DurableFuture[Any]:
        if not self.came:
            if not self.left:
                raise StopAsyncIteration
            self.came, self.left = await wait_completed(*self.left)
        return self.came.pop(0)


async def all_succeeded(*futures: DurableFuture[T]) -> List[T]:
    """The results of all, or the first failure, for which it waits no longer."""
    together = Together(ALL_SUCCEEDED, futures)
    await Waits(together)
    first_failure(together)
    return [it.result() for it in futures]


async def first_succeeded(*futures: DurableFuture[T]) -> T:
    """The result of the first that succeeds, or a failure where all have failed."""
    at_least_one(futures, "first_succeeded")
    together = Together(FIRST_SUCCEEDED, futures)
    await Waits(together)
    for it in together.succeeded():
        value: T = it.result()
        return value
    first_failure(together)
    raise AssertionError("an await of which neither one has succeeded nor all have failed")


async def at_least(required: int, *futures: DurableFuture[T]) -> List[T]:
    """The results of those that have succeeded, once there are so many; a failure where there cannot be."""
    if not 1 <= required <= len(futures):
        raise ValueError(f"at_least waits for 1 to {len(futures)} of {len(futures)} futures, and not for {required}")
    together = Together(AT_LEAST, futures, required)
    await Waits(together)
    if len(together.succeeded()) < required:
        first_failure(together)
    return [it.result() for it in together.succeeded()]
