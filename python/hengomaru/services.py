"""Handlers by their names, and how invocations of them are named."""
import inspect
import re
import typing
from datetime import timedelta
from typing import Any, Awaitable, Callable, Dict, Iterable, NamedTuple, Optional, TypeVar, cast
from urllib.parse import quote, unquote

from .serdes import JSON, Serde, serde_for

F = TypeVar("F", bound=Callable[..., Awaitable[Any]])

# The headers by which an invocation tells what it is of, and who has called it. A handler is not shown them.
OWN_HEADERS = "hengomaru-"
OWN_NAME = "hengomaru"
MILLISECOND = timedelta(milliseconds=1)
SPAN = re.compile(r"(\d+(?:\.\d+)?)(ms|s|m|h|d)")
UNITS = {"ms": MILLISECOND, "s": timedelta(seconds=1), "m": timedelta(minutes=1), "h": timedelta(hours=1), "d": timedelta(days=1)}
HANDLER, KEY, CALLER = (OWN_HEADERS + it for it in ("handler", "key", "caller"))


class Target(NamedTuple):
    """What is called: a handler of a service, of a key or none."""

    service: str
    handler: str
    key: str = ""

    def headers(self) -> Dict[str, str]:
        """How an invocation tells of what it is."""
        return {HANDLER: f"{quote(self.service, safe='')}/{quote(self.handler, safe='')}", KEY: self.key}


class Handler(NamedTuple):
    service: "Service"
    name: str
    function: Callable[..., Awaitable[Any]]
    # One invocation at a time for each key, which has the key's state.
    has_key: bool
    input: Serde[Any] = JSON
    output: Serde[Any] = JSON
    # How long its invocations are kept that have ended; None is as long as the worker keeps any.
    retention: Optional[timedelta] = None

    @property
    def wants_key(self) -> bool:
        """Whether it is called with a key: of an object, or a workflow."""
        return self.has_key or isinstance(self.service, (VirtualObject, Workflow))

    def check_key(self, target: Target) -> None:
        """ValueError where the target lacks the key that it is called with."""
        if self.wants_key and not target.key:
            raise ValueError(f"{target.service}/{target.handler} is called with a key")

    def target(self, key: Optional[str]) -> Target:
        return Target(self.service.name, self.name, key or "")


class Service:
    """Handlers that go side by side, as many as are called."""

    has_keys = False

    def __init__(self, name: str, retention: Optional[timedelta] = None) -> None:
        check_name("service", name)
        self.name, self.retention = name, check_retention(retention)
        self.handlers: Dict[str, Handler] = {}

    def handler(self, name: Optional[str] = None, retention: Optional[timedelta] = None) -> Callable[[F], F]:
        """Makes a function a handler: `async def handler(ctx, argument)`, or without an argument. Its annotations tell how what it takes
        and answers becomes bytes (`serdes.py`). What has ended of it is forgotten after its `retention`, else after the service's, else
        after the worker's; `timedelta.max` is for good."""
        check_brackets(name)
        return lambda function: self.add(function, name, self.has_keys, retention)

    def add(self, function: F, name: Optional[str], has_key: bool, retention: Optional[timedelta] = None) -> F:
        told = name or told_name(function)
        if not inspect.iscoroutinefunction(cast(Any, function)):
            raise TypeError(f"{self.name}/{told} is no handler: a handler is an `async def` without `yield`")
        takes_argument = takes(function, 2)
        if not takes_argument and not takes(function, 1):
            raise TypeError(f"{self.name}/{told} is no handler: it takes (ctx), or (ctx, argument)")
        check_name("handler", told)
        if told in self.handlers:
            raise ValueError(f"{self.name}/{told} is there already: each handler of a service has a name of its own")
        argument, answers = annotated(function)
        goes: Callable[..., Awaitable[Any]] = function
        if not takes_argument:
            goes = lambda ctx, argument: function(ctx)
        lasts = check_retention(self.retention if retention is None else retention)
        it = Handler(self, told, goes, has_key, serde_for(argument), serde_for(answers), lasts)
        self.handlers[it.name] = it
        cast(Any, function).handler_of_hengomaru = it
        return function


def check_name(what: str, name: str) -> None:
    if not isinstance(name, str) or not name or not is_text(name):
        raise ValueError(f"a {what} has a name, and {name!r} is none")


def span_of(told: str) -> timedelta:
    """The time that a text such as 10s or 1h30m tells; ValueError where it tells none."""
    parts = SPAN.findall(told)
    if not parts or "".join(a + b for a, b in parts) != told:
        raise ValueError(f"{told} is no time, such as 10s or 1h30m")
    return sum((float(many) * UNITS[unit] for many, unit in parts), timedelta(0))


def check_retention(retention: Any) -> Optional[timedelta]:
    """A time that is not below zero, or None; TypeError or ValueError for what is neither."""
    if retention is not None and not isinstance(retention, timedelta):
        raise TypeError(f"a retention is a timedelta, and {retention!r} is none")
    if retention is not None and retention < timedelta(0):
        raise ValueError(f"a retention is not below zero, and {retention!r} is")
    return retention


def check_brackets(name: Any) -> None:
    if name is not None and not isinstance(name, str):
        raise TypeError("a handler is made by `@service.handler()`, or `@service.handler(NAME)`, with its brackets")


def takes(function: Any, many: int) -> bool:
    """Whether a function can be called with so many arguments."""
    try:
        inspect.signature(function).bind(*[None] * many)
    except TypeError:
        return False
    return True


class VirtualObject(Service):
    """Handlers that share a state for each key, and go one after another for each."""

    has_keys = True


class Workflow(Service):
    """A main handler that runs once for each key, and others that go beside it, which may complete its promises. The state is main's alone."""

    def main(self, name: Optional[str] = None, retention: Optional[timedelta] = None) -> Callable[[F], F]:
        """Makes a function the main handler."""
        check_brackets(name)
        return lambda function: self.add(function, name, True, retention)


class App(Dict[str, Service]):
    """Services by their names."""

    def __init__(self, services: Iterable[Service]) -> None:
        super().__init__()
        for it in services:
            if not isinstance(it, Service):
                raise TypeError(f"an app is of services, and {it!r} is none")
            if it.name in self:
                raise ValueError(f"two services are named {it.name}")
            if it.name == OWN_NAME:
                raise ValueError(f"{OWN_NAME} is a service of the package itself: yours has another name")
            self[it.name] = it

    def find(self, target: Target) -> Optional[Handler]:
        """The handler of a target, or None."""
        service = self.get(target.service)
        return service.handlers.get(target.handler) if service else None


def app(services: Iterable[Service]) -> App:
    """Services together, for `hengomaru worker DATABASE MODULE:APP`."""
    return App(services)


def told_name(function: Any) -> str:
    return getattr(function, "__name__", repr(function))


def annotated(function: Any) -> "tuple[Any, Any]":
    """What a handler's argument and answer are annotated with; None where they are not, or not by names that are known here."""
    try:
        hints = typing.get_type_hints(function)
    except (NameError, TypeError):
        return None, None
    argument = list(inspect.signature(function).parameters)[1:2]
    return (hints.get(argument[0]) if argument else None), hints.get("return")


def target_of(told: Any, key: Optional[str] = None) -> Target:
    """The target of a function that is a handler, of (service, handler), or of the text SERVICE/HANDLER or SERVICE/HANDLER/KEY."""
    if isinstance(told, str):
        words = told.split("/", 2)
        if len(words) < 2:
            raise ValueError(f"{told!r} names no handler: SERVICE/HANDLER does, or SERVICE/HANDLER/KEY")
        told, key = words[:2], (words[2] if len(words) > 2 else key)
    if isinstance(told, (tuple, list)):
        return Target(told[0], told[1], key or "")
    found = getattr(told, "handler_of_hengomaru", None)
    if not isinstance(found, Handler):
        raise TypeError(f"{told_name(told)} is no handler: `@service.handler()` makes a function one")
    return found.target(key)


def target_in(headers: Dict[str, str]) -> Target:
    """The target that an invocation's headers tell."""
    service, _, handler = headers.get(HANDLER, "").partition("/")
    return Target(unquote(service), unquote(handler), headers.get(KEY, ""))


def named(*words: str) -> str:
    """Words as one name, which no other words have. `~` stands in no word of it."""
    return "/".join(quote(it, safe="").replace("~", "%7E") for it in words)


def is_text(told: str) -> bool:
    """Whether it can be written as UTF-8."""
    try:
        told.encode()
    except UnicodeEncodeError:
        return False
    return True


def check_id(id: str) -> str:
    """An id that its user has chosen; ValueError where the package may make such a one itself, or where it would not be told from others
    in a list. What the package makes has a `/` (of a workflow, of an idempotency key) or a `~` (of a call, of what waits to call)."""
    if not id or "/" in id or "~" in id or not id.isprintable() or not is_text(id):
        raise ValueError(f"{id!r} is no id: one is of printable characters, without `/` and `~`, as the package makes ids with these itself")
    return id


def child_of(id: str, place: int) -> str:
    """The id of what an invocation calls at a place."""
    return f"{id}~{place}"


def check_headers(headers: Any) -> Dict[str, str]:
    """Headers of a call; ValueError for names that the package uses itself."""
    told = dict(headers or ())
    for name, value in told.items():
        if not isinstance(name, str) or not isinstance(value, str) or not is_text(name) or not is_text(value):
            raise ValueError(f"a header is a text by its name, and {name!r}: {value!r} is none")
        if name.lower().startswith(OWN_HEADERS):
            raise ValueError(f"a header {name} is no caller's: the package uses names that begin with {OWN_HEADERS} itself")
    return told


def object_of(handler: Handler, target: Target, id: str) -> str:
    """The object of an invocation: for each there is one open invocation at a time, and a state."""
    if handler.has_key:
        return named(target.service, target.key)
    return f"{named(target.service, target.key)}{BESIDE}{named(id)}" if target.key else id


# What stands between a workflow's id and the rest of the object of an invocation beside it.
BESIDE = "/~"


def is_main(id: str) -> bool:
    """Whether an id is that of a workflow's main handler, SERVICE/KEY: no user's id has a `/`, and no other of the package has one alone."""
    return id.count("/") == 1 and "~" not in id


def space_of(object: str) -> "tuple[str, str]":
    """Service and key of a workflow's invocation, by its object."""
    service, key, *_ = [*object.split("/"), ""]
    return unquote(service), unquote(key)


def id_of(handler: Handler, target: Target, idempotency_key: Optional[str]) -> Optional[str]:
    """The id that is the same each time: of a workflow's main handler, and where a key says which call is the same. Else None."""
    if isinstance(handler.service, Workflow) and handler.has_key:
        return named(target.service, target.key)
    return named(target.service, target.handler, target.key, idempotency_key) if idempotency_key else None
