"""What a handler is given: a context whose calls are recorded. What it is called with amiss, and what trying again makes no better, is a
TerminalError where it is called."""
import functools
import random
import uuid
from datetime import timedelta
from fractions import Fraction
from typing import Any, Awaitable, Callable, Dict, Generator, List, Mapping, NamedTuple, Optional, Tuple, TypeVar, Union, overload

from . import pb
from .futures import CallFuture, DurableFuture, SendFuture, TerminalError, in_utf8, outside_bodies
from .machine import VALUE, VOID, AttemptMachine, Policy
from .serdes import BYTES, JSON, Serde, from_json, serde_for, spelled
from .services import OWN_HEADERS, OWN_NAME, Handler, Target, Workflow, check_headers, target_of

I = TypeVar("I")
O = TypeVar("O")
T = TypeVar("T")
Headers = Mapping[str, str]
Read = Callable[[int, Any], Any]


def read_value(kind: int, content: Any) -> Any:
    return from_json(content) if kind == VALUE else None


def reader(serde: Serde[Any]) -> Read:
    return lambda kind, content: serde.read(content) if kind == VALUE else None


def read_told(_: int, content: Any) -> Any:
    return content


def serde_of(told: Any) -> Serde[Any]:
    """Of an annotation, or a Serde itself."""
    return told if isinstance(told, Serde) else serde_for(told)


def millis(delta: timedelta) -> int:
    if not isinstance(delta, timedelta):
        raise TypeError(f"a timedelta is wanted, such as timedelta(seconds=5), and not {delta!r}")
    return max(0, int(delta / timedelta(milliseconds=1)))


class RunOptions:
    """When the body of a run that has failed is executed again: after intervals that grow by a factor up to the greatest, until it was
    tried so often, or so long. Of more attempts than one the first, which records that it is asked for, does not count. Then the failure
    is the outcome, or the invocation is paused."""

    def __init__(
        self, max_attempts: Optional[int] = None, max_duration: Optional[timedelta] = None, initial_retry_interval: timedelta = timedelta(milliseconds=50),
        max_retry_interval: timedelta = timedelta(seconds=10), retry_interval_factor: float = 2.0, pause: bool = False, type_hint: Any = None,
    ) -> None:
        if max_attempts is not None and (type(max_attempts) is not int or not 1 <= max_attempts < 2**32):
            raise ValueError(f"max_attempts is a number of 1 or more, and not {max_attempts!r}")
        if not 1 <= retry_interval_factor <= 1000:
            raise ValueError(f"retry_interval_factor is a number of 1 to 1000, and not {retry_interval_factor!r}")
        factor = Fraction(retry_interval_factor).limit_denominator(1000)
        self.type_hint = type_hint
        self.policy = Policy(
            kind=3, pause=pause, interval_millis=millis(initial_retry_interval), factor_numerator=factor.numerator,
            factor_denominator=factor.denominator, max_interval_millis=millis(max_retry_interval),
            max_duration_millis=millis(max_duration) if max_duration else 0, max_attempts=max_attempts or 0,
        )


class Request:
    """What a handler was called with: `id`, `headers`, and the bytes of its argument, `body`."""

    def __init__(self, id: str, headers: Headers, body: bytes) -> None:
        self.id, self.body = id, body
        self.headers = {name: it for name, it in headers.items() if not name.startswith(OWN_HEADERS)}


class Output:
    """What another invocation has come to by now."""

    def __init__(self, is_ready: bool, value: Any = None) -> None:
        self.is_ready, self.value = is_ready, value


class Promise:
    """A value of a workflow that is completed once, by any of its handlers. `await` waits for it."""

    def __init__(self, context: "Context", name: str, serde: Serde[Any]) -> None:
        self.context, self.name, self.serde = context, name, serde

    def value(self) -> "DurableFuture[Any]":
        return self.context._future(self.context._do("promise").sys_get_promise(self.name), reader(self.serde))

    def __await__(self) -> Generator[Any, None, Any]:
        return self.value().__await__()

    def peek(self) -> "DurableFuture[Any]":
        """Awaited: its value, or None where it is not completed."""
        return self.context._future(self.context._do("promise").sys_peek_promise(self.name), reader(self.serde))

    def resolve(self, value: Any) -> "DurableFuture[None]":
        """Awaited: nothing, or TerminalError 409 where it was completed before."""
        content = spelled(self.serde, value, f"the value of the promise {self.name}")
        return self.context._future(self.context._do("promise").sys_complete_promise(self.name, content))

    def reject(self, message: str, code: int = 500) -> "DurableFuture[None]":
        return self.context._future(self.context._do("promise").sys_complete_promise(self.name, failure_of(message, code), True))


class Run(NamedTuple):
    """An effect whose body is to be executed."""

    name: str
    body: Callable[[], Any]
    policy: Policy
    serde: Serde[Any]


def failure_of(message: str, code: int) -> bytes:
    """The record of a failure; ValueError for a code that is none."""
    error = TerminalError(message, code)
    return pb.failure(error.status_code, error.message)


def refused(check: Callable[..., T], *given: Any) -> T:
    """What a check comes to, whose ValueError is the caller's for good."""
    try:
        return check(*given)
    except ValueError as error:
        raise TerminalError(str(error), 400) from None


class Context:
    """Values are such as JSON has, or as annotations tell. What brings something is awaited, at once or later."""

    def __init__(self, machine: AttemptMachine, handler: Handler, target: Target, request: Request, seed: int, clock: Callable[[], int]) -> None:
        self._machine, self._handler, self._target, self._request, self._clock = machine, handler, target, request, clock
        self._random = random.Random(seed)
        self._runs: Dict[int, Run] = {}

    def _do(self, what: str) -> AttemptMachine:
        """The machine, for a call that is recorded."""
        outside_bodies(f"ctx.{what}")
        return self._machine

    def _moment_in(self, delta: timedelta) -> int:
        """The moment, in milliseconds since 1970, so far from now."""
        return self._clock() + millis(delta)

    def _future(self, handle: int, read: Read = read_value) -> "DurableFuture[Any]":
        return DurableFuture(self._machine, handle, read)

    def request(self) -> Request:
        return self._request

    def key(self) -> str:
        """The key of the object or workflow that was called."""
        return self._target.key

    def random(self) -> random.Random:
        """Random numbers that are alike in each attempt."""
        outside_bodies("ctx.random")
        return self._random

    def uuid(self) -> uuid.UUID:
        """A UUID that is alike in each attempt."""
        outside_bodies("ctx.uuid")
        return uuid.UUID(int=self._random.getrandbits(128), version=4)

    def time(self) -> "DurableFuture[float]":
        """Awaited: seconds since 1970, as they were when it was first asked for."""

        async def now() -> float:
            return self._clock() / 1000

        return self.run("time", now)

    # ---- the state of the key
    def _keyed(self, what: str) -> AttemptMachine:
        if isinstance(self._handler.service, Workflow) and not self._handler.has_key:
            raise TerminalError(f"ctx.{what}: the state of a workflow is that of its main handler")
        return self._do(what)

    def get(self, name: str, type_hint: Any = None) -> "DurableFuture[Any]":
        """Awaited: the value, or None. What a dataclass or a model was set as is read as such by its type."""
        return self._future(self._keyed("get").sys_state_get(name), reader(serde_of(type_hint)))

    def state_keys(self) -> "DurableFuture[List[str]]":
        """Awaited: the names that have a value."""
        return self._future(self._keyed("state_keys").sys_state_get_keys(), read_told)

    keys = state_keys

    def set(self, name: str, value: Any, type_hint: Any = None) -> None:
        serde = serde_of(type(value) if type_hint is None else type_hint)
        self._keyed("set").sys_state_set(name, spelled(serde, value, f"the value of {name}", False))

    def clear(self, name: str) -> None:
        self._keyed("clear").sys_state_clear(name)

    def clear_all(self) -> None:
        self._keyed("clear_all").sys_state_clear_all()

    # ---- time and effects
    def sleep(self, delta: timedelta, name: str = "") -> "DurableFuture[None]":
        """For a timedelta from when it was first asked for."""
        return self._future(self._do("sleep").sys_sleep(self._moment_in(delta), name or ""))

    @overload
    def run(self, name: str, action: Callable[..., Awaitable[T]], *arguments: Any, max_attempts: Optional[int] = None, max_retry_duration: Optional[timedelta] = None, options: Optional[RunOptions] = None, type_hint: Any = None, **named_arguments: Any) -> "DurableFuture[T]": ...

    @overload
    def run(self, name: str, action: Callable[..., T], *arguments: Any, max_attempts: Optional[int] = None, max_retry_duration: Optional[timedelta] = None, options: Optional[RunOptions] = None, type_hint: Any = None, **named_arguments: Any) -> "DurableFuture[T]": ...

    def run(self, name: str, action: Callable[..., Any], *arguments: Any, max_attempts: Optional[int] = None, max_retry_duration: Optional[timedelta] = None, options: Optional[RunOptions] = None, type_hint: Any = None, **named_arguments: Any) -> "DurableFuture[Any]":
        """Awaited: what the function answers, which is not executed again once that is recorded. What it raises is tried again, but a
        TerminalError. A coroutine function goes beside all else, and any other one in a thread. What it answers is such as JSON has,
        or of a type that is given; an answer that cannot be written is a TerminalError, since the effect is done."""
        machine = self._do("run")
        if not callable(action):
            raise TypeError(f"the run {name!r} takes a function, and not {action!r}")
        if options is None:
            options = RunOptions(max_attempts, max_retry_duration) if max_attempts or max_retry_duration else None
        serde = serde_of(type_hint if type_hint is not None or options is None else options.type_hint)
        replayed, handle = machine.sys_run(name)
        if not replayed:
            body = functools.partial(action, *arguments, **named_arguments)
            self._runs[handle] = Run(name, body, options.policy if options else Policy(), serde)
        return self._future(handle, reader(serde))

    def run_typed(self, name: str, action: Callable[..., Any], options: Optional[RunOptions] = None, /, *arguments: Any, **named_arguments: Any) -> "DurableFuture[Any]":
        """As `run`, with options by their place."""
        return self.run(name, functools.partial(action, *arguments, **named_arguments), options=options)

    # ---- other invocations
    def _target_of(self, handler: Any, key: Optional[str], idempotency_key: Optional[str], headers: Any) -> Tuple[Target, bytes]:
        """Who is called, and how a call names it."""
        target = target_of(handler, key)
        it = getattr(handler, "handler_of_hengomaru", None)
        if it:
            refused(it.check_key, target)
        if idempotency_key == "":
            raise TerminalError(f"{target.service}/{target.handler} is called with an idempotency key that is empty", 400)
        told = headers if self._handler.service.name == OWN_NAME else refused(check_headers, headers)
        return target, pb.call_target(*target, idempotency_key, told)

    def _spelled(self, handler: Any, target: Target, argument: Any) -> bytes:
        return spelled(serdes_of(handler)[0], argument, f"the argument of {target.service}/{target.handler}")

    @overload
    def call(self, handler: Callable[[Any, I], Awaitable[O]], arg: I, key: Optional[str] = None, idempotency_key: Optional[str] = None, headers: Any = ()) -> "CallFuture[O]": ...

    @overload
    def call(self, handler: Callable[[Any], Awaitable[O]], arg: None = None, key: Optional[str] = None, idempotency_key: Optional[str] = None, headers: Any = ()) -> "CallFuture[O]": ...

    @overload
    def call(self, handler: Union[str, Tuple[str, str]], arg: Any = None, key: Optional[str] = None, idempotency_key: Optional[str] = None, headers: Any = ()) -> "CallFuture[Any]": ...

    def call(self, handler: Any, arg: Any = None, key: Optional[str] = None, idempotency_key: Optional[str] = None, headers: Any = ()) -> "CallFuture[Any]":
        """Awaited: what the handler answers. `handler` is a function that is one, (service, handler), or a text SERVICE/HANDLER."""
        target, told = self._target_of(handler, key, idempotency_key, headers)
        return self._called(told, self._spelled(handler, target, arg), serdes_of(handler)[1])

    def _called(self, told: bytes, content: bytes, answers: Serde[Any]) -> "CallFuture[Any]":
        id, answer = self._do("call").sys_call(told, content)
        return CallFuture(self._machine, answer, reader(answers), self._future(id, read_told))

    def send(self, handler: Any, arg: Any = None, key: Optional[str] = None, delay: Optional[timedelta] = None, idempotency_key: Optional[str] = None, headers: Any = ()) -> SendFuture:
        """Calls without waiting for the answer, now or after a timedelta. Awaited: the id of what is called."""
        target, told = self._target_of(handler, key, idempotency_key, headers)
        return self._sent(told, self._spelled(handler, target, arg), delay)

    def _sent(self, told: bytes, content: bytes, delay: Optional[timedelta]) -> SendFuture:
        at = self._moment_in(delay) if delay else 0
        return SendFuture(self._machine, self._do("send").sys_send(told, content, at), read_told)

    service_call = call

    def object_call(self, handler: Any, key: str, arg: Any = None, idempotency_key: Optional[str] = None, headers: Any = ()) -> "CallFuture[Any]":
        return self.call(handler, arg, key, idempotency_key, headers)

    workflow_call = object_call

    def service_send(self, handler: Any, arg: Any = None, send_delay: Optional[timedelta] = None, idempotency_key: Optional[str] = None, headers: Any = ()) -> SendFuture:
        return self.send(handler, arg, None, send_delay, idempotency_key, headers)

    def object_send(self, handler: Any, key: str, arg: Any = None, send_delay: Optional[timedelta] = None, idempotency_key: Optional[str] = None, headers: Any = ()) -> SendFuture:
        return self.send(handler, arg, key, send_delay, idempotency_key, headers)

    workflow_send = object_send

    def generic_call(self, service: str, handler: str, arg: bytes, key: Optional[str] = None, idempotency_key: Optional[str] = None, headers: Any = ()) -> "CallFuture[bytes]":
        """As `call`, by names, of bytes as they are. Awaited: bytes."""
        target, told = self._target_of((service, handler), key, idempotency_key, headers)
        return self._called(told, spelled(BYTES, arg, f"the argument of {service}/{handler}"), BYTES)

    def generic_send(self, service: str, handler: str, arg: bytes, key: Optional[str] = None, send_delay: Optional[timedelta] = None, idempotency_key: Optional[str] = None, headers: Any = ()) -> SendFuture:
        target, told = self._target_of((service, handler), key, idempotency_key, headers)
        return self._sent(told, spelled(BYTES, arg, f"the argument of {service}/{handler}"), send_delay)

    def cancel_invocation(self, invocation_id: str) -> None:
        self._do("cancel_invocation").sys_cancel_invocation(invocation_id)

    cancel = cancel_invocation

    @staticmethod
    def _other(invocation_id: Optional[str], workflow: Optional[str], key: Optional[str]) -> bytes:
        return pb.record((1, invocation_id)) if workflow is None else pb.record((2, pb.record((1, workflow), (2, key))))

    def attach_invocation(self, invocation_id: Optional[str] = None, workflow: Optional[str] = None, key: Optional[str] = None, type_hint: Any = None) -> "DurableFuture[Any]":
        """Awaited: the answer of another invocation, by its id, or by a workflow's name and key."""
        handle = self._do("attach_invocation").sys_attach_invocation(self._other(invocation_id, workflow, key))
        return self._future(handle, reader(serde_of(type_hint)))

    attach = attach_invocation

    def get_invocation_output(self, invocation_id: Optional[str] = None, workflow: Optional[str] = None, key: Optional[str] = None, type_hint: Any = None) -> "DurableFuture[Output]":
        """Awaited: an Output, which is ready where the other invocation has ended."""
        handle = self._do("get_invocation_output").sys_get_invocation_output(self._other(invocation_id, workflow, key))
        read = reader(serde_of(type_hint))
        return self._future(handle, lambda kind, content: Output(kind != VOID, read(kind, content)))

    # ---- what comes from outside
    def awakeable(self, type_hint: Any = None) -> Tuple[str, "DurableFuture[Any]"]:
        """An id by which anybody completes it, and what is awaited."""
        handle, id = self._do("awakeable").sys_awakeable()
        return id, self._future(handle, reader(serde_of(type_hint)))

    def resolve_awakeable(self, id: str, value: Any = None, type_hint: Any = None) -> None:
        content = spelled(serde_of(type_hint), value, f"the value of the awakeable {id}")
        self._do("resolve_awakeable").sys_complete_awakeable(awakeable_id(id), content)

    def reject_awakeable(self, id: str, message: str, code: int = 500) -> None:
        self._do("reject_awakeable").sys_complete_awakeable(awakeable_id(id), failure_of(message, code), True)

    def signal(self, name: str, type_hint: Any = None) -> "DurableFuture[Any]":
        """Awaited: the next signal of this name that this invocation is sent."""
        return self._future(self._do("signal").create_signal_handle(name), reader(serde_of(type_hint)))

    def resolve_signal(self, invocation_id: str, name: str, value: Any = None, type_hint: Any = None) -> None:
        content = spelled(serde_of(type_hint), value, f"the value of the signal {name}")
        self._do("resolve_signal").sys_complete_signal(invocation_id, name, content)

    send_signal = resolve_signal

    def reject_signal(self, invocation_id: str, name: str, message: str, code: int = 500) -> None:
        self._do("reject_signal").sys_complete_signal(invocation_id, name, failure_of(message, code), True)

    def promise(self, name: str, type_hint: Any = None) -> Promise:
        return Promise(self, name, serde_of(type_hint))


def awakeable_id(id: str) -> str:
    """It may come from anybody: one that is none for certain is not tried again."""
    if not isinstance(id, str) or not id or id != in_utf8(id):
        raise TerminalError(f"{id!r} is no awakeable's id", 400)
    return id


def serdes_of(handler: Any) -> Tuple[Serde[Any], Serde[Any]]:
    """Of a handler's argument and answer: what is told by name alone is JSON."""
    it = getattr(handler, "handler_of_hengomaru", None)
    return (it.input, it.output) if it else (JSON, JSON)
