"""The machine of an attempt: each method is one call of c/hengomaru.h, by ctypes."""
import ctypes as c
from typing import Any, Callable, Dict, List, Optional, Protocol, Tuple

from . import pb
from .places import find_library

NO_DELAY = 2**64 - 1
OK, NO_MACHINE, MEMORY, NOT_READ, FAILED, SUSPENDED, UNTOLD = range(7)
WHY = {NO_MACHINE: "the machine was let go", MEMORY: "memory was refused", NOT_READ: "an argument cannot be read", UNTOLD: "memory was refused for the reply"}
# What a tree's node is, what an await has come to, what was taken.
HANDLE, FIRST_COMPLETED, ALL_COMPLETED, FIRST_SUCCEEDED, ALL_SUCCEEDED, AT_LEAST = range(6)
COMPLETED, WAITING, EXECUTE_RUN, CANCELLED, EPHEMERAL_READY = range(5)
NOTHING, VOID, VALUE, FAILURE, KEYS, INVOCATION_ID = range(6)
STATES = "waiting", "replaying", "processing", "closed"
# Parts of the input.
ID, KEY, SCOPE, LIMIT_KEY, IDEMPOTENCY_KEY, HEADER_NAME, HEADER_VALUE = range(1, 8)


class AttemptOver(BaseException):
    """The attempt can do no more. It passes through a handler, which does not catch it."""


class Suspended(AttemptOver):
    """The attempt waits for what has not come."""


class MachineFailed(AttemptOver):
    """The machine has failed, and answers so to every call: `code` as in docs/FORMATS.md, `message`, and `delay` in milliseconds or None."""

    def __init__(self, code: int, message: str, delay: Optional[int] = None) -> None:
        super().__init__(f"({code}) {message}")
        self.code, self.message, self.delay = code, message, delay


class Handle(c.Structure):
    _fields_ = [("at", c.c_void_p)]


class Node(c.Structure):
    _fields_ = [("kind", c.c_uint32), ("number", c.c_uint32), ("required", c.c_uint32)]


class Policy(c.Structure):
    """As `hengomaru_policy`."""

    _fields_ = [
        ("kind", c.c_uint32), ("pause", c.c_uint32), ("interval_millis", c.c_uint64),
        ("factor_numerator", c.c_uint32), ("factor_denominator", c.c_uint32), ("max_interval_millis", c.c_uint64),
        ("max_duration_millis", c.c_uint64), ("max_attempts", c.c_uint32),
    ]


class AttemptMachine(Protocol):
    """What an attempt asks of its machine: each call answers at once, and each that answers a number answers a handle. Behind it stands
    the library for C (`Machine`), or whatever `use` is given."""

    def close(self) -> None: ...
    def response_head(self) -> Tuple[int, str]: ...
    def notify_input(self, came: bytes) -> None: ...
    def notify_input_closed(self) -> None: ...
    def notify_error(self, code: int, message: str, delay: Optional[int] = None, pause: bool = False) -> None: ...
    def take_output(self) -> bytes: ...
    def is_ready_to_execute(self) -> bool: ...
    def state(self) -> str: ...
    def do_await(self, tree: Any) -> Any: ...
    def is_completed(self, handle: int) -> bool: ...
    def take_notification(self, handle: int) -> Tuple[int, Any]: ...
    def sys_input(self) -> Tuple[bytes, int]: ...
    def input_part(self, part: int, index: int = 0) -> Optional[str]: ...
    def headers(self) -> Dict[str, str]: ...
    def sys_state_get(self, key: str) -> int: ...
    def sys_state_get_keys(self) -> int: ...
    def sys_state_set(self, key: str, value: bytes) -> None: ...
    def sys_state_clear(self, key: str) -> None: ...
    def sys_state_clear_all(self) -> None: ...
    def sys_sleep(self, millis: int, name: str = "") -> int: ...
    def sys_call(self, target: bytes, parameter: bytes) -> Any: ...
    def sys_send(self, target: bytes, parameter: bytes, millis: int = 0) -> int: ...
    def sys_cancel_invocation(self, target: str) -> None: ...
    def sys_attach_invocation(self, target: bytes) -> int: ...
    def sys_get_invocation_output(self, target: bytes) -> int: ...
    def sys_awakeable(self) -> Tuple[int, str]: ...
    def sys_complete_awakeable(self, id: str, value: bytes, failed: bool = False) -> None: ...
    def create_signal_handle(self, name: str) -> int: ...
    def sys_complete_signal(self, target: str, name: str, value: bytes, failed: bool = False) -> None: ...
    def sys_get_promise(self, key: str) -> int: ...
    def sys_peek_promise(self, key: str) -> int: ...
    def sys_complete_promise(self, key: str, value: bytes, failed: bool = False) -> int: ...
    def sys_run(self, name: str) -> Tuple[bool, int]: ...
    def propose_run_success(self, handle: int, value: bytes) -> None: ...
    def propose_run_failure(self, handle: int, failure: bytes) -> None: ...
    def propose_run_retryable(self, handle: int, millis: int, code: int, message: str, policy: Policy) -> None: ...
    def sys_write_output(self, value: bytes, failed: bool = False) -> None: ...
    def sys_end(self) -> None: ...


def parameters() -> Dict[str, Any]:
    """Of each call what stands behind the handle."""
    u16, u32, u64 = c.c_uint16, c.c_uint32, c.c_uint64
    to32, to64, signed, text = c.POINTER(u32), c.POINTER(u64), c.POINTER(c.c_int64), (c.c_char_p, c.c_size_t)
    return {
        "new": (*text, u32, u64, to32), "free": (), "response_head": (to32,), "reply": text,
        "notify_input": text, "notify_input_closed": (), "notify_error": (u16, *text, u64, u32), "take_output": (),
        "last_error": (to32, to32, to64, signed), "is_ready_to_execute": (to32,), "state": (to32,), "last_command_index": (signed,),
        "do_await": (c.POINTER(Node), c.c_size_t, to32, to32), "is_completed": (u32, to32), "take_notification": (u32, to32),
        "sys_input": (to64,), "input_part": (u32, u32, to32),
        "sys_state_get": (*text, u32, to32), "sys_state_get_keys": (to32,), "sys_state_set": (*text, *text, u32),
        "sys_state_clear": text, "sys_state_clear_all": (), "ephemeral_state_get": (*text, to32), "take_ephemeral_notification": (u32, to32),
        "sys_sleep": (*text, u64, to32), "sys_call": (*text, *text, u32, to32, to32), "sys_send": (*text, *text, u64, u32, to32),
        "sys_cancel_invocation": text, "sys_attach_invocation": (*text, to32), "sys_get_invocation_output": (*text, to32),
        "sys_awakeable": (to32,), "sys_complete_awakeable": (*text, *text, u32, u32),
        "create_signal_handle": (*text, to32), "sys_complete_signal": (*text, *text, *text, u32),
        "sys_get_promise": (*text, to32), "sys_peek_promise": (*text, to32), "sys_complete_promise": (*text, *text, u32, u32, to32),
        "sys_run": (*text, to32, to32), "propose_run_success": (u32, *text), "propose_run_failure": (u32, *text),
        "propose_run_retryable": (u32, u64, u16, *text, c.POINTER(Policy)), "sys_write_output": (*text, u32, u32), "sys_end": (),
    }


def load(path: str) -> Any:
    library = c.CDLL(path)
    for name, told in parameters().items():
        function = getattr(library, f"hengomaru_vm_{name}")
        function.argtypes = (c.POINTER(Handle), *told)
        function.restype = {"free": None, "reply": c.c_size_t}.get(name, c.c_uint32)
    return library


def nodes_of(tree: Any) -> List[Node]:
    """A tree as its nodes, each before its children. A tree is a handle, or (kind, children) or (AT_LEAST, children, required)."""
    if isinstance(tree, int):
        return [Node(HANDLE, tree, 0)]
    kind, children, *required = tree
    return [Node(kind, len(children), *required), *(node for it in children for node in nodes_of(it))]


class Machine:
    """An attempt's machine, for a content type. Its bytes come and go by the caller: `notify_input`, `take_output`."""

    library: Any = None

    @classmethod
    def find(cls) -> None:
        """Loads the library, where that was not done; FileNotFoundError or OSError where it cannot be."""
        if cls.library is None:
            cls.library = load(find_library())

    def __init__(self, content_type: str, options: int = 0, fallback_random_seed: int = 0) -> None:
        self.find()
        self.handle, code = Handle(), c.c_uint32()
        status = self.ask("new", content_type, options, fallback_random_seed, c.byref(code))
        if status == FAILED:
            raise MachineFailed(code.value, f"a content type that is not spoken: {content_type}")
        if status:
            raise MemoryError(WHY[status])

    def close(self) -> None:
        """Lets the machine go. Each further call is refused."""
        self.library.hengomaru_vm_free(c.byref(self.handle))

    def __enter__(self) -> "Machine":
        return self

    def __exit__(self, *_: Any) -> None:
        self.close()

    def __del__(self) -> None:
        if Machine.library is not None:
            self.close()

    def ask(self, name: str, *given: Any) -> int:
        """Makes a call, and returns its status. Text and bytes are handed over as a pointer and a length."""
        handed = []
        for it in given:
            it = it.encode() if isinstance(it, str) else it
            handed += [bytes(it), len(it)] if isinstance(it, (bytes, bytearray)) else [it]
        return int(getattr(self.library, f"hengomaru_vm_{name}")(c.byref(self.handle), *handed))

    def call(self, name: str, *given: Any) -> None:
        """Makes a call that is to be done; Suspended, MachineFailed, MemoryError or ValueError where it is not."""
        status = self.ask(name, *given)
        if status == SUSPENDED:
            raise Suspended
        if status == FAILED:
            raise MachineFailed(*self.last_error())
        if status == NO_MACHINE:
            raise RuntimeError("the attempt is over: its context is used after it has ended")
        if status:
            raise (ValueError if status == NOT_READ else MemoryError)(WHY[status])

    def told(self, name: str, *given: Any, kinds: Any = (c.c_uint32,)) -> Any:
        """Makes a call, and returns the numbers that it tells: one alone, or a list."""
        told = [it() for it in kinds]
        self.call(name, *given, *(c.byref(it) for it in told))
        return told[0].value if len(told) == 1 else [it.value for it in told]

    def reply(self) -> bytes:
        """The bytes that the last call has answered."""
        length = self.ask("reply", b"")
        room = c.create_string_buffer(max(length, 1))
        self.library.hengomaru_vm_reply(c.byref(self.handle), room, length)
        return room.raw[:length]

    def last_error(self) -> Tuple[int, str, Optional[int]]:
        """Code, text, and delay in milliseconds or None, of what was answered last."""
        code, _, delay, _ = self.told("last_error", kinds=(c.c_uint32, c.c_uint32, c.c_uint64, c.c_int64))
        return code, self.reply().decode(), None if delay == NO_DELAY else delay

    # ---- what comes in and goes out
    def response_head(self) -> Tuple[int, str]:
        """Status and content type."""
        return self.told("response_head"), self.reply().decode()

    def notify_input(self, came: bytes) -> None:
        self.call("notify_input", came)

    def notify_input_closed(self) -> None:
        self.call("notify_input_closed")

    def notify_error(self, code: int, message: str, delay: Optional[int] = None, pause: bool = False) -> None:
        """The handler has failed: it is tried again after `delay` milliseconds, or paused."""
        self.call("notify_error", code, message, NO_DELAY if delay is None else delay, pause)

    def take_output(self) -> bytes:
        self.call("take_output")
        return self.reply()

    def is_ready_to_execute(self) -> bool:
        return bool(self.told("is_ready_to_execute"))

    def state(self) -> str:
        return STATES[self.told("state")]

    def last_command_index(self) -> int:
        return int(self.told("last_command_index", kinds=(c.c_int64,)))

    # ---- waiting
    def do_await(self, tree: Any) -> Any:
        """What the await of a tree has come to, and its detail."""
        nodes = nodes_of(tree)
        return self.told("do_await", (Node * len(nodes))(*nodes), len(nodes), kinds=(c.c_uint32, c.c_uint32))

    def is_completed(self, handle: int) -> bool:
        return bool(self.told("is_completed", handle))

    def taken(self, kind: int) -> Tuple[int, Any]:
        if kind == FAILURE:
            return kind, pb.read_failure(self.reply())
        if kind == KEYS:
            return kind, [content.decode() for number, content in pb.fields(self.reply()) if number == 1]
        return kind, {VALUE: self.reply(), INVOCATION_ID: self.reply().decode(errors="replace")}.get(kind)

    def take_notification(self, handle: int) -> Tuple[int, Any]:
        """What has come of a handle: its kind, and bytes of a VALUE, (code, message, metadata), a list of keys, or an id."""
        return self.taken(self.told("take_notification", handle))

    def take_ephemeral_notification(self, number: int) -> Tuple[int, Any]:
        return self.taken(self.told("take_ephemeral_notification", number))

    # ---- the handler's calls: each that answers a number answers a handle
    def sys_input(self) -> Tuple[bytes, int]:
        """The input's bytes, and the seed of random numbers that are alike in each attempt."""
        seed = self.told("sys_input", kinds=(c.c_uint64,))
        return self.reply(), seed

    def input_part(self, part: int, index: int = 0) -> Optional[str]:
        """A text of the input, or None."""
        return self.reply().decode() if self.told("input_part", part, index) else None

    def headers(self) -> Dict[str, str]:
        found: Dict[str, str] = {}
        while (name := self.input_part(HEADER_NAME, len(found))) is not None:
            found[name] = self.input_part(HEADER_VALUE, len(found)) or ""
        return found

    def sys_state_get(self, key: str) -> int:
        return int(self.told("sys_state_get", key, 0))

    def sys_state_get_keys(self) -> int:
        return int(self.told("sys_state_get_keys"))

    def sys_state_set(self, key: str, value: bytes) -> None:
        self.call("sys_state_set", key, value, 0)

    def sys_state_clear(self, key: str) -> None:
        self.call("sys_state_clear", key)

    def sys_state_clear_all(self) -> None:
        self.call("sys_state_clear_all")

    def ephemeral_state_get(self, key: str) -> int:
        return int(self.told("ephemeral_state_get", key))

    def sys_sleep(self, millis: int, name: str = "") -> int:
        return int(self.told("sys_sleep", name, millis))

    def sys_call(self, target: bytes, parameter: bytes) -> Any:
        """Two handles: of the id of what is called, and of its answer."""
        return self.told("sys_call", target, parameter, 0, kinds=(c.c_uint32, c.c_uint32))

    def sys_send(self, target: bytes, parameter: bytes, millis: int = 0) -> int:
        return int(self.told("sys_send", target, parameter, millis, 0))

    def sys_cancel_invocation(self, target: str) -> None:
        self.call("sys_cancel_invocation", target)

    def sys_attach_invocation(self, target: bytes) -> int:
        return int(self.told("sys_attach_invocation", target))

    def sys_get_invocation_output(self, target: bytes) -> int:
        return int(self.told("sys_get_invocation_output", target))

    def sys_awakeable(self) -> Tuple[int, str]:
        """A handle, and the text by which it is completed."""
        handle = self.told("sys_awakeable")
        return handle, self.reply().decode()

    def sys_complete_awakeable(self, id: str, value: bytes, failed: bool = False) -> None:
        self.call("sys_complete_awakeable", id, value, failed, 0)

    def create_signal_handle(self, name: str) -> int:
        return int(self.told("create_signal_handle", name))

    def sys_complete_signal(self, target: str, name: str, value: bytes, failed: bool = False) -> None:
        self.call("sys_complete_signal", target, name, value, failed)

    def sys_get_promise(self, key: str) -> int:
        return int(self.told("sys_get_promise", key))

    def sys_peek_promise(self, key: str) -> int:
        return int(self.told("sys_peek_promise", key))

    def sys_complete_promise(self, key: str, value: bytes, failed: bool = False) -> int:
        return int(self.told("sys_complete_promise", key, value, failed, 0))

    def sys_run(self, name: str) -> Tuple[bool, int]:
        """Whether its outcome is recorded, and a handle."""
        replayed, handle = self.told("sys_run", name, kinds=(c.c_uint32, c.c_uint32))
        return bool(replayed), handle

    def propose_run_success(self, handle: int, value: bytes) -> None:
        self.call("propose_run_success", handle, value)

    def propose_run_failure(self, handle: int, failure: bytes) -> None:
        self.call("propose_run_failure", handle, failure)

    def propose_run_retryable(self, handle: int, millis: int, code: int, message: str, policy: Policy) -> None:
        self.call("propose_run_retryable", handle, millis, code, message, c.byref(policy))

    def sys_write_output(self, value: bytes, failed: bool = False) -> None:
        self.call("sys_write_output", value, failed, 0)

    def sys_end(self) -> None:
        self.call("sys_end")


Open = Callable[[str], AttemptMachine]
_open: List[Open] = []


def use(how: Open) -> None:
    """Has machines made by another function of a content type than by the library for C."""
    _open[:] = [how]


def open(content_type: str) -> AttemptMachine:
    """A machine for a content type. MachineFailed where that is not spoken."""
    return _open[0](content_type) if _open else Machine(content_type)


def find() -> None:
    """Looks for the library, where machines are made by it: FileNotFoundError or OSError where there is none."""
    if not _open:
        Machine.find()
