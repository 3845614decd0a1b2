"""Handlers whose steps are recorded in a SQLite file, and which go on where they were: docs/LANGUAGES.md of the repository.

Names are those of Restate's SDK. What differs of it, as far as is remembered here:

    here                                                        there
    one `Context` for all handlers                              one for each kind
    `handler(name, retention=)`, of (ctx) or (ctx, argument)    also `accept=`, content types, timeouts, metadata
    `type_hint=`, a type or a `Serde`, the second of `get`      `serde=` stands there, and `type_hint=` behind it
    no shared handlers of an object                             `kind="shared"`
    `run(name, action, *arguments, max_attempts=,               `run(name, action, serde, .., args=(..))`
        max_retry_duration=, options=)`
    `RunOptions(max_attempts, max_duration, .., pause=)`        begins with `serde`, and has no `pause`
    `call` and `send`, of any handler, `key=`, `delay=`; the    `service_call`, `object_call`, `workflow_call`, `.._send`,
        others stand beside them                                    `send_delay=`
    a send is awaited for the id                                a handle with `invocation_id()`
    `attach_invocation(id, workflow=, key=)`,                   the first alone, by its id
        `get_invocation_output`
    `select(a=..)` returns (name, value)                        a list of the two
    `signal`, `resolve_signal`, `all_succeeded`,                none, or others
        `first_succeeded`, `at_least`
    `TerminalError(message, status_code, metadata)`, whose      any code
        code is one of 0 to 65535
    `hengomaru.app([..])` is for a worker, and                  `restate.app(services=[..])` is that
        `hengomaru.endpoint.Endpoint(app, keys)` is the
        ASGI application
"""
from .context import Context, Output, Promise, RunOptions
from .futures import CallFuture, Cancelled, DurableFuture, SendFuture, TerminalError, all_succeeded, as_completed, at_least, first_succeeded, gather, select, wait_completed
from .logs import ReplayFilter, get_logger
from .machine import Machine, MachineFailed, Suspended
from .serdes import Serde
from .services import App, Service, VirtualObject, Workflow, app
from .store import NotOpened, NotUnderstood, Refused, Store, StoreGone, TooLong
from .worker import Awaited, Busy, Status, Worker

__all__ = [
    "App", "Awaited", "Busy", "CallFuture", "Cancelled", "Context", "DurableFuture", "Machine", "MachineFailed", "NotOpened", "NotUnderstood", "Output", "Promise",
    "Refused", "ReplayFilter", "RunOptions", "SendFuture", "Serde", "Service", "Status", "Store", "StoreGone", "Suspended", "TerminalError", "TooLong", "VirtualObject", "Worker", "Workflow",
    "all_succeeded", "app", "as_completed", "at_least", "first_succeeded", "gather", "get_logger", "select", "wait_completed",
]
