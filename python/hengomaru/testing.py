"""Handlers under test: a store in memory, and a clock that goes on where it is told to.

    def test_reminder(hengomaru):                       # the fixture, where pytest is there
        with hengomaru(my_app) as jobs:
            id = jobs.submit(remind, "tea")
            jobs.advance(timedelta(days=1))
            assert jobs.result(id) == "drink your tea"

Each wait suspends the attempt, and the next one replays: a handler that does not make the same calls again is found out.
"""
import asyncio
from datetime import timedelta
from typing import Any, Awaitable, Dict, List, NamedTuple, Optional, TypeVar

from .futures import TerminalError
from .journal import Step, steps_of
from .serdes import from_json
from .services import named
from .worker import Status, Worker

T = TypeVar("T")


class StillOpen(AssertionError):
    """The invocation has not ended, as a test wanted it to."""


class Harness:
    def __init__(self, app: Any, database: str = ":memory:", now: float = 1_700_000_000.0, **further: Any) -> None:
        further.setdefault("tries", 10)  # what fails so often in a row is paused, and `call` comes to an end
        self.loop = asyncio.new_event_loop()
        self.now = int(now * 1000)
        self.worker = Worker(database, app, clock=lambda: self.now, linger=0, **further)
        self.is_open = False

    def __enter__(self) -> "Harness":
        self.wait(self.worker.open())
        self.is_open = True
        return self

    def __exit__(self, *_: Any) -> None:
        self.wait(self.worker.close())
        self.loop.close()

    def wait(self, work: Awaitable[T]) -> T:
        return self.loop.run_until_complete(work)

    # ---- jobs
    def submit(self, handler: Any, argument: Any = None, key: Optional[str] = None, id: Optional[str] = None, **further: Any) -> str:
        """Makes an invocation, and goes on as far as that goes without time."""
        id = self.wait(self.worker.submit(id, handler, argument, key, **further))
        self.settle()
        return id

    def settle(self) -> Optional[float]:
        """Goes on until time has to pass, or something has to come: the next moment."""
        return self.wait(self.worker.settle())

    def advance(self, delta: timedelta) -> None:
        """Lets time pass, from moment to moment."""
        ends = self.now + int(delta / timedelta(milliseconds=1))
        while (moment := self.settle()) is not None and moment <= ends:
            self.now = max(self.now, int(moment))
        self.now = ends
        self.settle()

    def call(self, handler: Any, argument: Any = None, key: Optional[str] = None) -> Any:
        """Calls a handler, lets as much time pass as it asks for, and returns what it answers."""
        id = self.submit(handler, argument, key)
        while self.status(id).is_open and (moment := self.settle()) is not None:
            self.now = max(self.now, int(moment))
        return self.result(id)

    def status(self, id: str) -> Status:
        return self.wait(self.worker.status(id))

    def result(self, id: str) -> Any:
        """What an invocation has answered. TerminalError where that is a failure, StillOpen where it has not ended."""
        status = self.status(id)
        if status.is_open:
            waits = [str(it) for it in self.journal(id) if it.is_waiting]
            raise StillOpen(f"{id} is open" + (f": it waits for {'; '.join(waits)}" if waits else "") + self.last_error(id))
        if status.failure:
            raise TerminalError(status.failure[1], status.failure[0])
        return status.value

    def last_error(self, id: str) -> str:
        error = self.wait(self.worker.store.error(id))
        return f"; its last attempt failed with ({error[0]}) {error[3]}" if error else ""

    # ---- what comes from outside, and what is recorded
    def signal(self, id: str, name: str, value: Any = None) -> None:
        self.wait(self.worker.signal(id, name, value))
        self.settle()

    def resolve(self, awakeable: str, value: Any = None) -> bool:
        return self.after(self.worker.resolve_awakeable(awakeable, value))

    def reject(self, awakeable: str, message: str, code: int = 500) -> bool:
        return self.after(self.worker.reject_awakeable(awakeable, message, code))

    def cancel(self, id: str) -> None:
        self.after(self.worker.cancel_invocation(id))

    def after(self, work: Awaitable[T]) -> T:
        done = self.wait(work)
        self.settle()
        return done

    def journal(self, id: str) -> List[Step]:
        return steps_of(self.wait(self.worker.store.show(id)))

    def state(self, service: str, key: str) -> Dict[str, Any]:
        found = self.wait(self.worker.store.state(named(service, key)))
        return {name.decode(): from_json(value) for name, value in found.items()}


try:
    import pytest
except ImportError:
    pass
else:

    @pytest.fixture
    def hengomaru() -> Any:
        """A function that makes a harness of an app, to be used by `with`."""
        return Harness
