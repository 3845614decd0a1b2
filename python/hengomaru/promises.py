"""The promises of workflows, which stand in the journals of those that have completed them."""
import asyncio
from collections import defaultdict
from typing import Any, DefaultDict, Dict, Optional, Set, Tuple

from . import pb
from .services import App, Workflow, space_of
from .store import Refused, Shown, Store, Value

Space = Tuple[str, str]
GET_PROMISE, PEEK_PROMISE, COMPLETE_PROMISE = 0x0409, 0x040A, 0x040B


def content_of(payload: bytes) -> bytes:
    """The bytes of a Value."""
    content: bytes = dict(pb.fields(payload)).get(1, b"")
    return content


def brought(found: Dict[int, Any], void: Optional[int], value: int, failure: int) -> Value:
    """What a request's choice of these fields holds, as a store's value."""
    if failure in found:
        return pb.read_failure(found[failure])[:2]
    return content_of(found[value]) if value in found else None


def text_in(found: Dict[int, Any], number: int) -> str:
    """A text, which is left out where it is empty."""
    text: str = found.get(number, b"").decode()
    return text


def completed_in(shown: Shown) -> Dict[str, Value]:
    """By their names the promises that an invocation has completed."""
    done = {it.id for it in shown.arrivals if it.kind == "void"}
    asked = [dict(pb.fields(it.payload)) for it in shown.requests if it.type == COMPLETE_PROMISE]
    return {text_in(found, 1): brought(found, None, 2, 3) for found in asked if f"c{found.get(11, 0)}" in done}


class Promises:
    """Those that are completed, read off the journals once one of a workflow's is asked for."""

    def __init__(self, store: Store, app: App) -> None:
        self.store, self.app = store, app
        # By their names those of each workflow's key that was asked for.
        self.completed: Dict[Space, Dict[str, Value]] = {}
        # Of each invocation its workflow's key, and of each key the invocations, once one was asked for.
        self.spaces: Dict[str, Space] = {}
        self.ids: Optional[DefaultDict[Space, Set[str]]] = None
        # One at a time looks at a promise, or completes it.
        self.turn = asyncio.Lock()

    def note(self, id: str, object: str) -> None:
        """There is an invocation of this object."""
        space = space_of(object)
        if self.ids is not None and isinstance(self.app.get(space[0]), Workflow):
            self.spaces[id] = space
            self.ids[space].add(id)

    def forget(self, id: str) -> None:
        """There is none any more: what the others have completed is read anew where it is asked for."""
        space = self.spaces.pop(id, None)
        if self.ids is not None and space is not None:
            self.ids[space].discard(id)
            self.completed.pop(space, None)
            if not self.ids[space]:
                del self.ids[space]

    async def find(self, space: Space, name: str) -> Value:
        """What a promise was completed with, as a store's value; None where it was not."""
        if self.ids is None:
            listed, self.ids = await self.store.list(), defaultdict(set)
            for it in listed:
                self.note(it.id, it.object)
        if space not in self.completed:
            found: Dict[str, Value] = {}
            for id in sorted(self.ids.get(space, ())):
                found.update(await self.read_journal(id))
            self.completed[space] = found
        return self.completed[space].get(name)

    async def read_journal(self, id: str) -> Dict[str, Value]:
        try:
            return completed_in(await self.store.show(id))
        except Refused as refused:
            if refused.name != "S4":  # it was forgotten meanwhile
                raise
            return {}

    def complete(self, space: Space, name: str, value: Value) -> None:
        """It is recorded that a promise is completed."""
        if space in self.completed:
            self.completed[space][name] = value
