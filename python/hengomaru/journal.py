"""What is recorded of an invocation, as steps that people can read: each request, and what came of it."""
from typing import Any, Dict, List, NamedTuple, Optional, Set

from . import pb
from .delivery import DELIVERED
from .store import Arrival, Shown

NAMES = {
    0x0401: "answer", 0x0402: "get", 0x0403: "set", 0x0404: "clear", 0x0405: "clear all", 0x0406: "state keys", 0x0407: "get",
    0x0408: "state keys", 0x0409: "promise", 0x040A: "peek promise", 0x040B: "complete promise", 0x040C: "sleep", 0x040D: "call",
    0x040E: "send", 0x040F: "signal", 0x0410: "run", 0x0411: "attach", 0x0412: "output of", 0x0413: "complete awakeable",
}
SLEEP, CALL, SEND, SIGNAL, RUN, ANSWER = 0x040C, 0x040D, 0x040E, 0x040F, 0x0410, 0x0401
# The fields of a request's completions, and of its name.
COMPLETIONS, NAME = (10, 11), 12
HIDDEN = f"n:{DELIVERED.encode().hex()}"


class Step(NamedTuple):
    """A request at its place, or what came from outside (`kind` "arrival" or "cancelled"): what it is about, what came of it (None where
    nothing has), and of a sleep, or a later send, its moment in milliseconds."""

    place: int
    kind: str
    about: str
    came: Optional[str]
    is_waiting: bool
    moment: Optional[int] = None
    is_failure: bool = False
    child: Optional[str] = None

    def __str__(self) -> str:
        return " ".join(it for it in (f"{self.place}: {self.kind}", self.about) if it) + ("" if self.came is None else f" -> {self.came}")


def text_of(content: Any) -> str:
    """Bytes as text, JSON as it is written."""
    if not isinstance(content, bytes):
        return "" if content is None else str(content)
    try:
        return content.decode()
    except UnicodeDecodeError:
        return f"0x{content.hex()}"


def told(arrival: Optional[Arrival]) -> Optional[str]:
    if arrival is None:
        return None
    if arrival.kind == "failure":
        return f"({arrival.content[0]}) {arrival.content[1]}"
    return "" if arrival.kind == "void" else text_of(arrival.content)


def about(type: int, found: Dict[int, Any]) -> str:
    def text(number: int) -> str:
        return text_of(found.get(number, b""))

    def inner(number: int) -> str:
        return text_of(dict(pb.fields(found[number])).get(1, b"")) if number in found else ""

    if type in (CALL, SEND):
        return "/".join(it for it in (text(1), text(5), text(2)) if it) + (f" {text(3)}" if text(3) else "")
    if type == SIGNAL:
        return f"{text(1)} {'cancel' if found.get(2) == 1 else text(3) or found.get(2, '')}"
    if type == 0x0403:
        return f"{text(1)} = {inner(3)}"
    if type == ANSWER:
        if 15 in found:
            code, message, _ = pb.read_failure(found[15])
            return f"({code}) {message}"
        return inner(14)
    if type in (0x0411, 0x0412):
        return text(1)
    return " ".join(it for it in (text(NAME), text(1) if type not in (SLEEP, RUN) else "") if it)


def steps_of(shown: Shown) -> List[Step]:
    """By place. What came of a request stands with it; what nobody asked for by a request stands alone."""
    arrivals = {it.id: it for it in shown.arrivals}
    steps: List[Step] = []
    used: Set[str] = set()
    for it in shown.requests:
        found = dict(pb.fields(it.payload))
        ids = [f"c{found[number]}" for number in COMPLETIONS if number in found]
        used.update(ids)
        last = arrivals.get(ids[-1]) if ids else None
        called = arrivals.get(ids[0]) if it.type in (CALL, SEND) and ids else None
        child = called.content.decode() if called and isinstance(called.content, bytes) else None
        moment = found.get(1) if it.type == SLEEP else found.get(9) if it.type == SEND else None
        steps.append(Step(
            it.place, NAMES.get(it.type, f"{it.type:04x}"), about(it.type, found), told(last), bool(ids) and last is None and shown.is_open, moment,
            (last is not None and last.kind == "failure") or (it.type == ANSWER and 15 in found), child,
        ))
    for came in shown.arrivals:
        if came.id in used or came.id == HIDDEN:
            continue
        name = bytes.fromhex(came.id[2:]).decode(errors="replace") if came.id.startswith("n:") else came.id
        kind, name = ("cancelled", "") if came.id == "s1" else ("arrival", f"signal {name}" if came.id.startswith("n:") else f"awakeable {name[1:]}")
        steps.append(Step(came.place, kind, name, told(came), False, None, came.kind == "failure"))
    return sorted(steps, key=lambda it: it.place)
