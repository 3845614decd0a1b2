"""Payloads of the protocol's records, in the wire format of Protocol Buffers (docs/FORMATS.md, "Records")."""
from typing import Any, Dict, List, NamedTuple, Optional, Tuple


def varint(number: int) -> bytes:
    made = bytearray()
    while number > 0x7F:
        made.append(number & 0x7F | 0x80)
        number >>= 7
    made.append(number)
    return bytes(made)


def field(number: int, content: Any) -> bytes:
    """One field: an int is a varint, text and bytes are their length and they; None is left out."""
    if content is None:
        return b""
    if isinstance(content, int):
        return varint(number << 3) + varint(content)
    told = content.encode() if isinstance(content, str) else bytes(content)
    return varint(number << 3 | 2) + varint(len(told)) + told


def record(*fields: Tuple[int, Any]) -> bytes:
    """A record of pairs: a field's number, and its content or a list of contents."""
    return b"".join(field(number, it) for number, content in fields for it in (content if isinstance(content, list) else [content]))


def read_varint(payload: bytes, at: int) -> Tuple[int, int]:
    number = shift = 0
    while True:
        byte = payload[at]
        number, shift, at = number | (byte & 0x7F) << shift, shift + 7, at + 1
        if byte < 0x80:
            return number, at


def fields(payload: bytes) -> List[Tuple[int, Any]]:
    """The fields of a record in their order, each its number and its content, an int or bytes. ValueError where it is no record."""
    at = 0
    found: List[Tuple[int, Any]] = []
    content: Any
    try:
        while at < len(payload):
            tag, at = read_varint(payload, at)
            content, at = read_varint(payload, at)
            if tag & 7 == 2:
                content, at = payload[at : at + content], at + content
            elif tag & 7:
                raise ValueError("a wire type that no record has")
            found.append((tag >> 3, content))
    except IndexError:
        at = len(payload) + 1
    if at > len(payload):
        raise ValueError("a record that is cut off")
    return found


def pairs(number: int, told: Any) -> Tuple[int, List[bytes]]:
    """A repeated field of pairs of texts."""
    return number, [record((1, key), (2, value)) for key, value in dict(told).items()]


def read_pairs(number: int, found: List[Tuple[int, Any]]) -> Dict[str, str]:
    """The pairs of texts of a repeated field."""
    read = (dict(fields(content)) for tag, content in found if tag == number)
    return {it.get(1, b"").decode(): it.get(2, b"").decode() for it in read}


def failure(code: int, message: str, metadata: Any = ()) -> bytes:
    """The record Failure: a code such as HTTP has, a text, and pairs of texts."""
    return record((1, code or None), (2, message or None), pairs(3, metadata))


def read_failure(payload: bytes) -> Tuple[int, str, Dict[str, str]]:
    """Code, message, metadata."""
    found = fields(payload)
    last = dict(found)
    return last.get(1, 0), last.get(2, b"").decode(), read_pairs(3, found)


def call_target(service: str, handler: str, key: Optional[str] = None, idempotency_key: Optional[str] = None, headers: Any = ()) -> bytes:
    """The record CallCommand, by which a call or a send names its target."""
    return record((1, service), (2, handler), pairs(4, headers), (5, key or None), (6, idempotency_key))


class Frame(NamedTuple):
    """A frame: its type, its payload, and all its bytes."""

    type: int
    payload: bytes
    whole: bytes


def frame(type: int, payload: bytes) -> bytes:
    return type.to_bytes(2, "big") + bytes(2) + len(payload).to_bytes(4, "big") + payload


def frames(stream: bytes) -> List[Frame]:
    """The whole frames that a stream begins with."""
    at, found = 0, []
    while len(stream) - at >= 8:
        ends = at + 8 + int.from_bytes(stream[at + 4 : at + 8], "big")
        if ends > len(stream):
            break
        found.append(Frame(int.from_bytes(stream[at : at + 2], "big"), stream[at + 8 : ends], stream[at:ends]))
        at = ends
    return found
