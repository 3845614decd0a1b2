"""How values become bytes, and come back."""
import dataclasses
import json
import types
import typing
from typing import Any, Callable, Dict, Generic, Optional, Type, TypeVar

from . import store as stores
from .futures import TerminalError, told_of

T = TypeVar("T")
# What `Optional[X]` and `X | None` are made by.
UNIONS = typing.Union, getattr(types, "UnionType", typing.Union)


class Serde(Generic[T]):
    """Two functions, and what the bytes are called in HTTP."""

    def __init__(self, write: Callable[[T], bytes], read: Callable[[bytes], T], content_type: str, schema: Optional[Dict[str, Any]] = None) -> None:
        self.write, self.read, self.content_type, self.schema = write, read, content_type, schema


def to_json(value: Any) -> bytes:
    """JSON as every reader of it takes it: no `NaN`, and no text that UTF-8 has not. Dataclasses and models in it are objects."""
    return json.dumps(value, separators=(",", ":"), ensure_ascii=False, allow_nan=False, default=as_json_has).encode()


def as_json_has(value: Any) -> Any:
    """What JSON has of a value that is not such itself."""
    if dataclasses.is_dataclass(value) and not isinstance(value, type):
        return {it.name: getattr(value, it.name) for it in dataclasses.fields(value)}
    if hasattr(value, "model_dump_json") or hasattr(value, "parse_raw"):
        return json.loads(value.model_dump_json() if hasattr(value, "model_dump_json") else value.json())
    raise TypeError(f"JSON has no {type(value).__name__}")


def from_json(content: bytes) -> Any:
    return json.loads(content) if content else None


def to_bytes(value: Any) -> bytes:
    if not isinstance(value, (bytes, bytearray, memoryview)):
        raise TypeError(f"bytes are wanted, and not {type(value).__name__}")
    return bytes(value)


JSON: "Serde[Any]" = Serde(to_json, from_json, "application/json")
BYTES: "Serde[bytes]" = Serde(to_bytes, bytes, "application/octet-stream")


def of_dataclass(kind: Type[T]) -> "Serde[T]":
    """A dataclass as a JSON object. What it holds is such as JSON has, or a dataclass, or lists, mappings and options of these."""

    def write(value: T) -> bytes:
        if not isinstance(value, kind):
            raise TypeError(f"{kind.__name__} is wanted, and not {type(value).__name__}")
        return to_json(value)

    def read(content: bytes) -> T:
        value: T = made(kind, from_json(content))
        return value

    return Serde(write, read, "application/json")


def made(kind: Any, value: Any) -> Any:
    """A value of an annotation, of what JSON has of it: dataclasses, and lists, mappings and options of them."""
    origin, inner = typing.get_origin(kind), typing.get_args(kind)
    if origin is list and inner and isinstance(value, list):
        return [made(inner[0], it) for it in value]
    if origin is dict and len(inner) == 2 and isinstance(value, dict):
        return {name: made(inner[1], it) for name, it in value.items()}
    if origin in UNIONS:
        others = [it for it in inner if it is not type(None)]
        return made(others[0], value) if len(others) == 1 and value is not None else value
    if is_model(kind):
        return (getattr(kind, "model_validate", None) or kind.parse_obj)(value)
    if not dataclasses.is_dataclass(kind):
        return value
    if not isinstance(value, dict):
        raise ValueError(f"{kind.__name__} is an object, and not {type(value).__name__}")
    kinds = typing.get_type_hints(kind)
    unknown = set(value) - {it.name for it in dataclasses.fields(kind)}
    if unknown:
        raise ValueError(f"{kind.__name__} has no {', '.join(sorted(unknown))}")
    return kind(**{name: made(kinds[name], it) for name, it in value.items()})


def of_pydantic(kind: Any) -> "Serde[Any]":
    """A model of pydantic, of its first or second version."""
    read = getattr(kind, "model_validate_json", None) or kind.parse_raw
    schema = kind.model_json_schema() if hasattr(kind, "model_json_schema") else kind.schema()

    def write(value: Any) -> bytes:
        if not isinstance(value, kind):
            raise TypeError(f"{kind.__name__} is wanted, and not {type(value).__name__}")
        text: str = value.model_dump_json() if hasattr(value, "model_dump_json") else value.json()
        return text.encode()

    return Serde(write, read, "application/json", schema)


def serde_for(kind: Any) -> "Serde[Any]":
    """How values of an annotation become bytes: of pydantic's models and of dataclasses as such, of bytes as they are, of all else as JSON."""
    if kind is bytes:
        return BYTES
    if is_model(kind):
        return of_pydantic(kind)
    if isinstance(kind, type) and dataclasses.is_dataclass(kind):
        return of_dataclass(kind)
    return of_several(kind) if typing.get_origin(kind) in (list, dict, *UNIONS) else JSON


def of_several(kind: Any) -> "Serde[Any]":
    """Lists, mappings and options of these."""
    return Serde(to_json, lambda content: made(kind, from_json(content)), "application/json")


def is_model(kind: Any) -> bool:
    """Whether a type is a model of pydantic."""
    return isinstance(kind, type) and (hasattr(kind, "model_validate_json") or hasattr(kind, "parse_raw"))


def spelled(serde: "Serde[Any]", value: Any, what: str, is_handed_on: bool = True) -> bytes:
    """The bytes of a value; a TerminalError where it has none, or too many, since trying again makes it no other value. What is handed on
    to another invocation goes by a word, which takes three bytes for each that is no plain character."""
    try:
        content = serde.write(value)
    except TerminalError:
        raise
    except Exception as error:
        raise TerminalError(f"{what} cannot be written as {serde.content_type}: {told_of(error)}") from error
    return checked(content, what, is_handed_on)


def checked(content: bytes, what: str, is_handed_on: bool = True) -> bytes:
    if not stores.fits(content):
        raise TerminalError(f"{what} has {len(content):,} bytes: a value has at most {stores.MOST:,}", 413)
    if is_handed_on and not stores.fits_word(content):
        raise TerminalError(f"{what} is too long as a word: it has at most {2 * stores.MOST:,} bytes, where each that is no plain character counts as three", 413)
    return content
