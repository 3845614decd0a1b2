"""Where the program `durable` and the machine's library are: named by the environment, made in the clone that this package stands in, or brought
along by a wheel that was made there."""
import ctypes.util
import os
import shutil
from pathlib import Path
from typing import List, Optional

HERE = Path(__file__).resolve().parent
NAMES = {"library": "libhengomaru.so", "program": "durable"}
VARIABLES = {"library": "HENGOMARU_LIBRARY", "program": "HENGOMARU_DURABLE"}
# How each is made in a clone of the repository.
MAKES = {"library": "c/build", "program": "rt ci"}
HOW = """In a clone of the repository `rt ci` proves and builds the program, in an hour and a half on four cores, and behind it `c/build` the library,
in some minutes. `pip install ./python` then takes both along."""


def clone() -> Optional[Path]:
    """The clone of the repository that this package stands in, or None where it was installed."""
    top = HERE.parents[1]
    return top if (top / "c/hengomaru.h").is_file() else None


def places(what: str) -> List[Path]:
    top, name = clone(), NAMES[what]
    if top is None:
        return [HERE / "native" / name]
    left = [top / "crates/durable/out/durable"] if what == "program" else []
    return [top / "out" / name, *left]


def look_for(what: str) -> Optional[str]:
    """Its path, or None where it is nowhere."""
    told = os.environ.get(VARIABLES[what])
    if told:
        return told
    for path in places(what):
        if path.is_file() and (what == "library" or os.access(path, os.X_OK)):
            return str(path)
    return shutil.which(NAMES[what]) if what == "program" else ctypes.util.find_library("hengomaru")


def lacks() -> str:
    """What of the two is not there, and how it is had; empty where both are."""
    left = [it for it in NAMES if look_for(it) is None]
    lines = [f"there is no {NAMES[it]}: `{MAKES[it]}` makes it, or {VARIABLES[it]} tells where it is" for it in left]
    return "\n".join([*lines, HOW]) if left else ""


def find(what: str) -> str:
    """Its path; FileNotFoundError, which tells all that lacks, where there is none."""
    found = look_for(what)
    if found is None:
        raise FileNotFoundError(lacks())
    return found


def find_library() -> str:
    return find("library")


def find_program() -> str:
    return find("program")
