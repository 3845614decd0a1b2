"""A program in place of `durable` that is cut off at a request: a test tells which by a file. It hands lines on, one after the other.

The file CUT_FILE holds, as JSON: `at`, the request that is cut, from 1 on and over all processes; `how`; `seen`, how many there were; and
`words`, their first words. `how` is `before` (it ends, and the request was not asked), `after` (it ends behind it, without the answer),
`full` (S19, and it was not asked), `full after` (S19, and it is done all the same), or `all` (each of `word` is cut `before`). With `word` and `once` the next request of that word is cut.
"""
import json
import os
import stat
import subprocess
import sys
from pathlib import Path

MANY = {"show": ("open", "closed"), "answer": ("open", "closed"), "state": ("end",), "requests": ("end",), "list": ("end",)}


def write(file, told):
    """At once: who reads it meanwhile reads what was there before."""
    made = file.with_suffix(f".{os.getpid()}")
    made.write_text(json.dumps(told))
    made.replace(file)


class Cut:
    """The file by which a test tells where to cut, and hears what was asked."""

    def __init__(self, folder, real, **how):
        self.file, self.program = Path(folder, "cut.json"), Path(folder, "cut")
        self.program.write_text(f"#!/bin/sh\nCUT_FILE='{self.file}' CUT_PROGRAM='{real}' exec '{sys.executable}' -S '{__file__}' \"$@\"\n")
        self.program.chmod(self.program.stat().st_mode | stat.S_IXUSR)
        self.tell(**how)

    def tell(self, **how):
        write(self.file, {"at": 0, "how": "", "seen": 0, "words": [], **how})

    def told(self):
        return json.loads(self.file.read_text())


def main():
    file, real = Path(os.environ["CUT_FILE"]), subprocess.Popen([os.environ["CUT_PROGRAM"], *sys.argv[1:]], stdin=subprocess.PIPE, stdout=subprocess.PIPE)

    def answer(line):
        real.stdin.write(line)
        real.stdin.flush()
        last, lines = MANY.get(line.split(b" ", 1)[0].strip().decode(), ()), []
        while True:
            lines.append(real.stdout.readline())
            told = lines[-1].split(b" ", 1)[0].strip().decode()
            if not lines[-1]:
                sys.exit(real.wait())
            if not last or told in last or told in ("refused", "not"):
                return b"".join(lines)

    def end():
        real.kill()
        real.wait()
        os._exit(9)

    def tell(line):
        sys.stdout.buffer.write(line)
        sys.stdout.buffer.flush()

    for line in sys.stdin.buffer:
        told = json.loads(file.read_text())
        word = line.split(b" ", 1)[0].strip().decode()
        told["seen"] += 1
        told["words"].append(word)
        is_cut = word == told["word"] if told.get("word") else told["seen"] == told["at"]
        how = told["how"] if is_cut else ""
        if is_cut and told.get("once"):
            told["how"] = ""
        write(file, told)
        if how in ("before", "all"):
            end()
        if how == "full":
            tell(b"refused S19\n")
            continue
        came = answer(line)
        if how == "after":
            end()
        tell(b"refused S19\n" if how == "full after" else came)
    real.stdin.close()
    sys.exit(real.wait())


if __name__ == "__main__":
    main()
