#!/usr/bin/env python3
"""Files of so many jobs that have ended: how large each is, and what it takes to open it.

    PYTHONPATH=python bench/aged.py FOLDER slept|runs COUNT ..

One job that has slept once, or one of three runs and a sleep, is brought to its end in FOLDER, by the lines of the store's process; stock
SQLite copies its rows so often. It prints the size of each file, and of a process that opens it and answers one question: the seconds of the
processor, by the clock, and its memory.
"""
import asyncio
import os
import sqlite3
import subprocess
import sys
import time

from hengomaru import Store, pb
from hengomaru.services import Target
from hengomaru.store import find_program

RUN, PROPOSAL, SLEEP, OUTPUT, END = 0x0410, 0x0005, 0x040C, 0x0401, 0x0003
TEXT = b'"a text of some forty characters, such as this"'


async def made(file, runs):
    store, id = Store(file), "j000000000"
    text, answer = (TEXT, TEXT) if runs else (b"", b"ok")
    await store.open()
    await store.invoke(id, id, text, Target("jobs", "one").headers())
    await store.begin(id, 0)
    for at in range(1, runs + 1):
        await store.output(id, 1, pb.frame(RUN, pb.record((11, at), (12, "run"))))
        await store.output(id, 1, pb.frame(PROPOSAL, pb.record((1, at), (14, text))))
    await store.output(id, 1, pb.frame(SLEEP, pb.record((1, 10), (11, runs + 1))))
    await store.tick(10)
    told, _ = await store.output(id, 1, pb.frame(OUTPUT, pb.record((14, pb.record((1, answer))))) + pb.frame(END, b""))
    assert told[-1] == "ended", told
    await store.close()


def copied(source, file, count):
    """The rows of one invocation, so often, in order."""
    if os.path.exists(file):
        os.remove(file)
    rows = sqlite3.connect(source)
    rows.execute("vacuum into ?", (file,))
    rows.close()
    rows = sqlite3.connect(file)
    for it in ("journal_mode = off", "synchronous = off", "cache_size = -400000"):
        rows.execute(f"pragma {it}")
    [invocation], entries = rows.execute("select * from invocation").fetchall(), rows.execute("select * from entry order by place").fetchall()
    with rows:
        for table in ("invocation", "entry"):
            rows.execute(f"delete from {table}")
        for at in range(count):
            id = f"j{at:09}"
            rows.execute(f"insert into invocation values ({', '.join('?' * len(invocation))})", (id, id, *invocation[2:]))
            rows.executemany(f"insert into entry values ({', '.join('?' * len(entries[0]))})", [(id, *it[1:]) for it in entries])
    rows.execute("vacuum")
    rows.close()
    return len(entries)


def opened(file):
    began = time.monotonic()
    process = subprocess.Popen([find_program(), "--serve", file], stdin=subprocess.PIPE, stdout=subprocess.PIPE)
    process.stdin.write(b"next\n")
    process.stdin.close()
    told = process.stdout.read()
    _, status, used = os.wait4(process.pid, 0)
    assert (told, status) == (b"next none\n", 0), (told, status)
    return used.ru_utime + used.ru_stime, time.monotonic() - began, used.ru_maxrss / 1024


def main(folder, kind, counts):
    source = os.path.join(folder, f"{kind}-one.db")
    for it in ("", "-wal"):
        if os.path.exists(source + it):
            os.remove(source + it)
    asyncio.run(made(source, {"slept": 0, "runs": 3}[kind]))
    for count in counts:
        file = os.path.join(folder, f"{kind}-{count}.db")
        entries = copied(source, file, count)
        size, (used, took, held) = os.path.getsize(file), opened(file)
        print(f"{count:,} jobs of {entries} entries: {size / 1e6:.1f} MB; {used:.2f} s of the processor, {took:.2f} s by the clock, {held:.0f} MB held", flush=True)


main(sys.argv[1], sys.argv[2], list(map(int, sys.argv[3:])))
