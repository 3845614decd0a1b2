#!/usr/bin/env python3
"""So many jobs, each of three runs whose bodies take so many seconds, by one worker of the Python package over a new file in FOLDER:

    PYTHONPATH=python bench/jobs.py COUNT SECONDS FOLDER

It prints the time by the clock, the processor's of the worker and of the store's process, and the requests of the store, a job.
"""
import asyncio
import collections
import os
import resource
import sys
import time

import hengomaru as hg
from hengomaru.store import Pipe

jobs = hg.Service("jobs")
asked = collections.Counter()
ask = Pipe.ask


def counted(self, line, last):
    asked[line.split(" ", 1)[0]] += 1
    return ask(self, line, last)


@jobs.handler()
async def three(ctx, argument):
    for name in "abc":
        await ctx.run(name, time.sleep, SECONDS)
    return argument


async def main(count, folder):
    ended = []
    worker = hg.Worker(os.path.join(folder, "jobs.db"), hg.app([jobs]), ended=lambda *told: ended.append(told))
    await worker.open()
    await asyncio.gather(*(worker.submit(f"i{number:06}", three, number) for number in range(count)))
    asked.clear()
    began, used = time.time(), time.process_time()
    await worker.run()
    took, used = time.time() - began, time.process_time() - used
    await worker.close()
    of_store = resource.getrusage(resource.RUSAGE_CHILDREN)
    assert len(ended) == count and not any(failure for _, _, failure in ended)
    print(f"{took:.1f} s by the clock; {used:.1f} s of the worker, {of_store.ru_utime + of_store.ru_stime:.1f} s of the store; {sum(asked.values()) / count:.1f} requests a job")


Pipe.ask = counted
COUNT, SECONDS, FOLDER = int(sys.argv[1]), float(sys.argv[2]), sys.argv[3]
asyncio.run(main(COUNT, FOLDER))
