"""A nap: `hengomaru submit /tmp/naps.db nap:app n1 naps/nap`, and then `hengomaru worker /tmp/naps.db nap:app`."""
from datetime import timedelta

import hengomaru as hg

naps = hg.Service("naps")
app = hg.app([naps])


@naps.handler()
async def nap(ctx, argument):
    await ctx.sleep(timedelta(milliseconds=10))
    return "ok"
