"""A shop: an order is reserved at the stock, paid and shipped; one that is cancelled, or not packed in time, undoes what it did.

    hengomaru submit /tmp/shop.db shop:app o1 order/place '{"item": "tea", "amount": 2}'
    hengomaru worker /tmp/shop.db shop:app

What reaches the world stands in the file that SHOP_LOG names, or shop.log, a line for each. What a kill leaves, where it comes:

    while a step waits (a sleep, a call, the packer)    nothing is lost: the next worker waits on for the same moment, or the same call
    before a payment                                    it is made by the next attempt, once
    behind a payment, and before its receipt is recorded  the payment may be made once more, by the same order: who takes it sees the same id
    behind that                                         no attempt pays again; each is told the receipt that is recorded
    while an order undoes what it did                   the next attempt undoes what is left
"""
import os
from datetime import timedelta

import hengomaru as hg

stock, order = hg.VirtualObject("stock"), hg.Service("order")
app = hg.app([stock, order])
PACKING = timedelta(milliseconds=float(os.environ.get("SHOP_PACKING", "300")))
LATE = timedelta(minutes=float(os.environ.get("SHOP_LATE", "10")))


def reach_world(line):
    """What is done outside, and cannot be taken back: here a line in a file, by one write."""
    file = os.open(os.environ.get("SHOP_LOG", "shop.log"), os.O_WRONLY | os.O_APPEND | os.O_CREAT)
    os.write(file, f"{line}\n".encode())
    os.close(file)
    return line


@stock.handler()
async def reserve(ctx, amount):
    left = await ctx.get("left")
    left = (10 if left is None else left) - amount
    if left < 0:
        raise hg.TerminalError(f"{ctx.key()} is sold out", 409)
    ctx.set("left", left)
    return left


@stock.handler()
async def release(ctx, amount):
    ctx.set("left", await ctx.get("left") + amount)


@order.handler()
async def pack(ctx, wanted):
    """Takes its time, and tells the order by a signal."""
    await ctx.sleep(PACKING)
    ctx.resolve_signal(wanted["order"], "packed", f"box of {wanted['amount']} {wanted['item']}")


@order.handler()
async def place(ctx, wanted):
    id, item, amount = ctx.request().id, wanted["item"], wanted["amount"]
    await ctx.call(reserve, amount, key=item)
    undo = [("release", lambda: ctx.call(release, amount, key=item))]
    try:
        receipt = await ctx.run("pay", reach_world, f"paid {id}")
        undo.append(("refund", lambda: ctx.run("refund", reach_world, f"refunded {id}")))
        ctx.send(pack, {"order": id, **wanted})
        name, box = await hg.select(packed=ctx.signal("packed"), late=ctx.sleep(LATE))
        if name == "late":
            raise hg.TerminalError("not packed in time", 504)
        await ctx.run("ship", reach_world, f"shipped {id}")
        return {"receipt": receipt, "box": box, "parcel": ctx.random().randint(1, 999_999)}
    except hg.TerminalError as error:
        for _, step in reversed(undo):
            await step()
        raise error
