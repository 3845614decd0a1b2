"""Records, words of the store's process, names of invocations, and what futures together come to: none needs a program."""
import asyncio
import pathlib
import re
import unittest
from datetime import timedelta

from hengomaru import pb
from hengomaru.causes import CAUSES
from hengomaru.context import RunOptions
from hengomaru.delivery import awakeable_of, seed_of
from hengomaru.futures import Together
from hengomaru.machine import ALL_COMPLETED, ALL_SUCCEEDED, AT_LEAST, FAILURE, FIRST_COMPLETED, FIRST_SUCCEEDED, VALUE, nodes_of
from hengomaru.promises import brought
from hengomaru.serdes import from_json, to_json
from hengomaru.services import Service, Target, VirtualObject, Workflow, app, id_of, object_of, target_in, target_of
from hengomaru.store import Ending, Listed, Refused, Store, digits, escaped, read_answer, read_arrival, unescaped, value_word, word


class Refusals(unittest.TestCase):
    def test_each_says_what_the_formats_say(self):
        formats = pathlib.Path(__file__).parents[2] / "docs" / "FORMATS.md"
        self.assertEqual(CAUSES, dict(re.findall(r"^    ([A-Z]\d+) +(.+)$", formats.read_text(), re.MULTILINE)))

    def test_one_is_told_with_its_words(self):
        refused = Refused("S3", "invoke i1 o ..")
        self.assertEqual((refused.name, refused.says, str(refused)), ("S3", "id used before", "S3, id used before: invoke i1 o .."))


class Records(unittest.TestCase):
    def test_fields_are_read_as_they_are_written(self):
        written = pb.record((1, 300), (2, "é"), (3, [b"", b"\0"]), (4, None), (5, 2**64 - 1))
        self.assertEqual(pb.fields(written), [(1, 300), (2, "é".encode()), (3, b""), (3, b"\0"), (5, 2**64 - 1)])
        self.assertEqual(pb.record((1, 300)).hex(), "08ac02")

    def test_what_is_no_record_is_told(self):
        for broken in (b"\x0a", b"\x0a\x02a", b"\x08\x80", b"\x0d\0\0\0\0"):
            self.assertRaises(ValueError, pb.fields, broken)

    def test_a_failure_and_a_target(self):
        self.assertEqual(pb.read_failure(pb.failure(409, "no", {"k": "v"})), (409, "no", {"k": "v"}))
        self.assertEqual(pb.read_failure(b""), (0, "", {}))
        found = pb.fields(pb.call_target("s", "h", "k", None, {"a": "b"}))
        self.assertEqual([number for number, _ in found], [1, 2, 4, 5])
        self.assertEqual(pb.read_pairs(4, found), {"a": "b"})

    def test_frames(self):
        stream = bytes.fromhex("040c0000000000020801" + "0003000000000000")
        self.assertEqual([it[:2] for it in pb.frames(stream)], [(0x40C, b"\x08\x01"), (3, b"")])

    def test_a_tree_is_its_nodes_in_preorder(self):
        told = [(it.kind, it.number, it.required) for it in nodes_of((AT_LEAST, [17, (FIRST_COMPLETED, [18])], 2))]
        self.assertEqual(told, [(AT_LEAST, 2, 2), (0, 17, 0), (FIRST_COMPLETED, 1, 0), (0, 18, 0)])


class Words(unittest.TestCase):
    def test_each_byte_stands_in_a_word_and_is_read_back(self):
        every = bytes(range(256))
        self.assertEqual(unescaped(word(every)), every)
        self.assertTrue(all(0x21 <= ord(it) <= 0x7E for it in word(every)))

    def test_none_and_a_dash(self):
        self.assertEqual([word(""), word("-"), word("#1"), word("a b%")], ["-", "%2D", "%231", "a%20b%25"])
        self.assertEqual([unescaped("-"), unescaped("%2D"), digits("-"), digits("00ff")], [b"", b"-", b"", b"\0\xff"])

    def test_values(self):
        self.assertEqual([value_word(it) for it in (None, b"", "a b", (409, "no: 1"))], ["void", "v:", "v:a%20b", "f:409:no:%201"])
        self.assertEqual(read_arrival(2, "c1", "failure", "409", "6e6f").content, (409, "no"))
        self.assertEqual(read_arrival(2, "c1", "void").content, None)
        self.assertEqual([read_answer("none"), read_answer("value", "6f6b"), read_answer("failure", "5", "-")], [None, b"ok", (5, "")])
        self.assertEqual(escaped("é"), "%C3%A9")

    def test_json(self):
        self.assertEqual([from_json(to_json(it)) for it in (None, "é", [1, {"a": 2.5}])], [None, "é", [1, {"a": 2.5}]])
        self.assertEqual(from_json(b""), None)


class Answering(Store):
    """A store's process that answers so."""

    def __init__(self, *lines):
        super().__init__(":memory:", "none")
        self.lines, self.asked = lines, None

    async def ask(self, *words, last=()):
        self.asked = " ".join(map(str, words)), tuple(last)
        return [it.split(" ") for it in self.lines]


class Answers(unittest.TestCase):
    def told(self, call, asked, *lines):
        store = Answering(*lines)
        told = asyncio.run(call(store))
        self.assertEqual(store.asked, asked)
        return told

    def test_whether_one_is_due(self):
        self.assertEqual([self.told(lambda it: it.is_due("a b"), ("due a%20b", ()), line) for line in ("due", "due a%20b")], [False, True])

    def test_how_one_ends(self):
        asked = "answer i", ("open", "closed")
        ending = lambda *lines: self.told(lambda it: it.ending("i"), asked, *lines)
        self.assertEqual(ending("answer none", "open"), Ending(None, True))
        self.assertEqual(ending("answer value 6f6b", "closed"), Ending(b"ok", False))
        self.assertEqual(ending("answer failure 409 -", "closed"), Ending((409, ""), False))

    def test_what_is_listed(self):
        rows = self.told(lambda it: it.page("a", 2), ("list a 2", ("end",)), "invocation b o%25 ended 1 3 failure", "invocation c c due 0 1 none", "end")
        self.assertEqual(rows, [Listed("b", "o%", "ended", 1, 3, "failure"), Listed("c", "c", "due", 0, 1, "none")])
        self.assertEqual([it.went for it in rows], ["failed", "due"])


class Names(unittest.TestCase):
    def setUp(self):
        self.service, self.object, self.workflow = Service("s/1"), VirtualObject("o"), Workflow("w")
        self.app = app([self.service, self.object, self.workflow])

        @self.service.handler()
        async def h(ctx, arg):
            return arg

        @self.object.handler("put")
        async def o(ctx, arg):
            pass

        @self.workflow.main()
        async def main(ctx, arg):
            pass

        @self.workflow.handler()
        async def beside(ctx, arg):
            pass

        self.h, self.o, self.main, self.beside = h, o, main, beside

    def test_targets(self):
        self.assertEqual(target_of(self.h), Target("s/1", "h"))
        self.assertEqual(target_of("o/put/k/l"), Target("o", "put", "k/l"))
        self.assertEqual(target_of(("o", "put"), "k"), Target("o", "put", "k"))
        for it in (Target("s/1", "h"), Target("o", "put", "k")):
            self.assertEqual(target_in(it.headers()), it)
        self.assertIsNone(self.app.find(Target("o", "absent")))

    def objects(self, function, key):
        it = target_of(function, key)
        return object_of(self.app.find(it), it, "i1")

    def test_objects(self):
        told = [self.objects(self.h, None), self.objects(self.o, "k"), self.objects(self.main, "k/2"), self.objects(self.beside, "k")]
        self.assertEqual(told, ["i1", "o/k", "w/k%2F2", "w/k/~i1"])

    def test_ids(self):
        told = lambda function, key, idempotency: id_of(self.app.find(target_of(function, key)), target_of(function, key), idempotency)
        self.assertEqual([told(self.h, None, None), told(self.h, None, "a b"), told(self.main, "k", None)], [None, "s%2F1/h//a%20b", "w/k"])

    def test_an_awakeable(self):
        self.assertEqual(awakeable_of("sign_1aTEAAAAR"), ("i1", 17))
        self.assertRaises(ValueError, awakeable_of, "sign_1a")
        self.assertEqual(brought({2: pb.record((1, b"x"))}, None, 2, 3), b"x")
        self.assertEqual(brought({3: pb.failure(5, "no")}, None, 2, 3), (5, "no"))
        self.assertNotEqual(seed_of("a"), seed_of("b"))


class Told:
    """A future by what has come of it: a kind, or nothing."""

    def __init__(self, handle, kind):
        self.handle, self.kind = handle, kind

    def tree(self):
        return self.handle

    def is_completed(self):
        return self.kind is not None

    def has_failed(self):
        return self.kind == FAILURE


class Futures(unittest.TestCase):
    def together(self, kind, word, required=0):
        kinds = {"v": VALUE, "f": FAILURE, ".": None}
        return Together(kind, [Told(17 + at, kinds[it]) for at, it in enumerate(word)], required)

    def completed(self, kind, *words, required=0):
        return [self.together(kind, it, required).is_completed() for it in words]

    def test_when_several_have_come(self):
        self.assertEqual(self.completed(FIRST_COMPLETED, "...", ".f.", "v.."), [False, True, True])
        self.assertEqual(self.completed(ALL_COMPLETED, "v.f", "vfv"), [False, True])
        self.assertEqual(self.completed(FIRST_SUCCEEDED, "f.f", "f.v", "fff"), [False, True, True])
        self.assertEqual(self.completed(ALL_SUCCEEDED, "v.v", "vvf", "v.f", "vvv"), [False, True, True, True])
        self.assertEqual(self.completed(AT_LEAST, "v..", "vv.", "f.v", "ff.", required=2), [False, True, False, True])

    def test_the_tree_is_of_those_that_are_left(self):
        self.assertEqual(self.together(AT_LEAST, "v.f.", 3).tree(), (AT_LEAST, [18, 20], 2))
        self.assertEqual(self.together(ALL_COMPLETED, "v..").tree(), (ALL_COMPLETED, [18, 19]))

    def test_which_have_failed(self):
        failed = lambda kind, word, required=0: self.together(kind, word, required).has_failed()
        self.assertEqual([failed(FIRST_SUCCEEDED, "ff"), failed(ALL_SUCCEEDED, "vf"), failed(AT_LEAST, "vf", 2), failed(ALL_COMPLETED, "ff")], [True, True, True, False])

    def test_a_policy(self):
        policy = RunOptions(3, timedelta(seconds=2), retry_interval_factor=1.5, pause=True).policy
        told = policy.kind, policy.pause, policy.interval_millis, policy.factor_numerator, policy.factor_denominator, policy.max_duration_millis, policy.max_attempts
        self.assertEqual(told, (3, 1, 50, 3, 2, 2000, 3))


if __name__ == "__main__":
    unittest.main()
