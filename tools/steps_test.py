#!/usr/bin/env python3
"""What `tools/steps` writes of small handlers, and what it says of what it cannot read, with the line."""
import importlib.machinery
import importlib.util
import os
import sys
import tempfile
import unittest

sys.dont_write_bytecode = True
TOOLS = os.path.dirname(os.path.realpath(__file__))
sys.path.insert(0, TOOLS)
LOADER = importlib.machinery.SourceFileLoader("steps", f"{TOOLS}/steps")
steps = importlib.util.module_from_spec(importlib.util.spec_from_loader("steps", LOADER))
LOADER.exec_module(steps)

# The body of `run` begins at line 14.
HEAD = """//! A handler.
ghost use Rattle.straight_line.specs.Steps as steps;

use straight_values::later;

#[derive(Debug, Drop)]
pub struct Own;

impl StraightLine for Own {
    ghost use Rattle.own.specs.Handler.{own};

    ghost makes = { λ handler. own };

    fn run(&self, input: &Input, calls: &mut Calls) -> Told<Bytes> {
"""
VALUES = """ghost use Rattle.own.specs.Values as values;

pub fn limit() -> u64
    ensures { result ≡ values.limit }
{
    3
}
"""

# What cannot be read, in the line behind the head, and how that is told.
UNREAD = {
    "a constant": ("calls.sleep_until(later(&input.input, LIMIT))?;", "`LIMIT` is a constant: make it a function of values"),
    "a constant of a type": ("calls.sleep_until(later(&input.input, u64::MAX))?;", "`u64::MAX` is a constant"),
    "a field of the handler": ("calls.run(self.name)", "`self` is not read, for the steps are the same of each value of its type"),
    "a name that nothing gives": ("calls.sleep_until(later(&input.input, millis))?;", "nothing here gives `millis`"),
    "an if let": ("if let Some(value) = before { drop(value); }", "`if let` is not read: write a `match`"),
    "an arm with a test": ("match input.key { Some(key) if true => Ok(key), _ => Ok(Bytes::new()) }", "an arm with an `if` is not read"),
    "a let of a pattern": ("let (one, two) = both;", "a `let` gives a name to one value"),
    "a misspelt method": ("calls.slep_until(later(&input.input, 1))?;", "`calls` has no method `slep_until`: `sleep_until` is one"),
    "a method that is none": ("calls.frobnicate()?;", "`calls` has no method `frobnicate`"),
    "a function without steps": ("other(calls)?;", "`other` has no `ensures` with `steps.Makes`"),
    "a function of values without a definition": ("calls.sleep_until(soon(input))?;", "`soon` is no function of values whose `ensures` names a definition"),
    "a method of a value": ('calls.run(input.key.trim())', "the method `trim` is not read"),
    "a closure": ("calls.run(input.key.map(|key| key))", "a closure is not read"),
    "a call in an expression": ('calls.set(ByteStr::from_static("k"), calls.run(ByteStr::from_static("r"))?)?;', "`run` stands in an expression: give its value a name first"),
    "a loop that is none over numbers": ("while true { }", "`while` is not read: write `for x in a..b`"),
    "a loop over a list": ("for key in keys { }", "the loop over `key` goes over no numbers `a..b`"),
    "a statement that does nothing": ("input.check();", "a statement is a call with `?`: not `input.check()`"),
    "a statement without a `?`": ("calls.sleep_until(later(&input.input, 1));", "a statement is a call with `?`: not `calls.sleep_until"),
    "a call that has a name, without a `?`": ('let before = calls.get(ByteStr::from_static("k"));', "`get` has no `?` behind it"),
    "a stop that is swallowed": ('let _ = calls.run(ByteStr::from_static("pay"));', "`run` has no `?` behind it"),
    "an else of a let": ("let Some(value) = before else { return Ok(Bytes::new()); };", "a `let` gives a name to one value: of a pattern make a `match`"),
    "a quotient": ("calls.sleep_until(later(&input.input, 10 / 2))?;", "`/` is not read: put it into a function of values"),
    "a shift": ("calls.sleep_until(later(&input.input, 1 << 3))?;", "`<` is not read: put it into a function of values"),
    "a tuple": ("let both = (1, 2);", "a tuple is not read: put it into a function of values"),
    "a struct": ("let both = Pair { one: 1 };", "a struct's value is not read, as of `Pair`"),
    "a loop up to its last number": ("for round in 0..=3u64 { calls.sleep_until(later(&input.input, round))?; }", "`..=` is not read: write `a..b`"),
    "a loop without an end": ("loop { }", "`loop` is not read: write `for x in a..b`"),
    "a loop that is left": ("for round in 0..3u64 { break; }", "`break` is not read: write `for x in a..b`, and leave it by `return`"),
    "two branches that go on": ('if input.is_for("a") { calls.run(input.key)?; }\n        Ok(Bytes::new())', "two branches go on: put the choice into a function of its own"),
}

# What is read, and the lines of its steps.
READ = {
    "which handler is meant": (
        """if input.is_for("pay") {
            calls.run(ByteStr::from_static("pay"))
        } else {
            Ok(Bytes::new())
        }""",
        ['if is_for input (codes "pay")', 'then run_effect (codes "pay")', "else done []"],
    ),
    "a call": ('calls.run(ByteStr::from_static("pay"))', ['run_effect (codes "pay")']),
    "a value of the library": ("calls.sleep_until(later(&input.input, 5))?;\n        Ok(Bytes::new())", ["sleep_until (later input.input 5)", "done []"]),
    "a function of values for a constant": ("calls.sleep_until(later(&input.input, limit()))?;\n        Ok(Bytes::new())", ["sleep_until (later input.input limit)", "done []"]),
    "a failure that is caught": (
        """match calls.run(ByteStr::from_static("pay")) {
            Err(Stop::Failed(failure)) => {
                calls.run(ByteStr::from_static("refund"))?;
                Err(Stop::Failed(failure))
            }
            other => other,
        }""",
        ['on_failure (run_effect (codes "pay")) λ failure. do', 'run_effect (codes "refund")', "fail failure"],
    ),
    "what is read, or nothing": (
        """let before = calls.get(ByteStr::from_static("k"))?;
        match before {
            Some(value) => Ok(value),
            None => Ok(Bytes::new()),
        }""",
        ['before ← get (codes "k")', "by_option before", "(λ value. done value)", "(done [])"],
    ),
}


LOOP = """for round in 0..3u64 {
            calls.sleep_until(later(&input.input, round))?;
        }
        Ok(Bytes::new())"""


class Steps(unittest.TestCase):
    def setUp(self):
        room = tempfile.TemporaryDirectory()
        self.addCleanup(room.cleanup)
        self.top = room.name
        self.write("crates.txt", "own: straight_line straight_values\n")
        self.write("crates/own/src/values.rt", VALUES)

    def write(self, name, text):
        os.makedirs(os.path.dirname(f"{self.top}/{name}"), exist_ok=True)
        with open(f"{self.top}/{name}", "w", encoding="utf-8") as out:
            out.write(text)

    def source(self, body, name="handler"):
        """The file of a handler with this body."""
        head = HEAD.replace("use straight_values", "use crate::values::{limit};\nuse straight_values")
        self.write(f"crates/own/src/{name}.rt", f"{head}        {body}\n    }}\n}}\n")
        return f"{self.top}/crates/own/src/{name}.rt"

    def written(self, body, name="handler"):
        return steps.File(self.source(body, name)).written()

    def test_what_is_not_read_is_told_with_its_line(self):
        for what, (body, told) in UNREAD.items():
            with self.subTest(what), self.assertRaises(steps.Unread) as why:
                self.written(body)
            self.assertIn(told, str(why.exception), what)
            self.assertTrue(str(why.exception).startswith("16: `run`"), (what, str(why.exception)))

    def test_a_statement_in_an_arm_has_the_line_of_its_own(self):
        body = READ["a failure that is caught"][0].replace("calls.run(ByteStr::from_static(\"refund\"))", "calls.ran(ByteStr::from_static(\"refund\"))")
        with self.assertRaises(steps.Unread) as why:
            self.written(body)
        self.assertEqual(str(why.exception), "18: `run`: `calls` has no method `ran`: `run` is one")

    def test_what_is_read(self):
        for what, (body, lines) in READ.items():
            with self.subTest(what):
                (name, text), *loops = self.written(body)
                self.assertEqual((name, loops), ("specs/Handler.antt", []))
                self.assertEqual([it.strip() for it in text.split("own input = do\n")[1].strip().split("\n")], lines)

    def test_a_loop_has_an_invariant(self):
        (_, text), (name, invariants) = self.written(LOOP)
        self.assertIn("for_rounds 0 3 tt (own-round input)", text)
        self.assertEqual(name, "proofs/handler/OwnStraightLine/run/Invariants.antt")
        self.assertIn("invariant-loop-round", invariants)

    def test_what_a_root_file_has_stands_in_no_module(self):
        (specs, _), (name, invariants) = self.written(LOOP, "main")
        self.assertEqual((specs, name), ("specs/Main.antt", "proofs/OwnStraightLine/run/Invariants.antt"))
        self.assertIn("use Rattle.own.proofs.OwnStraightLine.run.Given as goal", invariants)

    def test_the_specs_name_each_file_once(self):
        self.write("crates/own/specs/Lib.antt", "pub mod Values\n")
        for _ in range(2):
            self.assertEqual(steps.main("--write", self.source(READ["a call"][0])), 0)
        with open(f"{self.top}/crates/own/specs/Lib.antt", encoding="utf-8") as listed:
            self.assertEqual(listed.read(), "pub mod Values\npub mod Handler\n")

    def test_steps_import_what_they_name(self):
        (_, text), *_ = self.written("calls.sleep_until(later(&input.input, limit()))?;\n        Ok(Bytes::new())")
        self.assertIn("use Rattle.straight_values.specs.Values.{later}", text)
        self.assertIn("use Rattle.own.specs.Values.{limit}", text)


if __name__ == "__main__":
    unittest.main()
