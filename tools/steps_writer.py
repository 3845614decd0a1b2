"""The part of `tools/steps` that writes: the steps of one function, and the definitions of its loops."""
import difflib
import re

from steps_reader import Unread, is_failure, leaves, parts, shown

NUMBERS = {"u8", "u16", "u32", "u64", "usize"}
PLAIN = {"bool": "Bool", "Bytes": "Bytes", "ByteStr": "Text", "()": "Unit {0}"}
TESTS = {"==": "nat_eq {} {}", "!=": "not (nat_eq {} {})", "<": "nat_lt {} {}", "<=": "nat_le {} {}", ">": "nat_lt {1} {0}", ">=": "nat_le {1} {0}"}


def words(kind):
    """A Rust type as one of the language of specs."""
    kind = re.sub(r"^&(mut )?|'\w+ ?", "", kind.strip())
    if kind in NUMBERS:
        return "ℕ"
    for name, said in (("Option", "Option {}"), ("Vec", "List {}"), ("Sequence", "List {}")):
        if kind.startswith(f"{name}<"):
            return said.format(tight(words(kind[len(name) + 1 : -1])))
    if kind.startswith("Result<") and kind.endswith("TerminalFailure>"):
        return f"Result {tight(words(kind[7:-1].rsplit(',', 1)[0]))} TerminalFailure"
    return PLAIN.get(kind, kind)


def of_number(text):
    return re.fullmatch(r"[\d_]+", text) is not None


def tight(text):
    return f"({text})" if " " in text else text


class Writer:
    """Writes one function. A way on, `goes`, says what stands at the end of a block: ("tail",) its value, ("next", states) the round's end."""

    def __init__(self, file, told, params, gives):
        self.file, self.told, self.params, self.gives = file, told, params, gives
        self.types, self.loops, self.defined, self.until = dict(params), [], [], False
        self.line = None

    def use(self, word):
        self.file.used.add(word)
        return word

    def makes(self, it):
        """Whether it is steps: a method of the calls, or a function that is handed them."""
        while it[0] == "try":
            it = it[1]
        return it[0] == "call" and ((it[1] == ("name", "calls") and it[2] != "alloc") or ("name", "calls") in it[3])

    def at(self, it):
        """Notes the line of a statement, which an error tells."""
        self.line = getattr(it, "line", None) or self.line

    def no_steps(self, it):
        if it[1] is None:
            return Unread(f"`{it[2]}` has no `ensures` with `steps.Makes`, here or in a file that a line `use crate::FILE::{{..}};` names", it)
        near = difflib.get_close_matches(it[2], self.file.methods, 1)
        return Unread(f"`calls` has no method `{it[2]}`" + (f": `{near[0]}` is one" if near else ""), it)

    def steps(self, it):
        name = self.file.methods.get(it[2]) if it[1] else self.file.told.get(it[2])
        if name is None:
            raise self.no_steps(it)
        if it[1]:
            self.use(name)
        return " ".join([name, *(self.value(arg) for arg in it[3] if not self.is_alloc(arg))])

    def type_of(self, it):
        if it[0] == "num" or it[0] == "op":
            return "ℕ"
        if it[0] == "name":
            return self.types.get(it[1]) or ("Bool" if it[1] in ("true", "false") else None)
        if it[0] == "try":
            inner = self.type_of(it[1])
            of = re.fullmatch(r"Result (.*) TerminalFailure", inner or "")
            return re.sub(r"^\((.*)\)$", r"\1", of[1]) if of and it[1][0] == "try" else inner
        if it[0] == "call" and self.makes(it):
            return self.file.results.get(it[2]) if it[1] is None else self.file.signatures.get(self.file.methods.get(it[2]), (None, None))[1]
        if it[0] == "call" and it[1] is None:
            return self.file.results.get(it[2]) or ("Bytes" if it[2].startswith("Bytes::") else "Text" if it[2].startswith("ByteStr::") else None)
        return {"saturating_add": "ℕ", "is_for": "Bool"}.get(it[2]) if it[0] == "call" else None

    def is_alloc(self, it):
        return it in (("name", "alloc"), ("name", "calls")) or (it[0] == "call" and it[1] == ("name", "calls") and it[2] == "alloc")

    def value(self, it, is_tight=True):
        """A value, in brackets where it is an argument."""
        kind, wrap = it[0], (lambda text: f"({text})") if is_tight else (lambda text: text)
        if kind == "num":
            return it[1]
        if kind == "text":
            self.use("codes")
            return wrap(f"codes {it[1]}")
        if kind == "name":
            if it[1] == "None":
                return self.use("None")
            return {"()": "tt"}.get(it[1], it[1].split("::")[-1])
        if kind == "field":
            return f"{self.value(it[1])}.{it[2]}"
        if kind == "try":
            return self.value(it[1], is_tight)
        if kind == "list":
            self.use("[]"), self.use("◌∷◌")
            return wrap(" ∷ ".join([*map(self.value, it[1]), "[]"])) if it[1] else "[]"
        if kind == "not":
            return wrap(f"{self.use('not')} {self.value(it[1])}")
        if kind == "op" and it[1] in TESTS:
            for word in re.findall(r"nat_\w+|not", TESTS[it[1]]):
                self.use(word)
            return wrap(TESTS[it[1]].format(self.value(it[2]), self.value(it[3])))
        if kind == "op":
            self.use(f"◌{it[1]}◌")
            return wrap(f"{self.value(it[2])} {it[1]} {self.value(it[3])}")
        if kind == "if" and it[3] is not None and not it[2][1] and not it[3][1]:
            self.use("if◌then◌else◌")
            return wrap(f"if {self.value(it[1], False)} then {self.value(it[2][2])} else {self.value(it[3][2])}")
        if kind == "call":
            return self.called(it, wrap)
        raise Unread(f"no value is read of `{shown(it)}`: put it into a function of its own", it)

    def called(self, it, wrap):
        _, of, name, args = it
        if self.makes(it):
            raise Unread(f"`{name}` stands in an expression: give its value a name first, by `let`", it)
        if name.endswith("::from_static"):
            self.use("codes")
            return wrap("codes " + args[0][1])
        if name in ("Bytes::new", "ByteStr::new"):
            return self.use("[]")
        if name == "Moment::from_millis":
            self.use("◌*◌")
            return wrap(f"{self.value(args[0])} * 1_000_000")
        if name == "saturating_add":
            for word in ("min", "◌+◌", "◌-◌", "◌^◌"):
                self.use(word)
            return wrap(f"min ({self.value(of)} + {self.value(args[0])}) (2 ^ 64 - 1)")
        if of is not None and name == "is_for":
            return wrap(f"{self.use('is_for')} {self.value(of)} {self.value(args[0])}")
        if of is not None and name == "handle":
            return f"{self.value(of)}.handle"
        if of is not None and name in ("clone", "as_slice"):
            return self.value(of)
        if of is None:
            told = [self.value(arg) for arg in args if not self.is_alloc(arg)]
            if name in ("Some", "NonEmptyValue::Success", "NonEmptyValue::Failure"):
                self.use(name.split("::")[0])
                return wrap(" ".join([name.replace("::", "."), *told]))
            word = self.file.values.get(name)
            if word is None:
                raise Unread(f"`{name}` is no function of values whose `ensures` names a definition, here or in a file that a line `use crate::FILE::{{..}};` names", it)
            return wrap(" ".join([word, *told])) if told else word
        raise Unread(f"the method `{name}` is not read: put it into a function of values, with a definition", it)

    def bound(self, name, it, lines, pad):
        """A name for what steps or a value come to."""
        self.types[name] = self.types.get(name) or self.type_of(it)
        if it[0] == "try" and it[1][0] == "try" and self.makes(it):
            self.use("or_fail")
            lines += [f"{pad}brought ← {self.steps(it[1][1])}", f"{pad}{name} ← or_fail brought"]
        elif it[0] == "try" and self.makes(it):
            lines.append(f"{pad}{name} ← {self.steps(it[1])}")
        else:
            text, kind = self.value(it, False), ""
            if (text in ("[]", "None") or of_number(text)) and self.types[name]:
                self.file.names(self.types[name])
                kind = f" : {self.types[name]}"
            lines.append(f"{pad}let {name}{kind} = {text}")

    def hoisted(self, it, lines, pad):
        """A test or what is matched, with the calls in it made before."""
        if it[0] == "try" and self.makes(it):
            name = "holds" if self.type_of(it) == "Bool" else "brought"
            self.bound(name, it, lines, pad)
            return ("name", name)
        if it[0] == "op" and it[1] not in ("&&", "||") and it[2][0] == "try" and self.makes(it[2]):
            self.bound("found", it[2], lines, pad)
            return ("op", it[1], ("name", "found"), it[3])
        return it

    def enclosed(self, lines):
        return lines[0].strip() if len(lines) == 1 else f"({self.inner(lines)})"

    def inner(self, lines):
        return lines[0].strip() if len(lines) == 1 else "do\n" + "\n".join(lines)

    def branch(self, test, then, otherwise, pad):
        self.use("if◌then◌else◌")
        return [f"{pad}if {self.value(test, False)}", f"{pad}    then {self.enclosed(then)}", f"{pad}    else {self.enclosed(otherwise)}"]

    def given(self, it, pad):
        """The end of a function or of a `return`: a result, as steps."""
        if it[0] == "call" and it[1] is None and it[2] == "Ok":
            lines, of = [], it[3][0]
            if of[0] == "try" and self.makes(of):
                if of[1][0] == "try":
                    self.use("or_fail")
                    return [f"{pad}brought ← {self.steps(of[1][1])}", f"{pad}or_fail brought"], None
                return [f"{pad}{self.steps(of[1])}"], None
            return lines, self.value(of)
        if is_failure(it):
            return [f"{pad}{self.use('fail')} {self.value(it[3][0][3][0])}"], None
        if self.makes(it) and it[0] != "try":
            return [f"{pad}{self.steps(it)}"], None
        raise Unread(f"a function ends in `Ok(..)`, `Err(Stop::Failed(..))` or a call: not in `{shown(it)}`", it)

    def flowing(self, word, value):
        return f"({self.use(word)} {value})" if self.until else value

    def returned(self, it, pad):
        lines, value = self.given(it, pad)
        if value is not None:
            return [*lines, f"{pad}done {self.flowing('Leave', value)}"]
        if self.until and not is_failure(it):
            self.use("Leave")
            return [*lines[:-1], f"{pad}left ← {lines[-1].strip()}", f"{pad}done (Leave left)"]
        return lines

    def ended(self, goes, pad):
        if goes[0] == "unit":
            return [f"{pad}done tt"]
        state = self.state(goes[1])
        return [f"{pad}done {self.flowing('Next', state)}"]

    def state(self, names, path=""):
        return f"{path}{names[0]}" if len(names) == 1 else "(" + ", ".join(path + it for it in names) + ")" if names else "tt"

    def block(self, it, goes, indent):
        return self.run(list(it[1]), it[2], goes, indent)

    def run(self, statements, tail, goes, indent):
        """The lines of what is left of a block."""
        pad, lines = "  " * indent, []
        while statements:
            it = statements.pop(0)
            self.at(it)
            if it[0] == "let" and it[3][0] == "match":
                return lines + self.let_match(it, statements, tail, goes, indent)
            if it[0] == "let":
                if it[2]:
                    self.types[it[1]] = words(it[2])
                self.bound(it[1], it[3], lines, pad)
            elif it[0] == "set":
                lines.append(f"{pad}let {it[1]} = {self.value(it[2], False)}")
            elif it[0] == "continue":
                return lines + self.ended(goes, pad)
            elif it[0] == "for":
                more = self.loop(it, statements, tail, goes, lines, pad)
                if more is not None:
                    return more
            elif it[1][0] == "return":
                return lines + self.returned(it[1][1], pad)
            elif it[1][0] in ("if", "match"):
                more = self.middle(it[1], statements, tail, goes, lines, indent)
                if more is not None:
                    return more
            elif it[1][0] == "try" and self.makes(it[1]):
                lines.append(pad + self.steps(it[1][1]))
            elif not (it[1][0] == "call" and it[1][2] == "drop"):
                raise Unread(f"a statement is a call with `?`: not `{shown(it[1])}`", it[1])
        return lines + self.last(tail, goes, indent)

    def last(self, tail, goes, indent):
        pad = "  " * indent
        self.at(tail)
        if tail is None or (tail == ("name", "()") and goes[0] != "tail"):
            return self.ended(goes, pad) if goes[0] != "tail" else [f"{pad}done tt"]
        if tail[0] == "return":
            return self.returned(tail[1], pad)
        if tail[0] == "block":
            return self.block(tail, goes, indent)
        if tail[0] in ("if", "match"):
            lines = []
            more = self.middle(tail, [], None, goes, lines, indent)
            return more if more is not None else lines + self.ended(goes, pad)
        if goes[0] != "tail":
            return self.run([("do", tail)], None, goes, indent)
        lines, value = self.given(tail, pad)
        return lines if value is None else [*lines, f"{pad}done {value}"]

    def middle(self, it, statements, tail, goes, lines, indent):
        """An `if` or a `match`: what follows it stands in the one branch that goes on."""
        pad = "  " * indent
        bodies = [it[2], it[3] or ("block", [], None)] if it[0] == "if" else [body for _, body in it[2]]
        is_end = not statements and tail is None
        if not is_end and sum(not leaves(body) for body in bodies) > 1:
            raise Unread("two branches go on: put the choice into a function of its own")

        def on(body, deeper=3):
            if is_end or leaves(body):
                return self.block(body, goes, indent + deeper)
            ends = [] if body[2] is None else [("do", body[2])]
            return self.run([*body[1], *ends, *statements], tail, goes, indent + deeper)

        if it[0] == "if":
            test = self.hoisted(it[1], lines, pad)
            return lines + self.branch(test, on(bodies[0]), on(bodies[1]), pad)
        return lines + self.match(it, on, pad)

    def let_match(self, it, statements, tail, goes, indent):
        """`let x = match .. { Ok(x) => x, Err(failure) => return .. }`."""

        def on(body):
            if leaves(body):
                return self.block(body, goes, indent + 3)
            rest = [*body[1], ("let", it[1], it[2], body[2]), *statements]
            if body[2] == ("name", it[1]):
                rest = [*body[1], *statements]
            return self.run(rest, tail, goes, indent + 3)

        lines = []
        if sum(not leaves(body) for _, body in it[3][2]) > 1:
            raise Unread("two arms go on: put the choice into a function of its own")
        made = self.match(it[3], on, "  " * indent, lines)
        return lines + made

    def match(self, it, on, pad, before=None):
        of, arms = it[1], it[2]
        if self.makes(of) and of[0] != "try":
            return self.catch(of, arms, on, pad)
        lines = [] if before is None else before
        hoisted = self.hoisted(of, lines, pad)
        by = {p[2] if p[0] == "call" else p[1]: (p, body) for p, body in arms}
        if len(arms) == 2 and {"Ok", "Err"} == set(by):
            word, first, second = "by_result", by["Ok"], by["Err"]
        elif len(arms) == 2 and set(by) in ({"Some", "None"}, {"Some", "_"}):
            word, first, second = "by_option", by["Some"], by.get("None") or by["_"]
        else:
            raise Unread("a `match` is read over `Ok` and `Err`, over `Some` and `None`, or where it catches a failure")
        inner = self.type_of(of) or ""
        kind = re.fullmatch(r"(?:Option|Result) (\(.*\)|\S+)(?: TerminalFailure)?", inner)
        said = []
        for (pattern, body), is_some in ((first, True), (second, False)):
            name = pattern[3][0][1] if pattern[0] == "call" else None
            if name:
                self.types[name] = (kind[1].strip("()") if kind else None) if is_some else "TerminalFailure"
            text = self.inner(on(body))
            said.append(f"(λ {name}. {text})" if name else f"({text})")
        made = [f"{pad}{self.use(word)} {self.value(hoisted)}", f"{pad}    {said[0]}", f"{pad}    {said[1]}"]
        return made if before is not None else lines + made

    def catch(self, of, arms, on, pad):
        caught = [(p, body) for p, body in arms if is_failure(p)]
        fine = [(p, body) for p, body in arms if p[0] == "call" and p[2] == "Ok"]
        others = [(p, body) for p, body in arms if (p, body) not in caught and (p, body) not in fine]
        if len(caught) != 1 or any(body[1] or body[2] not in (p, ("return", p)) for p, body in others):
            raise Unread("a `match` that catches has an arm `Err(Stop::Failed(failure))`, and passes on all other stops")
        failure = caught[0][0][3][0][3][0][1]
        self.types[failure] = "TerminalFailure"
        if not fine:
            return [f"{pad}{self.use('on_failure')} ({self.steps(of)}) λ {failure}. {self.inner(on(caught[0][1], 1))}"]
        self.use("tried"), self.use("by_result")
        name = fine[0][0][3][0][1]
        self.types[name] = self.type_of(of)
        return [
            f"{pad}brought ← tried ({self.steps(of)})",
            f"{pad}by_result brought",
            f"{pad}    (λ {name}. {self.inner(on(fine[0][1]))})",
            f"{pad}    (λ {failure}. {self.inner(on(caught[0][1]))})",
        ]

    def loop(self, it, statements, tail, goes, lines, pad):
        """A loop, whose body is a definition of its own; with a `return` in it, so is what follows it."""
        _, name, low, high, body = it
        changed = [part[1] for part in parts(body) if part[0] == "set"]
        states = [known for known in self.types if known in changed]
        if any(part[0] == "for" for part in parts(body)):
            raise Unread("a loop stands in a loop: put the inner one into a function of its own")
        if ("name", name) not in list(parts(body)) and all(it[0] == "num" and not it[2] for it in (low, high)):
            raise Unread(f"nothing says of which type `{name}` is: write `{low[1]}..{high[1]}u64`")
        is_until = any(part[0] == "return" and not is_failure(part[1]) for part in parts(body))
        of, after = f"{self.told}-{name}", f"{self.told}-after"
        if self.loops:
            of, after = f"{of}-{len(self.loops) + 1}", f"{after}-{len(self.loops) + 1}"
        outer = dict(self.types)
        self.types[name], self.until = "ℕ", is_until
        written = self.block(body, ("next", states), 1)
        self.until, self.types = False, outer
        given = self.held([known for known in outer if known not in states and ("name", known) in list(parts(body))], outer)
        state_type = " × ".join(self.known(it, outer) for it in states) or "Unit {0}"
        flow = f"({self.use('Flow')} {tight(state_type)} {tight(self.gives)})" if is_until else tight(state_type)
        self.define(of, [*(self.known(it, outer) for it in given), "ℕ", tight(state_type)], f"Steps {flow}", [*given, name], states, written)
        start, word = self.state(states), self.use("for_until" if is_until else "for_rounds")
        ends = f"{self.value(low)} {self.value(high)}"
        self.loops.append((word, name, self.value(low), high, states, of, given, after, None))
        applied = tight(" ".join([of, *given]))
        if not is_until:
            if not states:
                lines.append(f"{pad}{word} {ends} tt {applied}")
            else:
                held = states[0] if len(states) == 1 else "state"
                lines.append(f"{pad}{held} ← {word} {ends} {start} {applied}")
                if len(states) > 1:
                    lines += [f"{pad}let {known} = state.{at}" for at, known in enumerate(states)]
            return None
        if goes[0] != "tail":
            raise Unread("a loop with a `return` stands in a branch that goes on")
        rest = self.run(list(statements), tail, goes, 1)
        left = ("block", statements, tail)
        more = self.held([known for known in outer if known not in states and ("name", known) in list(parts(left))], outer)
        self.define(after, [*(self.known(it, outer) for it in more), tight(state_type)], f"Steps {tight(self.gives)}", more, states, rest)
        self.loops[-1] = (word, name, self.value(low), high, states, of, given, after, more)
        return lines + [f"{pad}{word} {ends} {start} {applied} {tight(' '.join([after, *more]))}"]

    def held(self, names, types):
        """These names, where an invariant can speak of them: parameters, numbers and truths."""
        for name in names:
            if name not in dict(self.params) and types.get(name) not in ("ℕ", "Bool"):
                raise Unread(f"the loop, or what follows it, reads `{name}`: put them into a function that is handed it")
        return names

    def known(self, name, types):
        if not types.get(name):
            raise Unread(f"no type is known of `{name}`: write it, as `let {name}: u64 = ..`")
        return types[name]

    def define(self, name, types, gives, params, states, lines):
        opened = [f"  let {known} = state.{at}" for at, known in enumerate(states)] if len(states) > 1 else []
        for it in [*types, gives]:
            self.file.names(it)
        params = [*params, *(["state"] if len(states) != 1 else states)] if states is not None else params
        head = " ".join([name, *params])
        body = [*opened, *lines]
        self.defined.append(f"abbrev pub {name} : {' → '.join([*types, gives])}\n{head} = do\n" + "\n".join(body) + "\n")

    def invariants(self):
        for word, name, low, high, states, of, given, after, more in self.loops:
            path = {it: "l.fn." if it in dict(self.params) else "l." for it in [*given, *(more or [])]}
            bodies = [tight(" ".join([of, *(path[it] + it for it in given)]))]
            if more is not None:
                bodies.append(tight(" ".join([after, *(path[it] + it for it in more)])))
            end = f"l.{self.value(high)}" if high[0] == "name" else self.value(high)
            now, then = self.state(states, "l."), self.state(states, "l.initial.")
            rest = " ".join(bodies)
            yield of, after if more is not None else None, word, name, (
                f"abbrev pub invariant-loop-{name} : goal.invariant-loop-{name}\n"
                f"invariant-loop-{name} l =\n    {word} l.{name} {end} {now} {rest} l.calls\n"
                f"    ≡ {word} {low} {end} {then} {rest} l.initial.calls\n"
            )
