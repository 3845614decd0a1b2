"""The part of `tools/steps` that reads: the code of one function, as a tree."""
import re

TOKEN = re.compile(
    r"\s+|//[^\n]*|#\[(?:[^\[\]]|\[[^\]]*\])*\]|(?P<t>b?\"(?:[^\"\\]|\\.)*\"|[A-Za-z_]\w*!?(?:::(?:<[^>]*>|[A-Za-z_]\w*))*|\d[\d_]*(?:[iu](?:8|16|32|64|size))?"
    r"|=>|->|\.\.|&&|\|\||[-+*=!<>]=|.)",
    re.S,
)
RANKS = {"||": 1, "&&": 2, "==": 3, "!=": 3, "<": 3, "<=": 3, ">": 3, ">=": 3, "+": 4, "-": 4, "*": 5}


OF_VALUES = "put it into a function of values, with a definition"


class Unread(Exception):
    """What is not read, and the line where it stands, if that is known."""

    def __init__(self, why, of=None):
        super().__init__(why)
        self.line = getattr(of, "line", None)


class Part(tuple):
    """A part of the code, as a tuple, with the line where it begins."""

    line = None


def placed(read):
    """What a method reads, with the line where it has begun."""

    def reads(reader, *given):
        line = reader.line()
        part = Part(read(reader, *given))
        part.line = line
        return part

    return reads


def shown(it):
    """An expression, as its author wrote it, in short."""
    if it[0] == "call":
        return f"{shown(it[1]) + '.' if it[1] else ''}{it[2]}({', '.join(map(shown, it[3]))})"
    if it[0] == "try":
        return f"{shown(it[1])}?"
    if it[0] == "field":
        return f"{shown(it[1])}.{it[2]}"
    if it[0] == "op":
        return f"{shown(it[2])} {it[1]} {shown(it[3])}"
    return str(it[1]) if it[0] in ("name", "num", "text") else f"{it[0]} .."


class Reader:
    """Expressions are ("call", receiver or None, name, args), ("try", e), ("name", n), ("num", n, whether its type stands there), ("text", t), ("field", e, f),
    ("list", items), ("op", o, a, b), ("not", e), ("if", test, block, block or None), ("match", e, [(pattern, block)]), ("return", e) and
    ("block", statements, tail); statements ("let", name, type, e), ("set", name, e), ("do", e), ("for", name, low, high, block), ("continue",)."""

    def __init__(self, text, start=0):
        """Reads a text from this place in it on."""
        found = [it for it in TOKEN.finditer(text, start) if it.group("t")]
        self.tokens = [it.group("t") for it in found]
        self.starts, self.text, self.at = [it.start() for it in found], text, 0

    def line(self):
        """The line of the next token."""
        at = self.starts[min(self.at, len(self.starts) - 1)] if self.starts else 0
        return self.text.count("\n", 0, at) + 1

    def peek(self, ahead=0):
        return self.tokens[self.at + ahead] if self.at + ahead < len(self.tokens) else ""

    def next(self, wanted=None):
        token = self.peek()
        if wanted is not None and token != wanted:
            raise Unread(f"`{wanted}` is expected at `{' '.join(self.tokens[self.at : self.at + 8])}`")
        self.at += 1
        return token

    def takes(self, token):
        if self.peek() == token:
            self.at += 1
            return True
        return False

    @placed
    def expression(self, level=0):
        left = self.unary()
        while RANKS.get(self.peek(), 0) > level:
            token = self.next()
            left = ("op", token, left, self.expression(RANKS[token]))
        return left

    @placed
    def unary(self):
        if self.takes("!"):
            return ("not", self.unary())
        if self.peek() in ("&", "*"):
            self.next()
            self.takes("mut")
            return self.unary()
        it = self.primary()
        while True:
            if self.takes("?"):
                it = ("try", it)
            elif self.peek() == "as":
                self.next(), self.next()
            elif self.takes("."):
                name = self.next()
                it = ("call", it, name, self.items("(", ")")) if self.peek() == "(" else ("field", it, name)
            else:
                return it

    def items(self, opening, closing):
        self.next(opening)
        items = []
        while not self.takes(closing):
            items.append(self.expression())
            self.takes(",")
        return items

    @placed
    def primary(self):
        token = self.next()
        if token == "(":
            if self.takes(")"):
                return ("name", "()")
            it = self.expression()
            if self.peek() == ",":
                raise Unread(f"a tuple is not read: {OF_VALUES}")
            self.next(")")
            return it
        if token == "[":
            self.at -= 1
            return ("list", self.items("[", "]"))
        if token == "vec!":
            self.next("[")
            self.next("in")
            self.expression()
            self.next(";")
            self.at -= 1
            self.tokens[self.at] = "["
            return ("list", self.items("[", "]"))
        if token == "if":
            if self.peek() == "let":
                raise Unread("`if let` is not read: write a `match`")
            test, then = self.expression(), self.block()
            if not self.takes("else"):
                return ("if", test, then, None)
            return ("if", test, then, ("block", [], self.primary()) if self.peek() == "if" else self.block())
        if token == "match":
            return self.match()
        if token == "return":
            return ("return", None if self.peek() in (";", ",", "}") else self.expression())
        if token == "{":
            self.at -= 1
            return self.block()
        if token[0].isdigit():
            plain = re.sub(r"[iu](8|16|32|64|size)$", "", token)
            return ("num", plain, plain != token)
        if token.lstrip("b")[:1] == '"':
            return ("text", token.lstrip("b"))
        if self.peek() == "{" and token[0].isupper() and re.fullmatch(r"[a-z]\w*", self.peek(1)) and self.peek(2) == ":":
            raise Unread(f"a struct's value is not read, as of `{token}`: {OF_VALUES}")
        if re.fullmatch(r"[A-Za-z_][\w:<>]*", token):
            return ("call", None, token, self.items("(", ")")) if self.peek() == "(" else ("name", token)
        self.at -= 1
        if token in ("|", "||", "move"):
            raise Unread(f"a closure is not read: {OF_VALUES}")
        raise Unread(f"`{token}` is not read" + (f": {OF_VALUES}" if token in "/%<>^|-" else ""))

    @placed
    def match(self):
        of, arms = self.expression(), []
        self.next("{")
        while not self.takes("}"):
            pattern = self.primary()
            if self.peek() == "if":
                raise Unread("an arm with an `if` is not read: write the test into the arm")
            self.next("=>")
            body = self.block() if self.peek() == "{" else ("block", [], self.expression())
            self.takes(",")
            arms.append((pattern, body))
        return ("match", of, arms)

    @placed
    def block(self):
        self.next("{")
        statements = []
        while not self.takes("}"):
            it = self.statement()
            if it[0] == "tail":
                self.next("}")
                return ("block", statements, it[1])
            statements.append(it)
        return ("block", statements, None)

    @placed
    def statement(self):
        if self.takes("let"):
            self.takes("mut")
            name, kind = self.next(), ""
            if self.peek() == "(" or not re.fullmatch(r"[a-z_]\w*", name):
                raise Unread("a `let` gives a name to one value: of a pattern make a `match`")
            while self.peek() != "=":
                kind += self.next()
            self.next()
            of = self.expression()
            if of[0] == "call" and (of[1] == ("name", "calls") and of[2] != "alloc" or ("name", "calls") in of[3]):
                raise Unread(f"`{of[2]}` has no `?` behind it, by which a stop leaves the code: only a `match` may catch one", of)
            self.next(";")
            return ("let", name, kind.lstrip(":"), of)
        if self.takes("for"):
            name = self.next()
            self.next("in")
            low = self.unary()
            if not self.takes(".."):
                raise Unread(f"the loop over `{name}` goes over no numbers `a..b`")
            if self.peek() == "=":
                raise Unread("`..=` is not read: write `a..b`")
            return ("for", name, low, self.unary(), self.block())
        if self.takes("continue"):
            self.takes(";")
            return ("continue",)
        for word in ("while", "loop", "break"):
            if self.peek() == word:
                raise Unread(f"`{word}` is not read: write `for x in a..b`, and leave it by `return`")
        if self.peek(1) in ("=", "+=", "-=", "*="):
            name, sign = self.next(), self.next()
            of = self.expression()
            self.next(";")
            return ("set", name, of if sign == "=" else ("op", sign[0], ("name", name), of))
        it = self.expression()
        if self.takes(";") or (self.peek() != "}" and it[0] in ("if", "match")):
            return ("do", it)
        return ("tail", it)


def leaves(block):
    """Whether a block never reaches its end."""
    _, statements, tail = block
    last = ("do", tail) if tail is not None else (statements[-1] if statements else None)
    if last is None or last[0] == "continue":
        return last is not None
    it = last[1] if last[0] == "do" else None
    if it is None:
        return False
    if it[0] == "if":
        return it[3] is not None and leaves(it[2]) and leaves(it[3])
    return it[0] == "return" or (it[0] == "match" and all(leaves(body) for _, body in it[2]))


def parts(it):
    """All that stands in an expression, a statement or a block, with itself."""
    yield it
    for part in it:
        if isinstance(part, tuple):
            yield from parts(part)
        elif isinstance(part, list):
            for inner in part:
                yield from parts(inner)


def given_names(block):
    """The names that a block gives to values."""
    for it in parts(block):
        if it[0] in ("let", "for"):
            yield it[1]
        if it[0] == "match":
            yield from (name[1] for pattern, _ in it[2] for name in parts(pattern) if name[0] == "name")


def check_names(block, known):
    """Each name in a block is given there, or known before."""
    given = {*known, *given_names(block)}
    for it in parts(block):
        if it[0] != "name" or it[1] in given:
            continue
        if it[1] == "self":
            raise Unread("`self` is not read, for the steps are the same of each value of its type: take what differs from the input", it)
        if re.fullmatch(r"(?:\w+::)*[A-Z][A-Z0-9_]*", it[1]):
            raise Unread(f"`{it[1]}` is a constant: make it a function of values, whose `ensures` names a definition", it)
        if re.fullmatch(r"[a-z_]\w*", it[1]):
            raise Unread(f"nothing here gives `{it[1]}`", it)


def is_failure(it):
    return it and it[0] == "call" and it[2] == "Err" and it[3][0][0] == "call" and it[3][0][2] == "Stop::Failed"
