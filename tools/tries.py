"""The locks that each call tries, read from the table of the flat machine's definitions (crates/flat_core/specs/Tries.antt).

Its lines are lists of locks with their modes, written by a few functions of the same file: each is followed, with the call's
arguments as they are named. Where the form isn't known here the tool ends with what is wrong."""

import re

from documents import demand, only, same
from outside import text_of

TRIES = "crates/flat_core/specs/Tries.antt"
ROWS = "crates/flat_core/specs/ImportRows.antt"
TOKEN = re.compile(r"\s*([A-Za-z_][\w']*(?:\.[A-Za-z_][\w']*)*|\.[a-z_]\w*|[0-9]+|\[\]|\+\+|==|∷|[(){}=;])")
LOCKS = {"OfOp": "O", "OfTree": "T", "OfEpoch": "E", "OfRtmrs": "R", "OfKeys": "K"}
MODES = {"Shared": "sh", "Exclusive": "ex"}
ENDS = (")", "}", ";", "in", "then", "else", "++", "∷", "==", "=", None)


def tokens_of(text):
    """The words of an equation."""
    found, at = [], 0
    while at < len(text.rstrip()):
        its = TOKEN.match(text, at)
        demand(its, f"{TRIES} has no known form: {text[at:].strip()[:60]}")
        found.append(its[1])
        at = its.end()
    return found


class Reader:
    """Reads an expression, as nested lists that begin with what they are."""

    def __init__(self, tokens):
        self.tokens, self.at = tokens, 0

    def next(self):
        return self.tokens[self.at] if self.at < len(self.tokens) else None

    def take(self, wanted=None):
        got = self.next()
        demand(got is not None and wanted in (None, got), f"{TRIES}: {got} in the place of {wanted}")
        self.at += 1
        return got

    def whole(self):
        got = self.expression()
        same(self.tokens[self.at:], [], f"what is left of an equation of {TRIES}")
        return got

    def expression(self):
        if self.next() == "let":
            self.take()
            name = self.take()
            self.take("=")
            given = self.expression()
            self.take("in")
            return ["let", name, given, self.expression()]
        if self.next() == "if":
            self.take()
            left = self.applied()
            self.take("==")
            right = self.applied()
            self.take("then")
            holds = self.expression()
            self.take("else")
            return ["if", left, right, holds, self.expression()]
        first = self.applied()
        if self.next() in ("∷", "++"):
            return [self.take(), first, self.expression()]
        return first

    def applied(self):
        parts = []
        while self.next() not in ENDS:
            parts.append(self.atom())
        demand(parts, f"{TRIES}: nothing stands before {self.next()}")
        return parts[0] if len(parts) == 1 else ["apply", *parts]

    def atom(self):
        word = self.take()
        if word == "(":
            inside = self.expression()
            self.take(")")
            while (self.next() or "").startswith("."):
                inside = ["field", inside, self.take()[1:]]
            return inside
        if word != "record":
            return ["name", word]
        fields, mark = {}, self.take("{")
        while mark != "}":
            name = self.take()
            self.take("=")
            fields[name] = self.expression()
            mark = self.take()
        return ["record", fields]


def equations_of(text):
    """The equations of each function of a file: its patterns, and what it is there."""
    code = re.sub(r"--[^\n]*", "", text)
    found = {}
    for line in re.split(r"\n(?=\S)", code):
        its = re.match(r"([a-z]\w*)((?: (?:[\w.]+|\([^()]*\)))*) =\s+(.*)", line, re.S)
        if its:
            patterns = [it.strip("()").split() for it in re.findall(r"\([^()]*\)|[\w.]+", its[2])]
            found.setdefault(its[1], []).append((patterns, Reader(tokens_of(its[3])).whole()))
    return found


class Tries:
    """The table of tries: of each call's variant the locks with their modes."""

    def __init__(self):
        chosen = [line for line in text_of(ROWS).splitlines() if line.startswith("filled_page ")]
        self.functions = equations_of("\n".join([text_of(TRIES), *chosen]))
        demand("tries_of" in self.functions, f"{TRIES} has no tries_of")
        lines = [(patterns[1], said) for patterns, said in self.functions["tries_of"] if len(patterns) == 3]
        self.calls = {call[0].removeprefix("call."): (call[1:], said) for call, said in lines}

    def of(self, variant, arguments):
        """The locks of a call with these arguments by their names in the call: of equal ones it has one word."""
        demand(variant in self.calls, f"{TRIES} has no line of {variant}")
        names, said = self.calls[variant]
        same(sorted(names), sorted(arguments), f"arguments of {variant} in {TRIES}")
        return [self.lock_of(it) for it in self.list_of(said, {**arguments, "w": "w", "o": "o"})]

    def list_of(self, said, known):
        its = self.value(said, known)
        demand(isinstance(its, list), f"{TRIES}: {its} is no list of locks")
        return its

    def value(self, said, known):
        kind = said[0]
        if kind == "name":
            return self.named(said[1], known)
        if kind == "record":
            return {name: self.value(its, known) for name, its in said[1].items()}
        if kind == "let":
            return self.value(said[3], {**known, said[1]: self.value(said[2], known)})
        if kind == "if":
            return self.value(said[3] if self.value(said[1], known) == self.value(said[2], known) else said[4], known)
        if kind == "field":
            return ("field", self.value(said[1], known), said[2])
        if kind == "∷":
            return [self.value(said[1], known), *self.list_of(said[2], known)]
        if kind == "++":
            return self.list_of(said[1], known) + self.list_of(said[2], known)
        demand(said[1][0] == "name", f"{TRIES} has no known form of a call of a function")
        return self.called(said[1][1], [self.value(it, known) for it in said[2:]])

    def named(self, name, known):
        first, _, field = name.partition(".")
        if name == "[]":
            return []
        if first in known:
            return ("field", known[first], field) if field else known[first]
        return self.called(name, [])

    def called(self, name, given):
        """What a function is of what it is given; of what nobody knows each that it may be."""
        may_be = []
        for patterns, said in self.functions.get(name, []):
            if len(patterns) != len(given):
                continue
            known, is_sure = {}, True
            for pattern, its in zip(patterns, given):
                if "." not in pattern[0]:
                    known[pattern[0]] = its
                elif isinstance(its, tuple) and its[0] == "field":
                    is_sure = False
                elif its != pattern[0]:
                    break
            else:
                may_be.append(self.value(said, known))
                if is_sure:
                    break
        if not may_be:
            return (name, *given) if given else name
        return may_be[0] if len(may_be) == 1 else ("or", *may_be)

    def lock_of(self, held):
        """A lock with its mode, as the documents write it."""
        demand(isinstance(held, dict) and held.get("mode") in MODES and "lock" in held, f"{TRIES} has no known lock {held}")
        lock, mode = held["lock"], held["mode"]
        if isinstance(lock, tuple) and lock[0] == "OfPage":
            return f"{' or '.join(f'P({it})' for it in pages_of(lock[1]))} {MODES[mode]}"
        name = lock[0] if isinstance(lock, tuple) else lock
        demand(name in LOCKS, f"{TRIES} has no known lock {lock}")
        return f"{LOCKS[name]} {MODES[mode]}"


def pages_of(page):
    """The names of the pages that one may be: an argument, that which an entry names, or a stream's."""
    if isinstance(page, str):
        return [page]
    if page[0] == "or":
        return sum(map(pages_of, page[1:]), [])
    if page[0] == "field" and page[2] == "page" and page[1][0] == "entry_at":
        return ["page"]
    demand(page[0] == "stream_page", f"{TRIES} has no known page {page}")
    return ["stream"]
