"""What the tools read of the documents: their tables, the rows of the calls, and how many events a call has.

Nothing of it is kept here. Where a document hasn't the form that is known, the tool ends with what is wrong."""

import re

from outside import demand, text_of
from runs import number

PROFILE, EVENTS, LOCKS, REFUSALS = "docs/profile.md", "docs/events.md", "docs/generated/locks.md", "docs/refusals.md"
LOCK = r"(P\(\w+\)|O|T|E|R|K) (sh|ex)"


def only(pattern, text, what):
    """What the one match of a pattern has."""
    found = re.findall(pattern, text, re.S)
    demand(len(found) == 1, f"{len(found)} times {what}")
    return found[0]


def same(got, wanted, what):
    demand(got == wanted, f"{what}: {got}, and not {wanted}")


def section(file, heading):
    """What stands below a heading, up to the next one of its rank."""
    rank = re.match("#+", heading)[0]
    return only(rf"(?:^|\n){re.escape(heading)}\n(.*?)(?=\n#{{1,{len(rank)}}} |\Z)", text_of(file), f"{heading} in {file}")


def cells_of(line):
    """The cells of a line of a table."""
    return [cell.strip() for cell in re.split(r"(?<!\\)\|", line)[1:-1]]


def rows_below(part, head):
    """The rows of each table with that head."""
    found = re.findall(rf"\n\| {re.escape(head)} \|\n\|[-|]+\|\n((?:\|[^\n]*\n)+)", "\n" + part + "\n")
    tables = [[cells_of(line) for line in lines.splitlines()] for lines in found]
    for row in sum(tables, []):
        same(len(row), head.count("|") + 1, f"cells of {row}")
    return tables


def table(part, head):
    """The rows of the table with that head."""
    tables = rows_below(part, head)
    demand(len(tables) == 1, f"{len(tables)} times a table {head}")
    return tables[0]


def plain(text):
    """A text without links and marks."""
    text = re.sub(r"\[([^]]*)\]\([^)]*\)", r"\1", text)
    return re.sub(r"[*`]", "", text.replace("\\|", "|"))


def code_words(cell):
    """What a cell has in the type of code, each once."""
    return list(dict.fromkeys(re.findall(r"`([^`\s][^`]*)`", cell)))


def number_in(cell, what):
    """The number that a cell is."""
    demand(re.fullmatch("[0-9]{1,9}", cell.strip()), f"{what}: {cell} is no number")
    return int(cell)


# The rows of the calls.


class Step:
    """A condition or a try of a row: its text, the statuses by which it refuses, and its lock where it is a try."""

    def __init__(self, text, statuses, lock=None, mode=None):
        self.text, self.statuses, self.lock, self.mode = text, statuses, lock, mode


class Row:
    """The row of a call: its form, its steps in their order, and the value that it shows where it succeeds."""

    def __init__(self, form, steps, shows=""):
        demand(form, "a row of a call has no form")
        self.form, self.name, self.arguments, self.steps, self.shows = form, form.split()[0], form.split()[1:], steps, shows

    def is_given(self, words):
        """Whether a call line has as many arguments as this form."""
        return len(words) == len(self.arguments) + 1

    def fits(self, words):
        """Whether a call line with these words has this form: what is no name of an argument stands as it is."""
        named = {}
        return words[0] == self.name and self.is_given(words) and all(
            is_same(named.setdefault(argument, word) if is_argument(argument) else argument, word)
            for argument, word in zip(self.arguments, words[1:])
        )

    def value(self, argument, words):
        """The number that a call line gives for an argument, or None."""
        is_there = argument in self.arguments and is_argument(argument) and self.is_given(words)
        return number(words[self.arguments.index(argument) + 1]) if is_there else None


def is_same(word, other):
    """Whether two words of a script are the same word, or the same number."""
    return word == other or (number(word) is not None and number(word) == number(other))


def is_argument(word):
    return word.isupper() and word not in ("LIFE", "OP", "EPOCH", "MRTD")


class Profile:
    """The rows of docs/profile.md."""

    def __init__(self):
        calls = section(PROFILE, "## Calls")
        self.arguments = table(calls, "argument | range")
        self.ops = re.findall(r"([A-Z_]+) (\d+)", only(r"\n\| op state \| ([^|]*) \|", text_of(PROFILE), f"op states in {PROFILE}"))
        self.written = [forms_written(*row) for row in table(calls, "written | the condition | where it fails")]
        self.beginnings = beginnings(table(calls, "written | stands for, in order"))
        rows = sum(rows_below(calls, "call | conditions and tries | effect | value"), [])
        rows += sum(rows_below(calls, "call | conditions and tries | effect"), [])
        self.rows = [Row(row[0], self.steps_of(*row[:3]), *row[3:]) for row in rows]
        self.replies = Replies()
        demand(len(self.rows) > 40, f"only {len(self.rows)} rows of calls in {PROFILE}")

    def op_names(self, braces):
        """The names of the op states that braces give by their numbers."""
        ops = {int(place): name for name, place in self.ops}
        places = []
        for part in only(r"\A\{([0-9, to]+)\}", braces[0], f"op states of {braces[0]}").split(","):
            first, *last = map(int, part.split(" to "))
            places += range(first, (last or [first])[0] + 1)
        demand(ops.keys() >= set(places), f"{PROFILE} has no op states {braces[0]}")
        return " or ".join(", ".join(ops[place] for place in places).rsplit(", ", 1))

    def steps_of(self, form, cell, effect):
        """The steps of a row, with its beginning written out. Where op states are said of today, they are these."""
        today = re.search(r"\[Today\]\([^)]*\) (\{[0-9,]+\}) alone", effect)
        steps = [Step("the arguments' rules, one after the other", ["OPERAND_INVALID"])]
        for item in cell.split("; "):
            found = re.match(r"\*\*([^*]+)\*\*(.*)$", item)
            if not found:
                steps.append(self.step(item, form))
                continue
            demand(found[1] in self.beginnings, f"{PROFILE} doesn't say what **{found[1]}** of {form} stands for")
            steps += [self.step(it, form) for it in self.beginnings[found[1]]]
            if found[2]:
                demand(steps[-1].statuses == ["OP_STATE_INCORRECT"], f"**{found[1]}** doesn't end with the op state")
                ops = re.sub(r"\*\*[^*]*\*\* ?", "", found[2])
                ops = re.sub(r"\{[^}]*\}", today[1], ops) + ", today" if today else ops
                steps[-1] = Step("the op state is" + re.sub(r"\{[^}]*\}", self.op_names, ops), steps[-1].statuses)
        return steps

    def step(self, text, form):
        """A step, by what refuses there."""
        core = re.sub(r"^(where [^:]*: |in op state \d+ )", "", text)
        is_try = re.fullmatch(LOCK, core)
        if is_try:
            return Step(text, ["OPERAND_BUSY"], is_try[1], is_try[2])
        told = re.findall(r"else ([A-Z][A-Z_]+)", core)
        if told:
            return Step(text, told)
        if core.startswith("input of type "):
            return Step("the bundle at SLOT: there is one, its form, and an " + text, ["NO_BUNDLE", "BUNDLE_HEADER"])
        for patterns, means, status in self.written:
            for pattern in patterns:
                found = re.match(pattern, core)
                if found:
                    return Step(text + with_parts(means, found.groupdict()), [status])
        demand(False, f"{PROFILE} has no known form of the condition `{text}` of {form}")

    def row_of(self, words):
        """The row of a call line: that with its literal words, or the first with so many arguments."""
        fitting = [row for row in self.rows if row.fits(words)]
        return (fitting or [row for row in self.rows if row.name == words[0] and row.is_given(words)] or [None])[0]

    def answers(self, row, words, reply, is_whole=True):
        """Whether the call of a row may have that reply, or one that begins so."""
        status, *shown = reply.split() or [""]
        forms = self.replies.forms_of(row, status)
        return is_one_of(forms, shown, is_whole) and (status in ("SUCCESS", "EXIT") or bool(refusing(row, words, reply)))


def forms_written(written, means, fails):
    """The patterns of a condition's forms, what it means, and its status. A small letter stands for a part, and so
    does K behind another one."""
    forms = written.split(", ") if written.replace(", ", "").isupper() else [written]
    patterns = []
    for form in forms:
        pattern = re.escape(form).replace(re.escape("{states}"), r"\{[^}]*\}")
        pattern = re.sub(r"\\\(([a-z])\\\)", r"\\((?P<\1>[^)]*)\\)", pattern)
        pattern = re.sub(r"\\ ([a-zK])$", r"\\ (?P<\1>\\S.*)", pattern)
        patterns.append(pattern + r"(?![\w(])")
    status = re.match(r"[A-Z][A-Z_]+|the same", fails)
    demand(status, f"{PROFILE}: where `{written}` fails no status is told")
    if len(forms) > 1 or written.isupper():
        means = None
    return patterns, means, "EPT_ENTRY_STATE_INCORRECT" if status[0] == "the same" else status[0]


def with_parts(means, parts):
    """What a condition means, with what stands in the place of its letters."""
    if means is None:
        return ""
    for letter, part in parts.items():
        means = re.sub(rf"\b{letter}\b", part, means, count=1)
    return f": {plain(means)}"


def beginnings(rows):
    """The items of the shared beginnings of rows, by their names."""
    found = {}
    for written, stands in rows:
        name = only(r"\A\*\*([^*]+)\*\*", written, f"a name in {written}")
        replaced = re.match(r"the same with (\w+ \w+) in the place of (\w+ \w+)", stands)
        if replaced:
            demand(found, f"{PROFILE}: nothing stands before {written}")
            found[name] = [replaced[1] if item == replaced[2] else item for item in list(found.values())[-1]]
            same(found[name].count(replaced[1]), 1, f"{replaced[1]} in {name}")
        else:
            found[name] = stands.split(". ")[0].split("; ")
    return found


# What replies may be.


class Replies:
    """The forms of replies, each a pattern for every word behind the status."""

    def __init__(self):
        sets = table(section(PROFILE, "## Names and numbers"), "set | names, from number 0 | models")
        self.names = {of: "|".join(re.findall(r"\b[A-Z][A-Z_]+\b", cell)) for of, cell, _ in sets}
        shown = [row[1:3] for row in table(section(PROFILE, "## Replies"), "no. | status | shows | comes exactly where, in the order of the row")]
        self.refusals = {status: self.shown(shows) for status, shows in shown if status != "SUCCESS"}
        exits = [plain(row[0]) for row in table(section(PROFILE, "## Guest code"), "exit | exactly where")]
        self.exits = sum((self.exit_forms(text) for text in exits), [])

    def shown(self, shows):
        """The forms of what is shown: a name of a set or of these, a lock, or numbers."""
        if shows in self.names:
            return [[self.names[shows]]]
        if " or " in shows:
            return [["|".join(re.split(", | or ", shows))]]
        return LOCK_FORMS if shows == "lock" else [["[0-9]+"] * len(shows.split(", "))] if shows else [[]]

    def exit_forms(self, text):
        """The forms of an exit."""
        kinds = {"value": [["[0-9]+"]], "gpa": [["0x[0-9a-f]+"]], "lock": LOCK_FORMS}
        forms = [[]]
        for word in text.replace(" or ", "|").split():
            forms = [form + more for form in forms for more in kinds.get(word, [[word]])]
        return forms

    def value_forms(self, shows):
        """The forms of the value that a row shows."""
        kinds = {
            "": [[]], "the word": [["[0-9]+"]], "TD_EPOCH": [["[0-9]+"]], "MRTD": [["[0-9a-f]{96}"]],
            "kind, owner, BEPOCH": [[self.names["page kind"], "[0-9]+", "[0-9]+"]],
            "state, and the page where it isn't FREE": [["FREE"], [self.names["entry state"], "[0-9]+"]],
        }
        shows = shows.split("; ")[0]
        demand(shows in kinds or shows in self.names, f"{PROFILE} has no known form of the value `{shows}`")
        return kinds.get(shows) or self.shown(shows)

    def forms_of(self, row, status):
        """The forms of what a call shows behind that status, where it may have it."""
        enters = row.shows.startswith("EXIT")
        if status in ("SUCCESS", "EXIT"):
            return [] if enters == (status == "SUCCESS") else self.exits if enters else self.value_forms(row.shows)
        return self.refusals.get(status, [])


LOCK_FORMS = [["P", "[0-9]+"], ["[OTERK]"]]


def is_one_of(forms, words, is_whole):
    """Whether words have one of the forms, or begin so."""
    return any((len(words) == len(form) or (not is_whole and len(words) < len(form))) and all(map(re.fullmatch, form, words)) for form in forms)


# Which step of a row refused.


def refusing(row, words, reply):
    """The steps of a call's row that may answer a refusal, or one that begins so."""
    status, *shown = reply.split()
    steps = [step for step in row.steps if status in step.statuses]
    return NARROWER[status](row, words, steps, shown) if shown and status in NARROWER else steps


def by_place(row, words, steps, shown):
    """The rules of arguments, where there is one of that place."""
    return steps if any(f"{place}" == shown[0] and is_argument(it) for place, it in enumerate(row.arguments, 1)) else []


def by_lock(row, words, steps, shown):
    """Of the tries those of that lock: a page's by its number, which an argument or an entry has."""
    if shown[0] != "P":
        return [step for step in steps if step.lock == shown[0]]
    pages = [step for step in steps if step.lock.startswith("P(")]
    if shown[1:] and row.is_given(words):
        named = [step for step in pages if f"{row.value(step.lock[2:-1], words)}" == shown[1]]
        return named or [step for step in pages if step.lock[2].islower()]
    return pages


def by_page(row, words, steps, shown):
    """Of the conditions on a page's metadata those on the page that has this number."""
    if not row.is_given(words):
        return steps
    pages = [argument for argument in row.arguments if f"{row.value(argument, words)}" == shown[0]]
    return [step for step in steps if any(re.match(rf"is {it}\b|(free|own)\({it}\)|(where [^:]*: )?{it} isn't", step.text) for it in pages)]


def by_state(row, words, steps, shown):
    """Of the conditions on a state those that don't allow it; or allow it to some bundles alone."""
    return [step for step in steps if " where " in step.text or shown[0] not in re.findall("[A-Z_]+", step.text)]


def by_word(row, words, steps, shown):
    """Of the steps those that name what is shown; of a bundle's header else its form."""
    return [step for step in steps if re.match(rf"{shown[0]}\b", step.text)] or [step for step in steps if step.text.startswith("the bundle")]


def by_entry(row, words, steps, shown):
    """Of the conditions on an entry that it isn't FREE, or the others."""
    having = [step for step in steps if step.text.startswith("has a page")]
    return having if shown[0] == "FREE" and having else [step for step in steps if step not in having]


def by_counter(row, words, steps, shown):
    """Of the conditions on counters those on that one."""
    return [step for step in steps if shown[0] in step.text or (shown[0] == "MB" and step.text.startswith("room"))]


NARROWER = {
    "OPERAND_INVALID": by_place, "OPERAND_BUSY": by_lock, "PAGE_METADATA_INCORRECT": by_page, "BUNDLE_HEADER": by_word,
    "COUNTER_LIMIT": by_counter, "EPT_ENTRY_STATE_INCORRECT": by_entry, "LIFECYCLE_STATE_INCORRECT": by_state,
    "OP_STATE_INCORRECT": by_state,
}


# The numbers of events.


class Events:
    """How many events calls have, by docs/generated/locks.md, docs/events.md and the rows of docs/profile.md."""

    def __init__(self, profile):
        self.profile = profile
        rows = [(row[0], row[2], row[3].split(" + ")) for row in table(text_of(LOCKS), "call | locks, in order | n | events")]
        self.calls = [(Row(form, []), number_in(most, form), sum(number_in(it, form) for it in parts)) for form, most, parts in rows]
        self.operations = {}
        for names, _, events in table(text_of(EVENTS), "operation | locks, in order | events"):
            numbers = [int(it) for it in re.findall(r"(?<![A-Za-z] )\b\d+\b(?! -)", events)]
            demand(numbers, f"{EVENTS} has no number of events of {names}")
            walk = re.search(r"else (\d+) of the walk and (\d+) of the access", events)
            most = int(walk[1]) + int(walk[2]) if walk else max(numbers)
            for name in re.findall(r"`(\w+)`", names):
                self.operations[name] = max(most, self.operations.get(name, 0))

    def of_call(self, words, reply, lists=()):
        """How many events a call had by its reply, and at most so many of one that has entered a guest whose list is
        one of these, or that more than one condition of its row answers so."""
        status = reply.split()[0]
        fitting = [it for it in self.calls if it[0].fits(words)]
        demand(fitting, f"{LOCKS} has no row of {' '.join(words)}")
        _, most, events = min(fitting, key=lambda it: it[1])
        if status == "SUCCESS":
            return events
        if status == "EXIT":
            return events + max((sum(self.of_operation(it) for it in each) for each in lists), default=0)
        row = self.profile.row_of(words)
        steps = refusing(row, words, reply)
        demand(steps, f"no condition of {words[0]} answers {reply}")
        return max(self.at_step(row, step, status, most) for step in steps)

    def at_step(self, row, step, status, most):
        """How many events a call has that is refused at that step."""
        if step is row.steps[0] or "NO_BUNDLE" in step.statuses:
            return 1
        before = row.steps[: row.steps.index(step)]
        locks = min(sum(it.lock is not None for it in before), most - (status == "OPERAND_BUSY"))
        return 2 * locks + 1 + (status == "OPERAND_BUSY" and step.mode == "sh")

    def of_operation(self, words):
        """At most so many events of a guest's operation."""
        demand(words[0] in self.operations, f"{EVENTS} has no operation {words[0]}")
        return self.operations[words[0]]
