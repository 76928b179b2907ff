"""Random command lines, in form and faulty, and how one is written."""

from program import COMMANDS, INPUTS, OPTIONS, OPTIONS_OF, SIDES, WORDS, Ended, options_of

FILES = ("script", "secrets", "keys", "bundles")
# Names that begin with a dash, or are nothing else, and that are there: each is a script.
DASHED = ("-x", "--", "--keys", "--keys=k")
# What an option may name, and what it may not where it stands in a word of its own.
OUTPUTS = ("made", "guest", "-", "=", "a b", "-new", "--new=")
ODD = ("-", "", "none", "script", *DASHED)
# The ways of writing a command line that are to be reached, and whether it may be in form then.
FORMS, FAULTY = ("faulty", "in form"), ("faulty",)
WAYS = {
    "an option and its value in one word": FORMS,
    "an empty value behind =": FORMS,
    "a value behind = that begins with a dash": FORMS,
    "an option and its value in two words": FORMS,
    "a value of its own that begins with a dash": FAULTY,
    "a lone dash": FORMS,
    "an option twice": FAULTY,
    "another option": FAULTY,
    "a word --": FORMS,
    "a word that begins with a dash behind --": FORMS,
}
# Files of reports and of keys, and others in their place.
REPORTS = ("report", "upper", "bare", "behind", "altered", "renamed", "letter", "empty", "far")
REPORT_KEYS = ("rkey", "rkey", "rkey", "other", "rkey47", "rkey49", "far")
NUMBERS = ("1", "2", "3", "4")
BAD_NUMBERS = ("0", "00", "02", "513", "1000", "+1", "-1", "1.", "0x1", "1e0", " 1", "1 ", "", "-", "18446744073709551617")


def option(chance, name, is_good):
    """An option in one word or two: with a value that it may have, or perhaps with none or another one."""
    value = chance.choice(OUTPUTS) if name not in INPUTS else name.removeprefix("--")
    if not is_good and chance.random() < 0.4:
        value = chance.choice((*ODD, None))
    if value is None:
        return [name]
    if (chance.random() < 0.5 and name in OPTIONS) or (is_good and value[:1] == "-" and value != "-"):
        return [f"{name}={value}"]
    return [name, value]


def line(chance, files):
    """The words of a command line that is in form, or nearly, and by which each of these files stays."""
    words = any_line(chance)
    while writes_over(words, files):
        words = any_line(chance)
    return words


def writes_over(words, files):
    """Whether a command line in form may write over one of these files, or to no name."""
    try:
        _, options = options_of(words[1:])
    except Ended:
        return False
    return any(options[name] in ("", *files) for name in options if name not in INPUTS)


def any_line(chance):
    """The words of a command line."""
    is_good = chance.random() < 0.5
    command = chance.choice((*COMMANDS, "replay", "run"))
    if not is_good and chance.random() < 0.05:
        command = chance.choice(("Replay", "help", "", "-", "--", "--help", "replay=", "script"))
    if command == "soak":
        return [command, *soak_words(chance, is_good)]
    if command == "verify":
        return [command, *verify_words(chance, is_good)]
    if command in SIDES:
        return [command, *side_words(chance, command, is_good)]
    names = chance.sample(OPTIONS, chance.randrange(4)) if command != "check" else []
    if not is_good and chance.random() < 0.4:
        names.append(chance.choice((*OPTIONS, "--key", "--out", "--help", "-h", "-V", "--Keys")))
    parts = [option(chance, name, is_good) for name in names]
    script = "script" if is_good or chance.random() < 0.6 else chance.choice(ODD)
    behind = chance.random() < 0.3
    if not behind:
        parts.insert(chance.randint(0, len(parts)), [script])
    elif chance.random() < 0.5:
        script = chance.choice(("script", *DASHED))
    words = [word for part in parts for word in part]
    if behind:
        words += ["--", script]
    if not is_good and chance.random() < 0.2:
        words.insert(chance.randint(0, len(words)), chance.choice((*ODD, *words)))
    return [command, *words]


def soak_words(chance, is_good):
    """What may follow `soak`."""
    words = [chance.choice(NUMBERS if is_good or chance.random() < 0.3 else BAD_NUMBERS)]
    if chance.random() < 0.3:
        words.insert(0, "--")
    elif not is_good and chance.random() < 0.3:
        words.insert(chance.randrange(2), chance.choice(("--keys", "--keys=keys", "2", "-", "-x", "--")))
    return words


def verify_words(chance, is_good):
    """What may follow `verify`."""
    words = [chance.choice(REPORTS), chance.choice(REPORT_KEYS)]
    if is_good:
        words = words if chance.random() < 0.9 else words[::-1]
    elif chance.random() < 0.5:
        words[chance.randrange(2)] = chance.choice(ODD)
    else:
        words.insert(chance.randrange(3), chance.choice(("--keys", "--keys=keys", "report", "-", "-x", "--")))
    if is_good and chance.random() < 0.3:
        words.insert(chance.randrange(3), "--")
    return words


def side_words(chance, command, is_good):
    """What may follow a command that runs modules side by side."""
    count = chance.choice(tuple(WORDS[command]))
    words = {"pair": ["script", "script", "plan", "keys"], "chain": ["keys", "plan", *["script"] * (count - 2)]}[command]
    names = chance.sample(OPTIONS_OF[command], chance.randrange(3))
    if not is_good:
        words[chance.randrange(len(words))] = chance.choice((*ODD, "reporting", "bad", "short"))
        names.append(chance.choice((*OPTIONS, "--key")))
        del words[: chance.choice((0, 0, 1, 9))]
    parts = [[word] for word in words]
    for name in names:
        parts.insert(chance.randint(0, len(parts)), option(chance, name, is_good))
    return [word for part in parts for word in part]


def ways(words):
    """The ways in which what follows a command is written, in the order of WAYS."""
    before = words[: words.index("--")] if "--" in words else words
    parts = [word.partition("=") for word in before]
    options = [name for name, _, _ in parts if name in OPTIONS]
    attached = [value for name, given, value in parts if given and name in OPTIONS]
    follow = [after for word, after in zip(before, words[1:]) if word in OPTIONS]
    found = (
        attached,
        "" in attached,
        any(value[:1] == "-" for value in attached),
        any(value[:1] not in ("", "-") for value in follow),
        any(value[:1] == "-" and value != "-" for value in follow),
        "-" in before,
        len(set(options)) < len(options),
        any(name[:1] == "-" and name not in ("-", *OPTIONS) for name, _, _ in parts),
        "--" in words,
        any(word[:1] == "-" for word in words[len(before) + 1 :]),
    )
    return [way for way, is_so in zip(WAYS, found) if is_so]


def reached(words, status):
    """How a command line is written, and whether it is in form."""
    form = "faulty" if status == 1 else "in form"
    yield f"line of {words[0] if words[:1] and words[0] in COMMANDS else 'no command'}: {form}"
    for way in ways(words[1:]):
        yield f"line with {way}: {form}"


def wanted():
    """What of this is to be reached."""
    names = {f"line of {command}: {form}" for command in COMMANDS for form in FORMS} | {"line of no command: faulty"}
    return names | {f"line with {way}: {form}" for way, forms in WAYS.items() for form in forms}
