"""What the tools have of the outside: their words, the files that they read and write, the programs that they run,
and how they end.

What is wrong is told on standard error, behind the tool's name. The statuses are those of ./tdx: 1 where the words, or
what a file has, aren't these, 3 where a file can't be read, 4 where the output or a file can't be written. A signal
ends the tool with all that it has started, and leaves no file half written."""

import os
import signal
import subprocess
import sys
import threading

TOP = os.path.dirname(os.path.dirname(os.path.realpath(__file__)))
NAME = f"tools/{os.path.basename(sys.argv[0])}"
UNFIT, UNREAD, UNWRITTEN, NO_MEMORY, NOT_RUN = 1, 3, 4, 5, 127
MOST_BYTES = 1 << 24  # of a script

# The programs that run, the files that aren't whole yet, and the signal that has come.
STARTING, STARTED, UNFINISHED, SIGNALS = threading.Lock(), set(), set(), []


# The end.


def tell(what):
    """A line on standard error, where that takes one."""
    try:
        sys.stderr.write(f"{NAME}: {what}\n")
        sys.stderr.flush()
    except OSError:
        pass


def end(what, status=UNFIT):
    """Tells what is wrong, and ends the tool."""
    tell(what)
    sys.exit(status)


def demand(holds, what):
    if not holds:
        end(what)


def end_by_signal():
    """Ends what was started, takes away what is half written, and ends the tool."""
    for it in list(STARTED):
        it.terminate()
    for it in list(UNFINISHED):
        if os.path.lexists(it):
            os.unlink(it)
    os._exit(128 + SIGNALS[0])


def on_signal(number, _):
    """Notes the signal; whoever is just starting a program ends the tool behind that."""
    SIGNALS.append(number)
    if not STARTING.locked():
        end_by_signal()


def open_outputs():
    """Standard output and standard error as UTF-8 that takes every name. In the place of one that is closed stands
    what can't be written, or read, so that no other file gets its number."""
    for number, name, how in ((0, "/", os.O_RDONLY), (1, os.devnull, os.O_RDONLY), (2, os.devnull, os.O_WRONLY)):
        try:
            os.fstat(number)
        except OSError:
            os.open(name, how)
    sys.stdout, sys.stderr = (open(it, "w", encoding="utf-8", errors="surrogateescape", closefd=False) for it in (1, 2))


def run(main, text):
    """Runs a tool by its words, and ends in the status that it answers; behind --help it prints its text."""
    open_outputs()
    for it in (signal.SIGHUP, signal.SIGINT, signal.SIGTERM):
        if signal.getsignal(it) != signal.SIG_IGN:
            signal.signal(it, on_signal)
    words, status = sys.argv[1:], 0
    try:
        try:
            if "--help" in words[: words.index("--") if "--" in words else None]:
                print(text)
            else:
                status = main(words)
        except SystemExit as ended:
            status = ended.code
        sys.stdout.flush()
    except OSError as bad:
        tell(f"cannot write the output: {bad.strerror}")
        status = status or UNWRITTEN
    except MemoryError:
        tell("out of memory")
        status = NO_MEMORY
    os._exit(status)


# Words.


def words_of(words, options=(), flags=()):
    """Words without options and flags, and these with their values, by the rules of ./tdx: before the words or behind them,
    each once, an option's value behind it or behind `=`; and behind `--` none is one of them."""
    rest, values, left = [], {}, iter(words)
    for word in left:
        if word == "--":
            rest += left
        elif word == "-" or not word.startswith("-"):
            rest.append(word)
        else:
            name, is_given, value = word.partition("=")
            need(name in (*options, *flags), f"there is no option {name}")
            need(name not in values, f"{name} comes twice")
            if name in flags:
                need(not is_given, f"{name} takes no value")
            elif not is_given:
                value = next(left, "--")
                need(value == "-" or not value.startswith("-"), f"{name} has no value")
            values[name] = value
    return rest, values


def need(holds, what):
    """A rule of the words."""
    if not holds:
        end(f"{what}; {NAME} --help tells the words")


# Files.


def bytes_of(name, folder=""):
    """The bytes of a file, of one that is longer than a script may be so many and one more; or the end of the tool."""
    try:
        with open(os.path.join(folder, name), "rb") as file:
            return file.read(MOST_BYTES + 1)
    except OSError:
        end(f"cannot read {name}", UNREAD)


def text_of(name):
    """The text of a file of the repository."""
    try:
        return bytes_of(name, TOP).decode("utf-8")
    except UnicodeDecodeError:
        end(f"{name} isn't text")


def save(name, made):
    """Puts these bytes in the place of a file, all of them or none; until then they have a name that begins with a dot."""
    folder, its = os.path.split(name)
    new = f"{folder}/.{its}.{os.getpid()}"
    try:
        os.makedirs(folder, exist_ok=True)
        UNFINISHED.add(new)
        with open(new, "xb") as file:
            file.write(made)
        os.replace(new, name)
    except OSError as bad:
        if os.path.lexists(new):
            os.unlink(new)
        end(f"cannot write {name}: {bad.strerror}", UNWRITTEN)
    UNFINISHED.discard(new)


# Programs.


def ran(command, given=b""):
    """The status of a program that is given these bytes, and what it prints."""
    try:
        with STARTING:
            if SIGNALS:
                end_by_signal()
            child = subprocess.Popen(command, stdin=subprocess.PIPE, stdout=subprocess.PIPE)
            STARTED.add(child)
    except OSError as bad:
        end(f"cannot run {command[0]}: {bad.strerror}", NOT_RUN)
    if SIGNALS:
        end_by_signal()
    text, _ = child.communicate(given)
    STARTED.discard(child)
    return child.returncode if child.returncode >= 0 else 128 - child.returncode, text
