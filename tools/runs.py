"""What the tools have of scripts and of ./tdx: the calls of a script, and the replies of a run."""

import re

from outside import TOP, ran

TDX = TOP + "/tdx"
# The options of `tdx replay`, each with a value: files that it reads, of which `tdx-view` takes all but the last, and files
# that it writes.
VIEWED = ("--bundles", "--keys", "--secrets")
INPUTS, OUTPUTS = (*VIEWED, "--report-key"), ("--out-bundles", "--guest-out")


def lines_of(script):
    """The lines of a script's bytes."""
    return script.decode("ascii", "backslashreplace").split("\n")


def number(word):
    """The number that a word of a script is, or None."""
    its = re.fullmatch("0x([0-9A-Fa-f]+)|([0-9]{1,40})", word)
    return its and (int(its[1], 16) if its[1] else int(its[2]))


def blocks_of(lines):
    """The lines of a script's blocks that say something, each as (words of the block's first line, line in the script,
    words)."""
    block = None
    for at, words in enumerate(map(str.split, lines), 1):
        if not words or words[0].startswith("#"):
            continue
        if words[0] in ("lp", "code", "end"):
            block = words if len(words) > 1 and number(words[1]) is not None else None
        elif block is not None:
            yield block, at, words


def calls_of(lines):
    """The calls as (line in the script, number of the reply, words)."""
    counts = {}
    for block, at, words in blocks_of(lines):
        if block[0] == "lp":
            processor = number(block[1])
            counts[processor] = counts.get(processor, 0) + 1
            yield at, f"{processor}.{counts[processor]}", " ".join(words)


def lists_of(lines):
    """The lists of guest operations, each as its words, by the TDR page of its TD."""
    lists, last = {}, None
    for block, _, words in blocks_of(lines):
        if block[0] == "code":
            of_td = lists.setdefault(number(block[1]), [])
            if block is not last:
                of_td.append([])
            of_td[-1].append(words)
            last = block
    return lists


def words_for(options):
    """Options with their values as words of a command line."""
    return [f"{name}={value}" for name, value in options.items()]


def replay(script, options):
    """The status and the text of `./tdx replay` on a script's bytes, with these options and their values."""
    status, text = ran([TDX, "replay", "/dev/stdin", *words_for(options)], script)
    return status, text.decode("ascii", "backslashreplace")


def replies_of(text):
    """The replies that a run printed, by their numbers."""
    return dict(line.split(" ", 1) for line in text.splitlines())
