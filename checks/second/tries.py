"""Gives cases to the model, and to the built program, several at a time."""

import itertools
import multiprocessing
import sys
from collections import namedtuple

import built
import program

# What is wanted is an answer, or None where the program is to answer what the model does; and lines that it has to have.
Case = namedtuple("Case", "name words files wanted lines", defaults=(None, ()))
SHOWN = 3  # so many cases that fail are shown
TOLD = 2000  # a line on standard error tells each time that so many cases were tried


MODEL, PROGRAM = "model", "program"
given = {}  # in a process that tries cases: the cases, and who answers them


def begin(cases, who):
    """Begins a process that tries cases."""
    given.update(cases=cases, who=who)


def of_model(words, files):
    """What the model answers to these words."""
    status, text, saved, _ = program.answer(words, files.get)
    return built.Answer(status, built.whole_text(text, saved))


def faults(place):
    """Who answers the case at that place otherwise than is wanted, and how."""
    case, answers = given["cases"][place], {}
    if MODEL in given["who"] or case.wanted is None:
        answers[MODEL] = of_model(case.words, case.files)
    if PROGRAM in given["who"]:
        answers[PROGRAM] = built.answer(case.words, case.files)
    wanted = case.wanted or answers[MODEL]
    missing = set(case.lines) - set(wanted.text.split("\n"))
    if missing:
        wanted = built.Answer(wanted.status, "".join(f"{line}\n" for line in case.lines))
    return [(who, answer, wanted) for who, answer in answers.items() if answer != wanted]


def show(case, who, answer, wanted):
    """Prints a case that fails."""
    print(f"FAILED {case.name}: tdx {' '.join(case.words)}: the {who} answers status {answer.status}, and {wanted.status} is wanted")
    lines = itertools.zip_longest(answer.text.split("\n"), wanted.text.split("\n"))
    for got, its in [pair for pair in lines if pair[0] != pair[1]][:SHOWN]:
        print(f"  {got}\n  wanted: {its}")


def count(cases, who, processes):
    """Tries all cases, and prints what fails; answers how many passed, and how many failed."""
    if PROGRAM in who and not built.is_there():
        sys.exit("not built: ./build")
    passed = failed = 0
    with multiprocessing.Pool(processes, begin, (cases, who)) as pool:
        for place, found in enumerate(pool.imap(faults, range(len(cases)), 20)):
            passed, failed = passed + (not found), failed + bool(found)
            if found and failed <= SHOWN:
                show(cases[place], *found[0])
            if (passed + failed) % TOLD == 0:
                print(f"{passed + failed} of {len(cases)}, {failed} failed", file=sys.stderr)
    return passed, failed


def close(passed, failed):
    """Prints the last line of a check, and ends it."""
    print(f"{passed} passed, {failed} failed")
    sys.exit(failed > 0)


def words_of(arguments, *numbers):
    """Who is to answer, by the word `model` or `program`, or both; and the numbers behind it, with these where they aren't given."""
    who = [word for word in arguments[:1] if word in (MODEL, PROGRAM)]
    given_numbers = [int(word) for word in arguments[len(who) :]]
    return who or [MODEL, PROGRAM], *given_numbers, *numbers[len(given_numbers) :]
