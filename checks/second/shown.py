"""The runs of which tdx_view's views are compared with the second model's."""

import os
import subprocess

import built
import generator
import program
from gallery import examples
from tracing import INPUTS

VIEW = os.path.join(built.TOP, "crates", "tdx_view", "out", "tdx_view")


def cases(count, seed):
    """The gallery's runs and so many of random scripts of that seed: the name of each, its words, and its files by name."""
    for name, (command, *words), files, _ in examples():
        if command == "replay":
            yield name, inputs_of(words), files
    kinds = range(8, generator.KINDS_OF_A_ROUND)
    for place in range(count):
        round_, at = divmod(place, len(kinds))
        ((_, *words),), files = generator.case(seed, round_ * generator.KINDS_OF_A_ROUND + kinds[at])
        yield f"random script {place}", inputs_of(words), files


def inputs_of(words):
    """These words without the files that are saved, and without the report key."""
    (name,), options = program.options_of(words)
    return [name, *(word for option in INPUTS if option in options for word in (option, options[option]))]


def by_program(words, files):
    """The lines that tdx_view answers to these words, in a folder with these files; where it ends in a fault its status too."""
    folder = built.folder_of(os.getpid())
    folder.look()
    folder.put(files)
    run = subprocess.run([VIEW, *words], cwd=folder.path, stdout=subprocess.PIPE, timeout=built.SECONDS, check=False)
    return [f"status {run.returncode}"] * (run.returncode != 0) + run.stdout.decode().splitlines()


def of_fault(fault):
    """The same of a fault of the model."""
    status, text = program.end_of(fault)
    return [f"status {status}", *text.splitlines()]


def is_built(which):
    """Whether tdx_view is built; else it is told that this check isn't tried."""
    if os.access(VIEW, os.X_OK):
        return True
    print(f"NOT TRIED {which}: {os.path.relpath(VIEW, built.TOP)} isn't built")
    print("0 passed, 0 failed")
    return False
