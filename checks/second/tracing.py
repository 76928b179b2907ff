"""The events of a run by the second model, as `tdx-view trace SCRIPT --json` tells them."""

import program
from bundles import bundles_of
from machine import EXCLUSIVELY, lock_name
from reports import KEY_BYTES
from scripts import read


# The files that a run takes in, but for the report key: no event shows a report.
INPUTS = tuple(option for option in program.INPUTS if option != "--report-key")


def lines_of_calls(text):
    """The line in the file of each call, by processor and by its number in the block."""
    found, block = {}, None
    for place, line in enumerate(text.decode("latin-1").split("\n"), 1):
        first, *rest = line.split() or ["#"]
        if first == "lp":
            block, number = int(rest[0], 0), 0
        elif first in ("end", "code"):
            block = None
        elif block is not None and not first.startswith("#"):
            number += 1
            found[block, number] = place
    return found


def turns_of(processors, schedule):
    """The processors whose events come, in their order: by the schedule, and then each to its end."""
    for number in schedule:
        yield processors[number]
    for processor in processors:
        while not processor.has_ended():
            yield processor


def events_of(script, lines, processors):
    """What each event is."""
    count = 0
    for processor in turns_of(processors, script.schedule):
        if processor.has_ended():
            continue
        made = processor.made
        processor.event()
        count += 1
        what, lock, weight, more = processor.seen
        event = {"event": count, "processor": processor.number, "line": made + 1}
        event |= {"script_line": lines[processor.number, made + 1], "call": processor.calls[made][0], "what": what}
        if lock is not None:
            event["lock"] = lock_name(lock)
        if what in ("try", "denied"):
            event["mode"] = "exclusive" if weight == EXCLUSIVELY else "shared"
        event |= more
        if processor.made > made:
            event["reply"] = processor.replies[made][0]
        yield event


def given(words, load):
    """The bytes of the script that these words name, the script, and the processors of its run with their input files. No
    bundle is sealed, so keys are needed beside a container alone, and no report is shown."""
    (name,), options = program.options_of(words)
    text = program.loaded(name, load)
    script = read(text)
    files = {option: program.loaded(options[option], load) for option in INPUTS if option in options}
    if "--bundles" in files:
        files["--bundles"] = bundles_of(files["--bundles"])
    else:
        files = {"--bundles": {}, "--keys": bytes(64), **files}
    files["--report-key"] = bytes(KEY_BYTES)
    return text, script, program.processors_of(script, program.outside_of(script, files))


def trace_of(words, load):
    """The events of the run of these words, or their fault."""
    text, script, processors = given(words, load)
    return events_of(script, lines_of_calls(text), processors)
