"""All calls of docs/profile.md: their arguments, and their rows."""

import memory_rows
import migration_rows
import rows

ARGUMENTS = rows.ARGUMENTS | memory_rows.ARGUMENTS | migration_rows.ARGUMENTS
# The calls that are made with their last argument, or without it.
OPTIONAL = ("EXPORT.ABORT", *migration_rows.LISTS)
ROWS = rows.ROWS | memory_rows.ROWS | migration_rows.ROWS
OF_A_PROCESSOR = ("VP.ENTER", "VP.FLUSH")


def row(processor, name, arguments):
    """The row of a call: its arguments' rules at once, and then its line."""
    rows.check_arguments(processor.machine, name, ARGUMENTS[name], arguments)
    about = processor if name in OF_A_PROCESSOR else processor.machine
    return ROWS[name](about, *arguments)
