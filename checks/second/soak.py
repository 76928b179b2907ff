"""The soak of docs/profile.md: a TD of N pages that is moved, and the sum that its guest tells there."""

from machine import Outside

KEYS = bytes(range(64))
PAGE_BYTES = 4096
SUMMED = 100
FIRST_PAGE = 12
BEGIN = ("MNG.CREATE 1 1", "MNG.KEY.CONFIG 1", "MNG.ADDCX 1 2", "MNG.ADDCX 1 3")
TABLES = ("MEM.SEPT.ADD 1 0 3 9", "MEM.SEPT.ADD 1 0 2 10", "MEM.SEPT.ADD 1 0 1 11")
STREAMS = ("MIG.STREAM.CREATE 1 5", "MIG.STREAM.CREATE 1 6")


def words_of(count):
    """The first words of the pages: x(0) is N, and each follows from the one before."""
    words = [count]
    while len(words) < count:
        words.append((words[-1] * 6364136223846793005 + 1442695040888963407) % 2**64)
    return words


def script_of(count, calls):
    """A script of the soak with these calls."""
    code = [line for place in range(min(count, SUMMED)) for line in (f"load 1 {PAGE_BYTES * place}", "add 0 1")]
    lines = ["machine 1 1024 1", "code 1 0", *code, "vmcall 0", "end", "lp 0", *calls, "end"]
    return "".join(f"{line}\n" for line in lines).encode()


def source(count):
    """The script of the module that the TD leaves."""
    calls = [*BEGIN, "MNG.INIT 1", "VP.CREATE 1 4", "VP.INIT 1 4 0", *TABLES]
    for place, word in enumerate(words_of(count)):
        calls += [f"HOST.WRITE 0 0 {word}", f"MEM.PAGE.ADD 1 {PAGE_BYTES * place} {FIRST_PAGE + place} 0"]
    calls += ["MR.FINALIZE 1", *STREAMS, f"VP.ENTER 1 4 {min(count, SUMMED)}"]
    calls += ["EXPORT.STATE.IMMUTABLE 1 0", "EXPORT.PAUSE 1"]
    calls += [f"EXPORT.MEM 1 {PAGE_BYTES * place} {place % 2} {place + 1}" for place in range(count)]
    calls += [f"EXPORT.STATE.TD 1 {count + 1}", f"EXPORT.STATE.VP 1 4 {count + 2}", f"EXPORT.TRACK 1 {count + 3} 1"]
    return script_of(count, calls)


def destination(count):
    """The script of the module to which the TD comes."""
    calls = [*BEGIN, *STREAMS, "IMPORT.STATE.IMMUTABLE 1 0", "VP.CREATE 1 4", *TABLES]
    calls += [f"IMPORT.MEM 1 {place + 1} {FIRST_PAGE + place}" for place in range(count)]
    calls += [f"IMPORT.STATE.TD 1 {count + 1}", f"IMPORT.STATE.VP 1 4 {count + 2}", f"IMPORT.TRACK 1 {count + 3}"]
    return script_of(count, [*calls, "IMPORT.COMMIT 1", "VP.ENTER 1 4 65535", "IMPORT.END 1"])


def soak_line(count, read, replay):
    """The line of `soak N`, by those who read and replay a script."""
    first, second = read(source(count)), read(destination(count))
    made = replay(first, Outside(first.code, {}, KEYS))[0].machine.outside.outputs
    (told,) = replay(second, Outside(second.code, made, KEYS))
    reply, _ = told.replies[-2]
    return f"soak {count} bundles {len(made)} sum {reply.split()[-1]}\n"
