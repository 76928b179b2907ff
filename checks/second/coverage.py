"""What a run of many scripts is to reach: every refusal of every call, every exit, all that
can come of each guest operation, what becomes of cached translations, beside which guests memory is taken, how
many guests are in at once, every fault of a bundle that comes in, every reason of a script's fault, every status
of the program that its words and its script decide, and the ways of writing a command line."""

import command_lines
import features
from features import LATE_PAGES, LISTS
from scripts import BY_TOKEN, CALLS, REASONS, form_of

TD = "PAGE_METADATA_INCORRECT 1"
SECOND = "PAGE_METADATA_INCORRECT 2"
THIRD = "PAGE_METADATA_INCORRECT 3"
FOURTH = "PAGE_METADATA_INCORRECT 4"
ASSIGNED = "LIFECYCLE_STATE_INCORRECT TD_HKID_ASSIGNED"
CONFIGURED = "LIFECYCLE_STATE_INCORRECT TD_KEYS_CONFIGURED"
BLOCKED = "LIFECYCLE_STATE_INCORRECT TD_BLOCKED"
TEARDOWN = "LIFECYCLE_STATE_INCORRECT TD_TEARDOWN"
UNINITIALIZED = "OP_STATE_INCORRECT UNINITIALIZED"
INITIALIZED = "OP_STATE_INCORRECT INITIALIZED"
RUNNABLE = "OP_STATE_INCORRECT RUNNABLE"
LIVE = "OP_STATE_INCORRECT LIVE_EXPORT"
PAUSED = "OP_STATE_INCORRECT PAUSED_EXPORT"
POST = "OP_STATE_INCORRECT POST_EXPORT"
SESSION = (LIVE, PAUSED, POST)
MEMORY_IN = "OP_STATE_INCORRECT MEMORY_IMPORT"
STATE_IN = "OP_STATE_INCORRECT STATE_IMPORT"
ALL_IN = "OP_STATE_INCORRECT POST_IMPORT"
LIVE_IN = "OP_STATE_INCORRECT LIVE_IMPORT"
FAILED_IN = "OP_STATE_INCORRECT FAILED_IMPORT"
FILLING = (MEMORY_IN, STATE_IN)
FILLED = (ALL_IN, LIVE_IN, FAILED_IN)
IMPORT = (*FILLING, *FILLED)
WALKS = ("EPT_WALK_FAILED 3", "EPT_WALK_FAILED 2", "EPT_WALK_FAILED 1")
HEAD = (TD, ASSIGNED, BLOCKED, TEARDOWN, "TDCX_NUM_INCORRECT 0", "TDCX_NUM_INCORRECT 1")
EARLY = (*HEAD, UNINITIALIZED, INITIALIZED)
# Of a call that takes a bundle: what may be wrong before its TD is looked at, and what isn't that of the session.
FORM = ("NO_BUNDLE", *(f"BUNDLE_HEADER {name}" for name in ("SHORT", "SIZE", "VERSION", "TYPE", "RESERVED", "VALUE", "LENGTH")))
UNFIT = ("BUNDLE_HEADER SESSION", "BUNDLE_COUNTER", "BUNDLE_TAG")
UNDUE = (*UNFIT, "BUNDLE_HEADER EPOCH")


def states(*names):
    """The refusals of an entry in one of these states."""
    return tuple(f"EPT_ENTRY_STATE_INCORRECT {name}" for name in names)


EXPORTED = states("EXPORTED_BLOCKEDW", "EXPORTED_DIRTY", "EXPORTED_DIRTY_BLOCKEDW")

# By call, and by field for MNG.RD: which of its tries can be denied, and its other refusals. Where O is
# held exclusively T can't be busy. While memory comes in an entry is FREE or MAPPED, and no page comes later; and no
# script has calls enough for the last value of a counter.
REFUSALS = {
    "HOST.READ": ((1,), ()),
    "HOST.WRITE": ((1,), ("NOT_HOST",)),
    "PHYMEM.PAGE.RDMD": ((1,), ()),
    "PHYMEM.CACHE.WB": ((1,), ()),
    "PHYMEM.PAGE.RECLAIM": ((1, 2), (TD, SECOND, ASSIGNED, CONFIGURED, BLOCKED, "PAGES_EXIST")),
    "MNG.CREATE": ((1, 2), (TD, "HKID_NOT_FREE")),
    "MNG.KEY.CONFIG": ((1,), (TD, CONFIGURED, BLOCKED, TEARDOWN)),
    "MNG.ADDCX": ((1, 2), (TD, SECOND, ASSIGNED, BLOCKED, TEARDOWN, "TDCX_NUM_INCORRECT 2")),
    "MNG.INIT": ((1, 2), (*HEAD, INITIALIZED, RUNNABLE, *SESSION, *IMPORT)),
    "MNG.RD LIFE": ((1,), (TD,)),
    "MNG.RD OP": ((1, 2), HEAD),
    "MNG.RD EPOCH": ((1, 2, 3), (*HEAD, UNINITIALIZED)),
    "MNG.RD MRTD": ((1, 2), (*HEAD, UNINITIALIZED, INITIALIZED)),
    "MR.EXTEND": (
        (1, 2, 4), (*HEAD, UNINITIALIZED, RUNNABLE, *SESSION, *IMPORT, *WALKS, "EPT_ENTRY_STATE_INCORRECT FREE")
    ),
    "MR.FINALIZE": ((1, 2), (*HEAD, UNINITIALIZED, RUNNABLE, *SESSION, *IMPORT, "VCPU_STATE_INCORRECT CREATED")),
    "MNG.VPFLUSHDONE": ((1, 2), (TD, BLOCKED, TEARDOWN, "FLUSHVP_NOT_DONE")),
    "MNG.KEY.FREEID": ((1, 2), (TD, ASSIGNED, CONFIGURED, TEARDOWN, "CACHE_WB_NOT_DONE")),
    "VP.CREATE": ((1, 2, 3), (*HEAD, UNINITIALIZED, RUNNABLE, *SESSION, STATE_IN, *FILLED, SECOND, "LIMIT VCPUS")),
    "VP.INIT": ((1, 2, 3), (*HEAD, UNINITIALIZED, RUNNABLE, *SESSION, *IMPORT, SECOND, "VCPU_STATE_INCORRECT READY")),
    "MEM.SEPT.ADD": (
        (1, 2, 3, 4),
        (*HEAD, UNINITIALIZED, PAUSED, POST, FAILED_IN, *WALKS[:2], FOURTH, *states("NL_MAPPED", "NL_BLOCKED")),
    ),
    "MEM.SEPT.RD": ((1, 2, 3), (*HEAD, UNINITIALIZED, *WALKS)),
    "MEM.PAGE.ADD": (
        (1, 2, 4, 5),
        (*HEAD, UNINITIALIZED, RUNNABLE, *SESSION, *IMPORT, *WALKS, THIRD, FOURTH, "EPT_ENTRY_STATE_INCORRECT MAPPED"),
    ),
    "MEM.PAGE.AUG": (
        (1, 2, 3, 4),
        (*EARLY, PAUSED, POST, *IMPORT, *WALKS, THIRD,
         *states("MAPPED", "PENDING", "BLOCKED", "PENDING_BLOCKED", "BLOCKEDW"), *EXPORTED),
    ),
    "VP.ENTER": (
        (1, 2, 3, 4),
        (*EARLY, PAUSED, POST, *FILLING, ALL_IN, FAILED_IN, SECOND, "VCPU_STATE_INCORRECT CREATED", "VCPU_ASSOCIATED",
         "EXIT STOP", "EXIT MAX", "EXIT VMCALL", "EXIT EPT_VIOLATION READ", "EXIT EPT_VIOLATION WRITE", "EXIT BUSY P",
         "EXIT BUSY T", "EXIT BUSY R"),
    ),
    "VP.FLUSH": (
        (1, 2), (TD, ASSIGNED, BLOCKED, TEARDOWN, SECOND, "VCPU_NOT_ASSOCIATED", "VCPU_ASSOCIATED")
    ),
    "MEM.SEPT.REMOVE": (
        (1, 2, 3, 4, 5),
        (*EARLY, *SESSION, *IMPORT, *WALKS[:2], *states("FREE", "NL_MAPPED"), "SEPT_NOT_EMPTY", "TLB_TRACKING_NOT_DONE"),
    ),
    "MEM.PAGE.REMOVE": (
        (1, 2, 3, 4, 5),
        (*EARLY, *SESSION, *IMPORT, *WALKS, *states("FREE", "MAPPED", "PENDING", "BLOCKEDW"), *EXPORTED,
         "TLB_TRACKING_NOT_DONE"),
    ),
    "MEM.PAGE.RELOCATE": (
        (1, 2, 3, 4, 5, 6),
        (*EARLY, *SESSION, *IMPORT, *WALKS, *states("FREE", "MAPPED", "PENDING", "BLOCKEDW"), *EXPORTED, THIRD,
         "TLB_TRACKING_NOT_DONE"),
    ),
    "MEM.RANGE.BLOCK": (
        (1, 2, 3, 4, 5),
        (*EARLY, *SESSION, *IMPORT, *WALKS, *states("FREE", "BLOCKED", "PENDING_BLOCKED", "NL_BLOCKED", "BLOCKEDW"),
         *EXPORTED),
    ),
    "MEM.RANGE.UNBLOCK": (
        (1, 2, 3, 4, 5),
        (*EARLY, *SESSION, *IMPORT, *WALKS, *states("FREE", "MAPPED", "PENDING", "NL_MAPPED", "BLOCKEDW"), *EXPORTED,
         "TLB_TRACKING_NOT_DONE"),
    ),
    "MEM.TRACK": ((1, 2, 3), (*EARLY, PAUSED, POST, *IMPORT, "PREVIOUS_TLB_EPOCH_BUSY")),
    "MIG.STREAM.CREATE": ((1, 2, 3), (*HEAD, *SESSION, *IMPORT, SECOND, "LIMIT STREAMS")),
    "EXPORT.STATE.IMMUTABLE": ((1, 2, 3), (*EARLY, *SESSION, *IMPORT, "NO_STREAM 0", "UNRESTORED_PAGES")),
    "EXPORT.BLOCKW": (
        (1, 2, 3, 4, 5),
        (*EARLY, RUNNABLE, PAUSED, POST, *IMPORT, *WALKS, *states("FREE", "PENDING", "BLOCKED", "BLOCKEDW"), EXPORTED[0],
         EXPORTED[2]),
    ),
    "EXPORT.UNBLOCKW": (
        (1, 2, 3, 4),
        (*EARLY, RUNNABLE, PAUSED, POST, *IMPORT, *WALKS, *states("FREE", "MAPPED", "PENDING", "BLOCKED"), EXPORTED[1]),
    ),
    "EXPORT.MEM": (
        (1, 2, 3, 4, 5, 6),
        (*EARLY, RUNNABLE, POST, *IMPORT, "NO_STREAM 1", "NO_STREAM 2", "NO_STREAM 3", *WALKS,
         *states("FREE", "MAPPED", "PENDING", "BLOCKED", "PENDING_BLOCKED"), *EXPORTED[:2], "EXPORTED_THIS_EPOCH",
         "TLB_TRACKING_NOT_DONE"),
    ),
    "EXPORT.TRACK": ((1, 2), (*EARLY, RUNNABLE, LIVE, POST, *IMPORT, "STATE_MISSING", "DIRTY_PAGES")),
    "EXPORT.PAUSE": ((1, 2), (*EARLY, RUNNABLE, PAUSED, POST, *IMPORT)),
    "EXPORT.STATE.TD": ((1, 2), (*EARLY, RUNNABLE, LIVE, POST, *IMPORT, "ALREADY_EXPORTED")),
    "EXPORT.STATE.VP": ((1, 2, 3), (*EARLY, RUNNABLE, LIVE, POST, *IMPORT, SECOND, "ALREADY_EXPORTED")),
    "EXPORT.ABORT": ((1, 2), (*EARLY, RUNNABLE, POST, *IMPORT)),
    BY_TOKEN: ((1, 2), (*FORM, *EARLY, RUNNABLE, LIVE, PAUSED, *IMPORT, *UNFIT)),
    "EXPORT.RESTORE": (
        (1, 2, 3, 4),
        (*EARLY, *SESSION, *IMPORT, *WALKS, *states("FREE", "MAPPED", "PENDING", "BLOCKED", "PENDING_BLOCKED")),
    ),
    "IMPORT.STATE.IMMUTABLE": (
        (1, 2, 3), (*FORM, *HEAD, INITIALIZED, RUNNABLE, *SESSION, *IMPORT, "NO_STREAM 0", *UNDUE)
    ),
    "IMPORT.MEM": (
        (1, 2, 3, 4), (*FORM, *EARLY, RUNNABLE, *SESSION, *FILLED, "BUNDLE_HEADER STREAM", *UNDUE, *WALKS, THIRD)
    ),
    "IMPORT.TRACK": ((1, 2), (*FORM, *EARLY, RUNNABLE, *SESSION, MEMORY_IN, *FILLED, *UNDUE, "TOKEN_TOTAL")),
    "IMPORT.STATE.TD": ((1, 2), (*FORM, *EARLY, RUNNABLE, *SESSION, STATE_IN, *FILLED, *UNDUE)),
    "IMPORT.STATE.VP": (
        (1, 2, 3),
        (*FORM, *EARLY, RUNNABLE, *SESSION, MEMORY_IN, *FILLED, SECOND, "VCPU_STATE_INCORRECT READY", *UNDUE,
         "BUNDLE_HEADER INDEX"),
    ),
    "IMPORT.COMMIT": ((1, 2), (*EARLY, RUNNABLE, *SESSION, *FILLING, LIVE_IN, FAILED_IN)),
    "IMPORT.END": ((1, 2), (*EARLY, RUNNABLE, *SESSION, *FILLING, ALL_IN, FAILED_IN)),
    "IMPORT.ABORT": ((1, 2), (*EARLY, RUNNABLE, *SESSION, LIVE_IN, FAILED_IN)),
}
if features.has(LATE_PAGES):
    tries, refusals = REFUSALS["EXPORT.MEM"]
    REFUSALS["EXPORT.MEM"] = tries, tuple(its for its in refusals if its != POST)
    tries, refusals = REFUSALS["IMPORT.MEM"]
    late = *(its for its in refusals if its not in (ALL_IN, LIVE_IN)), *states("MAPPED")
    REFUSALS["IMPORT.MEM"] = tries, late
# Of a list: the tries of its pages, by their places in it, and of the stream behind them; and what becomes of lists alone.
OF_PAGES = ("its first page", "a page between", "its last page")
EXPORTS, IMPORTS = "EXPORT.MEM of a list", "IMPORT.MEM of a list"
if features.has(LISTS):
    tries, refusals = REFUSALS["EXPORT.MEM"]
    REFUSALS[EXPORTS] = (1, 2, 3, 4, *OF_PAGES, "its stream"), refusals
    tries, refusals = REFUSALS["IMPORT.MEM"]
    third = ("PAGE_METADATA_INCORRECT of its first page", "PAGE_METADATA_INCORRECT of a later page", "BUNDLE_HEADER COUNT")
    third += (LIVE_IN,) * features.has(LATE_PAGES)
    REFUSALS[IMPORTS] = (1, 2, 3, *OF_PAGES), (*(its for its in refusals if its != THIRD), *third)
SHOWN_WITHOUT_NUMBER = (
    "SUCCESS", "PAGES_EXIST", "FLUSHVP_NOT_DONE", "VCPU_ASSOCIATED", "PREVIOUS_TLB_EPOCH_BUSY", "SEPT_NOT_EMPTY",
    "STATE_MISSING", "DIRTY_PAGES", "UNRESTORED_PAGES", "NO_BUNDLE", "BUNDLE_COUNTER", "TOKEN_TOTAL",
)

# What can come of each guest operation. A private access is decided by a cached translation or by a walk.
ALLOWED = (
    "completed by a walk", "completed by a translation", "completed by a walk that drops the oldest translation",
    "completed by a walk whose way was made meanwhile",
)
GAPS = tuple(f"EPT_VIOLATION at level {level} FREE" for level in (3, 2, 1))
VIOLATIONS = (*GAPS, "EPT_VIOLATION at FREE", "EPT_VIOLATION at PENDING")
SHARED = ("completed", "BUSY P", *(f"EPT_VIOLATION at {place}" for place in ("no page", "its own TDVPR page", "a page of a TD")))
OPERATIONS = {
    "set": ("completed",),
    "secret": ("completed",),
    "add": ("completed",),
    "load private": (*ALLOWED, *VIOLATIONS),
    "store private": (*ALLOWED, *VIOLATIONS),
    "load shared": SHARED,
    "store shared": SHARED,
    "accept": (
        "completed at PENDING", "completed at MAPPED", *GAPS, "EPT_VIOLATION at FREE", "BUSY T", "BUSY P",
    ),
    "rtmr": ("completed", "BUSY R"),
    "report": ("completed", "BUSY R"),
    "vmcall": ("VMCALL",),
}
# What a guest meets where memory is blocked.
BLOCKED_WAYS = (
    *(f"EPT_VIOLATION at level {level} NL_BLOCKED" for level in (3, 2, 1)),
    "EPT_VIOLATION at BLOCKED", "EPT_VIOLATION at PENDING_BLOCKED",
)
USES = ("completed by a translation of a blocked entry", "completed by a walk with a block behind it")
BLOCKING = {
    "load private": (*USES, *BLOCKED_WAYS),
    "store private": (*USES, *BLOCKED_WAYS),
    "accept": BLOCKED_WAYS,
}
# What a guest meets in an export, and the bundles that are made.
OPEN, CLOSED = ("MAPPED", "EXPORTED_DIRTY"), ("BLOCKEDW", "EXPORTED_DIRTY_BLOCKEDW")
EXPORTING = {
    "store private": (
        *(f"EPT_VIOLATION at {state}" for state in ("BLOCKEDW", "EXPORTED_BLOCKEDW", "EXPORTED_DIRTY_BLOCKEDW")),
        "completed by a translation of an entry blocked for writing", "completed by a walk with a block for writing behind it",
    ),
    "accept": ("completed at BLOCKEDW", "completed at EXPORTED_BLOCKEDW", "completed at EXPORTED_DIRTY"),
    "bundles": tuple(f"made of type {kind}" for kind in range(7)),
    # At which state of an entry these calls succeed, and in which op state.
    "EXPORT.BLOCKW": tuple(f"SUCCESS at {state} in LIVE_EXPORT" for state in OPEN),
    "EXPORT.UNBLOCKW": tuple(f"SUCCESS at {state} in LIVE_EXPORT" for state in (*CLOSED, "EXPORTED_BLOCKEDW")),
    "EXPORT.MEM": (
        *(f"SUCCESS at {state} in LIVE_EXPORT" for state in CLOSED),
        *(f"SUCCESS at {state} in PAUSED_EXPORT" for state in (*OPEN, *CLOSED)),
    ),
    "EXPORT.RESTORE": tuple(f"SUCCESS at {state} in RUNNABLE" for state in (*CLOSED, "EXPORTED_BLOCKEDW", "EXPORTED_DIRTY")),
}
# The same of an import, with the op states in which guests are entered.
IMPORTING = {
    "IMPORT.MEM": tuple(f"SUCCESS at {state} in {op}" for state in ("FREE", "MAPPED") for op in ("MEMORY_IMPORT", "STATE_IMPORT")),
    "IMPORT.TRACK": ("SUCCESS of type 4 in MEMORY_IMPORT", "SUCCESS of type 4 in STATE_IMPORT", "SUCCESS of type 5 in STATE_IMPORT"),
    "IMPORT.ABORT": tuple(f"SUCCESS in {op}" for op in ("MEMORY_IMPORT", "STATE_IMPORT", "POST_IMPORT")),
    "VP.ENTER": tuple(f"entered in {op}" for op in ("RUNNABLE", "LIVE_EXPORT", "LIVE_IMPORT")),
}
if features.has(LATE_PAGES):
    EXPORTING["EXPORT.MEM"] += tuple(f"SUCCESS at {state} in POST_EXPORT" for state in ("MAPPED", "BLOCKEDW"))
    IMPORTING["IMPORT.MEM"] += tuple(f"SUCCESS at FREE in {op}" for op in ("POST_IMPORT", "LIVE_IMPORT"))
    OPERATIONS["load private"] += ("completed by a walk whose page came meanwhile",)
    OPERATIONS["store private"] += ("completed by a walk whose page came meanwhile",)
if features.has(LISTS):
    EXPORTING[EXPORTS] = EXPORTING["EXPORT.MEM"]
    came = *IMPORTING["IMPORT.MEM"], "PAGE_METADATA_INCORRECT of a page that it holds"
    IMPORTING[IMPORTS] = tuple(its for its in came if not its.endswith("LIVE_IMPORT"))
# Beside which guests of the TD memory is blocked and taken, and why a block isn't tracked.
BESIDES = ("SUCCESS without a guest", "SUCCESS beside a guest")
BEFORE = "SUCCESS beside a guest of the epoch before"
TAKING = (
    *BESIDES, BEFORE, "TLB_TRACKING_NOT_DONE in the epoch of the block",
    "TLB_TRACKING_NOT_DONE for a guest of the epoch before",
)
BESIDE_GUESTS = {
    "MEM.RANGE.BLOCK": (*BESIDES, BEFORE),
    "MEM.RANGE.UNBLOCK": TAKING,
    "MEM.PAGE.REMOVE": TAKING,
    "MEM.PAGE.RELOCATE": (
        *TAKING, "SUCCESS at BLOCKED", "SUCCESS at PENDING_BLOCKED", "PAGE_METADATA_INCORRECT of the entry's own page",
    ),
    "MEM.SEPT.REMOVE": TAKING,
    "EXPORT.MEM": TAKING,
    "MEM.TRACK": BESIDES,
    # What is cached of a TD on a processor. None that was removed or moved is kept: no page leaves a TD before that.
    "translations": (
        *(f"{what} {which}"
          for what in ("dropped for a new association", "dropped at a later epoch", "dropped by VP.FLUSH")
          for which in ("as the map says", "of a blocked page", "of a page that was removed", "where the map has another page")),
        "kept at an entry as the map says", "kept at an entry of a blocked page", "left of another TD",
    ),
    "guests at once": (*(f"{count}" for count in range(1, 9)), "of two TDs"),
}
if features.has(LISTS):
    BESIDE_GUESTS[EXPORTS] = TAKING
# Calls whose success is told by their exit.
ENTERS = ("VP.ENTER",)


# Who wants the key of reports.
KEYLESS = {f"{command}: report key file" for command in ("replay", "run", "verify")}
VERDICTS = {f"verify: {verdict}" for verdict in ("yes", "no LENGTH", "no HEX", "no MAGIC", "no MAC")}


def wanted():
    """All that is to be reached."""
    names = set()
    for call, (tries, refusals) in REFUSALS.items():
        kinds = CALLS.get(call) or CALLS[call.split()[0]]
        places = [place for place, kind in enumerate(kinds, 1) if kind not in ("value", "field", "input", "output")]
        names.update(f"{call}: OPERAND_INVALID {place}" for place in places)
        names.update(f"{call}: OPERAND_BUSY at {place if isinstance(place, str) else f'try {place}'}" for place in tries)
        names.update(f"{call}: {refusal}" for refusal in (*refusals, *("SUCCESS",) * (call not in ENTERS)))
    for outcomes in (OPERATIONS, BLOCKING, BESIDE_GUESTS, EXPORTING, IMPORTING):
        names.update(f"{name}: {came}" for name, all_came in outcomes.items() for came in all_came)
    names.update(f"reason {reason}" for reason in REASONS)
    statuses = (*range(4), 6, "7 key file", "7 secrets file", "7 report key file")
    return names | command_lines.wanted() | {f"status {status}" for status in statuses} | VERDICTS | KEYLESS


def name_of(name, arguments):
    """The name of a call in REFUSALS."""
    if name == "MNG.RD":
        return f"{name} {arguments[1]}"
    return form_of(name, arguments)


def place_in_list(call, count, locks):
    """Which lock of a list of so many pages it is that comes behind so many."""
    first = 4 if call == EXPORTS else 3
    if not first <= locks <= first + count:
        return f"try {locks + 1}"
    return {0: OF_PAGES[0], count: "its stream", count - 1: OF_PAGES[2]}.get(locks - first, OF_PAGES[1])


def of_reply(name, arguments, reply, locks):
    """What a call has reached by its reply, with so many locks held then."""
    status, *shown = reply.split()
    call = name_of(name, arguments)
    if status == "OPERAND_BUSY" and call in (EXPORTS, IMPORTS):
        return f"{call}: {status} at {place_in_list(call, arguments[-1], locks)}"
    if status == "PAGE_METADATA_INCORRECT" and call == IMPORTS and shown[0] != f"{arguments[0]}":
        return f"{call}: {status} of {'its first' if shown[0] == f'{arguments[2]}' else 'a later'} page"
    if status == "OPERAND_BUSY":
        return f"{call}: OPERAND_BUSY at try {locks + 1}"
    if status == "PAGE_METADATA_INCORRECT":
        pages = zip(CALLS.get(call, CALLS[name]), arguments)
        place = [kind == "page" and f"{page}" == shown[0] for kind, page in pages].index(True) + 1
        return f"{call}: {status} {place}"
    if status == "EXIT":
        return f"{call}: EXIT {' '.join(word for word in shown if word.isalpha() or '_' in word)}"
    if status in SHOWN_WITHOUT_NUMBER:
        return f"{call}: {status}"
    return f"{call}: {reply}"


def of_answer(words, status, text, processors):
    """All that a command line has reached: how it is written, its status, its fault's reason, each call's reply,
    and what came of guests and beside them."""
    yield from command_lines.reached(words, status)
    yield f"status {status} {text.strip()}" if status == 7 else f"status {status}"
    if (status, text) == (7, "report key file\n"):
        yield f"{words[0]}: report key file"
    if status == 0 and words[:1] == ["verify"]:
        yield f"verify: {'yes' if text.startswith('yes ') else text.strip()}"
    if status == 2:
        yield f"reason {text.split()[-1]}"
    for machine in {id(processor.machine): processor.machine for processor in processors}.values():
        yield from machine.met
    for processor in processors:
        for (name, arguments), (reply, locks) in zip(processor.calls, processor.replies):
            yield of_reply(name, arguments, reply, locks)
