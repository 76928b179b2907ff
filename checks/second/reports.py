"""Reports of docs/profile.md: how one is made, and what the file of one says under a key."""

import hashlib
import hmac
import re
import struct

MAGIC = b"TDXREP01"
KEY_BYTES = 48
PARTS = (8, 56, 104, 152, 200, 248, 312)  # where MRTD, the RTMRs and the register bytes begin, and the MAC
MOST_OF_A_LIST = 4


def report_of(key, mrtd, rtmrs, registers):
    """The report of these facts under a key."""
    text = MAGIC + mrtd + b"".join(rtmrs) + struct.pack("<8Q", *registers)
    return text + hmac.digest(key, text, hashlib.sha384)


def verdict(file, key):
    """What the file of a report says under a key."""
    if len(file) != 721 or file[720:] != b"\n":
        return "no LENGTH"
    if not re.fullmatch(b"[0-9a-fA-F]{720}", file[:720]):
        return "no HEX"
    text = bytes.fromhex(file[:720].decode())
    if text[: len(MAGIC)] != MAGIC:
        return "no MAGIC"
    if hmac.digest(key, text[: PARTS[-1]], hashlib.sha384) != text[PARTS[-1] :]:
        return "no MAC"
    return " ".join(["yes", *(text[at:end].hex() for at, end in zip(PARTS, PARTS[1:]))])
