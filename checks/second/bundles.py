"""Bundles and containers of docs/profile.md."""

import functools
import struct
from collections import namedtuple

import features
import gcm
import openssl
from machine import Refused

MAGIC = b"TDXBNDL1"
CONTAINER_END = 1 << 29
LAYOUT = struct.Struct("<HHHBBIIQHHIQQ")
TAG = slice(48, 64)
HEADER_BYTES = 64
SLOT_END, ENTRY_MOST = 4096, 131_072
PAGE_BYTES, LIST_MOST = 4096, 16
IMMUTABLE, TD_STATE, VCPU_STATE, MEMORY, EPOCH_TOKEN, START_TOKEN, ABORT_TOKEN = range(7)
PAYLOADS = {IMMUTABLE: 48, TD_STATE: 192, VCPU_STATE: 64, MEMORY: PAGE_BYTES, EPOCH_TOKEN: 0, START_TOKEN: 0, ABORT_TOKEN: 0}
LISTS = ((2, MEMORY),) * features.has(features.LISTS)  # the versions behind the first one, and their types

# What seals: the library, which is faster, where it is there.
SEALING = openssl if openssl.is_there() else gcm

Header = namedtuple("Header", "size version stream type reserved counter epoch iv session index info gpa total")


def header_of(bundle):
    """The header's fields."""
    return Header(*LAYOUT.unpack(bundle[: LAYOUT.size]))


def pages_of(header):
    """How many pages a bundle has, or how often the payload of its type: once, but in a list."""
    return header.info if header.version == 2 else 1


def keeps_zeros(header):
    """Whether the fields are 0 that the type wants to be 0."""
    kinds = {
        "reserved": (),
        "index": (VCPU_STATE,),
        "info": (IMMUTABLE, VCPU_STATE, *(MEMORY,) * (header.version == 2)),
        "gpa": (MEMORY,),
        "total": (EPOCH_TOKEN, START_TOKEN),
        "epoch": tuple(range(ABORT_TOKEN)),
    }
    return all(getattr(header, name) == 0 or header.type in types for name, types in kinds.items())


def has_values(header):
    """Whether the other fields have one of their values."""
    infos = {IMMUTABLE: range(9), VCPU_STATE: range(257)}.get(header.type, range(1))
    if header.version == 2:
        infos = range(1, LIST_MOST + 1)
    return (
        header.stream < (4 if header.type == MEMORY else 1)
        and header.iv == header.counter
        and header.session > 0
        and header.index < 8
        and header.info in infos
        and header.gpa < 1 << 47
        and header.gpa % PAGE_BYTES == 0
        and header.gpa + PAGE_BYTES * pages_of(header) <= 1 << 47
    )


def form_fault(bundle):
    """The first fault of a bundle's form, or None."""
    if len(bundle) < HEADER_BYTES:
        return "SHORT"
    header = header_of(bundle)
    if header.size != HEADER_BYTES:
        return "SIZE"
    if header.version != 1 and (header.version, header.type) not in LISTS:
        return "VERSION"
    if header.type not in PAYLOADS:
        return "TYPE"
    if not keeps_zeros(header):
        return "RESERVED"
    if not has_values(header):
        return "VALUE"
    return None if len(bundle) == HEADER_BYTES + PAYLOADS[header.type] * pages_of(header) else "LENGTH"


def key_of(keys, kind):
    """A type's key: types 0 to 5 have the first key, type 6 has the key back."""
    return keys[32:] if kind == ABORT_TOKEN else keys[:32]


def iv_of(header):
    """The IV of 12 bytes."""
    return struct.pack("<BBHQ", header.stream, 0, header.session, header.iv)


@functools.lru_cache(1024)
def seal(keys, header, payload):
    """The bundle with that header and payload. Runs of one script seal the same ones."""
    start = LAYOUT.pack(*header)
    sealed, tag = SEALING.seal(key_of(keys, header.type), iv_of(header), payload, start)
    return start + tag + sealed


@functools.lru_cache(1024)
def opened(keys, bundle):
    """The payload of a bundle, or None where its tag is another. Runs of one script open the same ones."""
    header = header_of(bundle)
    key, start = key_of(keys, header.type), bundle[: LAYOUT.size]
    try:
        return SEALING.unseal(key, iv_of(header), bundle[HEADER_BYTES:], start, bundle[TAG])
    except gcm.WrongTag:
        return None


def unseal(keys, bundle):
    """The payload of a bundle; refuses one whose tag is another."""
    payload = opened(keys, bundle)
    if payload is None:
        raise Refused("BUNDLE_TAG")
    return payload


class BadContainer(Exception):
    """A container that isn't in its grammar, with the offset."""


def container_of(bundles):
    """The bytes of a container with these bundles, by slot."""
    parts = [struct.pack("<II", slot, len(bundle)) + bundle for slot, bundle in sorted(bundles.items())]
    return MAGIC + b"".join(parts)


def bundles_of(container):
    """The bundles of a container, by slot."""
    if len(container) > CONTAINER_END:
        raise BadContainer(CONTAINER_END)
    if container[: len(MAGIC)] != MAGIC:
        raise BadContainer(0)
    bundles, at, last = {}, len(MAGIC), -1
    while at < len(container):
        if len(container) - at < 8:
            raise BadContainer(at)
        slot, length = struct.unpack_from("<II", container, at)
        if not last < slot < SLOT_END or length > min(ENTRY_MOST, len(container) - at - 8):
            raise BadContainer(at)
        bundles[slot] = container[at + 8 : at + 8 + length]
        at, last = at + 8 + length, slot
    return bundles
