"""Bundles as somebody may hand them to a destination: cut, or with a field or a byte turned, under the tag that they had
or under a true one; and bundles that are in form and nothing else."""

import bundles
import features
from bundles import ABORT_TOKEN, EPOCH_TOKEN, HEADER_BYTES, IMMUTABLE, MEMORY, PAGE_BYTES, PAYLOADS, START_TOKEN, VCPU_STATE, Header

WIDTHS = dict(zip(Header._fields, (16, 16, 16, 8, 8, 32, 32, 64, 16, 16, 32, 64, 64)))
LAST_EPOCH = 2**32 - 1


def cut(chance, bundle):
    """A bundle of too few bytes for a header."""
    return bundle[: chance.choice((0, 1, HEADER_BYTES - 1, chance.randrange(HEADER_BYTES)))]


def of_another_length(chance, bundle):
    """A bundle with a whole header, and a payload of another length."""
    lengths = (HEADER_BYTES, len(bundle) - 1, len(bundle) + 1, HEADER_BYTES + chance.randrange(5000))
    length = chance.choice([length for length in lengths if length >= HEADER_BYTES and length != len(bundle)])
    return bundle[:length].ljust(length, b"\1")


def unused(header):
    """A field that its type wants to be 0, with another number."""
    used = {IMMUTABLE: ("info",), VCPU_STATE: ("index", "info"), MEMORY: ("gpa",), EPOCH_TOKEN: ("total",), START_TOKEN: ("total",)}
    names = {"index", "info", "gpa", "total", *("epoch",) * (header.type == ABORT_TOKEN)} - set(used.get(header.type, ()))
    return sorted(names)


# What is turned, each by what it makes of a header. The first ones are no values of a field; the others are values, and
# mostly not the ones that are due.
TURNS = (
    lambda chance, _: {"size": chance.choice((0, 63, 65, 4096))},
    lambda chance, _: {"version": chance.choice((0, 2, 3))},
    lambda chance, _: {"type": chance.choice((7, 8, 255))},
    lambda chance, _: {"reserved": chance.choice((1, 255))},
    lambda chance, header: {chance.choice(unused(header)): chance.choice((1, 4096))},
    lambda chance, header: {"stream": chance.choice((4, 65_535) if header.type == MEMORY else (1, 4))},
    lambda chance, header: {"iv": header.iv + chance.choice((1, 1 << 32))},
    lambda _, __: {"session": 0},
    lambda chance, header: {"gpa": header.gpa + chance.choice((1, 256, 1 << 47))},
    lambda chance, _: {"info": chance.choice((9, 257, LAST_EPOCH))},
    lambda chance, _: {"index": chance.choice((8, 65_535))},
    lambda chance, header: {"type": chance.choice([kind for kind in PAYLOADS if kind != header.type])},
    lambda chance, _: {"stream": chance.randrange(4)},
    lambda chance, header: {"session": header.session + chance.choice((-1, 1, 1))},
    lambda chance, header: {"epoch": (header.epoch + chance.choice((-1, 1, 1, LAST_EPOCH))) % 2**32},
    lambda chance, header: {"index": header.index ^ chance.choice((1, 1, 2))},
    lambda chance, header: {"info": header.info + chance.choice((-1, 1)) if header.info else 1},
    lambda chance, header: {"gpa": (header.gpa + chance.choice((4096, 1 << 21, 1 << 30, 1 << 39))) % (1 << 47)},
    lambda chance, header: {"total": header.total + chance.choice((-1, 1)) if header.total else 1},
    lambda chance, header: counted(header, header.counter + chance.choice((-1, 1, 1, 5)) if header.counter else 1),
)
# The numbers of ways to turn a bundle: by its header, by its length, by its tag, and by its payload or any byte; and where there
# are lists by its version, and by the number of its pages.
BYTES = 5
WAYS = len(TURNS) + BYTES + 2 * features.has(features.LISTS)


def counted(_header, number):
    """The counter and the IV of that number."""
    return {"counter": number, "iv": number}


def turned(chance, keys, bundle, way, is_sealed):
    """The bundle turned in that way; where it is sealed and may be, under a true tag."""
    if way >= len(TURNS) + BYTES:
        return (of_the_other_version, of_another_count)[way - len(TURNS) - BYTES](chance, keys, bundle, is_sealed)
    if way >= len(TURNS):
        return turned_bytes(chance, bundle, way - len(TURNS))
    header = bundles.header_of(bundle)
    fields = {name: value % 2 ** WIDTHS[name] for name, value in TURNS[way](chance, header).items()}
    return with_header(keys, bundle, header._replace(**fields), is_sealed)


def turned_bytes(chance, bundle, way):
    """The bundle cut, of another length, or with a bit turned: of its tag, behind its header, or anywhere."""
    if way < 2:
        return (cut, of_another_length)[way](chance, bundle)
    ends = ((48, 64), (64, len(bundle)), (0, len(bundle)))[way - 2]
    place = chance.randrange(*ends) if ends[0] < ends[1] else 48
    return bundle[:place] + bytes([bundle[place] ^ 1 << chance.randrange(8)]) + bundle[place + 1 :]


def of_the_other_version(chance, keys, bundle, is_sealed):
    """The bundle under the other version: a page as a list of one or of none, a list as a page where it is sealed."""
    header = bundles.header_of(bundle)
    if header.type == MEMORY and is_sealed:
        pages, info = (1, 0) if header.version == 2 else (1, 1)
        return with_pages(keys, bundle, header._replace(version=3 - header.version, info=info), pages)
    return with_header(keys, bundle, header._replace(version=3 - header.version, info=chance.choice((0, header.info, 1))), False)


def of_another_count(chance, keys, bundle, is_sealed):
    """A list of another number of pages; what isn't a list has a number of pages then."""
    header = bundles.header_of(bundle)
    counts = [count for count in (0, 1, header.info - 1, header.info + 1, 16, 17, 1 << 20) if 0 <= count != header.info]
    count = chance.choice(counts)
    if header.version == 2 and is_sealed and 1 <= count <= 16:
        return with_pages(keys, bundle, header._replace(info=count), count)
    return with_header(keys, bundle, header._replace(info=count), False)


def with_pages(keys, bundle, header, pages):
    """A bundle under a true tag, with that header and the first so many pages of that one, or zeros behind them."""
    payload = bundles.opened(keys, bundle)
    if payload is None:
        return bundles.LAYOUT.pack(*header) + bundle[bundles.LAYOUT.size :]
    return bundles.seal(keys, header, payload[: PAGE_BYTES * pages].ljust(PAGE_BYTES * pages, b"\0"))


def with_header(keys, bundle, header, is_sealed=True):
    """The bundle with that header, under a true tag where it is in form."""
    changed = bundles.LAYOUT.pack(*header) + bundle[bundles.LAYOUT.size :]
    payload = bundles.opened(keys, bundle)
    if is_sealed and payload is not None and bundles.form_fault(changed) is None:
        return bundles.seal(keys, header, payload)
    return changed


def in_form(chance, kind, version=1):
    """A bundle of that type and version that is in form, with no payload that anybody sealed."""
    counter, stream = chance.choice((0, 0, 1, 2)), chance.randrange(4) if kind == MEMORY else 0
    header = Header(
        64, 1, stream, kind, 0, counter, 0 if kind == ABORT_TOKEN else chance.choice((1, 1, 2)), counter, 1,
        chance.randrange(2) if kind == VCPU_STATE else 0, chance.randrange(2) if kind in (IMMUTABLE, VCPU_STATE) else 0,
        4096 * chance.randrange(4) if kind == MEMORY else 0, chance.randrange(3) if kind in (EPOCH_TOKEN, START_TOKEN) else 0,
    )
    if version == 2:
        header = header._replace(version=2, info=chance.choice((1, 2, 3, 16)))
    return bundles.LAYOUT.pack(*header) + bytes(16 + PAYLOADS[kind] * bundles.pages_of(header))
