"""AES-256 (FIPS 197) in GCM (SP 800-38D), with IVs of 12 bytes and tags of 16."""

import functools
import struct

ROUNDS = 14
KEY_WORDS = 8
POLYNOMIAL = 0xE1 << 120  # of GHASH, whose bit 0 is the highest


class WrongTag(Exception):
    """A tag that isn't that of what it stands with."""


def double(byte):
    """Twice a byte of the field of AES."""
    return byte << 1 ^ (0x11B if byte & 0x80 else 0)


def s_box():
    """What SubBytes makes of each byte."""
    box, power, inverse = [0x63] * 256, 1, 1
    for _ in range(255):
        power ^= double(power)  # times 3
        for shift in (1, 2, 4):  # divided by 3
            inverse ^= inverse << shift & 0xFF
        inverse ^= 0x09 * (inverse >> 7)
        turned = inverse * 0x101
        box[power] = (inverse ^ turned >> 7 ^ turned >> 6 ^ turned >> 5 ^ turned >> 4) & 0xFF ^ 0x63
    return box


BOX = s_box()


def column(byte):
    """What SubBytes and MixColumns make of a byte at a column's top, as a word."""
    boxed = BOX[byte]
    return double(boxed) << 24 | boxed << 16 | boxed << 8 | (double(boxed) ^ boxed)


# By the byte's row in its column.
COLUMNS = [[(word >> 8 * row | word << 32 - 8 * row) & 0xFFFFFFFF for word in map(column, range(256))] for row in range(4)]


def substituted(word):
    """A word with each byte put through the box."""
    return int.from_bytes(bytes(BOX[byte] for byte in word.to_bytes(4, "big")), "big")


@functools.lru_cache(64)
def round_keys(key):
    """The words of the round keys."""
    words, constant = list(struct.unpack(">8I", key)), 1
    for place in range(KEY_WORDS, 4 * (ROUNDS + 1)):
        word = words[-1]
        if place % KEY_WORDS == 0:
            word = substituted((word << 8 | word >> 24) & 0xFFFFFFFF) ^ constant << 24
            constant = double(constant)
        elif place % KEY_WORDS == 4:
            word = substituted(word)
        words.append(words[-KEY_WORDS] ^ word)
    return words


def encrypted(key, block):
    """A block as AES encrypts it."""
    words, (first, second, third, fourth) = round_keys(key), COLUMNS
    a, b, c, d = (word ^ its for word, its in zip(struct.unpack(">4I", block), words))
    for at in range(4, 4 * ROUNDS, 4):
        a, b, c, d = (
            first[a >> 24] ^ second[b >> 16 & 0xFF] ^ third[c >> 8 & 0xFF] ^ fourth[d & 0xFF] ^ words[at],
            first[b >> 24] ^ second[c >> 16 & 0xFF] ^ third[d >> 8 & 0xFF] ^ fourth[a & 0xFF] ^ words[at + 1],
            first[c >> 24] ^ second[d >> 16 & 0xFF] ^ third[a >> 8 & 0xFF] ^ fourth[b & 0xFF] ^ words[at + 2],
            first[d >> 24] ^ second[a >> 16 & 0xFF] ^ third[b >> 8 & 0xFF] ^ fourth[c & 0xFF] ^ words[at + 3],
        )
    last = (
        BOX[one >> 24] << 24 | BOX[two >> 16 & 0xFF] << 16 | BOX[three >> 8 & 0xFF] << 8 | BOX[four & 0xFF]
        for one, two, three, four in ((a, b, c, d), (b, c, d, a), (c, d, a, b), (d, a, b, c))
    )
    return struct.pack(">4I", *(word ^ its for word, its in zip(last, words[4 * ROUNDS :])))


@functools.lru_cache(64)
def byte_products(second):
    """The products, in the field of GHASH, of that block and each block that has one byte alone: by the byte's place
    and by the byte."""
    tables = []
    for _ in range(16):
        table = [0] * 256
        for bit in (128, 64, 32, 16, 8, 4, 2, 1):
            table[bit] = second
            second = second >> 1 ^ (POLYNOMIAL if second & 1 else 0)
        for byte in range(1, 256):
            table[byte] = table[byte & -byte] ^ table[byte & byte - 1]
        tables.append(table)
    return tables


def product(first, second):
    """The product of two blocks in the field of GHASH."""
    made = 0
    for table, byte in zip(byte_products(second), first.to_bytes(16, "big")):
        made ^= table[byte]
    return made


def padded(text):
    """A text with zeros up to a whole block."""
    return text + bytes(-len(text) % 16)


def tag_of(key, iv, sealed, beside):
    """The tag of a sealed text, with the text beside it that is authenticated alone."""
    subkey, hashed = int.from_bytes(encrypted(key, bytes(16)), "big"), 0
    text = padded(beside) + padded(sealed) + struct.pack(">QQ", 8 * len(beside), 8 * len(sealed))
    for at in range(0, len(text), 16):
        hashed = product(hashed ^ int.from_bytes(text[at : at + 16], "big"), subkey)
    return xor(encrypted(key, iv + struct.pack(">I", 1)), hashed.to_bytes(16, "big"))


def xor(first, second):
    """The bytes of both, added bit by bit, as many as the shorter one has."""
    return bytes(one ^ other for one, other in zip(first, second))


@functools.lru_cache(256)
def key_stream(key, iv, count):
    """So many blocks of the counter."""
    return b"".join(encrypted(key, iv + struct.pack(">I", place)) for place in range(2, count + 2))


def counted(key, iv, text):
    """A text under the blocks of the counter, which seals it, and opens it again."""
    return xor(text, key_stream(key, iv, -(-len(text) // 16)))


def seal(key, iv, text, beside):
    """The sealed text, and its tag."""
    sealed = counted(key, iv, text)
    return sealed, tag_of(key, iv, sealed, beside)


def unseal(key, iv, sealed, beside, tag):
    """The text that was sealed so; raises WrongTag."""
    if tag_of(key, iv, sealed, beside) != tag:
        raise WrongTag
    return counted(key, iv, sealed)
