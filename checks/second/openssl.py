"""AES-256 in GCM by OpenSSL's libcrypto, with IVs of 12 bytes and tags of 16: `seal` and `unseal` as gcm.py has them.

`is_there` says whether this machine has the library."""

import ctypes
import ctypes.util

from gcm import WrongTag

SET_TAG, GET_TAG, TAG_BYTES = 0x11, 0x10, 16  # EVP_CTRL_AEAD_SET_TAG, EVP_CTRL_AEAD_GET_TAG


def loaded():
    """The library, with the types of what is called of it; None where it isn't there."""
    name = ctypes.util.find_library("crypto")
    if name is None:
        return None
    library = ctypes.CDLL(name)
    for function in ("EVP_CIPHER_CTX_new", "EVP_aes_256_gcm"):
        if not hasattr(library, function):
            return None
        getattr(library, function).restype = ctypes.c_void_p
    return library


CRYPTO = loaded()


def is_there():
    """Whether there is a library to seal by."""
    return CRYPTO is not None


def called(function, *words):
    """Calls a function that answers 1 where it succeeds."""
    if function(*words) != 1:
        raise OSError("libcrypto failed")


class Cipher:
    """A text under way, which is sealed or opened under a key and an IV."""

    def __init__(self, begins, goes_on, key, iv):
        self.context, self.goes_on = ctypes.c_void_p(CRYPTO.EVP_CIPHER_CTX_new()), goes_on
        called(begins, self.context, ctypes.c_void_p(CRYPTO.EVP_aes_256_gcm()), None, key, iv)

    def __enter__(self):
        return self

    def __exit__(self, *_):
        CRYPTO.EVP_CIPHER_CTX_free(self.context)

    def beside(self, text):
        """Takes a text that is authenticated alone."""
        called(self.goes_on, self.context, None, ctypes.byref(ctypes.c_int()), text, len(text))

    def turned(self, text):
        """The text sealed, or opened."""
        made = ctypes.create_string_buffer(len(text))
        if text:
            called(self.goes_on, self.context, made, ctypes.byref(ctypes.c_int()), text, len(text))
        return made.raw


def seal(key, iv, text, beside):
    """The sealed text, and its tag."""
    with Cipher(CRYPTO.EVP_EncryptInit_ex, CRYPTO.EVP_EncryptUpdate, key, iv) as cipher:
        cipher.beside(beside)
        sealed, tag = cipher.turned(text), ctypes.create_string_buffer(TAG_BYTES)
        called(CRYPTO.EVP_EncryptFinal_ex, cipher.context, tag, ctypes.byref(ctypes.c_int()))
        called(CRYPTO.EVP_CIPHER_CTX_ctrl, cipher.context, GET_TAG, TAG_BYTES, tag)
        return sealed, tag.raw


def unseal(key, iv, sealed, beside, tag):
    """The text that was sealed so; raises WrongTag."""
    with Cipher(CRYPTO.EVP_DecryptInit_ex, CRYPTO.EVP_DecryptUpdate, key, iv) as cipher:
        cipher.beside(beside)
        text = cipher.turned(sealed)
        called(CRYPTO.EVP_CIPHER_CTX_ctrl, cipher.context, SET_TAG, TAG_BYTES, tag)
        if CRYPTO.EVP_DecryptFinal_ex(cipher.context, ctypes.create_string_buffer(TAG_BYTES), ctypes.byref(ctypes.c_int())) != 1:
            raise WrongTag
        return text
