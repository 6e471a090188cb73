"""Key wraps, beside published values."""

import unittest
from unittest import mock

from cukvashe_des import (
    BlockLengthError,
    KeyLengthError,
    ProtectionKeyLengthError,
    VerificationError,
    WrappedKeyError,
    WrappedLengthError,
    _key_wrap,
    cms_unwrap_key,
    cms_wrap_key,
    tkw_unwrap_key,
    tkw_wrap_key,
)

from .values import CMS_IV, CMS_KEK, CMS_KEY, CMS_WRAPPED, LENGTHS, TKW_KEK, TKW_KEY, TKW_WRAPPED


class KeyWraps(unittest.TestCase):
    def test_published(self):
        self.assertEqual(cms_wrap_key(CMS_KEK, CMS_KEY, iv=CMS_IV), CMS_WRAPPED)
        self.assertEqual(cms_unwrap_key(CMS_KEK, CMS_WRAPPED), CMS_KEY)
        self.assertEqual(tkw_wrap_key(TKW_KEK, TKW_KEY), TKW_WRAPPED)
        self.assertEqual(tkw_unwrap_key(TKW_KEK, TKW_WRAPPED), TKW_KEY)

    def test_lengths(self):
        """Each length of a key, of what is wrapped, and of the protection key."""
        for size in (16, 24):
            kek = CMS_KEK[:size]
            for length in (*LENGTHS, 4096):
                key = bytes(range(256))[:length] * (1 if length < 256 else 16)
                if length and length % 8 == 0:
                    self.assertEqual(len(cms_wrap_key(kek, key)), len(key) + 16)
                    self.assertEqual(cms_unwrap_key(kek, cms_wrap_key(kek, key)), key)
                else:
                    self.assertRaises(BlockLengthError, cms_wrap_key, kek, key)
                    self.assertRaises(WrappedLengthError, cms_unwrap_key, kek, bytes(16) + key)
                if length >= 8 and length % 4 == 0:
                    self.assertEqual(len(tkw_wrap_key(kek, key)), len(key) + 4)
                    self.assertEqual(tkw_unwrap_key(kek, tkw_wrap_key(kek, key)), key)
                else:
                    self.assertRaisesRegex(KeyLengthError, ": a multiple of 4 bytes, at least 8$", tkw_wrap_key, kek, key)
                    self.assertRaises(WrappedLengthError, tkw_unwrap_key, kek, bytes(4) + key)
            for length in range(16):
                self.assertRaises(WrappedLengthError, cms_unwrap_key, kek, bytes(length))
                if length < 12:
                    self.assertRaises(WrappedLengthError, tkw_unwrap_key, kek, bytes(length))
        for length in LENGTHS:
            for call, given in ((cms_wrap_key, CMS_KEY), (cms_unwrap_key, CMS_WRAPPED), (tkw_wrap_key, TKW_KEY), (tkw_unwrap_key, TKW_WRAPPED)):
                if length not in (16, 24):
                    self.assertRaises(ProtectionKeyLengthError, call, bytes(length), given)
                self.assertRaises(TypeError, call, "5" * length, given)
                self.assertRaises(TypeError, call, CMS_KEK, "5" * length)

    def test_changed(self):
        """Each bit of a wrapped key, and another protection key: no ValueError, so that no `except ValueError` hides it."""
        for call, kek, wrapped in ((cms_unwrap_key, CMS_KEK, CMS_WRAPPED), (tkw_unwrap_key, TKW_KEK, TKW_WRAPPED)):
            for at in range(8 * len(wrapped)):
                other = bytearray(wrapped)
                other[at // 8] ^= 1 << at % 8
                self.assertRaises(WrappedKeyError, call, kek, other)
            self.assertRaises(WrappedKeyError, call, kek[::-1], wrapped)
            self.assertRaises(WrappedKeyError, call, kek[:16], wrapped)
        self.assertTrue(issubclass(WrappedKeyError, VerificationError) and not issubclass(WrappedKeyError, ValueError))

    def test_random_vector(self):
        """A vector that is not given is a new one each time, of the system's randomness."""
        self.assertNotEqual(cms_wrap_key(CMS_KEK, CMS_KEY), cms_wrap_key(CMS_KEK, CMS_KEY))
        with mock.patch.object(_key_wrap.secrets, "token_bytes", return_value=CMS_IV) as asked:
            self.assertEqual(cms_wrap_key(CMS_KEK, CMS_KEY), CMS_WRAPPED)
            asked.assert_called_once_with(8)
        self.assertRaises(TypeError, cms_wrap_key, CMS_KEK, CMS_KEY, CMS_IV)
