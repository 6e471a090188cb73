package cukvashe

// #include "bridge.h"
import "C"

import "crypto/rand"

// How many bytes a wrapped key has more than the key.
const cmsMore, tkwMore = 16, 4

// WrapKeyCMS is a key of 8 bytes or a multiple under a protection key (KEK) of 16 or 24, by the key wrap of CMS (RFC 3217), with a random
// vector: 16 bytes more. ErrProtectionKeyLength, ErrBlockLength.
func WrapKeyCMS(protection, key []byte) ([]byte, error) {
	var vector [BlockSize]byte
	if _, err := rand.Read(vector[:]); err != nil {
		return nil, err
	}
	return wrapCMS(protection, vector, key)
}

func wrapCMS(protection []byte, vector [BlockSize]byte, key []byte) ([]byte, error) {
	return written(len(key)+cmsMore, func(wrapped []byte, length *C.size_t) C.int {
		return C.cukvashe_cms_wrap_key(bytes(protection), size(protection), bytes(vector[:]), bytes(key), size(key), bytes(wrapped),
			size(wrapped), length)
	})
}

// UnwrapKeyCMS is the key that WrapKeyCMS wrapped, with the parity that it has. ErrProtectionKeyLength, ErrWrappedLength; ErrWrappedKey if
// it was changed, or is under another key.
func UnwrapKeyCMS(protection, wrapped []byte) ([]byte, error) {
	return written(len(wrapped)-cmsMore, func(key []byte, length *C.size_t) C.int {
		return C.cukvashe_cms_unwrap_key(bytes(protection), size(protection), bytes(wrapped), size(wrapped), bytes(key), size(key), length)
	})
}

// WrapKeyTKW is a key of 8 bytes or more, a multiple of 4, under a protection key (KEK) of 16 or 24, by TKW (NIST SP 800-38F, 7): 4 bytes
// more. ErrProtectionKeyLength, ErrKeyLength.
func WrapKeyTKW(protection, key []byte) ([]byte, error) {
	return written(len(key)+tkwMore, func(wrapped []byte, length *C.size_t) C.int {
		return C.cukvashe_tkw_wrap_key(bytes(protection), size(protection), bytes(key), size(key), bytes(wrapped), size(wrapped), length)
	})
}

// UnwrapKeyTKW is the key that WrapKeyTKW wrapped. Errors as of UnwrapKeyCMS.
func UnwrapKeyTKW(protection, wrapped []byte) ([]byte, error) {
	return written(len(wrapped)-tkwMore, func(key []byte, length *C.size_t) C.int {
		return C.cukvashe_tkw_unwrap_key(bytes(protection), size(protection), bytes(wrapped), size(wrapped), bytes(key), size(key), length)
	})
}
