package cukvashe

// #include "bridge.h"
import "C"

import "math"

// A Hash is the hash function of a key from a password.
type Hash int

// The hash functions: MD5 (RFC 1321), which PBKDF2 does not take, and SHA-1 and SHA-256 (FIPS 180-4).
const (
	MD5    Hash = C.CUKVASHE_MD5
	SHA1   Hash = C.CUKVASHE_SHA1
	SHA256 Hash = C.CUKVASHE_SHA256
)

// derived is the key of a length that a call writes.
func derived(length int, write func(key []byte) C.int) ([]byte, error) {
	if uint64(length)-1 >= math.MaxUint32 {
		return nil, ErrKeyLength
	}
	key := make([]byte, length)
	if status := write(key); status != C.CUKVASHE_OK {
		return nil, Error(status)
	}
	return key, nil
}

// PBKDF2 is the key, length bytes, that PBKDF2 (RFC 8018, 5.2) with HMAC over SHA1 or SHA256 makes of a password and a salt. ErrHashName,
// ErrIterationCount; ErrKeyLength unless the length is 1 to 2^32 - 1.
func PBKDF2(hash Hash, password, salt []byte, iterations, length int) ([]byte, error) {
	return derived(length, func(key []byte) C.int {
		return C.cukvashe_pbkdf2(number(int(hash)), C.size_t(iterations), bytes(password), size(password), bytes(salt), size(salt),
			bytes(key), size(key))
	})
}

// BytesToKey is the key, and after it the vector, together length bytes, that OpenSSL's EVP_BytesToKey makes with one iteration. A password
// is quick to guess by it: take it to read what others wrote. The salt has 8 bytes, without Salted__, or none (-nosalt). ErrSaltLength,
// ErrHashName; ErrKeyLength as of PBKDF2.
func BytesToKey(hash Hash, password, salt []byte, length int) ([]byte, error) {
	return derived(length, func(key []byte) C.int {
		return C.cukvashe_bytes_to_key(number(int(hash)), bytes(password), size(password), bytes(salt), size(salt), bytes(key), size(key))
	})
}

// OpenSalted is the plaintext of a file that `openssl enc` encrypted under a password by -des3, or with a keySize of 8 or 16 by -des-cbc
// or -des-ede-cbc. The file is not Base64 (-a). The hash function is that of -md: by default SHA256, before OpenSSL 1.1.0 MD5. The
// iterations are those of -iter; 10000 if only -pbkdf2 was given; 0, not 1, if neither was. ErrKeyLength of another keySize; ErrHashName,
// ErrNotSalted, ErrSaltLength, ErrIterationCount, ErrBlockLength, ErrPaddingMismatch. A wrong password, hash function or number of
// iterations is ErrPaddingMismatch, but for one in 256, which returns wrong bytes: nothing here authenticates. Tell nobody who sends you
// files which error they gave.
func OpenSalted(keySize int, hash Hash, iterations int, password, file []byte) ([]byte, error) {
	return written(len(file), func(plain []byte, length *C.size_t) C.int {
		return C.bridge_open_salted(parts(keySize), number(int(hash)), C.size_t(iterations), bytes(password), size(password), bytes(file),
			size(file), bytes(plain), size(plain), length)
	})
}
