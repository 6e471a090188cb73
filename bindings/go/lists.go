package cukvashe

// #include "bridge.h"
import "C"

import "unsafe"

// EncryptCBCRecords encrypts records by CBC in place, which stand one after the other in data: record k has counts[k] blocks of 8
// bytes, and its vector is the k-th of vectors, which becomes its last ciphertext block. For speed, sort records of very different
// lengths. ErrCountMismatch, ErrBlockLength; then nothing was changed.
func (b *Block) EncryptCBCRecords(vectors []byte, counts []int, data []byte) error {
	return b.records(false, vectors, counts, data)
}

// DecryptCBCRecords decrypts records in place, as EncryptCBCRecords takes them.
func (b *Block) DecryptCBCRecords(vectors []byte, counts []int, data []byte) error {
	return b.records(true, vectors, counts, data)
}

func (b *Block) records(decrypts C.bool, vectors []byte, counts []int, data []byte) error {
	// A number of C's has the size of one of Go's on every target of the library.
	var first *C.size_t
	if len(counts) > 0 {
		first = (*C.size_t)(unsafe.Pointer(&counts[0]))
	}
	return result(C.bridge_records(&b.words[0], b.parts, decrypts, bytes(vectors), size(vectors), first, C.size_t(len(counts)),
		bytes(data), size(data)))
}

// EncryptEach encrypts each block in place under the key at its place: keys of keySize bytes, 8, 16 or 24, stand one after the other.
// ErrKeyLength, ErrBlockLength, ErrCountMismatch.
func EncryptEach(keySize int, keys, blocks []byte) error { return each(false, keySize, keys, blocks) }

// DecryptEach decrypts each block in place under the key at its place, as EncryptEach does.
func DecryptEach(keySize int, keys, blocks []byte) error { return each(true, keySize, keys, blocks) }

func each(decrypts C.bool, keySize int, keys, blocks []byte) error {
	count, err := countOf(keySize, keys)
	if err != nil {
		return err
	}
	return result(C.bridge_each(parts(keySize), decrypts, bytes(keys), C.size_t(count), bytes(blocks), size(blocks)))
}

// CheckValues are the check values of many keys of keySize bytes, 8, 16 or 24, which stand one after the other. ErrKeyLength,
// ErrCountMismatch.
func CheckValues(keySize int, keys []byte) ([][3]byte, error) {
	count, err := countOf(keySize, keys)
	if err != nil {
		return nil, err
	}
	values := make([][3]byte, count+1)
	status := C.bridge_check_values(parts(keySize), bytes(keys), size(keys), bytes(values[0][:]), C.size_t(3*count), C.size_t(count))
	return values[:count], result(status)
}

// countOf is the number of keys.
func countOf(keySize int, keys []byte) (int, error) {
	if parts(keySize) == 0 {
		return 0, ErrKeyLength
	}
	if len(keys)%keySize != 0 {
		return 0, ErrCountMismatch
	}
	return len(keys) / keySize, nil
}

// Pad is data with 1 to 8 bytes of padding, in new memory.
func (p Padding) Pad(data []byte) ([]byte, error) {
	return written(len(data)+BlockSize, func(padded []byte, length *C.size_t) C.int {
		copy(padded, data)
		return C.cukvashe_pad(bytes(padded), size(data), size(padded), number(int(p)), length)
	})
}

// Unpad is the part of data before the padding. ErrPaddingMethod, ErrBlockLength, ErrPaddingMismatch: an attacker who learns whether
// it accepts what he sent can decrypt CBC without the key, so verify a MAC of the ciphertext first.
func (p Padding) Unpad(data []byte) ([]byte, error) {
	var length C.size_t
	if status := C.cukvashe_unpad(bytes(data), size(data), number(int(p)), &length); status != C.CUKVASHE_OK {
		return nil, Error(status)
	}
	return data[:length], nil
}

// Padding is a method that makes data whole blocks.
type Padding int

// The methods of padding: PKCS#7 (RFC 5652, 6.3), and that of ISO/IEC 7816-4.
const (
	PKCS7   Padding = C.CUKVASHE_PKCS7
	ISO7816 Padding = C.CUKVASHE_ISO7816
)
