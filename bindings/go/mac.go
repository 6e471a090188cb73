package cukvashe

// #include <stdlib.h>
// #include "bridge.h"
import "C"

import (
	"hash"
	"unsafe"
)

// An Algorithm makes tags of 8 bytes, by a padding method if it has one: 1 adds zeros, 2 a one bit and zeros (ISO/IEC 9797-1). The
// sender has chosen it.
type Algorithm struct {
	number, method C.int
}

var (
	// CBCMACPadding1 and CBCMACPadding2 are algorithm 1, over DES or triple DES by the key's length: 8, 16 or 24 bytes. It is safe
	// only if every message under a key has one length, which both sides know.
	CBCMACPadding1 = Algorithm{C.BRIDGE_CBC_MAC, C.CUKVASHE_MAC_PADDING_1}
	CBCMACPadding2 = Algorithm{C.BRIDGE_CBC_MAC, C.CUKVASHE_MAC_PADDING_2}
	// RetailMACPadding1 and RetailMACPadding2 are algorithm 3, with a key of 16 bytes (ANSI X9.19).
	RetailMACPadding1 = Algorithm{C.BRIDGE_RETAIL_MAC, C.CUKVASHE_MAC_PADDING_1}
	RetailMACPadding2 = Algorithm{C.BRIDGE_RETAIL_MAC, C.CUKVASHE_MAC_PADDING_2}
	// CMAC is that of NIST SP 800-38B over triple DES, with a key of 16 or 24 bytes.
	CMAC = Algorithm{C.BRIDGE_CMAC, C.CUKVASHE_MAC_PADDING_1}
)

// TagSize is the number of bytes of a tag.
const TagSize = 8

// MAC is a hash.Hash with a key. A MAC authenticates with Verify: comparing tags by == may stop at the first wrong byte.
type MAC struct {
	algorithm  Algorithm
	parts      C.int
	empty, now [53]C.uint64_t
}

var _ hash.Hash = (*MAC)(nil)

// NewMAC makes the MAC of a key and an empty message. ErrKeyLength, ErrPaddingMethod (of an Algorithm that none of these variables is),
// ErrNotSupported.
func NewMAC(algorithm Algorithm, key []byte, options ...Option) (*MAC, error) {
	if !supported {
		return nil, ErrNotSupported
	}
	m := &MAC{algorithm: algorithm, parts: parts(len(key))}
	status := C.bridge_mac_init(&m.empty[0], algorithm.number, m.parts, algorithm.method, bytes(key), size(key), noTables(options))
	if status != C.CUKVASHE_OK {
		return nil, Error(status)
	}
	m.now = m.empty
	return m, nil
}

// Write adds bytes to the message. It never fails.
func (m *MAC) Write(message []byte) (int, error) {
	must(C.bridge_mac_update(&m.now[0], m.algorithm.number, m.parts, bytes(message), size(message)))
	return len(message), nil
}

// Sum appends the tag of the message, which may go on.
func (m *MAC) Sum(b []byte) []byte {
	var tag [TagSize]byte
	must(C.bridge_mac_final(&m.now[0], m.algorithm.number, m.parts, bytes(tag[:])))
	return append(b, tag[:]...)
}

// Reset begins an empty message.
func (m *MAC) Reset() { m.now = m.empty }

// Size is 8.
func (m *MAC) Size() int { return TagSize }

// BlockSize is 8.
func (m *MAC) BlockSize() int { return BlockSize }

// Clone is a MAC of the same message, which goes on by itself.
func (m *MAC) Clone() *MAC {
	clone := *m
	return &clone
}

// Wipe overwrites the round keys and the bytes of the message; then the MAC serves no more.
func (m *MAC) Wipe() {
	C.cukvashe_wipe(unsafe.Pointer(&m.empty), C.size_t(unsafe.Sizeof(m.empty)))
	C.cukvashe_wipe(unsafe.Pointer(&m.now), C.size_t(unsafe.Sizeof(m.now)))
}

// Verify returns nil for the whole tag of the message alone. ErrTagMismatch.
func (m *MAC) Verify(tag []byte) error { return m.VerifyTruncated(tag, TagSize) }

// VerifyTruncated returns nil for the first bytes of the tag alone, as many as both sides agreed on, 4 to 8: never the number that was
// sent, since of 4 bytes one guess in 2^32 is right. ErrTagMismatch.
func (m *MAC) VerifyTruncated(tag []byte, agreed int) error {
	if len(tag) != agreed {
		return ErrTagMismatch
	}
	return result(C.bridge_mac_verify(&m.now[0], m.algorithm.number, m.parts, bytes(tag), size(tag)))
}

// MACs are the tags of many messages under one key. ErrKeyLength, ErrPaddingMethod.
func MACs(algorithm Algorithm, key []byte, messages [][]byte) ([][TagSize]byte, error) {
	return macs(algorithm, parts(len(key)), false, key, messages)
}

// MACsEach are the tags of many messages, each under the key at its place in keys: all have one length, and stand one after the other.
// ErrKeyLength; ErrCountMismatch, also if there are no messages but keys.
func MACsEach(algorithm Algorithm, keys []byte, messages [][]byte) ([][TagSize]byte, error) {
	if len(messages) == 0 || len(keys)%len(messages) != 0 {
		if len(keys)+len(messages) == 0 {
			return nil, nil
		}
		return nil, ErrCountMismatch
	}
	return macs(algorithm, parts(len(keys)/len(messages)), true, keys, messages)
}

// WrongTags are the places of the tags that are not the ones at their places in expected, which MACs or MACsEach made. Every byte is
// compared. ErrCountMismatch.
func WrongTags(tags, expected [][TagSize]byte) ([]int, error) {
	if len(tags) != len(expected) {
		return nil, ErrCountMismatch
	}
	var wrong []int
	right := make([]C.bool, len(tags))
	if len(tags) > 0 {
		length := C.size_t(TagSize * len(tags))
		must(C.cukvashe_compare_tags(bytes(tags[0][:]), length, bytes(expected[0][:]), length, &right[0], C.size_t(len(tags))))
	}
	for at, is := range right {
		if !is {
			wrong = append(wrong, at)
		}
	}
	return wrong, nil
}

func macs(algorithm Algorithm, parts C.int, each C.bool, keys []byte, messages [][]byte) ([][TagSize]byte, error) {
	var total int
	for _, it := range messages {
		total += len(it)
	}
	joined, lengths := make([]byte, 0, total), make([]C.size_t, len(messages)+1)
	for at, it := range messages {
		joined, lengths[at] = append(joined, it...), size(it)
	}
	// Memory of C's, since the messages that stand in it are memory of Go's.
	space := C.malloc(C.size_t(len(lengths)) * C.sizeof_cukvashe_message)
	defer C.free(space)
	tags := make([][TagSize]byte, len(messages)+1)
	status := C.bridge_macs(algorithm.number, parts, algorithm.method, each, bytes(keys), size(keys), bytes(joined), &lengths[0],
		(*C.cukvashe_message)(space), bytes(tags[0][:]), C.size_t(TagSize*len(messages)), C.size_t(len(messages)))
	return tags[:len(messages)], result(status)
}
