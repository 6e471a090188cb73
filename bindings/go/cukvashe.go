// Package cukvashe has DES and triple DES for old records and for payment systems, over a C library whose exports are proved; this
// package is tested.
//
// Put NewCipher and NewTripleDESCipher where those of crypto/des stand: cipher.NewCBCDecrypter and cipher.NewCTR then take the library's
// calls of lists, since a Block has these calls too. New gives a Block of a key of any length, by choice without tables, whose addresses
// would depend on the key and the data.
//
// The error of a call is an Error, which errors.Is compares with ErrKeyLength and the others, but if the call says more. Texts tell
// no key, PIN or data: of what holds a key or a PIN block fmt writes the type alone, and k[:] has the bytes of an array. But of such a
// value in an unexported field of a type of yours fmt writes the bytes, since it asks no method of it; and so does encoding/json of
// arrays and of exported fields. Nothing is left to free: all state is memory of Go's. Wipe overwrites the round keys of a Block or MAC;
// Go itself may have copied keys and PINs that you pass and get.
//
// Goroutines may share a Block, and nothing else while one of them changes it.
//
// DES is broken: use it only for data and protocols that already have it. A cipher does not authenticate.
package cukvashe

/*
#cgo CFLAGS: -std=c99 -O2 -I${SRCDIR} -fvisibility=hidden
#include "bridge.h"
*/
import "C"

import (
	"errors"
	"unsafe"
)

// BlockSize is the number of bytes of a block, and of an initialization vector.
const BlockSize = 8

// Error is a status of the library.
type Error int

// Error is the status's sentence.
func (e Error) Error() string { return "cukvashe: " + C.GoString(C.cukvashe_strerror(C.int(e))) }

// ErrNotSupported is the error of New and NewMAC on a processor that IsSupported refuses.
var ErrNotSupported = errors.New("cukvashe: this processor is not of x86-64-v2 (SSE4.2), which the library needs")

var supported = bool(C.cukvashe_is_supported())

// IsSupported says whether this processor has what the library needs: on amd64 the features of x86-64-v2, elsewhere always. If it
// is false, New and NewMAC return ErrNotSupported, and other calls panic.
func IsSupported() bool { return supported }

// Version is the version of the library.
func Version() string { return C.GoString(C.cukvashe_version()) }

// result is the error of a status.
func result(status C.int) error {
	if status != C.CUKVASHE_OK {
		return Error(status)
	}
	return nil
}

// must panics for a status that no caller can bring about.
func must(status C.int) {
	if status != C.CUKVASHE_OK {
		panic(Error(status).Error())
	}
}

// bytes is how every call passes bytes to C: nil where there are none.
func bytes(slice []byte) *C.uint8_t {
	if !supported {
		panic(ErrNotSupported.Error())
	}
	if len(slice) == 0 {
		return nil
	}
	return (*C.uint8_t)(unsafe.Pointer(&slice[0]))
}

func size(slice []byte) C.size_t { return C.size_t(len(slice)) }

// text is a string as C takes it, with its length.
func text(it string) (*C.char, C.size_t) {
	copied := []byte(it)
	return (*C.char)(unsafe.Pointer(bytes(copied))), size(copied)
}

// buffer is where C writes a text.
func buffer(slice []byte) *C.char { return (*C.char)(unsafe.Pointer(bytes(slice))) }

// until is the text before the zero byte.
func until(slice []byte) string {
	for at, it := range slice {
		if it == 0 {
			return string(slice[:at])
		}
	}
	return string(slice)
}

// parts is the number of parts of 8 bytes of a key, or 0 for a length that no key has.
func parts(length int) C.int {
	switch length {
	case 8, 16, 24:
		return C.int(length / 8)
	}
	return 0
}

// number is an int of C's. One that C does not have is -1, which every call refuses.
func number(it int) C.int {
	if int(C.int(it)) != it {
		return -1
	}
	return C.int(it)
}

// written are the bytes that a call writes into a buffer of this capacity, of which it says how many they are.
func written(capacity int, write func(made []byte, length *C.size_t) C.int) ([]byte, error) {
	if capacity < 0 {
		capacity = 0
	}
	made, length := make([]byte, capacity), C.size_t(0)
	if status := write(made, &length); status != C.CUKVASHE_OK {
		return nil, Error(status)
	}
	return made[:length], nil
}

func wipe(slice []byte) {
	if len(slice) > 0 {
		C.cukvashe_wipe(unsafe.Pointer(&slice[0]), size(slice))
	}
}
