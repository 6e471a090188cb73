package cukvashe

// #include "bridge.h"
import "C"

import (
	"crypto/cipher"
	"crypto/des"
	"unsafe"
)

// An Option changes what New and NewMAC make.
type Option int

// NoTables makes a Block or MAC that reads no table at an address that depends on a key or the data. Short lists, MACs and what
// encrypts block after block then take up to four times as long.
const NoTables Option = 1

func noTables(options []Option) C.bool {
	for _, it := range options {
		if it == NoTables {
			return true
		}
	}
	return false
}

// Block is a cipher.Block with a key. Goroutines may share it.
type Block struct {
	words [49]C.uint64_t
	parts C.int
}

// New makes the cipher of a key: DES of 8 bytes, triple DES of 16, whose first part is taken again as the third, and of 24. Parity bits
// are ignored, and weak keys are taken (see WeakKeyTest). des.KeySizeError, ErrNotSupported.
func New(key []byte, options ...Option) (*Block, error) {
	b := &Block{parts: parts(len(key))}
	if b.parts == 0 {
		return nil, des.KeySizeError(len(key))
	}
	if !supported {
		return nil, ErrNotSupported
	}
	must(C.bridge_init(&b.words[0], b.parts, bytes(key), size(key), noTables(options)))
	return b, nil
}

// NewCipher is that of crypto/des: DES with a key of 8 bytes.
func NewCipher(key []byte) (cipher.Block, error) {
	if len(key) != 8 {
		return nil, des.KeySizeError(len(key))
	}
	return newBlock(key)
}

// NewTripleDESCipher is that of crypto/des: triple DES with a key of 24 bytes. New takes 16 too.
func NewTripleDESCipher(key []byte) (cipher.Block, error) {
	if len(key) != 24 {
		return nil, des.KeySizeError(len(key))
	}
	return newBlock(key)
}

// newBlock keeps a nil Block out of the interface.
func newBlock(key []byte) (cipher.Block, error) {
	b, err := New(key)
	if err != nil {
		return nil, err
	}
	return b, nil
}

// Wipe overwrites the round keys; then the Block serves no more.
func (b *Block) Wipe() { C.cukvashe_wipe(unsafe.Pointer(&b.words), C.size_t(unsafe.Sizeof(b.words))) }

// BlockSize is 8.
func (b *Block) BlockSize() int { return BlockSize }

// overlaps says whether two slices share memory, but not from one address on.
func overlaps(x, y []byte) bool {
	if len(x) == 0 || len(y) == 0 || &x[0] == &y[0] {
		return false
	}
	p, q := uintptr(unsafe.Pointer(&x[0])), uintptr(unsafe.Pointer(&y[0]))
	return p < q+uintptr(len(y)) && q < p+uintptr(len(x))
}

// check panics as the modes of crypto/cipher do.
func check(dst, src []byte) {
	if len(dst) < len(src) {
		panic("crypto/cipher: output smaller than input")
	}
	if overlaps(dst[:len(src)], src) {
		panic("crypto/cipher: invalid buffer overlap")
	}
}

func checkBlocks(dst, src []byte) {
	if len(src)%BlockSize != 0 {
		panic("crypto/cipher: input not full blocks")
	}
	check(dst, src)
}

// one is what Encrypt and Decrypt do, with the panics of crypto/des.
func (b *Block) one(decrypts C.bool, dst, src []byte) {
	if len(src) < BlockSize {
		panic("crypto/des: input not full block")
	}
	if len(dst) < BlockSize {
		panic("crypto/des: output not full block")
	}
	if overlaps(dst[:BlockSize], src[:BlockSize]) {
		panic("crypto/des: invalid buffer overlap")
	}
	must(C.bridge_ecb(&b.words[0], b.parts, decrypts, bytes(src), bytes(dst), BlockSize))
}

// Encrypt encrypts the first block of src into dst. A loop of such calls is slower than crypto/des: EncryptECB takes all at once.
func (b *Block) Encrypt(dst, src []byte) { b.one(false, dst, src) }

// Decrypt decrypts the first block of src into dst, as Encrypt does.
func (b *Block) Decrypt(dst, src []byte) { b.one(true, dst, src) }

func (b *Block) ecb(decrypts C.bool, dst, src []byte) {
	checkBlocks(dst, src)
	must(C.bridge_ecb(&b.words[0], b.parts, decrypts, bytes(src), bytes(dst), size(src)))
}

// EncryptECB encrypts each block of src by itself. It panics as CryptBlocks of crypto/cipher does.
func (b *Block) EncryptECB(dst, src []byte) { b.ecb(false, dst, src) }

// DecryptECB decrypts each block of src by itself. It panics as CryptBlocks of crypto/cipher does.
func (b *Block) DecryptECB(dst, src []byte) { b.ecb(true, dst, src) }

// cbc is CBC from a vector on, in one direction.
type cbc struct {
	block    *Block
	decrypts C.bool
	iv       [BlockSize]byte
}

func (b *Block) newCBC(decrypts C.bool, iv []byte) cipher.BlockMode {
	if len(iv) != BlockSize {
		panic("cipher.NewCBC: IV length must equal block size")
	}
	m := &cbc{block: b, decrypts: decrypts}
	copy(m.iv[:], iv)
	return m
}

// NewCBCEncrypter is what cipher.NewCBCEncrypter calls.
func (b *Block) NewCBCEncrypter(iv []byte) cipher.BlockMode { return b.newCBC(false, iv) }

// NewCBCDecrypter is what cipher.NewCBCDecrypter calls.
func (b *Block) NewCBCDecrypter(iv []byte) cipher.BlockMode { return b.newCBC(true, iv) }

func (m *cbc) BlockSize() int { return BlockSize }

func (m *cbc) CryptBlocks(dst, src []byte) {
	checkBlocks(dst, src)
	must(C.bridge_cbc(&m.block.words[0], m.block.parts, m.decrypts, bytes(m.iv[:]), bytes(src), bytes(dst), size(src)))
}

// SetIV is what crypto/tls calls.
func (m *cbc) SetIV(iv []byte) {
	if len(iv) != BlockSize {
		panic("cipher: incorrect length IV")
	}
	copy(m.iv[:], iv)
}
