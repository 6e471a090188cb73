package cukvashe

// #include "bridge.h"
import "C"

import "crypto/cipher"

// stream is a text that comes in pieces, in a mode without padding.
type stream struct {
	block    *Block
	decrypts C.bool
	state    C.cukvashe_stream
}

func (b *Block) newStream(mode C.int, decrypts C.bool, iv []byte) cipher.Stream {
	if len(iv) != BlockSize {
		panic("cukvashe: IV length must equal block size")
	}
	s := &stream{block: b, decrypts: decrypts}
	must(C.cukvashe_stream_begin(&s.state, mode, bytes(iv)))
	return s
}

// NewCTR is what cipher.NewCTR calls: counter mode from the counter block iv on, which goes up by 1 modulo 2^64.
func (b *Block) NewCTR(iv []byte) cipher.Stream {
	if len(iv) != BlockSize {
		panic("cipher.NewCTR: IV length must equal block size") // cipher.NewCTR leaves it to us
	}
	return b.newStream(C.CUKVASHE_CTR, false, iv)
}

// NewCTRAt is NewCTR behind a number of blocks: so a part is decrypted without what stands before it.
func (b *Block) NewCTRAt(iv []byte, blocks uint64) cipher.Stream {
	s := b.NewCTR(iv).(*stream)
	C.cukvashe_stream_begin_ctr_at(&s.state, bytes(iv), C.uint64_t(blocks))
	return s
}

// NewOFB is output feedback of 64 bits. cipher.NewOFB has the same answer, block by block, and takes far longer.
func (b *Block) NewOFB(iv []byte) cipher.Stream { return b.newStream(C.CUKVASHE_OFB, false, iv) }

// NewCFBEncrypter is cipher feedback of 64 bits. cipher.NewCFBEncrypter has the same answer, and takes longer.
func (b *Block) NewCFBEncrypter(iv []byte) cipher.Stream {
	return b.newStream(C.CUKVASHE_CFB64, false, iv)
}

// NewCFBDecrypter is cipher feedback of 64 bits. cipher.NewCFBDecrypter has the same answer, block by block, and takes far longer.
func (b *Block) NewCFBDecrypter(iv []byte) cipher.Stream {
	return b.newStream(C.CUKVASHE_CFB64, true, iv)
}

// NewCFB8Encrypter is cipher feedback of 8 bits.
func (b *Block) NewCFB8Encrypter(iv []byte) cipher.Stream { return b.NewCFBSegmentEncrypter(iv, 1) }

// NewCFB8Decrypter is cipher feedback of 8 bits.
func (b *Block) NewCFB8Decrypter(iv []byte) cipher.Stream { return b.NewCFBSegmentDecrypter(iv, 1) }

// segment is the mode of cipher feedback with segments of size bytes.
func segment(size int) C.int {
	if size < 1 || size > BlockSize {
		panic("cukvashe: a segment has 1 to 8 bytes")
	}
	return C.CUKVASHE_CFB1 + C.int(size)
}

// NewCFBSegmentEncrypter is cipher feedback with segments of 1 to 8 bytes.
func (b *Block) NewCFBSegmentEncrypter(iv []byte, size int) cipher.Stream {
	return b.newStream(segment(size), false, iv)
}

// NewCFBSegmentDecrypter is cipher feedback with segments of 1 to 8 bytes.
func (b *Block) NewCFBSegmentDecrypter(iv []byte, size int) cipher.Stream {
	return b.newStream(segment(size), true, iv)
}

// CFB1 is cipher feedback of 1 bit, a cipher.Stream that takes bits too.
type CFB1 struct{ stream }

// NewCFB1Encrypter is cipher feedback of 1 bit.
func (b *Block) NewCFB1Encrypter(iv []byte) *CFB1 { return b.newCFB1(false, iv) }

// NewCFB1Decrypter is cipher feedback of 1 bit.
func (b *Block) NewCFB1Decrypter(iv []byte) *CFB1 { return b.newCFB1(true, iv) }

func (b *Block) newCFB1(decrypts C.bool, iv []byte) *CFB1 {
	return &CFB1{*b.newStream(C.CUKVASHE_CFB1, decrypts, iv).(*stream)}
}

// XORKeyBits encrypts or decrypts the first bits of src into dst, from the highest bit of the first byte on. The other bits of the last
// byte become those of src.
func (s *CFB1) XORKeyBits(dst, src []byte, bits int) {
	if bits < 0 || bits > 8*len(src) {
		panic("cukvashe: the number of bits is from 0 to 8 times the bytes of the input")
	}
	src = src[:(bits+7)/8]
	check(dst, src)
	copy(dst, src)
	must(C.bridge_stream_bits(&s.block.words[0], s.block.parts, s.decrypts, &s.state, bytes(dst[:len(src)]), C.size_t(bits)))
}

func (s *stream) XORKeyStream(dst, src []byte) {
	check(dst, src)
	copy(dst, src)
	must(C.bridge_stream(&s.block.words[0], s.block.parts, s.decrypts, &s.state, bytes(dst), size(src)))
}
