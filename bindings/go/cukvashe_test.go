// Ciphers, streams, MACs and lists beside crypto/des and crypto/cipher, with their panics, in random pieces.

package cukvashe

import (
	stdbytes "bytes"
	"crypto/cipher"
	"crypto/des"
	"encoding/binary"
	"encoding/hex"
	"errors"
	"fmt"
	"hash"
	"math/rand"
	"os"
	"strings"
	"sync"
	"testing"
)

func x(digits string) []byte {
	it, err := hex.DecodeString(digits)
	if err != nil {
		panic(err)
	}
	return it
}

// random are the numbers of a test, the same each time.
func random(seed int64) *rand.Rand { return rand.New(rand.NewSource(seed)) }

func some(r *rand.Rand, length int) []byte {
	it := make([]byte, length)
	r.Read(it)
	return it
}

// pair is a cipher here, and that of crypto/des with the same key.
func pair(t testing.TB, r *rand.Rand) (*Block, cipher.Block) {
	key := some(r, 8*(1+r.Intn(3)))
	options := [][]Option{nil, {NoTables}}[r.Intn(2)]
	ours, err := New(key, options...)
	if err != nil {
		t.Fatal(err)
	}
	return ours, standard(t, key)
}

func standard(t testing.TB, key []byte) (theirs cipher.Block) {
	var err error
	switch len(key) {
	case 8:
		theirs, err = des.NewCipher(key)
	case 16:
		theirs, err = des.NewTripleDESCipher(append(append([]byte{}, key...), key[:8]...))
	default:
		theirs, err = des.NewTripleDESCipher(key)
	}
	if err != nil {
		t.Fatal(err)
	}
	return theirs
}

// length is mostly short, and sometimes so long that the library takes its widest code path.
func length(r *rand.Rand) int {
	if r.Intn(20) == 0 {
		return r.Intn(700)
	}
	return r.Intn(40)
}

func TestBlocksBesideCryptoDes(t *testing.T) {
	r := random(1)
	for round := 0; round < 2000; round++ {
		ours, theirs := pair(t, r)
		src := some(r, 8*length(r))
		want, got := make([]byte, len(src)), some(r, len(src)+3)
		beyond := append([]byte{}, got[len(src):]...)
		for at := 0; at < len(src); at += 8 {
			theirs.Encrypt(want[at:], src[at:])
		}
		if r.Intn(2) == 0 {
			ours.EncryptECB(got, src)
		} else {
			copy(got, src)
			for at := 0; at < len(src); at += 8 {
				ours.Encrypt(got[at:], got[at:])
			}
		}
		if !stdbytes.Equal(want, got[:len(src)]) || !stdbytes.Equal(beyond, got[len(src):]) {
			t.Fatal("encryption", round)
		}
		if r.Intn(2) == 0 {
			ours.DecryptECB(got, got[:len(src)])
		} else {
			for at := 0; at < len(src); at += 8 {
				ours.Decrypt(got[at:], want[at:])
			}
		}
		if !stdbytes.Equal(src, got[:len(src)]) || !stdbytes.Equal(beyond, got[len(src):]) {
			t.Fatal("decryption", round)
		}
	}
}

func TestCBCBesideCryptoDes(t *testing.T) {
	r := random(2)
	for round := 0; round < 1500; round++ {
		ours, theirs := pair(t, r)
		iv, src := some(r, 8), some(r, 8*length(r))
		for _, mode := range []func(cipher.Block, []byte) cipher.BlockMode{cipher.NewCBCEncrypter, cipher.NewCBCDecrypter} {
			a, b := mode(ours, iv), mode(theirs, iv)
			if _, ok := a.(*cbc); !ok {
				t.Fatalf("crypto/cipher does not take the calls of lists: %T", a)
			}
			want, got := make([]byte, len(src)), make([]byte, len(src))
			b.CryptBlocks(want, src)
			inPlace := r.Intn(2) == 0
			copy(got, src)
			for at, end := 0, 0; at < len(src); at = end {
				end = at + 8*(1+r.Intn((len(src)-at)/8))
				from := src
				if inPlace {
					from = got
				}
				a.CryptBlocks(got[at:], from[at:end])
			}
			if !stdbytes.Equal(want, got) {
				t.Fatal("CBC", round)
			}
			a.(interface{ SetIV([]byte) }).SetIV(iv)
			if a.CryptBlocks(got, src); !stdbytes.Equal(want, got) {
				t.Fatal("SetIV", round)
			}
		}
	}
}

// cfb is cipher feedback with segments of size bytes by its definition (NIST SP 800-38A, 6.3).
func cfb(block cipher.Block, iv, src []byte, size int, decrypts bool) []byte {
	register, out, dst := append([]byte{}, iv...), make([]byte, 8), make([]byte, len(src))
	ciphertext := dst
	if decrypts {
		ciphertext = src
	}
	for at := range src {
		if at%size == 0 {
			block.Encrypt(out, register)
		}
		dst[at] = src[at] ^ out[at%size]
		register = append(register[1:], ciphertext[at])
	}
	return dst
}

// cfb1 is cipher feedback of 1 bit by its definition, of the first bits.
func cfb1(block cipher.Block, iv, src []byte, bits int, decrypts bool) []byte {
	register, in, out, dst := binary.BigEndian.Uint64(iv), make([]byte, 8), make([]byte, 8), append([]byte{}, src...)
	ciphertext := dst
	if decrypts {
		ciphertext = src
	}
	for at := 0; at < bits; at++ {
		binary.BigEndian.PutUint64(in, register)
		block.Encrypt(out, in)
		dst[at/8] ^= out[0] >> 7 << (7 - at%8)
		register = register<<1 | uint64(ciphertext[at/8]>>(7-at%8)&1)
	}
	return dst
}

func TestStreamsBesideCryptoCipher(t *testing.T) {
	r := random(3)
	through := func(stream cipher.Stream, src []byte) []byte {
		dst := make([]byte, len(src))
		stream.XORKeyStream(dst, src)
		return dst
	}
	for round := 0; round < 1000; round++ {
		ours, theirs := pair(t, r)
		iv, src, segment := some(r, 8), some(r, 8*length(r)+r.Intn(8)), 1+r.Intn(8)
		if r.Intn(4) == 0 {
			copy(iv, x("ffffffffffff")) // the counter goes over
		}
		for name, it := range map[string]struct {
			ours cipher.Stream
			want []byte
		}{
			"CTR":                        {cipher.NewCTR(ours, iv), through(cipher.NewCTR(theirs, iv), src)},
			"OFB":                        {ours.NewOFB(iv), through(cipher.NewOFB(theirs, iv), src)},
			"CFB encryption":             {ours.NewCFBEncrypter(iv), through(cipher.NewCFBEncrypter(theirs, iv), src)},
			"CFB decryption":             {ours.NewCFBDecrypter(iv), through(cipher.NewCFBDecrypter(theirs, iv), src)},
			"CFB8 encryption":            {ours.NewCFB8Encrypter(iv), cfb(theirs, iv, src, 1, false)},
			"CFB8 decryption":            {ours.NewCFB8Decrypter(iv), cfb(theirs, iv, src, 1, true)},
			"CFB encryption by segments": {ours.NewCFBSegmentEncrypter(iv, segment), cfb(theirs, iv, src, segment, false)},
			"CFB decryption by segments": {ours.NewCFBSegmentDecrypter(iv, segment), cfb(theirs, iv, src, segment, true)},
		} {
			if _, ok := it.ours.(*stream); !ok {
				t.Fatalf("crypto/cipher does not take the library's %s: %T", name, it.ours)
			}
			got := append([]byte{}, src...)
			for at, end := 0, 0; at < len(src); at = end {
				end = at + 1 + r.Intn(len(src)-at)
				if r.Intn(2) == 0 {
					it.ours.XORKeyStream(got[at:], got[at:end])
				} else {
					it.ours.XORKeyStream(got[at:], src[at:end])
				}
			}
			if !stdbytes.Equal(it.want, got) {
				t.Fatal(name, round)
			}
		}
		skipped := r.Intn(len(src)/8 + 1)
		want := through(cipher.NewCTR(theirs, iv), src)[8*skipped:]
		if !stdbytes.Equal(want, through(ours.NewCTRAt(iv, uint64(skipped)), src[8*skipped:])) {
			t.Fatal("a part of CTR", round)
		}
	}
}

func TestBitsOfCFB1(t *testing.T) {
	r := random(8)
	for round := 0; round < 300; round++ {
		ours, theirs := pair(t, r)
		iv, src := some(r, 8), some(r, r.Intn(60))
		bits := r.Intn(8*len(src) + 1)
		first, made := r.Intn(bits/8+1), make([]byte, len(src))
		encrypted := cfb1(theirs, iv, src, bits, false)
		it := ours.NewCFB1Encrypter(iv)
		it.XORKeyStream(made, src[:first])
		it.XORKeyBits(made[first:], src[first:], bits-8*first)
		taken := (bits + 7) / 8
		if !stdbytes.Equal(made[:taken], encrypted[:taken]) || !stdbytes.Equal(made[taken:], make([]byte, len(src)-taken)) {
			t.Fatal("encryption", round)
		}
		back := ours.NewCFB1Decrypter(iv)
		back.XORKeyBits(encrypted, encrypted, bits)
		if !stdbytes.Equal(encrypted, src) || !stdbytes.Equal(cfb1(theirs, iv, made[:taken], bits, true), src[:taken]) {
			t.Fatal("decryption", round)
		}
	}
}

func panics(call func()) (said any) {
	defer func() { said = recover() }()
	call()
	return nil
}

// What crypto/des and crypto/cipher refuse is refused here, in the same words.
func TestPanicsAreThoseOfCryptoDes(t *testing.T) {
	r := random(4)
	ours, theirs := pair(t, r)
	memory := make([]byte, 64)
	for name, call := range map[string]func(b cipher.Block){
		"short input":          func(b cipher.Block) { b.Encrypt(memory, memory[:7]) },
		"short output":         func(b cipher.Block) { b.Decrypt(memory[:7], memory) },
		"overlap":              func(b cipher.Block) { b.Encrypt(memory[1:], memory) },
		"overlap before":       func(b cipher.Block) { b.Decrypt(memory, memory[7:]) },
		"next block":           func(b cipher.Block) { b.Decrypt(memory, memory[8:]) },
		"vector":               func(b cipher.Block) { cipher.NewCBCDecrypter(b, memory[:7]) },
		"no whole block":       func(b cipher.Block) { cipher.NewCBCDecrypter(b, memory[:8]).CryptBlocks(memory, memory[:12]) },
		"small output":         func(b cipher.Block) { cipher.NewCBCEncrypter(b, memory[:8]).CryptBlocks(memory[:8], memory[:16]) },
		"overlap in CBC":       func(b cipher.Block) { cipher.NewCBCEncrypter(b, memory[:8]).CryptBlocks(memory[8:], memory[:16]) },
		"nothing":              func(b cipher.Block) { cipher.NewCBCEncrypter(b, memory[:8]).CryptBlocks(nil, nil) },
		"small output in CTR":  func(b cipher.Block) { cipher.NewCTR(b, memory[:8]).XORKeyStream(memory[:8], memory[:16]) },
		"overlap in CTR":       func(b cipher.Block) { cipher.NewCTR(b, memory[:8]).XORKeyStream(memory[1:], memory[:16]) },
		"nothing in CTR":       func(b cipher.Block) { cipher.NewCTR(b, memory[:8]).XORKeyStream(nil, nil) },
		"CTR's vector":         func(b cipher.Block) { cipher.NewCTR(b, memory[:7]) },
		"vector of other size": func(b cipher.Block) { cipher.NewCBCEncrypter(b, memory[:9]) },
	} {
		want, got := panics(func() { call(theirs) }), panics(func() { call(ours) })
		if strings.HasPrefix(name, "vector") {
			// Which call says so depends on the way that it found.
			if want == nil || got == nil {
				t.Errorf("%s: crypto/des: %v; here: %v", name, want, got)
			}
		} else if want != got {
			t.Errorf("%s: crypto/des: %v; here: %v", name, want, got)
		}
	}
	for name, call := range map[string]func(){
		"vector of OFB": func() { ours.NewOFB(memory[:9]) },
		"vector of CFB": func() { ours.NewCFBDecrypter(nil) },
		"SetIV":         func() { ours.NewCBCDecrypter(memory[:8]).(*cbc).SetIV(memory[:7]) },
		"no segment":    func() { ours.NewCFBSegmentEncrypter(memory[:8], 0) },
		"a segment":     func() { ours.NewCFBSegmentDecrypter(memory[:8], 9) },
		"output":        func() { ours.NewCFB1Encrypter(memory[:8]).XORKeyBits(memory[:1], memory[:2], 9) },
		"overlap":       func() { ours.NewCFB1Encrypter(memory[:8]).XORKeyBits(memory[1:], memory, 16) },
	} {
		if panics(call) == nil {
			t.Errorf("%s: nothing refuses it", name)
		}
	}
	for _, bits := range []int{-1, 9} {
		got := panics(func() { ours.NewCFB1Encrypter(memory[:8]).XORKeyBits(memory, memory[:1], bits) })
		if got != "cukvashe: the number of bits is from 0 to 8 times the bytes of the input" {
			t.Errorf("%d of 8 bits: %v", bits, got)
		}
	}
}

func TestKeySizes(t *testing.T) {
	for size := 0; size < 40; size++ {
		key := make([]byte, size)
		for name, it := range map[string][2]func([]byte) (cipher.Block, error){
			"DES": {NewCipher, des.NewCipher}, "triple DES": {NewTripleDESCipher, des.NewTripleDESCipher},
		} {
			a, got := it[0](key)
			b, want := it[1](key)
			if got != want || (a == nil) != (b == nil) {
				t.Errorf("%s, %d bytes: crypto/des: %v; here: %v", name, size, want, got)
			}
		}
		_, err := New(key)
		if is := size == 8 || size == 16 || size == 24; (err == nil) != is {
			t.Error(size, err)
		}
	}
	if !IsSupported() || Version() == "" {
		t.Error("the processor, or the version")
	}
}

// What answers alike differs in the mark of its context.
func TestNoTables(t *testing.T) {
	key := make([]byte, 16)
	tables, _ := New(key)
	none, _ := New(key, NoTables)
	if tables.words == none.words {
		t.Error("a block")
	}
	with, _ := NewMAC(CMAC, key)
	without, _ := NewMAC(CMAC, key, NoTables)
	if with.now == without.now {
		t.Error("a MAC")
	}
}

func TestWipedObjectsServeNoMore(t *testing.T) {
	block, _ := New(make([]byte, 24))
	block.Wipe()
	if block.words != (Block{}).words || panics(func() { block.EncryptECB(make([]byte, 8), make([]byte, 8)) }) != ErrContext.Error() {
		t.Error("a block")
	}
	mac, _ := NewMAC(CMAC, make([]byte, 16))
	mac.Wipe()
	if mac.now != mac.empty || mac.now != (MAC{}).now || panics(func() { mac.Sum(nil) }) != ErrContext.Error() {
		t.Error("a MAC")
	}
	terminal := NewTerminal(InitialKey{1}, Serial{1})
	terminal.Wipe()
	if _, _, err := terminal.NextKey(); err != ErrNoSerial {
		t.Error(err)
	}
}

func TestGoroutinesShareABlock(t *testing.T) {
	r := random(5)
	ours, theirs := pair(t, r)
	src := some(r, 4096)
	want := make([]byte, len(src))
	cipher.NewCBCDecrypter(theirs, src[:8]).CryptBlocks(want, src)
	var wait sync.WaitGroup
	for thread := 0; thread < 4; thread++ {
		wait.Add(1)
		go func() {
			defer wait.Done()
			got := make([]byte, len(src))
			for round := 0; round < 20; round++ {
				cipher.NewCBCDecrypter(ours, src[:8]).CryptBlocks(got, src)
				if !stdbytes.Equal(want, got) {
					t.Error("another answer")
				}
			}
		}()
	}
	wait.Wait()
}

// algorithm is that of a name in known_macs.txt.
func algorithm(name, method string) Algorithm {
	switch {
	case strings.HasPrefix(name, "cmac"):
		return CMAC
	case strings.HasPrefix(name, "retail"):
		return map[string]Algorithm{"1": RetailMACPadding1, "2": RetailMACPadding2}[method]
	}
	return map[string]Algorithm{"1": CBCMACPadding1, "2": CBCMACPadding2}[method]
}

// The known answers that the other languages take too: the tags are OpenSSL's.
func TestKnownMACs(t *testing.T) {
	file, err := os.ReadFile("../known_macs.txt")
	if err != nil {
		t.Skip("it is not beside the package: ", err)
	}
	r, count := random(6), 0
	for _, line := range strings.Split(string(file), "\n") {
		fields := strings.Fields(line)
		if len(fields) == 0 || fields[0] == "#" {
			continue
		}
		if len(fields) == 4 { // CMAC has no method
			fields = append([]string{fields[0], ""}, fields[1:]...)
		}
		var size int
		fmt.Sscan(fields[3], &size)
		key, tag, message := x(fields[2]), x(fields[4]), make([]byte, size)
		for at := range message {
			message[at] = byte(at % 251)
		}
		count++
		for _, options := range [][]Option{nil, {NoTables}} {
			mac, err := NewMAC(algorithm(fields[0], fields[1]), key, options...)
			if err != nil {
				t.Fatal(line, err)
			}
			var it hash.Hash = mac
			for again := 0; again < 2; again++ {
				for at, end := 0, 0; at < size; at = end {
					end = at + 1 + r.Intn(size-at)
					it.Write(message[at:end])
					it.Sum(nil)
				}
				clone := mac.Clone()
				clone.Write([]byte{0x80, 1})
				if got := it.Sum([]byte{7}); !stdbytes.Equal(got, append([]byte{7}, tag...)) {
					t.Fatalf("%s: %x", line, got)
				}
				if mac.Verify(tag) != nil || mac.VerifyTruncated(tag[:4], 4) != nil || clone.Verify(tag) != ErrTagMismatch {
					t.Fatal(line)
				}
				it.Reset()
			}
			if it.Size() != 8 || it.BlockSize() != 8 {
				t.Fatal("sizes")
			}
		}
		mac, _ := NewMAC(algorithm(fields[0], fields[1]), key)
		other := append([]byte{0x80, 1}, message...)
		mac.Write(other)
		messages := [][]byte{message, other, nil, message}
		tags, err := MACs(algorithm(fields[0], fields[1]), key, messages)
		if err != nil || !stdbytes.Equal(tags[0][:], tag) || mac.Verify(tags[1][:]) != nil || tags[3] != tags[0] {
			t.Fatal(line, tags, err)
		}
		keys := append(append(append([]byte{}, key...), key...), append(make([]byte, len(key)), key...)...)
		each, err := MACsEach(algorithm(fields[0], fields[1]), keys, messages)
		if err != nil || each[0] != tags[0] || each[1] != tags[1] || each[2] == tags[2] || each[3] != tags[0] {
			t.Fatal(line, each, err)
		}
		if wrong, err := WrongTags(each, tags); err != nil || fmt.Sprint(wrong) != "[2]" {
			t.Fatal(line, wrong, err)
		}
	}
	if count < 50 {
		t.Error("known answers: ", count)
	}
}

func TestTagsThatAreNotTheTag(t *testing.T) {
	mac, _ := NewMAC(RetailMACPadding2, x("0123456789abcdeffedcba9876543210"))
	mac.Write([]byte("Now is the time for it"))
	tag := x("5a692ce64f404145")
	if mac.Verify(tag) != nil {
		t.Fatal("the tag")
	}
	for bit := 0; bit < 64; bit++ {
		wrong := append([]byte{}, tag...)
		wrong[bit/8] ^= 1 << (bit % 8)
		if mac.Verify(wrong) != ErrTagMismatch {
			t.Error(bit)
		}
	}
	for size := 0; size < 8; size++ {
		if mac.Verify(tag[:size]) != ErrTagMismatch || (mac.VerifyTruncated(tag[:size], size) == nil) != (size >= 4) {
			t.Error(size)
		}
	}
	if mac.VerifyTruncated(tag[:4], 5) != ErrTagMismatch || mac.VerifyTruncated(tag, 4) != ErrTagMismatch ||
		mac.Verify(append(tag, 0)) != ErrTagMismatch {
		t.Error("a number of bytes that nobody agreed on")
	}
	for key, want := range map[int]error{8: ErrKeyLength, 15: ErrKeyLength, 24: ErrKeyLength, 0: ErrKeyLength} {
		if _, err := NewMAC(RetailMACPadding1, make([]byte, key)); err != want {
			t.Error(key, err)
		}
	}
	if _, err := NewMAC(Algorithm{}, make([]byte, 16)); err == nil {
		t.Error("an algorithm that is none")
	}
	if _, err := MACsEach(CMAC, make([]byte, 16), nil); err != ErrCountMismatch {
		t.Error(err)
	}
	if _, err := MACsEach(CMAC, make([]byte, 33), make([][]byte, 2)); err != ErrCountMismatch {
		t.Error(err)
	}
}

func TestListsBesideCryptoDes(t *testing.T) {
	r := random(7)
	for round := 0; round < 200; round++ {
		ours, theirs := pair(t, r)
		counts := make([]int, r.Intn(40))
		var want, data []byte
		vectors := some(r, 8*len(counts))
		last := append([]byte{}, vectors...)
		for at := range counts {
			counts[at] = r.Intn(20)
			record := some(r, 8*counts[at])
			data = append(data, record...)
			copy(last[8*at:], record[len(record)-min(len(record), 8):])
			cipher.NewCBCDecrypter(theirs, vectors[8*at:8*at+8]).CryptBlocks(record, record)
			want = append(want, record...)
		}
		encrypted, first := append([]byte{}, data...), append([]byte{}, vectors...)
		if err := ours.DecryptCBCRecords(vectors, counts, data); err != nil || !stdbytes.Equal(want, data) || !stdbytes.Equal(last, vectors) {
			t.Fatal("decryption", round, err)
		}
		if err := ours.EncryptCBCRecords(first, counts, data); err != nil || !stdbytes.Equal(encrypted, data) || !stdbytes.Equal(last, first) {
			t.Fatal("encryption", round, err)
		}
		size, count := 8*(1+r.Intn(3)), r.Intn(300)
		keys, blocks := some(r, size*count), some(r, 8*count)
		before := append([]byte{}, blocks...)
		values, err := CheckValues(size, keys)
		if err != nil || len(values) != count {
			t.Fatal(err)
		}
		if err := EncryptEach(size, keys, blocks); err != nil {
			t.Fatal(err)
		}
		for at := 0; at < count; at++ {
			block, one, zeros := standard(t, keys[size*at:size*at+size]), make([]byte, 8), make([]byte, 8)
			block.Encrypt(one, before[8*at:])
			block.Encrypt(zeros, zeros)
			if !stdbytes.Equal(one, blocks[8*at:8*at+8]) || !stdbytes.Equal(zeros[:3], values[at][:]) {
				t.Fatal("each", round, at)
			}
			if value, err := CheckValue(keys[size*at : size*at+size]); err != nil || value != values[at] {
				t.Fatal("a check value", round, at)
			}
		}
		if err := DecryptEach(size, keys, blocks); err != nil || !stdbytes.Equal(before, blocks) {
			t.Fatal("each back", round, err)
		}
	}
	ours, _ := pair(t, r)
	for name, err := range map[string]error{
		"a count too many":     ours.DecryptCBCRecords(make([]byte, 8), []int{2}, make([]byte, 8)),
		"a vector too few":     ours.DecryptCBCRecords(make([]byte, 8), []int{1, 0}, make([]byte, 8)),
		"a negative count":     ours.EncryptCBCRecords(make([]byte, 16), []int{-1, 2}, make([]byte, 8)),
		"a key too many":       EncryptEach(8, make([]byte, 24), make([]byte, 16)),
		"a part of a key":      DecryptEach(16, make([]byte, 24), make([]byte, 8)),
		"a part of a key more": func() error { _, err := CheckValues(24, make([]byte, 25)); return err }(),
	} {
		if err != ErrCountMismatch {
			t.Error(name, err)
		}
	}
	if err := ours.DecryptCBCRecords(make([]byte, 8), []int{1}, make([]byte, 9)); err != ErrBlockLength {
		t.Error(err)
	}
	if err := EncryptEach(9, nil, nil); err != ErrKeyLength {
		t.Error(err)
	}
}

func TestPadding(t *testing.T) {
	for size := 0; size < 20; size++ {
		data := stdbytes.Repeat([]byte{0x80}, size)
		missing := 8 - size%8
		for method, want := range map[Padding][]byte{
			PKCS7:   stdbytes.Repeat([]byte{byte(missing)}, missing),
			ISO7816: append([]byte{0x80}, make([]byte, missing-1)...),
		} {
			padded, err := method.Pad(data)
			if err != nil || !stdbytes.Equal(padded, append(append([]byte{}, data...), want...)) {
				t.Fatalf("%x %v", padded, err)
			}
			if got, err := method.Unpad(padded); err != nil || !stdbytes.Equal(got, data) {
				t.Fatalf("%x %v", got, err)
			}
		}
	}
	for data, want := range map[string]error{"": ErrPaddingMismatch, "0000000000000000": ErrPaddingMismatch, "01": ErrBlockLength,
		"0101010101010102": ErrPaddingMismatch, "0909090909090909": ErrPaddingMismatch} {
		if _, err := PKCS7.Unpad(x(data)); err != want {
			t.Error(data, err)
		}
	}
	if _, err := Padding(0).Pad(nil); err != ErrPaddingMethod {
		t.Error(err)
	}
}

func TestErrors(t *testing.T) {
	_, err := CheckValue(nil)
	wrapped := fmt.Errorf("the key of the table: %w", err)
	if !errors.Is(wrapped, ErrKeyLength) || errors.Is(wrapped, ErrTagMismatch) {
		t.Error(wrapped)
	}
	if said := err.Error(); said != "cukvashe: the key does not have a length that the call takes" {
		t.Error(said)
	}
}

func min(a, b int) int {
	if a < b {
		return a
	}
	return b
}

func BenchmarkTripleDES(b *testing.B) {
	key, iv := x("0123456789abcdef23456789abcdef01456789abcdef0123"), make([]byte, 8)
	ours, _ := NewTripleDESCipher(key)
	theirs, _ := des.NewTripleDESCipher(key)
	for _, size := range []int{8, 64, 1 << 10, 8 << 10, 1 << 20} {
		for _, it := range []struct {
			name  string
			block cipher.Block
		}{{"cukvashe", ours}, {"crypto-des", theirs}} {
			data := make([]byte, size)
			run := func(name string, call func()) {
				b.Run(fmt.Sprintf("%s/%d/%s", name, size, it.name), func(b *testing.B) {
					b.SetBytes(int64(size))
					for n := 0; n < b.N; n++ {
						call()
					}
				})
			}
			run("decrypt-cbc", func() { cipher.NewCBCDecrypter(it.block, iv).CryptBlocks(data, data) })
			run("encrypt-cbc", func() { cipher.NewCBCEncrypter(it.block, iv).CryptBlocks(data, data) })
			run("ctr", func() { cipher.NewCTR(it.block, iv).XORKeyStream(data, data) })
			if size == 8 {
				run("block", func() { it.block.Encrypt(data, data) })
			}
		}
	}
}
