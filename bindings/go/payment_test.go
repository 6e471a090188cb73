// What known_calls.txt can't say of payment: components, terminals, random digits and padding, and formats that are none.

package cukvashe

import (
	stdbytes "bytes"
	"testing"
)

func TestComponents(t *testing.T) {
	one := x("0123456789abcdef")
	for err, components := range map[error][][]byte{ErrCountMismatch: {one}, ErrKeyLength: {nil, nil}} {
		if _, got := Combine(components...); got != err {
			t.Error(got, err)
		}
	}
}

func TestTerminal(t *testing.T) {
	serial := *(*Serial)(x("ffff9876543210e00001"))
	initial := BaseKey(*(*[16]byte)(x("0123456789abcdeffedcba9876543210"))).Initial(serial)
	terminal := NewTerminal(initial, serial)
	for count := 1; count <= 300; count++ {
		if count == 150 {
			terminal = TerminalOf(terminal.State())
		}
		at, key, err := terminal.NextKey()
		if err != nil || key != initial.Transaction(at) || !at.IsUsable() || count == 1 && at != serial {
			t.Fatal(count, err)
		}
	}
}

func TestRandomFill(t *testing.T) {
	seen := map[byte]bool{}
	for round := 0; round < 100; round++ {
		fill, err := RandomFill()
		if _, other := EncodePIN3("1234", "4012345678909", fill); err != nil || other != nil {
			t.Fatal(err, other)
		}
		for _, digit := range fill {
			seen[digit] = true
		}
	}
	if len(seen) != 6 {
		t.Error("digits: ", seen)
	}
}

func TestFormatsThatAreNone(t *testing.T) {
	key := x("89e88cf7931444f334bd7547fc3f380c")
	for _, format := range []int{-1, 1, 2, 4, 1 << 32, 1<<32 + 3} {
		translation := Translation{IncomingKey: key, OutgoingKey: key, OutgoingFormat: format, Account: "4012345678909"}
		if _, err := translation.Translate(*(*PINBlock)(x("8856db66d89e9eff"))); err != ErrFormats {
			t.Error(format, err)
		}
	}
}

func TestRandomPadding(t *testing.T) {
	const optional = "KS1800604B120F9292800000"
	protection, triple := x("dd7515f2bfc17f85ce48f3ca25cb21f6"), x("0123456789abcdeffedcba98765432108899aabbccddeeff")
	header := KeyBlockHeader{'B', "P0", 'T', 'E', "00", 'E'}
	for _, size := range []int{8, 16, 24} {
		for _, version := range []byte{'B', 'C'} {
			header.Version = version
			made, err := WrapKeyBlock(protection, header, triple[:size], optional)
			again, _ := WrapKeyBlock(protection, header, triple[:size], optional)
			of, back, other := UnwrapKeyBlock(protection, made)
			if err != nil || other != nil || made == again || of != header || !stdbytes.Equal(back, triple[:size]) {
				t.Error(size, version, err, other)
			}
		}
	}
	wrapped, err := WrapKeyCMS(protection, triple)
	again, _ := WrapKeyCMS(protection, triple)
	back, other := UnwrapKeyCMS(protection, wrapped)
	if err != nil || other != nil || stdbytes.Equal(wrapped, again) || !stdbytes.Equal(back, triple) {
		t.Error(err, other)
	}
}
