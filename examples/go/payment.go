// A host and a terminal's transaction: its keys by DUKPT, the retail MAC, the PIN block for the issuer; and a key block.
package main

import (
	"encoding/hex"
	"fmt"
	"log"

	"cukvashe"
)

func bytes(digits string) []byte {
	it, err := hex.DecodeString(digits)
	check(err)
	return it
}

func check(err error) {
	if err != nil {
		log.Fatal(err)
	}
}

func main() {
	// Published values. A base derivation key makes the keys of all terminals: keep yours in a security module.
	base := *(*cukvashe.BaseKey)(bytes("0123456789abcdeffedcba9876543210"))
	protection := bytes("dd7515f2bfc17f85ce48f3ca25cb21f6")
	issuerKey := bytes("89e88cf7931444f334bd7547fc3f380c")

	// What the terminal sent: the key serial number, the message, its tag, and the PIN block under the transaction's PIN key.
	serial := *(*cukvashe.Serial)(bytes("ffff9876543210e00001"))
	message, tag := []byte("4012345678909D987"), bytes("9ccc78173fc4fb64")
	account, pinBlock := "4012345678909", *(*cukvashe.PINBlock)(bytes("1b9c1845eb993a7a"))

	// Some counters no transaction has. With 0 the transaction's key would be the terminal's initial key.
	if !serial.IsUsable() {
		log.Fatal("no transaction has this key serial number")
	}
	transaction := base.Initial(serial).Transaction(serial)

	// The MAC before all else. The terminal has chosen the padding method, 1 or 2. Verify takes whole tags.
	mac, err := cukvashe.NewMAC(cukvashe.RetailMACPadding1, transaction.MAC(cukvashe.Request))
	check(err)
	mac.Write(message)
	check(mac.Verify(tag))
	if mac.Verify(make([]byte, 8)) == cukvashe.ErrTagMismatch {
		fmt.Println("another tag is refused")
	}

	// The PIN block under the issuer's key: the PIN does not come out. Any fault of the block is ErrPINBlock.
	translation := cukvashe.Translation{IncomingKey: transaction.PIN(), OutgoingKey: issuerKey, Account: account}
	translated, err := translation.Translate(pinBlock)
	check(err)
	fmt.Printf("to the issuer: %x\n", translated[:])

	// A PIN key in a key block (TR-31). Look at the header before you use the key: no call does.
	header, key, err := cukvashe.UnwrapKeyBlock(protection, "B0080P0TE00E000094B420079CC80BA3461F86FE26EFC4A3B8E4FA4C5F5341176EED7B727B8A248E")
	check(err)
	isPINKey := header.Usage == "P0" && header.Algorithm == 'T' && header.Mode == 'E' && len(key) >= 16
	if !isPINKey || header.KeyVersion[0] == 'c' { // c: a component of a key
		log.Fatal("the key is not one that encrypts PIN blocks")
	}
	value, err := cukvashe.CheckValue(key)
	check(err)
	fmt.Printf("a PIN key with check value %x\n", value)
}

// ANSI X9.24-1:2009, Annex A, has the tag and the PIN block. The key block is a published one. The block for the issuer and
// the check value are OpenSSL's, by -des-ede-ecb.
// $ cd examples/go
// $ go run payment.go
// another tag is refused
// to the issuer: 8856db66d89e9eff
// a PIN key with check value 57c409
