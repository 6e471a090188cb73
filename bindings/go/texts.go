//go:build cgo

package cukvashe

import "fmt"

// hide is the Format of each type that holds a key, a PIN block or a state: its name alone, by every verb, of a value and of a pointer.
// fmt asks no Format of a value in a field whose name begins with a small letter, nor for %p and %w, which go vet refuses of a value.
func hide[T any](f fmt.State) { fmt.Fprintf(f, "%T", *new(T)) }

// Format writes the type's name.
func (Block) Format(f fmt.State, _ rune) { hide[Block](f) }

func (cbc) Format(f fmt.State, _ rune) { hide[cbc](f) }

func (stream) Format(f fmt.State, _ rune) { hide[stream](f) }

// Format writes the type's name.
func (CFB1) Format(f fmt.State, _ rune) { hide[CFB1](f) }

// Format writes the type's name.
func (MAC) Format(f fmt.State, _ rune) { hide[MAC](f) }

// Format writes the type's name.
func (BaseKey) Format(f fmt.State, _ rune) { hide[BaseKey](f) }

// Format writes the type's name.
func (InitialKey) Format(f fmt.State, _ rune) { hide[InitialKey](f) }

// Format writes the type's name.
func (TransactionKey) Format(f fmt.State, _ rune) { hide[TransactionKey](f) }

// Format writes the type's name.
func (Terminal) Format(f fmt.State, _ rune) { hide[Terminal](f) }

// Format writes the type's name.
func (PINBlock) Format(f fmt.State, _ rune) { hide[PINBlock](f) }

// Format writes the type's name.
func (Translation) Format(f fmt.State, _ rune) { hide[Translation](f) }

// Format writes the type's name.
func (PairKey) Format(f fmt.State, _ rune) { hide[PairKey](f) }

// Format writes the type's name.
func (IBM3624) Format(f fmt.State, _ rune) { hide[IBM3624](f) }

// Format writes the type's name.
func (IssuerKey) Format(f fmt.State, _ rune) { hide[IssuerKey](f) }

// Format writes the type's name.
func (CardKey) Format(f fmt.State, _ rune) { hide[CardKey](f) }

// Format writes the type's name.
func (SessionKey) Format(f fmt.State, _ rune) { hide[SessionKey](f) }

// Format writes the type's name.
func (Pgcrypto) Format(f fmt.State, _ rune) { hide[Pgcrypto](f) }
