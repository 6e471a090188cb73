package cukvashe

// #include "bridge.h"
import "C"

import (
	"crypto/rand"
	"unsafe"
)

// WeakKeyTest refuses a key of 8, 16 or 24 bytes that is weak in one of its parts, or has two parts that are one key. ErrKeyLength,
// ErrWeakKey.
func WeakKeyTest(key []byte) error { return result(C.cukvashe_weak_key_test(bytes(key), size(key))) }

// SetOddParity sets the lowest bit of each byte so that its number of ones is odd.
func SetOddParity(key []byte) { C.cukvashe_set_odd_parity(bytes(key), size(key)) }

// CheckValue is the check value (KCV) of a key or component of 8, 16 or 24 bytes. ErrKeyLength.
func CheckValue(key []byte) (value [3]byte, err error) {
	return value, result(C.cukvashe_key_check_value(bytes(key), size(key), bytes(value[:])))
}

// ShortCheckValue is the check value of two bytes of a key or component of 8, 16 or 24. ErrKeyLength.
func ShortCheckValue(key []byte) (value [2]byte, err error) {
	return value, result(C.cukvashe_short_key_check_value(bytes(key), size(key), bytes(value[:])))
}

// EqualButParity says whether two keys of one length, a multiple of 8, agree in all bits but the lowest of each byte.
func EqualButParity(first, second []byte) bool {
	return len(first) == len(second) && bool(C.cukvashe_equal_but_parity(bytes(first), bytes(second), size(first)))
}

// Combine is the key that two or more components of one length make: their xor, with odd parity. ErrKeyLength, ErrCountMismatch,
// ErrWeakKey.
func Combine(components ...[]byte) ([]byte, error) {
	if len(components) < 2 {
		return nil, ErrCountMismatch
	}
	var joined []byte
	for _, it := range components {
		if len(it) != len(components[0]) {
			return nil, ErrKeyLength
		}
		joined = append(joined, it...)
	}
	defer wipe(joined)
	key := make([]byte, len(components[0]))
	if status := C.bridge_combine(parts(len(key)), bytes(joined), size(joined), bytes(key)); status != C.CUKVASHE_OK {
		return nil, Error(status)
	}
	return key, nil
}

// Keys of DUKPT (ANSI X9.24-1:2009), one type for each so that none stands in another's place. k[:] has the bytes.
type (
	// Serial is a key serial number (KSN). Before a shorter one put bytes FF.
	Serial [10]byte
	// BaseKey is a base derivation key (BDK), the host's.
	BaseKey [16]byte
	// InitialKey is the first key of a terminal (IK, IPEK).
	InitialKey [16]byte
	// TransactionKey is the key of a transaction, which encrypts nothing itself.
	TransactionKey [16]byte
)

// A Direction is that of a message.
type Direction bool

// The request goes from the terminal to the host, and the response back.
const (
	Request  Direction = false
	Response Direction = true
)

// IsUsable says whether a transaction has this key serial number: ask it of each that you are sent. Counter 0 would give the initial
// key itself.
func (s Serial) IsUsable() bool { return bool(C.cukvashe_dukpt_is_usable(bytes(s[:]))) }

// Next is the next usable key serial number. ErrNoSerial.
func (s Serial) Next() (next Serial, err error) {
	return next, result(C.cukvashe_dukpt_next_serial(bytes(s[:]), bytes(next[:])))
}

// Initial is the initial key of the terminal with this key serial number, whose counter plays no part.
func (k BaseKey) Initial(serial Serial) (key InitialKey) {
	C.cukvashe_dukpt_initial_key(bytes(k[:]), bytes(serial[:]), bytes(key[:]))
	return key
}

// Transactions are the keys of many transactions, of any terminals.
func (k BaseKey) Transactions(serials []Serial) []TransactionKey {
	keys := make([]TransactionKey, len(serials))
	if len(serials) > 0 {
		must(C.cukvashe_dukpt_transaction_keys_from_base(bytes(k[:]), bytes(serials[0][:]), C.size_t(10*len(serials)),
			bytes(keys[0][:]), C.size_t(16*len(keys)), C.size_t(len(serials))))
	}
	return keys
}

// Transaction is the key of a transaction. It takes every counter: ask first whether the serial IsUsable.
func (k InitialKey) Transaction(serial Serial) (key TransactionKey) {
	C.cukvashe_dukpt_transaction_key(bytes(k[:]), bytes(serial[:]), bytes(key[:]))
	return key
}

// PIN is the key that encrypts PIN blocks.
func (k TransactionKey) PIN() []byte {
	key := make([]byte, 16)
	C.cukvashe_dukpt_pin_key(bytes(k[:]), bytes(key))
	return key
}

// MAC is the key that authenticates a message.
func (k TransactionKey) MAC(of Direction) []byte {
	key := make([]byte, 16)
	C.cukvashe_dukpt_mac_key(bytes(k[:]), C.bool(of), bytes(key))
	return key
}

// Data is the key that encrypts a message.
func (k TransactionKey) Data(of Direction) []byte {
	key := make([]byte, 16)
	C.cukvashe_dukpt_data_key(bytes(k[:]), C.bool(of), bytes(key))
	return key
}

// DataVariant is the key that encrypts a message, made without the last step, as some terminals do. It reveals the transaction's
// other keys.
func (k TransactionKey) DataVariant(of Direction) []byte {
	key := make([]byte, 16)
	C.cukvashe_dukpt_data_variant(bytes(k[:]), C.bool(of), bytes(key))
	return key
}

// Terminal is the terminal's side of DUKPT: the keys of all its transactions to come.
type Terminal struct {
	state C.cukvashe_dukpt_terminal
}

// TerminalStateSize is the number of bytes of a terminal's state.
const TerminalStateSize = int(C.sizeof_cukvashe_dukpt_terminal)

// NewTerminal begins with any of the terminal's key serial numbers: the first transaction has counter 1.
func NewTerminal(initial InitialKey, serial Serial) *Terminal {
	t := new(Terminal)
	C.cukvashe_dukpt_terminal_init(&t.state, bytes(initial[:]), bytes(serial[:]))
	return t
}

// TerminalOf goes on from a State.
func TerminalOf(state [TerminalStateSize]byte) *Terminal {
	return &Terminal{*(*C.cukvashe_dukpt_terminal)(unsafe.Pointer(&state))}
}

// State is what to store before a key of NextKey is used, or it is used twice. It is secret.
func (t *Terminal) State() [TerminalStateSize]byte {
	return *(*[TerminalStateSize]byte)(unsafe.Pointer(&t.state))
}

// NextKey is the next transaction's, which it clears in the state. ErrNoSerial after the last one, and of an empty state.
func (t *Terminal) NextKey() (serial Serial, key TransactionKey, err error) {
	return serial, key, result(C.cukvashe_dukpt_terminal_next_key(&t.state, bytes(serial[:]), bytes(key[:])))
}

// Wipe overwrites the keys.
func (t *Terminal) Wipe() { C.cukvashe_wipe(unsafe.Pointer(&t.state), C.size_t(TerminalStateSize)) }

// PINBlock is a PIN block, which the calls named Encode and Decode take in clear: encrypt it by EncryptECB. A PIN has 4 to 12 digits,
// an account number (PAN) 8 to 19, the last the check digit.
type PINBlock [8]byte

// Fill are digits, one in a byte, of which a PIN block takes as many as fit: of format 3 each from 10 to 15, of format 1 from 0
// to 15.
type Fill [10]byte

// RandomFill are fill digits of format 3 from crypto/rand.
func RandomFill() (fill Fill, err error) {
	for at := 0; at < len(fill) && err == nil; {
		var one [1]byte
		_, err = rand.Read(one[:])
		// Of the 256 values 252 are as many of each digit.
		if one[0] < 252 {
			fill[at] = 10 + one[0]%6
			at++
		}
	}
	return fill, err
}

// EncodePIN0 is the block of format 0. ErrPINLength, ErrPINDigit, ErrAccountLength, ErrAccountDigit.
func EncodePIN0(pin, account string) (block PINBlock, err error) {
	digits, length := text(pin)
	card, cardLength := text(account)
	return block, result(C.cukvashe_pin_encode_0(digits, length, card, cardLength, bytes(block[:])))
}

// EncodePIN1 is the block of format 1, which takes no account number. ErrPINLength, ErrPINDigit, ErrFill.
func EncodePIN1(pin string, transaction Fill) (block PINBlock, err error) {
	digits, length := text(pin)
	return block, result(C.cukvashe_pin_encode_1(digits, length, bytes(transaction[:]), bytes(block[:])))
}

// EncodePIN2 is the block of format 2, which goes to a card in clear. ErrPINLength, ErrPINDigit.
func EncodePIN2(pin string) (block PINBlock, err error) {
	digits, length := text(pin)
	return block, result(C.cukvashe_pin_encode_2(digits, length, bytes(block[:])))
}

// EncodePIN3 is the block of format 3. Errors as of EncodePIN0; ErrFill.
func EncodePIN3(pin, account string, fill Fill) (block PINBlock, err error) {
	digits, length := text(pin)
	card, cardLength := text(account)
	return block, result(C.cukvashe_pin_encode_3(digits, length, card, cardLength, bytes(fill[:]), bytes(block[:])))
}

// pinOf is the PIN that a call wrote.
func pinOf(pin []byte, status C.int) (string, error) {
	defer wipe(pin)
	if status != C.CUKVASHE_OK {
		return "", Error(status)
	}
	return until(pin), nil
}

// DecodePIN0 is the PIN of a block that EncodePIN0 makes. ErrAccountLength, ErrAccountDigit, ErrFormat, ErrPINLength, ErrPINDigit,
// ErrFill: they reveal something of the PIN, so show them to nobody.
func DecodePIN0(block PINBlock, account string) (string, error) {
	card, cardLength := text(account)
	pin := make([]byte, C.CUKVASHE_PIN_SIZE)
	return pinOf(pin, C.cukvashe_pin_decode_0(bytes(block[:]), card, cardLength, buffer(pin)))
}

// DecodePIN1 is the PIN of a block that EncodePIN1 makes. ErrFormat, ErrPINLength, ErrPINDigit, as of DecodePIN0.
func DecodePIN1(block PINBlock) (string, error) {
	pin := make([]byte, C.CUKVASHE_PIN_SIZE)
	return pinOf(pin, C.cukvashe_pin_decode_1(bytes(block[:]), buffer(pin)))
}

// DecodePIN2 is the PIN of a block that EncodePIN2 makes. ErrFormat, ErrPINLength, ErrPINDigit, ErrFill, as of DecodePIN0.
func DecodePIN2(block PINBlock) (string, error) {
	pin := make([]byte, C.CUKVASHE_PIN_SIZE)
	return pinOf(pin, C.cukvashe_pin_decode_2(bytes(block[:]), buffer(pin)))
}

// DecodePIN3 is the PIN of a block that EncodePIN3 makes. Errors as of DecodePIN0.
func DecodePIN3(block PINBlock, account string) (string, error) {
	card, cardLength := text(account)
	pin := make([]byte, C.CUKVASHE_PIN_SIZE)
	return pinOf(pin, C.cukvashe_pin_decode_3(bytes(block[:]), card, cardLength, buffer(pin)))
}

// Translation takes PIN blocks from one key and format to another. The PIN does not come out.
type Translation struct {
	IncomingKey    []byte // 8, 16 or 24 bytes
	IncomingFormat int    // 0, 1 or 3
	OutgoingKey    []byte
	OutgoingFormat int    // 0, 1 or 3; 1 only from 1, whose transaction digits stay
	Account        string // of both blocks; no matter to format 1
	Fill           Fill   // no matter but to format 3: RandomFill
}

// Translate decrypts a PIN block, and encrypts the one of its PIN. ErrKeyLength, ErrFormats, ErrAccountLength, ErrAccountDigit,
// ErrFill; ErrPINBlock, whatever is wrong with the block.
func (t *Translation) Translate(block PINBlock) (translated PINBlock, err error) {
	card, cardLength := text(t.Account)
	return translated, result(C.bridge_translate(bytes(t.IncomingKey), size(t.IncomingKey), number(t.IncomingFormat), bytes(t.OutgoingKey),
		size(t.OutgoingKey), number(t.OutgoingFormat), card, cardLength, bytes(t.Fill[:]), bytes(block[:]), bytes(translated[:])))
}

// PairKey is the pair of keys of PINs' and cards' verification values.
type PairKey [16]byte

// PVV is the PIN verification value: four digits, of an account number of 12 to 19 and the first four of a PIN, by the key of an index
// from 1 to 6. ErrPINLength, ErrPINDigit, ErrAccountLength, ErrAccountDigit, ErrKeyIndex.
func (k PairKey) PVV(account string, index int, pin string) (string, error) {
	card, cardLength := text(account)
	digits, length := text(pin)
	value := make([]byte, C.CUKVASHE_PVV_SIZE)
	status := C.cukvashe_pvv(bytes(k[:]), card, cardLength, number(index), digits, length, buffer(value))
	return until(value), result(status)
}

// VerifyPVV returns nil for the right PIN alone. Errors as of PVV; ErrWrongPIN. Count wrong PINs: unlimited guesses find the right one.
func (k PairKey) VerifyPVV(account string, index int, pin, value string) error {
	card, cardLength := text(account)
	digits, length := text(pin)
	expected, size := text(value)
	return result(C.cukvashe_pvv_verify(bytes(k[:]), card, cardLength, number(index), digits, length, expected, size))
}

// CVV is the card verification value: three digits, of an account number of 12 to 19, an expiry date of four in the issuer's order, and
// a service code of three. ErrAccountLength, ErrAccountDigit, ErrExpiryLength, ErrExpiryDigit, ErrServiceLength, ErrServiceDigit.
func (k PairKey) CVV(account, expiry, service string) (string, error) {
	card, cardLength := text(account)
	date, dateLength := text(expiry)
	code, codeLength := text(service)
	value := make([]byte, C.CUKVASHE_CVV_SIZE)
	status := C.cukvashe_cvv(bytes(k[:]), card, cardLength, date, dateLength, code, codeLength, buffer(value))
	return until(value), result(status)
}

// IBM3624 verifies PINs by the method of the IBM 3624, with a key of 8, 16 or 24 bytes.
type IBM3624 struct {
	key   []byte
	table C.cukvashe_decimal_table
}

// NewIBM3624 takes the decimalization table as the sixteen digits that stand for 0 to 15. An attacker who chooses the table finds PINs
// out. ErrKeyLength, ErrTableLength, ErrTableDigit; ErrTableVariety of one with fewer than eight different digits.
func NewIBM3624(key []byte, table string) (*IBM3624, error) {
	m, digits := &IBM3624{key: append([]byte(nil), key...)}, []byte(table)
	return m.made(C.cukvashe_decimal_table_init(&m.table, buffer(digits), size(digits)))
}

// NewIBM3624OfAnyTable is NewIBM3624 with a table of any variety, for old systems. ErrKeyLength, ErrTableLength, ErrTableDigit.
func NewIBM3624OfAnyTable(key []byte, table string) (*IBM3624, error) {
	m, digits := &IBM3624{key: append([]byte(nil), key...)}, []byte(table)
	return m.made(C.cukvashe_decimal_table_init_any(&m.table, buffer(digits), size(digits)))
}

func (m *IBM3624) made(status C.int) (*IBM3624, error) {
	if parts(len(m.key)) == 0 {
		return nil, ErrKeyLength
	}
	if status != C.CUKVASHE_OK {
		return nil, Error(status)
	}
	return m, nil
}

// NaturalPIN is the PIN of validation data, with 4 to 12 digits. ErrPINLength.
func (m *IBM3624) NaturalPIN(validation [8]byte, digits int) (string, error) {
	pin := make([]byte, C.CUKVASHE_PIN_SIZE)
	return pinOf(pin, C.cukvashe_natural_pin(bytes(m.key), size(m.key), &m.table, bytes(validation[:]), C.size_t(digits), buffer(pin)))
}

// Offset is what the host keeps of a PIN: digit by digit, modulo ten, the PIN less the natural PIN. ErrPINLength, ErrPINDigit.
func (m *IBM3624) Offset(validation [8]byte, pin string) (string, error) {
	digits, length := text(pin)
	offset := make([]byte, C.CUKVASHE_PIN_SIZE)
	return pinOf(offset, C.cukvashe_pin_offset(bytes(m.key), size(m.key), &m.table, bytes(validation[:]), digits, length, buffer(offset)))
}

// Verify returns nil for the right PIN alone. ErrPINLength, ErrPINDigit, of the PIN and then of the offset; ErrWrongPIN. Count wrong
// PINs: unlimited guesses find the right one.
func (m *IBM3624) Verify(validation [8]byte, pin, offset string) error {
	digits, length := text(pin)
	kept, keptLength := text(offset)
	return result(C.cukvashe_pin_offset_verify(bytes(m.key), size(m.key), &m.table, bytes(validation[:]), digits, length, kept, keptLength))
}

// Keys of card cryptograms (EMV 4.3, Book 2), one type for each so that none stands in another's place.
type (
	// IssuerKey is an issuer's master key (IMK).
	IssuerKey [16]byte
	// CardKey is the key of a card.
	CardKey [16]byte
	// SessionKey is the key of a session with a card.
	SessionKey [16]byte
)

// Card is the key of a card by option A, with odd parity, of an account number of 8 to 19 digits and a sequence number of two, 00
// if the card has none. ErrAccountLength, ErrAccountDigit, ErrSequenceLength, ErrSequenceDigit.
func (k IssuerKey) Card(account, sequence string) (key CardKey, err error) {
	card, cardLength := text(account)
	digits, digitsLength := text(sequence)
	return key, result(C.cukvashe_emv_card_key(bytes(k[:]), card, cardLength, digits, digitsLength, bytes(key[:])))
}

// CardB is the key of a card by option B, which differs if the account number has more than sixteen digits. Errors as of Card.
func (k IssuerKey) CardB(account, sequence string) (key CardKey, err error) {
	card, cardLength := text(account)
	digits, digitsLength := text(sequence)
	return key, result(C.cukvashe_emv_card_key_b(bytes(k[:]), card, cardLength, digits, digitsLength, bytes(key[:])))
}

// Application is the session key for application cryptograms, of the application transaction counter.
func (k CardKey) Application(counter [2]byte) (key SessionKey) {
	C.cukvashe_emv_application_key(bytes(k[:]), bytes(counter[:]), bytes(key[:]))
	return key
}

// Session is the session key for other uses, of eight bytes that are different for each session; the third of them plays no part.
func (k CardKey) Session(block [8]byte) (key SessionKey) {
	C.cukvashe_emv_session_key(bytes(k[:]), bytes(block[:]), bytes(key[:]))
	return key
}

// Cryptogram is the application cryptogram of the data that the card scheme names. To check one that a card sent, take
// NewMAC(RetailMACPadding2, k[:]) and Verify.
func (k SessionKey) Cryptogram(data []byte) (cryptogram [8]byte) {
	C.cukvashe_emv_application_cryptogram(bytes(k[:]), bytes(data), size(data), bytes(cryptogram[:]))
	return cryptogram
}

// Response1 is the issuer's response by method 1, with a response code of two characters.
func (k SessionKey) Response1(cryptogram [8]byte, code [2]byte) (response [8]byte) {
	C.cukvashe_emv_response_1(bytes(k[:]), bytes(cryptogram[:]), bytes(code[:]), bytes(response[:]))
	return response
}

// Response2 is the issuer's response by method 2, with a card status update and at most 8 bytes of the issuer's. ErrDataLength.
func (k SessionKey) Response2(cryptogram [8]byte, status [4]byte, data []byte) (response [4]byte, err error) {
	return response, result(C.cukvashe_emv_response_2(bytes(k[:]), bytes(cryptogram[:]), bytes(status[:]), bytes(data), size(data),
		bytes(response[:])))
}
