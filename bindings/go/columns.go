package cukvashe

// #include "bridge.h"
import "C"

import (
	"crypto/rand"
	"encoding/base64"
	"fmt"
)

// UnreadableValuesError is the error of a column of which some values can't be read. Faults has why, as ErrNotEncrypted, by the place of
// each, from 0 on. The texts of the others come beside it.
type UnreadableValuesError struct {
	Faults map[int]error
	first  int
}

func (e *UnreadableValuesError) Error() string {
	return fmt.Sprintf("cukvashe: %d values can't be read, the first at place %d: %v", len(e.Faults), e.first, e.Faults[e.first])
}

// add adds a fault, behind those before.
func (e *UnreadableValuesError) add(place int, fault error) {
	if len(e.Faults) == 0 {
		e.first = place
	}
	e.Faults[place] = fault
}

// orNil is nil if there is no fault.
func (e *UnreadableValuesError) orNil() error {
	if len(e.Faults) == 0 {
		return nil
	}
	return e
}

// column are the values that a column has, one after the other, and how long each is.
type column struct {
	joined  []byte
	lengths []C.size_t
	places  []int
	rows    int
}

// columnOf leaves out values that are nil.
func columnOf(values [][]byte) column {
	var total int
	for _, it := range values {
		total += len(it)
	}
	c := column{make([]byte, 0, total), make([]C.size_t, 0, len(values)), make([]int, 0, len(values)), len(values)}
	for at, it := range values {
		if it != nil {
			c.joined, c.lengths, c.places = append(c.joined, it...), append(c.lengths, size(it)), append(c.places, at)
		}
	}
	return c
}

// sizes is how a call passes numbers to C: nil where there are none.
func sizes(numbers []C.size_t) *C.size_t {
	if len(numbers) == 0 {
		return nil
	}
	return &numbers[0]
}

// reading is what calls that read a column take last.
type reading struct {
	values      *C.uint8_t
	length      C.size_t
	lengths     *C.size_t
	count       C.size_t
	texts       *C.uint8_t
	textLengths *C.size_t
	statuses    *C.int
}

// read are the texts of values, by a call.
func read(values [][]byte, call func(r reading) C.int) ([][]byte, error) {
	c := columnOf(values)
	made, lengths, statuses := make([]byte, len(c.joined)), make([]C.size_t, len(c.places)), make([]C.int, len(c.places)+1)
	status := call(reading{bytes(c.joined), size(c.joined), sizes(c.lengths), C.size_t(len(c.places)), bytes(made), sizes(lengths),
		&statuses[0]})
	if status != C.CUKVASHE_OK && Error(status) != ErrValues {
		return nil, Error(status)
	}
	texts := make([][]byte, c.rows)
	faults := &UnreadableValuesError{Faults: map[int]error{}}
	for at, place := range c.places {
		if status := statuses[at]; status != C.CUKVASHE_OK {
			faults.add(place, Error(status))
		} else {
			texts[place] = made[:lengths[at]:lengths[at]]
		}
		made = made[c.lengths[at]:]
	}
	return texts, faults.orNil()
}

// MySQLDecryptValues are the texts of a column that DES_ENCRYPT of MySQL or MariaDB encrypted under a key string. Values of every key
// number are taken for its, as the server does; of nil, the null of a database, comes nil. If some can't be read, the error is an
// *UnreadableValuesError, and nil stands in their places: ErrNotEncrypted, ErrPaddingMismatch. Nothing authenticates values: under a
// wrong key most are such faults, and the others wrong.
func MySQLDecryptValues(key []byte, values [][]byte) ([][]byte, error) {
	return read(values, func(r reading) C.int {
		return C.cukvashe_mysql_decrypt_values(bytes(key), size(key), r.values, r.length, r.lengths, r.count, r.texts, r.textLengths,
			r.statuses)
	})
}

// Pgcrypto is encrypt and encrypt_iv of pgcrypto with what they were given. A key or vector that is shorter than the cipher's is filled
// with zeros, and a longer one cut: so a key of 16 bytes is no two-key triple DES.
type Pgcrypto struct {
	Cipher string // des or 3des, which are CBC, des-ecb or 3des-ecb, and /pad:none behind it
	Key    []byte
	IV     []byte // nil: zeros
}

// DecryptValues are the texts of a column. Values and errors as of MySQLDecryptValues: ErrBlockLength, ErrPaddingMismatch.
// ErrAlgorithmName.
func (p *Pgcrypto) DecryptValues(values [][]byte) ([][]byte, error) {
	name, length := text(p.Cipher)
	return read(values, func(r reading) C.int {
		return C.cukvashe_pgcrypto_decrypt_values(name, length, bytes(p.Key), size(p.Key), bytes(p.IV), size(p.IV), r.values, r.length,
			r.lengths, r.count, r.texts, r.textLengths, r.statuses)
	})
}

// A PBE is an algorithm of password-based encryption, by its name.
type PBE string

// The algorithms: by PKCS #5 version 1.5 (RFC 8018); by Java's own rule, whose salt has 8 bytes; and by PKCS #12 (RFC 7292, Appendix B),
// whose password is UTF-8. Jasypt has the first, which is its default before version 3, the third and the fourth.
const (
	PBEWithMD5AndDES           PBE = "PBEWithMD5AndDES"
	PBEWithSHA1AndDES          PBE = "PBEWithSHA1AndDES"
	PBEWithMD5AndTripleDES     PBE = "PBEWithMD5AndTripleDES"
	PBEWithSHA1AndDESede       PBE = "PBEWithSHA1AndDESede"
	PBEWithSHAAnd2KeyTripleDES PBE = "pbeWithSHAAnd2-KeyTripleDES-CBC"
)

// PBEKey is the key, and after it the vector: 16 bytes together for DES, 24 for two keys, 32 for three. ErrAlgorithmName, ErrKeyLength,
// ErrIterationCount, ErrSaltLength.
func PBEKey(algorithm PBE, iterations int, password, salt []byte, length int) ([]byte, error) {
	name, nameLength := text(string(algorithm))
	return derived(length, func(key []byte) C.int {
		return C.cukvashe_pbe_key(name, nameLength, C.size_t(iterations), bytes(password), size(password), bytes(salt), size(salt), bytes(key),
			size(key))
	})
}

// JasyptDecryptValues are the texts of strings of Jasypt, with or without ENC(..) around, which takes 1,000 iterations unless it was told
// another number. White space around and within a string does not count; one whose pad bits (RFC 4648, 3.5) are not zeros is not Base64.
// The key of each is derived by itself. Values and errors as of MySQLDecryptValues: ErrBase64, ErrSaltLength, ErrBlockLength,
// ErrPaddingMismatch. ErrAlgorithmName, ErrIterationCount.
func JasyptDecryptValues(algorithm PBE, iterations int, password []byte, values []string) ([][]byte, error) {
	if !algorithm.isOfJasypt() {
		return nil, ErrAlgorithmName
	}
	name, length := text(string(algorithm))
	rows := make([][]byte, len(values))
	for at, it := range values {
		rows[at] = []byte(it)
	}
	return read(rows, func(r reading) C.int {
		return C.cukvashe_jasypt_decrypt_values(name, length, C.size_t(iterations), bytes(password), size(password), r.values, r.length,
			r.lengths, r.count, r.texts, r.textLengths, r.statuses)
	})
}

func (a PBE) isOfJasypt() bool {
	return a == PBEWithMD5AndDES || a == PBEWithMD5AndTripleDES || a == PBEWithSHA1AndDESede
}

// JasyptEncryptValues are the strings of texts, each from a random salt, without ENC(..) around. ErrAlgorithmName, ErrIterationCount.
func JasyptEncryptValues(algorithm PBE, iterations int, password []byte, texts [][]byte) ([]string, error) {
	salts := make([]byte, BlockSize*len(texts))
	if _, err := rand.Read(salts); err != nil {
		return nil, err
	}
	return jasyptEncrypt(algorithm, iterations, password, salts, texts)
}

// JasyptEncrypt is the string of one text.
func JasyptEncrypt(algorithm PBE, iterations int, password, plain []byte) (string, error) {
	made, err := JasyptEncryptValues(algorithm, iterations, password, [][]byte{plain})
	if err != nil {
		return "", err
	}
	return made[0], nil
}

func jasyptEncrypt(algorithm PBE, iterations int, password, salts []byte, texts [][]byte) ([]string, error) {
	if !algorithm.isOfJasypt() {
		return nil, ErrAlgorithmName
	}
	name, length := text(string(algorithm))
	var joined []byte
	var total int
	lengths, ends := make([]C.size_t, len(texts)), make([]int, len(texts))
	for at, it := range texts {
		joined, lengths[at] = append(joined, it...), size(it)
		total += base64.StdEncoding.EncodedLen((len(it)/BlockSize + 2) * BlockSize)
		ends[at] = total
	}
	values := make([]byte, total)
	status := C.cukvashe_jasypt_encrypt_values(name, length, C.size_t(iterations), bytes(password), size(password), bytes(salts), size(salts),
		bytes(joined), size(joined), sizes(lengths), C.size_t(len(texts)), bytes(values), size(values))
	if status != C.CUKVASHE_OK {
		return nil, Error(status)
	}
	made, from := make([]string, len(texts)), 0
	for at, end := range ends {
		made[at], from = string(values[from:end]), end
	}
	return made, nil
}
