// Decrypts a column of records of a CSV table in one call: triple DES with three keys in CBC mode, padded by PKCS#7.
//
//	go run records.go KEY TABLE        KEY is a file of 48 hexadecimal digits: on the command line every user could read them
package main

import (
	"encoding/csv"
	"encoding/hex"
	"fmt"
	"log"
	"os"
	"strings"

	"cukvashe"
)

func main() {
	log.SetFlags(0)
	if len(os.Args) != 3 {
		log.Fatal("records: name the file of the key, and the table")
	}
	if err := decrypt(os.Args[1], os.Args[2]); err != nil {
		log.Fatal(err)
	}
}

func decrypt(keyFile, table string) error {
	digits, err := os.ReadFile(keyFile)
	if err != nil {
		return err
	}
	key, err := hex.DecodeString(strings.TrimSpace(string(digits)))
	if err != nil {
		return err
	}
	block, err := cukvashe.New(key)
	if err != nil {
		return err
	}
	defer block.Wipe()
	file, err := os.Open(table)
	if err != nil {
		return err
	}
	defer file.Close()
	rows, err := csv.NewReader(file).ReadAll()
	if err != nil {
		return err
	}
	rows = rows[1:] // below number, vector, ciphertext

	// All records in one list, each with an initialization vector of its own.
	var vectors, data []byte
	var counts []int
	for _, row := range rows {
		vector, err := hex.DecodeString(row[1])
		if err != nil {
			return err
		}
		record, err := hex.DecodeString(row[2])
		if err != nil {
			return err
		}
		vectors, data = append(vectors, vector...), append(data, record...)
		counts = append(counts, len(record)/cukvashe.BlockSize)
	}
	if err := block.DecryptCBCRecords(vectors, counts, data); err != nil {
		return err
	}
	for at, row := range rows {
		size := counts[at] * cukvashe.BlockSize
		text, err := cukvashe.PKCS7.Unpad(data[:size])
		if err != nil {
			return fmt.Errorf("record %s: %w", row[0], err)
		}
		fmt.Printf("%s %s\n", row[0], text)
		data = data[size:]
	}
	return nil
}

// NIST SP 800-67, Appendix B, has the key. OpenSSL encrypted the records: see examples/data/by_openssl.
// $ cd examples/go
// $ go run records.go ../data/key ../data/records.csv
// 1 The qufck brown fox jump
// 2 Now is the time
// 3 Account 4012345678909: 25.00 paid in
// 4 No
