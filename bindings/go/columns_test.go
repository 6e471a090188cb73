// Columns of MariaDB, PostgreSQL and Jasypt, and which values of a column can't be read.

package cukvashe

import (
	"errors"
	"reflect"
	"strings"
	"testing"
)

// reads expects the texts of values.
func reads(t *testing.T, got [][]byte, err error, want ...string) {
	t.Helper()
	var texts []string
	for _, it := range got {
		texts = append(texts, string(it))
	}
	if err != nil || !reflect.DeepEqual(texts, want) {
		t.Errorf("%q %v, not %q", texts, err, want)
	}
}

func TestColumnsOfMariaDB(t *testing.T) {
	for _, it := range [][3]string{
		{"secret key", "4111111111111111", "ff761ce2f3fceddd8a59a88a58a8c312f3722aed0d3ffc72c8"},
		{"secret key", "12345678", "ffa3b355af8c509a975b3c4bb286b70d4c"},
		{"secret key", "", ""},
		{"k", "abcdefg", "fff0f19fad283c9714"},
		{"k", "abcdefgh", "ff0cec8a9d3373ae6bfa4d2eb4055de21b"},
		{"k", "xxxxxxxxxxxxxxxxxxxx", "ff02731a6a0a4cf8035bdf098ebb4fe2938bed7dc10b8aabdc"},
		{"", "\x00\xff", "ff137f1306adb26457"},
	} {
		key, value := []byte(it[0]), x(it[2])
		texts, err := MySQLDecryptValues(key, [][]byte{value, nil, value})
		reads(t, texts, err, it[1], "", it[1])
		if texts[1] != nil || texts[0] == nil {
			t.Error("a null")
		}
	}
	// Under a key of the server's file.
	texts, err := MySQLDecryptValues([]byte("another key"), [][]byte{x("81fdbfe045c327a5f2")})
	reads(t, texts, err, "abc")
}

func TestColumnsOfPgcrypto(t *testing.T) {
	for _, it := range [][5]string{
		{"3des", "0123456789abcdef01234567", "", "hello world", "5548aa9afc0bf656bae4a844accf0674"},
		{"3DES-ECB", "0123456789abcdef01234567", "", "hello world", "5548aa9afc0bf6569d9d5e0d89ab4535"},
		{"3des-cbc", "0123456789abcdef", "", "hello world", "5edd30c020f618ff180b53afd62efef9"},
		{"3des", "short key", "", "hello world", "ce1252c01a55ff49ca7c3db7617f8e96"},
		{"3des", strings.Repeat("k", 30), "", "hello world", "14f1dc714b9a4453af5180b08e561e04"},
		{"3des", "0123456789abcdef01234567", "12345678", "hello world", "90aaa5a2eb3a74905ebbd8bc8355164f"},
		{"des", "01234567", "", "hello world", "9a02b43b244034e9c9c44c1d26b778af"},
		{"des", "123456789", "", "hello world", "28dba02eb5f6dd4778407276c7967fb2"},
		{"des", "1234", "", "hello world", "a158a37495c57fa513fb8177bff54c46"},
		{"des/pad:pkcs", "01234567", "1234", "hello world", "71696c4b5f4e3176f806b75d4508f5a9"},
		{"des-ecb/pad:none", "01234567", "", "hello wo", "9a02b43b244034e9"},
		{"des", "01234567", "", "", "08bb5db6b37c06d7"},
	} {
		p, value := Pgcrypto{it[0], []byte(it[1]), []byte(it[2])}, x(it[4])
		texts, err := p.DecryptValues([][]byte{value, value})
		reads(t, texts, err, it[3], it[3])
	}
}

// The password is "secret", with 1,000 iterations.
var jasyptStrings = map[PBE][2]string{
	PBEWithMD5AndDES:       {"XFI3GkOHuvaUreHPZLAFn+zx81+pE+jN", "5c52371a4387baf6"},
	PBEWithMD5AndTripleDES: {"+34RBE07LtEN82W7f6UWaHttfv/kGSJv", "fb7e11044d3b2ed1"},
	PBEWithSHA1AndDESede:   {"AM7XwsOzxflFDMNvCTJm5cjZuLZa/GEf", "00ced7c2c3b3c5f9"},
}

func TestStringsOfJasypt(t *testing.T) {
	const plain = "jdbc password 1"
	password := []byte("secret")
	for algorithm, it := range jasyptStrings {
		spaced := "\t ENC( " + it[0][:5] + "\r\n" + it[0][5:] + "\f) \n"
		texts, err := JasyptDecryptValues(algorithm, 1000, password, []string{it[0], "ENC(" + it[0] + ")", spaced})
		reads(t, texts, err, plain, plain, plain)
		salt := x(it[1])
		made, err := jasyptEncrypt(algorithm, 1000, password, append(salt, salt...), [][]byte{[]byte(plain), []byte(plain)})
		if err != nil || !reflect.DeepEqual(made, []string{it[0], it[0]}) {
			t.Error(algorithm, made, err)
		}
		column := [][]byte{nil, []byte("a"), []byte(strings.Repeat("b", 100)), []byte(plain)}
		if made, err = JasyptEncryptValues(algorithm, 3, password, column); err != nil {
			t.Fatal(algorithm, err)
		}
		texts, err = JasyptDecryptValues(algorithm, 3, password, made)
		reads(t, texts, err, "", "a", string(column[2]), plain)
		for length := 0; length < 40; length++ {
			text := strings.Repeat("a", length)
			made, err := JasyptEncrypt(algorithm, 3, password, []byte(text))
			again, _ := JasyptEncrypt(algorithm, 3, password, []byte(text))
			texts, other := JasyptDecryptValues(algorithm, 3, password, []string{made})
			if reads(t, texts, other, text); err != nil || made == again {
				t.Error(length, err)
			}
		}
	}
	// A value of the JDK whose salt has two equal halves.
	key, err := PBEKey(PBEWithMD5AndTripleDES, 20, password, x("0102030401020304"), 32)
	if err != nil {
		t.Fatal(err)
	}
	block, _ := New(key[:24])
	data := x("0a6ddec322c99c34")
	block.NewCBCDecrypter(key[24:]).CryptBlocks(data, data)
	if text, err := PKCS7.Unpad(data); string(text) != "abc" || err != nil {
		t.Error(text, err)
	}
}

func TestValuesThatCantBeRead(t *testing.T) {
	good := x("ff0cec8a9d3373ae6bfa4d2eb4055de21b")
	var unread *UnreadableValuesError
	texts, err := MySQLDecryptValues([]byte("k"), [][]byte{nil, x("ff00"), good, x("ff0000000000000000"), {}, good[1:]})
	if !errors.As(err, &unread) ||
		!reflect.DeepEqual(unread.Faults, map[int]error{1: ErrNotEncrypted, 3: ErrPaddingMismatch, 5: ErrNotEncrypted}) {
		t.Fatal(err)
	}
	reads(t, texts, nil, "", "", "abcdefgh", "", "", "")
	if texts[3] != nil || texts[4] == nil {
		t.Error("what was not read, and what is empty")
	}
	if said := err.Error(); said != "cukvashe: 3 values can't be read, the first at place 1: "+ErrNotEncrypted.Error() {
		t.Error(said)
	}
	value := x("5548aa9afc0bf656bae4a844accf0674")
	p := Pgcrypto{Cipher: "3des", Key: []byte("0123456789abcdef01234567")}
	texts, err = p.DecryptValues([][]byte{value[:8], value, {}, value[:9]})
	if !errors.As(err, &unread) ||
		!reflect.DeepEqual(unread.Faults, map[int]error{0: ErrPaddingMismatch, 2: ErrBlockLength, 3: ErrBlockLength}) {
		t.Error(err)
	}
	reads(t, texts, nil, "", "hello world", "", "")
	right, wrong := "XFI3GkOHuvaUreHPZLAFn+zx81+pE+jN", "XFI3GkOHuvaUreHPZLAFn+zx81+pEAAA"
	strings := []string{"ENC", "XFI3GkOH", "XFI3GkOHuvaU", wrong, right, "XFI3GkOHuR=="}
	texts, err = JasyptDecryptValues(PBEWithMD5AndDES, 1000, []byte("secret"), strings)
	if !errors.As(err, &unread) ||
		!reflect.DeepEqual(unread.Faults, map[int]error{0: ErrBase64, 1: ErrSaltLength, 2: ErrBlockLength, 3: ErrPaddingMismatch, 5: ErrBase64}) {
		t.Error(err)
	}
	reads(t, texts, nil, "", "", "", "", "jdbc password 1", "")
}

func TestColumnsThatAreRefused(t *testing.T) {
	key := []byte("k")
	second := func(_ any, err error) error { return err }
	for name, it := range map[string][2]error{
		"a cipher":     {second((&Pgcrypto{Cipher: "aes", Key: key}).DecryptValues(nil)), ErrAlgorithmName},
		"no cipher":    {second((&Pgcrypto{Key: key}).DecryptValues(nil)), ErrAlgorithmName},
		"an algorithm": {second(JasyptDecryptValues(PBEWithSHA1AndDES, 1000, key, nil)), ErrAlgorithmName},
		"no iteration": {second(JasyptDecryptValues(PBEWithMD5AndDES, 0, key, nil)), ErrIterationCount},
		"another":      {second(JasyptEncryptValues(PBEWithSHA1AndDES, 1000, key, nil)), ErrAlgorithmName},
		"none":         {second(JasyptEncryptValues(PBEWithMD5AndDES, 0, key, nil)), ErrIterationCount},
		"fewer":        {second(JasyptEncrypt(PBEWithMD5AndDES, -1, key, nil)), ErrIterationCount},
		"a salt":       {second(PBEKey(PBEWithMD5AndTripleDES, 1, key, key, 32)), ErrSaltLength},
		"a length":     {second(PBEKey(PBEWithSHAAnd2KeyTripleDES, 1, key, key, 32)), ErrKeyLength},
		"no length":    {second(PBEKey(PBEWithSHA1AndDESede, 1, key, key, 0)), ErrKeyLength},
	} {
		if it[0] != it[1] {
			t.Error(name, it)
		}
	}
	if texts, err := MySQLDecryptValues(key, nil); len(texts) != 0 || err != nil {
		t.Error(texts, err)
	}
	if texts, err := MySQLDecryptValues(key, [][]byte{nil, nil}); len(texts) != 2 || err != nil {
		t.Error(texts, err)
	}
}
