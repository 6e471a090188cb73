// The calls of known_calls.txt in Go's words. Left out is what Go's types leave no place for: arrays of another length, numbers that no
// int is.

package cukvashe

import (
	"crypto/cipher"
	"encoding/json"
	"fmt"
	"regexp"
	"strconv"
	"strings"
)

// notInGo is the panic of a call that Go has no way to make.
type notInGo struct{}

// name is that of a class.
type name string

// given are the arguments of a call.
type given struct {
	places []any
	named  map[string]any
}

func (g given) bytes(at int) []byte { return g.places[at].([]byte) }
func (g given) text(at int) string  { return g.places[at].(string) }
func (g given) int(at int) int      { return asInt(g.places[at]) }
func (g given) key(it string) []byte {
	return g.named[it].([]byte)
}

// fixed are bytes that Go takes as an array.
func (g given) fixed(at, size int) []byte { return sized(g.bytes(at), size) }

func sized(it []byte, size int) []byte {
	if len(it) != size {
		panic(notInGo{})
	}
	return it
}

// first are the first bytes of a list of arrays.
func first(it []byte, size int) []byte {
	if len(it) < size {
		panic(notInGo{})
	}
	return it[:size]
}

func asInt(it any) int {
	value, err := strconv.Atoi(string(it.(json.Number)))
	if err != nil {
		panic(notInGo{})
	}
	return value
}

func (g given) serial(at int) Serial      { return *(*Serial)(g.fixed(at, 10)) }
func (g given) pair(at int) PairKey       { return *(*PairKey)(g.fixed(at, 16)) }
func (g given) block(at int) PINBlock     { return *(*PINBlock)(g.fixed(at, 8)) }
func (g given) fill(at int) Fill          { return *(*Fill)(g.fixed(at, 10)) }
func (g given) card(at int) CardKey       { return *(*CardKey)(g.fixed(at, 16)) }
func (g given) session(at int) SessionKey { return *(*SessionKey)(g.fixed(at, 16)) }

func (g given) transaction(at int) TransactionKey { return *(*TransactionKey)(g.fixed(at, 16)) }

func (g given) direction(at int) Direction {
	return Direction(len(g.places) > at && g.places[at].(bool))
}

// keySize is that of a class of ciphers.
func (g given) keySize(at int) int {
	return map[name]int{"Des": 8, "TdesEde2": 16, "TdesEde3": 24}[g.places[at].(name)]
}

var hashes = map[string]Hash{"md5": MD5, "sha1": SHA1, "sha256": SHA256}
var paddings = map[string]Padding{"pkcs7": PKCS7, "iso7816": ISO7816}

// algorithms are those of the classes of MACs by padding method 1, and how long their keys are.
var algorithms = map[name]struct {
	algorithm Algorithm
	size      int
}{
	"CbcMacDes": {CBCMACPadding1, 8}, "CbcMacTdesEde2": {CBCMACPadding1, 16}, "CbcMacTdesEde3": {CBCMACPadding1, 24},
	"RetailMacDes": {RetailMACPadding1, 16}, "CmacTdesEde2": {CMAC, 16}, "CmacTdesEde3": {CMAC, 24},
}

// mac is the algorithm of a class with the padding method at a place, and how long its key is.
func (g given) mac(class name, at int) (Algorithm, int) {
	it := algorithms[class]
	if at < len(g.places) && g.places[at] != nil {
		method := number(asInt(g.places[at]))
		if method == -1 {
			panic(notInGo{})
		}
		it.algorithm.method = method
	}
	return it.algorithm, it.size
}

// messages cuts bytes, which stand one after the other.
func messages(lengths any, joined []byte) (cut [][]byte) {
	for _, it := range lengths.([]any) {
		length := asInt(it)
		if length > len(joined) {
			panic(notInGo{})
		}
		cut, joined = append(cut, joined[:length]), joined[length:]
	}
	if len(joined) > 0 {
		panic(notInGo{})
	}
	return cut
}

func joined(tags [][TagSize]byte, err error) (any, error) {
	all := []byte{}
	for _, it := range tags {
		all = append(all, it[:]...)
	}
	return all, err
}

// right is the answer of a verification.
func right(err error) (any, error) { return "right", err }

// one is the answer of a call as any.
func one[T any](it T, err error) (any, error) { return it, err }

// contents is a part of what ReadKeyBlock says.
func contents(block string, part func(KeyBlockContents) any) (any, error) {
	read, err := ReadKeyBlock(block)
	return part(read), err
}

func (g given) translation(from, to int, account string, fill Fill) *Translation {
	return &Translation{IncomingKey: g.key("incoming_key"), IncomingFormat: from, OutgoingKey: g.key("outgoing_key"), OutgoingFormat: to,
		Account: account, Fill: fill}
}

func (g given) ibm3624() *IBM3624 {
	method, err := NewIBM3624OfAnyTable(g.bytes(0), g.places[1].(table).digits)
	if err != nil {
		panic(err)
	}
	return method
}

// table is a decimalization table.
type table struct{ digits string }

// optional are pairs as WrapKeyBlock takes them.
func (g given) optional() (blocks string) {
	pairs, _ := g.named["optional"].([]any)
	for _, it := range pairs {
		pair := it.([]any)
		block, content := pair[0].(string), pair[1].(string)
		blocks += fmt.Sprintf("%s%02X%s", block, len(block)+2+len(content), content)
	}
	return blocks
}

var calls = map[string]func(g given) (any, error){
	"is_weak_key": func(g given) (any, error) {
		err := WeakKeyTest(g.bytes(0))
		if err == ErrWeakKey {
			return true, nil
		}
		return false, err
	},
	"with_odd_parity": func(g given) (any, error) {
		if key := g.bytes(0); parts(len(key)) != 0 {
			SetOddParity(key)
			return key, nil
		}
		panic(notInGo{})
	},
	"equal_but_parity": func(g given) (any, error) {
		if parts(len(g.bytes(0))) == 0 || len(g.bytes(0)) != len(g.bytes(1)) {
			if EqualButParity(g.bytes(0), g.bytes(1)) && len(g.bytes(0))%8 != 0 {
				return "keys that differ are equal", nil
			}
			panic(notInGo{})
		}
		return EqualButParity(g.bytes(0), g.bytes(1)), nil
	},
	"key_check_value":       func(g given) (any, error) { return one(CheckValue(g.bytes(0))) },
	"short_key_check_value": func(g given) (any, error) { return one(ShortCheckValue(g.bytes(0))) },
	"check_value":           func(g given) (any, error) { return one(CheckValue(sized(g.bytes(1), g.keySize(0)))) },
	"combine": func(g given) (any, error) {
		var components [][]byte
		for at := range g.places {
			components = append(components, g.bytes(at))
		}
		return one(Combine(components...))
	},
	"dukpt_initial_key": func(g given) (any, error) {
		return BaseKey(g.pair(0)).Initial(g.serial(1)), nil
	},
	"dukpt_transaction_key": func(g given) (any, error) { return InitialKey(g.pair(0)).Transaction(g.serial(1)), nil },
	"dukpt_transaction_keys_from_base": func(g given) (any, error) {
		var serials []Serial
		for rest := g.bytes(1); len(rest) > 0; rest = rest[10:] {
			serials = append(serials, *(*Serial)(first(rest, 10)))
		}
		keys := []byte{}
		for _, it := range BaseKey(g.pair(0)).Transactions(serials) {
			keys = append(keys, it[:]...)
		}
		return keys, nil
	},
	"dukpt_pin_key":      func(g given) (any, error) { return g.transaction(0).PIN(), nil },
	"dukpt_mac_key":      func(g given) (any, error) { return g.transaction(0).MAC(g.direction(1)), nil },
	"dukpt_data_key":     func(g given) (any, error) { return g.transaction(0).Data(g.direction(1)), nil },
	"dukpt_data_variant": func(g given) (any, error) { return g.transaction(0).DataVariant(g.direction(1)), nil },
	"dukpt_is_usable":    func(g given) (any, error) { return g.serial(0).IsUsable(), nil },
	"dukpt_next_serial": func(g given) (any, error) {
		next, err := g.serial(0).Next()
		if err == ErrNoSerial {
			return nil, nil
		}
		return next, err
	},
	"pin_encode_0": func(g given) (any, error) { return one(EncodePIN0(g.text(0), g.text(1))) },
	"pin_encode_1": func(g given) (any, error) { return one(EncodePIN1(g.text(0), g.fill(1))) },
	"pin_encode_2": func(g given) (any, error) { return one(EncodePIN2(g.text(0))) },
	"pin_encode_3": func(g given) (any, error) { return one(EncodePIN3(g.text(0), g.text(1), g.fill(2))) },
	"pin_decode_0": func(g given) (any, error) { return one(DecodePIN0(g.block(0), g.text(1))) },
	"pin_decode_1": func(g given) (any, error) { return one(DecodePIN1(g.block(0))) },
	"pin_decode_2": func(g given) (any, error) { return one(DecodePIN2(g.block(0))) },
	"pin_decode_3": func(g given) (any, error) { return one(DecodePIN3(g.block(0), g.text(1))) },
	"pin_translate_to_0": func(g given) (any, error) {
		return one(g.translation(g.int(0), 0, g.text(1), Fill{}).Translate(g.block(2)))
	},
	"pin_translate_to_1": func(g given) (any, error) { return one(g.translation(1, 1, "", Fill{}).Translate(g.block(0))) },
	"pin_translate_to_3": func(g given) (any, error) {
		return one(g.translation(g.int(0), 3, g.text(1), g.fill(2)).Translate(g.block(3)))
	},
	"pvv": func(g given) (any, error) { return one(g.pair(0).PVV(g.text(1), g.int(2), g.text(3))) },
	"pvv_verify": func(g given) (any, error) {
		return right(g.pair(0).VerifyPVV(g.text(1), g.int(2), g.text(3), g.text(4)))
	},
	"cvv": func(g given) (any, error) { return one(g.pair(0).CVV(g.text(1), g.text(2), g.text(3))) },
	"natural_pin": func(g given) (any, error) {
		return one(g.ibm3624().NaturalPIN(*(*[8]byte)(g.fixed(2, 8)), g.int(3)))
	},
	"pin_offset": func(g given) (any, error) { return one(g.ibm3624().Offset(*(*[8]byte)(g.fixed(2, 8)), g.text(3))) },
	"pin_offset_verify": func(g given) (any, error) {
		return right(g.ibm3624().Verify(*(*[8]byte)(g.fixed(2, 8)), g.text(3), g.text(4)))
	},
	"DecimalTable": func(g given) (any, error) { return one(NewIBM3624(make([]byte, 8), g.text(0))) },
	"DecimalTable.of_any_variety": func(g given) (any, error) {
		return one(NewIBM3624OfAnyTable(make([]byte, 8), g.text(0)))
	},
	"emv_card_key":        func(g given) (any, error) { return one(IssuerKey(g.pair(0)).Card(g.text(1), g.text(2))) },
	"emv_card_key_b":      func(g given) (any, error) { return one(IssuerKey(g.pair(0)).CardB(g.text(1), g.text(2))) },
	"emv_application_key": func(g given) (any, error) { return g.card(0).Application(*(*[2]byte)(g.fixed(1, 2))), nil },
	"emv_session_key":     func(g given) (any, error) { return g.card(0).Session(*(*[8]byte)(g.fixed(1, 8))), nil },
	"emv_application_cryptogram": func(g given) (any, error) {
		return g.session(0).Cryptogram(g.bytes(1)), nil
	},
	"emv_response_1": func(g given) (any, error) {
		return g.session(0).Response1(*(*[8]byte)(g.fixed(1, 8)), *(*[2]byte)(g.fixed(2, 2))), nil
	},
	"emv_response_2": func(g given) (any, error) {
		var data []byte
		if len(g.places) > 3 {
			data = g.bytes(3)
		}
		return one(g.session(0).Response2(*(*[8]byte)(g.fixed(1, 8)), *(*[4]byte)(g.fixed(2, 4)), data))
	},
	"unwrap_key_block": func(g given) (any, error) {
		header, key, err := UnwrapKeyBlock(g.bytes(0), g.text(1))
		return []any{header, key}, err
	},
	"key_block_header": func(g given) (any, error) {
		return contents(g.text(0), func(it KeyBlockContents) any { return it.Header })
	},
	"key_block_context": func(g given) (any, error) {
		return contents(g.text(0), func(it KeyBlockContents) any { return string(it.Context) })
	},
	"key_block_optional_blocks": func(g given) (any, error) {
		return contents(g.text(0), func(it KeyBlockContents) any {
			pairs := [][]string{}
			for _, block := range it.Optional {
				pairs = append(pairs, []string{block.Name, block.Content})
			}
			return pairs
		})
	},
	"wrap_key_block": func(g given) (any, error) {
		header := g.places[1].(KeyBlockHeader)
		if padding, is := g.named["padding"].([]byte); is {
			return one(wrap(g.bytes(0), header, g.bytes(2), g.optional(), padding))
		}
		return one(WrapKeyBlock(g.bytes(0), header, g.bytes(2), g.optional()))
	},
	"cms_wrap_key": func(g given) (any, error) {
		return one(wrapCMS(g.bytes(0), *(*[BlockSize]byte)(sized(g.key("iv"), 8)), g.bytes(1)))
	},
	"cms_unwrap_key": func(g given) (any, error) { return one(UnwrapKeyCMS(g.bytes(0), g.bytes(1))) },
	"tkw_wrap_key":   func(g given) (any, error) { return one(WrapKeyTKW(g.bytes(0), g.bytes(1))) },
	"tkw_unwrap_key": func(g given) (any, error) { return one(UnwrapKeyTKW(g.bytes(0), g.bytes(1))) },
	"pbkdf2": func(g given) (any, error) {
		return one(PBKDF2(hashes[g.text(0)], g.bytes(1), g.bytes(2), g.int(3), g.int(4)))
	},
	"bytes_to_key": func(g given) (any, error) {
		return one(BytesToKey(hashes[g.text(0)], g.bytes(1), g.bytes(2), g.int(3)))
	},
	"open_salted": func(g given) (any, error) {
		hash, iterations := SHA256, 0
		if it, is := g.named["hash_name"]; is {
			hash = hashes[it.(string)]
		}
		if it, is := g.named["iterations"]; is {
			if iterations = asInt(it); iterations == 0 {
				panic(notInGo{}) // 0 is that of no iterations
			}
		}
		return one(OpenSalted(g.keySize(0), hash, iterations, g.bytes(1), g.bytes(2)))
	},
	"pbe_key": func(g given) (any, error) {
		return one(PBEKey(PBE(g.text(0)), g.int(3), g.bytes(1), g.bytes(2), g.int(4)))
	},
	"encrypt_each": func(g given) (any, error) { return g.bytes(2), EncryptEach(g.keySize(0), g.bytes(1), g.bytes(2)) },
	"decrypt_each": func(g given) (any, error) { return g.bytes(2), DecryptEach(g.keySize(0), g.bytes(1), g.bytes(2)) },
	"check_values": func(g given) (any, error) {
		values, err := CheckValues(g.keySize(0), g.bytes(1))
		all := []byte{}
		for _, it := range values {
			all = append(all, it[:]...)
		}
		return all, err
	},
	"pad":   func(g given) (any, error) { return one(paddings[g.text(1)].Pad(g.bytes(0))) },
	"unpad": func(g given) (any, error) { return one(paddings[g.text(1)].Unpad(g.bytes(0))) },
	"macs": func(g given) (any, error) {
		algorithm, size := g.mac(g.places[0].(name), 2)
		key := g.bytes(1)
		if len(key) != size && parts(len(key)) != 0 {
			panic(notInGo{}) // the key's length says which it is
		}
		return joined(MACs(algorithm, key, messages(g.places[3], g.bytes(4))))
	},
	"macs_each": func(g given) (any, error) {
		algorithm, size := g.mac(g.places[0].(name), 2)
		cut := messages(g.places[3], g.bytes(4))
		if len(cut) > 0 && len(g.bytes(1))%len(cut) == 0 && len(g.bytes(1))/len(cut) != size {
			panic(notInGo{})
		}
		return joined(MACsEach(algorithm, g.bytes(1), cut))
	},
	"wrong_tags": func(g given) (any, error) {
		var lists [2][][TagSize]byte
		for at := range lists {
			for rest := g.bytes(at); len(rest) > 0; rest = rest[TagSize:] {
				lists[at] = append(lists[at], *(*[TagSize]byte)(first(rest, TagSize)))
			}
		}
		return one(WrongTags(lists[0], lists[1]))
	},
}

// cipherOf is a cipher of a class.
func (g given) cipherOf(class name) *Block {
	block, err := New(sized(g.bytes(0), given{places: []any{class}}.keySize(0)))
	if err != nil {
		panic(err)
	}
	return block
}

// method is a call of a cipher, whose key is its first word.
func (g given) method(class name, call string) (any, error) {
	direction, mode, _ := strings.Cut(call, "_")
	block, encrypts, data := g.cipherOf(class), direction == "encrypt", g.bytes(1)
	var stream cipher.Stream
	switch mode {
	case "ctr":
		stream = cipher.NewCTR(block, g.key("counter"))
	case "ofb":
		stream = block.NewOFB(g.key("iv"))
	case "cfb":
		bits := asInt(g.named["segment_size"])
		switch {
		case bits == 1 && encrypts:
			stream = block.NewCFB1Encrypter(g.key("iv"))
		case bits == 1:
			stream = block.NewCFB1Decrypter(g.key("iv"))
		case bits%8 != 0:
			panic(notInGo{})
		case encrypts:
			stream = block.NewCFBSegmentEncrypter(g.key("iv"), bits/8)
		default:
			stream = block.NewCFBSegmentDecrypter(g.key("iv"), bits/8)
		}
	}
	stream.XORKeyStream(data, data)
	return data, nil
}

// made is what a class makes of a key.
func (g given) made(class name) (any, error) {
	switch class {
	case "Des":
		return one(NewCipher(g.bytes(0)))
	case "TdesEde3":
		return one(NewTripleDESCipher(g.bytes(0)))
	case "TdesEde2":
		if len(g.bytes(0))%8 == 0 && len(g.bytes(0)) < 32 {
			panic(notInGo{})
		}
		return one(New(g.bytes(0)))
	}
	algorithm, size := g.mac(class, 1)
	if len(g.bytes(0)) != size && parts(len(g.bytes(0))) != 0 {
		panic(notInGo{})
	}
	return one(NewMAC(algorithm, g.bytes(0)))
}

// called makes a call.
func called(call string, g given) (answer any, err error) {
	class, method, isMethod := strings.Cut(call, ".")
	if it, is := calls[call]; is {
		return it(g)
	}
	if isMethod && regexp.MustCompile("_(ctr|ofb|cfb)$").MatchString(method) {
		return g.method(name(class), method)
	}
	if _, isMAC := algorithms[name(call)]; isMAC || call == "Des" || call == "TdesEde2" || call == "TdesEde3" {
		return g.made(name(call))
	}
	panic(notInGo{})
}
