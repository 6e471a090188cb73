package cukvashe

// #include "bridge.h"
import "C"

import "crypto/rand"

// KeyBlockHeader says what the key of a key block (ANSI X9.143, TR-31) is for. Compare it with what you do before you use the key: no
// call does.
type KeyBlockHeader struct {
	Version       byte   // B or C; A is only read
	Usage         string // two characters, as P0 for keys that encrypt PIN blocks
	Algorithm     byte   // as T, for triple DES
	Mode          byte   // as E, for encryption alone
	KeyVersion    string // two characters: 00, no versions; c and one more, a component and no key
	Exportability byte   // E, N or S
}

func headerOf(fields *C.cukvashe_key_block_fields) KeyBlockHeader {
	return KeyBlockHeader{byte(fields.version), C.GoString(&fields.usage[0]), byte(fields.algorithm), byte(fields.mode),
		C.GoString(&fields.key_version[0]), byte(fields.exportability)}
}

// UnwrapKeyBlock is the header and the key, 8, 16 or 24 bytes, of a key block under a protection key (KBPK) of 16 or 24.
// ErrProtectionKeyLength, ErrKeyBlockLength, ErrKeyBlockVersion, ErrKeyBlockField, ErrOptionalBlock, ErrKeyDataLength,
// ErrKeyBlockDigit, ErrKeyLength; ErrKeyBlockMAC if the block was changed, or is under another key.
func UnwrapKeyBlock(protection []byte, block string) (KeyBlockHeader, []byte, error) {
	var fields C.cukvashe_key_block_fields
	var key [24]byte
	var length C.size_t
	characters, count := text(block)
	status := C.cukvashe_key_block_unwrap(bytes(protection), size(protection), characters, count, &fields, bytes(key[:]), &length)
	if status != C.CUKVASHE_OK {
		return KeyBlockHeader{}, nil, Error(status)
	}
	defer wipe(key[:])
	return headerOf(&fields), append([]byte(nil), key[:length]...), nil
}

// WrapKeyBlock is the key block of a header and a key of 8, 16 or 24 bytes, with random padding that hides the key's length. A triple
// key whose last part is its first one is written with the length that you give: take key[:16] if you mean two parts. The optional
// blocks stand one after the other, as KS1800604B120F9292800000. ErrKeyBlockVersion, ErrOptionalBlock, ErrProtectionKeyLength,
// ErrKeyBlockField, ErrKeyLength, ErrKeyBlockLength.
func WrapKeyBlock(protection []byte, header KeyBlockHeader, key []byte, optional string) (string, error) {
	if parts(len(key)) == 0 {
		return "", ErrKeyLength
	}
	padding := make([]byte, C.CUKVASHE_KEY_DATA_SIZE-2-len(key))
	if _, err := rand.Read(padding); err != nil {
		return "", err
	}
	return wrap(protection, header, key, optional, padding)
}

func wrap(protection []byte, header KeyBlockHeader, key []byte, optional string, padding []byte) (string, error) {
	if len(header.Usage) != 2 || len(header.KeyVersion) != 2 {
		return "", ErrKeyBlockField
	}
	fields := C.cukvashe_key_block_fields{version: C.char(header.Version), algorithm: C.char(header.Algorithm),
		mode: C.char(header.Mode), exportability: C.char(header.Exportability)}
	for at := 0; at < 2; at++ {
		fields.usage[at], fields.key_version[at] = C.char(header.Usage[at]), C.char(header.KeyVersion[at])
	}
	blocks, count := text(optional)
	block := make([]byte, C.CUKVASHE_KEY_BLOCK_SIZE)
	var length C.size_t
	status := C.bridge_wrap(bytes(protection), size(protection), &fields, blocks, count, bytes(key), size(key), bytes(padding), size(padding),
		buffer(block), size(block), &length)
	return string(block[:length]), result(status)
}

// OptionalBlock is one of a key block.
type OptionalBlock struct {
	Name, Content string
}

// KeyBlockContents is what stands in a key block in clear, and is not authenticated here.
type KeyBlockContents struct {
	Header   KeyBlockHeader
	Context  byte // 0: the key may be in storage and exchange; 1: in storage only; 2: in exchange only
	Optional []OptionalBlock
}

// ReadKeyBlock reads a key block without a key. ErrKeyBlockLength, ErrKeyBlockVersion, ErrKeyBlockField, ErrOptionalBlock,
// ErrKeyDataLength.
func ReadKeyBlock(block string) (KeyBlockContents, error) {
	var fields C.cukvashe_key_block_fields
	var context C.char
	characters, count := text(block)
	if status := C.cukvashe_key_block_context(characters, count, &context); status != C.CUKVASHE_OK {
		return KeyBlockContents{}, Error(status)
	}
	must(C.cukvashe_key_block_header(characters, count, &fields))
	contents := KeyBlockContents{Header: headerOf(&fields), Context: byte(context)}
	for {
		var name [3]byte
		var offset, length C.size_t
		status := C.cukvashe_key_block_optional_block(characters, count, C.size_t(len(contents.Optional)), buffer(name[:]), &offset, &length)
		if Error(status) == ErrNoOptionalBlock {
			return contents, nil
		}
		must(status)
		contents.Optional = append(contents.Optional, OptionalBlock{until(name[:]), block[offset : offset+length]})
	}
}
