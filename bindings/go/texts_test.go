// What fmt writes of what holds a key, a PIN block or a state.

package cukvashe

import (
	"encoding/hex"
	"fmt"
	"go/ast"
	"go/parser"
	"go/token"
	"io/fs"
	"reflect"
	"strings"
	"testing"
)

// What has nothing to hide: numbers, and what stands in clear beside a key; and what no call returns.
const inClear = " Algorithm Fill KeyBlockContents KeyBlockHeader OptionalBlock Serial UnreadableValuesError column reading "

// holders are a value of each type that has something to hide, and a pointer to it.
func holders(key []byte) [][2]any {
	iv := key[:8]
	block, _ := New(key)
	mac, _ := NewMAC(CMAC, key)
	mac.Write(key)
	base := BaseKey(*(*[16]byte)(key))
	serial := *(*Serial)(key)
	initial := base.Initial(serial)
	transaction := initial.Transaction(serial)
	terminal := NewTerminal(initial, serial)
	pinBlock := *(*PINBlock)(key)
	translation := Translation{IncomingKey: key, OutgoingKey: key, Account: hex.EncodeToString(iv)}
	pair, issuer, card, session := PairKey(base), IssuerKey(base), CardKey(base), SessionKey(base)
	ibm, _ := NewIBM3624(key, "0123456789012345")
	pgcrypto := Pgcrypto{"3des", key, iv}
	inCBC, inOFB, inCFB1 := block.NewCBCDecrypter(iv).(*cbc), block.NewOFB(iv).(*stream), block.NewCFB1Encrypter(iv)
	return [][2]any{
		{*block, block}, {*inCBC, inCBC}, {*inOFB, inOFB}, {*inCFB1, inCFB1}, {*mac, mac}, {base, &base}, {initial, &initial},
		{transaction, &transaction}, {*terminal, terminal}, {pinBlock, &pinBlock}, {translation, &translation}, {pair, &pair},
		{*ibm, ibm}, {issuer, &issuer}, {card, &card}, {session, &session}, {pgcrypto, &pgcrypto},
	}
}

func TestTextsTellNoKey(t *testing.T) {
	for _, it := range holders(x("0123456789abcdeffedcba98765432108899aabbccddeeff")) {
		name := reflect.TypeOf(it[0]).String()
		for _, given := range it {
			for _, form := range strings.Fields("%v %+v %#v %s %q %d %+d %x %X %#x %b %o %O %c %U %e %f %g %t %z %20v %020d %-30.2s %[1]v") {
				if said := fmt.Sprintf(form, given); said != name {
					t.Errorf("%s of %T: %s", form, given, said)
				}
			}
			within := struct{ It any }{given}
			for said, want := range map[string]string{
				fmt.Sprint(given):                            "@",
				fmt.Sprintln(given):                          "@\n",
				fmt.Errorf("%v", given).Error():              "@",
				fmt.Sprint([]any{given, given}):              "[@ @]",
				fmt.Sprintf("%x", map[string]any{"": given}): "map[:@]",
				fmt.Sprintf("%+v", within):                   "{It:@}",
				fmt.Sprintf("%#v", &within):                  "&struct { It interface {} }{It:@}",
			} {
				if want = strings.ReplaceAll(want, "@", name); said != want {
					t.Errorf("%q, not %q", said, want)
				}
			}
		}
	}
	if said := fmt.Sprint((*Block)(nil), []TransactionKey{{}, {}}); said != "<nil> [cukvashe.TransactionKey cukvashe.TransactionKey]" {
		t.Error(said)
	}
}

// Each type of the package that is no number or text has something to hide, or is known to have nothing.
func TestAllTypesThatHide(t *testing.T) {
	hides := map[string]bool{}
	for _, it := range holders(make([]byte, 24)) {
		hides[reflect.TypeOf(it[0]).Name()] = true
	}
	files := func(it fs.FileInfo) bool { return !strings.HasSuffix(it.Name(), "_test.go") }
	packages, err := parser.ParseDir(token.NewFileSet(), ".", files, 0)
	if err != nil {
		t.Fatal(err)
	}
	types := 0
	ast.Inspect(packages["cukvashe"], func(node ast.Node) bool {
		it, is := node.(*ast.TypeSpec)
		if !is {
			return true
		}
		switch it.Type.(type) {
		case *ast.StructType, *ast.ArrayType:
			if types++; hides[it.Name.Name] == strings.Contains(inClear, " "+it.Name.Name+" ") {
				t.Errorf("whether a text may show a %s is not said", it.Name.Name)
			}
		}
		return true
	})
	if types != len(hides)+len(strings.Fields(inClear)) {
		t.Error(types, "types")
	}
}
