// The calls of known_calls.txt, which says there what its lines are, and what comes of each.

package cukvashe

import (
	"crypto/des"
	"encoding/json"
	"errors"
	"fmt"
	"os"
	"reflect"
	"regexp"
	"strconv"
	"strings"
	"testing"
)

// faults are the errors that have other names than in other languages, and what Go says in their place.
var faults = map[string][]error{
	"KeyLength": {ErrKeyLength, ErrCountMismatch}, "BlockLength": {ErrBlockLength}, "WeakKey": {ErrWeakKey},
	"PaddingMethod": {ErrPaddingMethod}, "PinLength": {ErrPINLength}, "PinDigit": {ErrPINDigit}, "AccountLength": {ErrAccountLength},
	"AccountDigit": {ErrAccountDigit}, "Fill": {ErrFill}, "ExpiryLength": {ErrExpiryLength}, "ExpiryDigit": {ErrExpiryDigit},
	"ServiceLength": {ErrServiceLength}, "ServiceDigit": {ErrServiceDigit}, "PaddingMismatch": {ErrPaddingMismatch},
	"CountMismatch": {ErrCountMismatch}, "KeyIndex": {ErrKeyIndex}, "TableLength": {ErrTableLength}, "TableDigit": {ErrTableDigit},
	"TableVariety": {ErrTableVariety}, "WrongPin": {ErrWrongPIN}, "Formats": {ErrFormats}, "Format": {ErrFormat}, "PinBlock": {ErrPINBlock},
	"SequenceLength": {ErrSequenceLength}, "SequenceDigit": {ErrSequenceDigit}, "DataLength": {ErrDataLength},
	"ProtectionKeyLength": {ErrProtectionKeyLength}, "KeyBlockLength": {ErrKeyBlockLength}, "KeyBlockVersion": {ErrKeyBlockVersion},
	"KeyBlockField": {ErrKeyBlockField}, "OptionalBlock": {ErrOptionalBlock}, "KeyDataLength": {ErrKeyDataLength},
	"KeyBlockDigit": {ErrKeyBlockDigit}, "KeyBlockMac": {ErrKeyBlockMAC}, "PaddingLength": {ErrPaddingLength}, "HashName": {ErrHashName},
	"IterationCount": {ErrIterationCount}, "NotSalted": {ErrNotSalted}, "SaltLength": {ErrSaltLength},
	"AlgorithmName": {ErrAlgorithmName}, "WrappedLength": {ErrWrappedLength}, "WrappedKey": {ErrWrappedKey},
}

// panicked are the errors of other languages that are panics here, as in crypto/cipher.
var panicked = map[string]string{"VectorLength": "IV length must equal block size", "SegmentSize": "a segment has 1 to 8 bytes"}

const quoted = `"(?:[^"\\]|\\.)*"`

var (
	words   = regexp.MustCompile(`(?:` + quoted + `|[^\s"])+`)
	word    = regexp.MustCompile(`^(x[0-9a-f]*|` + quoted + `|[A-Z][A-Z_0-9]*)(?:\*([0-9]+))?(?:@([0-9]+)=(.+?))?(?:<([0-9]+))?$`)
	isNamed = regexp.MustCompile(`^([a-z_]+)=(.+)$`)
	ofKind  = regexp.MustCompile(`^(table|any_table|header):(.+)$`)
)

func parsed(text string) (it any) {
	decoder := json.NewDecoder(strings.NewReader(text))
	decoder.UseNumber()
	if err := decoder.Decode(&it); err != nil {
		panic(text + ": " + err.Error())
	}
	return it
}

// reader knows the words that the lines before say.
type reader struct {
	names  map[string]any
	number int
	left   int
}

// byteOf is a field of a header that Go takes as a byte.
func byteOf(it any) byte {
	text := it.(string)
	if len(text) != 1 {
		panic(notInGo{})
	}
	return text[0]
}

func (r *reader) value(text string) any {
	if of := ofKind.FindStringSubmatch(text); of != nil {
		it := parsed(of[2])
		if of[1] != "header" {
			return table{it.(string)}
		}
		fields := it.([]any)
		return KeyBlockHeader{byteOf(fields[0]), fields[1].(string), byteOf(fields[2]), byteOf(fields[3]), fields[4].(string), byteOf(fields[5])}
	}
	whole := word.FindStringSubmatch(text)
	if whole == nil {
		if strings.ContainsAny(text[:1], "[-0123456789") || text == "true" || text == "false" || text == "null" {
			return parsed(text)
		}
		return name(text)
	}
	var base any
	switch {
	case whole[1][0] == 'x':
		base = x(whole[1][1:])
	case whole[1][0] == '"':
		base = parsed(whole[1])
	default:
		var is bool
		if base, is = r.names[whole[1]]; !is {
			return name(text)
		}
	}
	old, isText := base.(string)
	if list, isBytes := base.([]byte); isBytes {
		old = string(list)
	} else if !isText {
		return base
	}
	if times := whole[2]; times != "" {
		count, _ := strconv.Atoi(times)
		old = strings.Repeat(old, count)
	}
	if whole[3] != "" {
		at, _ := strconv.Atoi(whole[3])
		other := ""
		if isText {
			other = parsed(`"` + whole[4] + `"`).(string)
		} else {
			other = string(x(whole[4]))
		}
		old = old[:at] + other + old[at+1:]
	}
	if whole[5] != "" {
		end, _ := strconv.Atoi(whole[5])
		old = old[:end]
	}
	if isText {
		return old
	}
	return []byte(old)
}

// shown is an answer as a text.
func shown(it any) string {
	switch it := it.(type) {
	case nil:
		return "null"
	case string, bool, name:
		return fmt.Sprint(it)
	case KeyBlockHeader:
		return fmt.Sprintf("%q", it)
	case [][]string, []any:
		text, _ := json.Marshal(it)
		return string(text)
	}
	if of := reflect.ValueOf(it); of.Kind() == reflect.Array {
		// Of keys fmt writes the type alone.
		array := reflect.New(of.Type()).Elem()
		array.Set(of)
		it = array.Bytes()
	}
	return fmt.Sprintf("x%x", it)
}

// answers are the words that an answer has.
func answers(it any) string {
	if both, is := it.([]any); is && len(both) == 2 {
		if _, isHeader := both[0].(KeyBlockHeader); isHeader {
			return shown(both[0]) + " " + shown(both[1])
		}
	}
	return shown(it)
}

// isASCII says whether all texts are. Of others Go takes the bytes, so that only an error is sure.
func (g given) isASCII() bool {
	for _, it := range g.places {
		if text, is := it.(string); is && strings.IndexFunc(text, func(r rune) bool { return r > 127 }) >= 0 {
			return false
		}
	}
	return true
}

func (r *reader) comes(t *testing.T, line, outcome string) {
	t.Helper()
	var g given
	var answer any
	var err error
	said := func() (said any) {
		defer func() { said = recover() }()
		g.named = map[string]any{}
		all := words.FindAllString(line, -1)
		for _, it := range all[1:] {
			if of := isNamed.FindStringSubmatch(it); of != nil {
				g.named[of[1]] = r.value(of[2])
			} else {
				g.places = append(g.places, r.value(it))
			}
		}
		answer, err = called(all[0], g)
		return nil
	}()
	if _, is := said.(notInGo); is {
		r.left++
		return
	}
	if it, is := said.(error); is {
		err = it
	} else if said != nil {
		err = errors.New(fmt.Sprint(said))
	}
	r.number++
	if strings.HasPrefix(outcome, "! ") {
		fault := strings.Fields(outcome)[1]
		if size := des.KeySizeError(0); fault == "KeyLength" && errors.As(err, &size) || err != nil && !g.isASCII() {
			return
		}
		if text, is := panicked[fault]; is {
			if err == nil || !strings.HasSuffix(err.Error(), text) {
				t.Errorf("%s: %v, not %s", line, err, outcome)
			}
			return
		}
		for _, it := range faults[fault] {
			if err == it {
				return
			}
		}
		t.Errorf("%s: %v %v, not %s", line, answer, err, outcome)
		return
	}
	var wants []string
	for _, it := range words.FindAllString(outcome[2:], -1) {
		wants = append(wants, shown(r.value(it)))
	}
	if want := strings.Join(wants, " "); err != nil || answers(answer) != want {
		t.Errorf("%s: %v %v, not %s", line, answers(answer), err, want)
	}
}

// eachOf are the words that a line beginning with `for` says.
func eachOf(said []string) []string {
	if len(said) < 2 || said[1] != "but" {
		return said
	}
	var lengths []string
	for length := 0; length < 34; length++ {
		isIn := false
		for _, it := range said[2:] {
			ends := strings.Split(it, "-")
			first, _ := strconv.Atoi(ends[0])
			last, _ := strconv.Atoi(ends[len(ends)-1])
			isIn = isIn || first <= length && length <= last
		}
		if !isIn && said[0] == "bytes" {
			lengths = append(lengths, fmt.Sprintf("x5a*%d", length))
		} else if !isIn {
			lengths = append(lengths, fmt.Sprintf(`"1"*%d`, length))
		}
	}
	return lengths
}

func TestKnownCalls(t *testing.T) {
	file, err := os.ReadFile("../known_calls.txt")
	if err != nil {
		t.Skip("it is not beside the package: ", err)
	}
	r := reader{names: map[string]any{}}
	outcome, repeated := "", []string{}
	for _, line := range strings.Split(string(file), "\n") {
		if line == "" || line[0] == '#' {
			continue
		}
		if line[0] == '=' || line[0] == '!' {
			outcome = line
			continue
		}
		for _, call := range strings.Split(strings.TrimSpace(line), " ; ") {
			left, want, isWhole := strings.Cut(call, " = ")
			switch {
			case strings.HasPrefix(call, "for "):
				repeated = eachOf(words.FindAllString(call, -1)[1:])
			case isWhole && left == strings.ToUpper(left):
				r.names[left] = r.value(want)
			case isWhole:
				r.comes(t, left, "= "+want)
			case strings.Contains(call, "?"):
				for _, it := range repeated {
					r.comes(t, strings.ReplaceAll(call, "?", it), outcome)
				}
			default:
				r.comes(t, call, outcome)
			}
		}
	}
	if r.number < 3900 {
		t.Error("known calls: ", r.number)
	}
	t.Logf("%d known calls; Go does not have %d others", r.number, r.left)
}
