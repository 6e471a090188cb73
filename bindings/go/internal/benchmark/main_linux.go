// Benchmark ROUNDS: processor time of calls beside crypto/des. Each is warmed first; then they take turns, and of its rounds the least is
// shown.
package main

import (
	"crypto/cipher"
	"crypto/des"
	"encoding/hex"
	"fmt"
	"log"
	"os"
	"runtime"
	"strconv"
	"strings"
	"syscall"
	"time"
	"unsafe"

	"cukvashe"
)

var (
	key, _ = hex.DecodeString("0123456789abcdef23456789abcdef01456789abcdef0123")
	sizes  = []int{8, 64, 1 << 10, 8 << 10, 1 << 20}
)

// processorTime is that of this thread. What Getrusage says goes on by milliseconds.
func processorTime() time.Duration {
	const threadClock = 3
	var now syscall.Timespec
	if _, _, errno := syscall.Syscall(syscall.SYS_CLOCK_GETTIME, threadClock, uintptr(unsafe.Pointer(&now)), 0); errno != 0 {
		log.Fatal(errno)
	}
	return time.Duration(now.Nano())
}

func many(call func(), times int) time.Duration {
	begin := processorTime()
	for ; times > 0; times-- {
		call()
	}
	return processorTime() - begin
}

// least are the nanoseconds of each call.
func least(rounds int, calls []func()) []float64 {
	times, found := make([]int, len(calls)), make([]float64, len(calls))
	for at, call := range calls {
		for times[at] = 1; many(call, times[at]) < 20*time.Millisecond; {
			times[at] *= 2
		}
	}
	for round := 0; round < rounds; round++ {
		for at, call := range calls {
			took := float64(many(call, times[at])) / float64(times[at])
			if round == 0 || took < found[at] {
				found[at] = took
			}
		}
	}
	return found
}

// blocks are the triple DES of each library under the key.
func blocks() (names []string, made []cipher.Block) {
	ours, err := cukvashe.New(key)
	if err != nil {
		log.Fatal(err)
	}
	none, err := cukvashe.New(key, cukvashe.NoTables)
	if err != nil {
		log.Fatal(err)
	}
	theirs, err := des.NewTripleDESCipher(key)
	if err != nil {
		log.Fatal(err)
	}
	return []string{"Cukvashe", "Cukvashe, NoTables", "crypto/des"}, []cipher.Block{ours, none, theirs}
}

// loop is a call of Block for each block.
func loop(block cipher.Block, _, data []byte) {
	for ; len(data) > 0; data = data[cukvashe.BlockSize:] {
		block.Decrypt(data, data)
	}
}

func main() {
	runtime.LockOSThread()
	log.SetFlags(0)
	rounds, err := strconv.Atoi(os.Args[1])
	if err != nil || rounds < 1 {
		log.Fatal("benchmark: how many rounds?")
	}
	fmt.Printf("Go: %s\n\n[go]\n", strings.TrimPrefix(runtime.Version(), "go"))
	fmt.Println("ns per call, triple DES | | 8 bytes | 64 | 1024 | 8192 | 1 MiB")
	libraries, made := blocks()
	for _, it := range []struct {
		name string
		call func(block cipher.Block, iv, data []byte)
	}{
		{"CBC decryption", func(block cipher.Block, iv, data []byte) { cipher.NewCBCDecrypter(block, iv).CryptBlocks(data, data) }},
		{"CBC encryption", func(block cipher.Block, iv, data []byte) { cipher.NewCBCEncrypter(block, iv).CryptBlocks(data, data) }},
		{"CTR", func(block cipher.Block, iv, data []byte) { cipher.NewCTR(block, iv).XORKeyStream(data, data) }},
		{"loop over Decrypt", loop},
	} {
		rows := make([][]string, len(made))
		for _, size := range sizes {
			iv, data := make([]byte, cukvashe.BlockSize), make([]byte, size)
			var calls []func()
			for _, block := range made {
				block := block
				calls = append(calls, func() { it.call(block, iv, data) })
			}
			for at, took := range least(rounds, calls) {
				rows[at] = append(rows[at], strconv.FormatFloat(took, 'f', 1, 64))
			}
		}
		for at, row := range rows {
			fmt.Printf("%s | %s | %s\n", it.name, libraries[at], strings.Join(row, " | "))
		}
	}
}
