// table SIZE HASH NAME..: prints what `maglev table --size SIZE --hash HASH NAME..` prints, by libmaglev.
//
//	go run examples/embed/table.go 7 sum A B 'C*2'
//
// The library is that of the clone which this file is in. Where it was installed, write `#cgo pkg-config: maglev` for the three
// lines of cgo.
package main

/*
#cgo CFLAGS: -I${SRCDIR}/../../share/include
#cgo amd64 LDFLAGS: ${SRCDIR}/../../dist/lib/x86_64-linux-gnu/libmaglev.a
#cgo arm64 LDFLAGS: ${SRCDIR}/../../dist/lib/aarch64-linux-gnu/libmaglev.a
#include "maglev.h"
*/
import "C"

import (
	"errors"
	"fmt"
	"os"
	"sort"
	"strconv"
	"strings"
	"unsafe"
)

var hashes = map[string]uint32{"fnv": C.MAGLEV_FNV, "sha256": C.MAGLEV_SHA256, "sum": C.MAGLEV_SUM}

// What no hash has for its number.
const noHash = 99

var faults = []string{"", "BadSize", "BadHash", "BadRoom", "BadName", "TooMany", "BadWeight", "DoubleName", "Memory"}

// where is the place of bytes for C, which takes no NULL: so they end with one more.
func where(bytes []byte) *C.uint8_t {
	return (*C.uint8_t)(unsafe.Pointer(&append(bytes, 0)[0]))
}

// table has for each slot the place of its name among the names. Weights are from 1 to 16, one for each name; or there are none.
func table(size uint32, hash string, names []string, weights []byte) ([]uint32, error) {
	number, known := hashes[hash]
	if !known {
		number = noHash
	}
	text, slots := []byte(strings.Join(names, "\n")), make([]uint32, uint64(size)+1)
	fault := C.maglev_table(C.uint32_t(size), C.uint32_t(number), where(text), C.size_t(len(text)), where(weights),
		C.size_t(len(weights)), (*C.uint32_t)(unsafe.Pointer(&slots[0])), C.size_t(size))
	if fault != C.MAGLEV_OK {
		return nil, errors.New(faults[fault])
	}
	return slots[:size], nil
}

// parted is the names and the weights of words, each NAME or NAME*W. What isn't a weight is 0, which is refused.
func parted(words []string) (names []string, weights []byte) {
	for _, word := range words {
		name, times, given := strings.Cut(word, "*")
		weight := uint64(1)
		if given {
			weight, _ = strconv.ParseUint(times, 10, 8)
		}
		names, weights = append(names, name), append(weights, byte(weight))
	}
	return names, weights
}

func main() {
	if len(os.Args) < 4 {
		fmt.Fprintln(os.Stderr, "usage: table SIZE HASH NAME..")
		os.Exit(2)
	}
	size, _ := strconv.ParseUint(os.Args[1], 10, 17)
	names, weights := parted(os.Args[3:])
	slots, err := table(uint32(size), os.Args[2], names, weights)
	if err != nil {
		fmt.Fprintln(os.Stderr, "fault:", err)
		os.Exit(1)
	}
	fmt.Println("size", size, "backends", len(names))
	counts := make(map[string]int)
	for slot, place := range slots {
		fmt.Println(slot, names[place])
		counts[names[place]]++
	}
	sort.Strings(names)
	for _, name := range names {
		fmt.Println("count", name, counts[name])
	}
}
