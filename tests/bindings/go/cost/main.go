// Cost prints how many nanoseconds a call takes from C and from Go, for a message of 40 bytes that is accepted. Both are
// timed in turn, in short rounds, and the least time of each counts.
package main

// #cgo pkg-config: capvet
// #include <capvet.h>
//
// /* Vets a message some number of times, and counts how often it is accepted. */
// static int vet_all(const uint8_t *bytes, size_t length, int times) {
//   const capvet_limits limits = CAPVET_LIMITS_INIT;
//   int accepted = 0;
//   for (int i = 0; i < times; i++) {
//     capvet_report report;
//     accepted += capvet_vet(bytes, length, &limits, &report) == CAPVET_OK;
//   }
//   return accepted;
// }
import "C"

import (
	"fmt"
	"log"
	"os"
	"time"
	"unsafe"

	"capvet.invalid/capvet"
)

const (
	rounds = 300
	times  = 2000
)

// fromC vets the message from C.
func fromC(b []byte) int {
	return int(C.vet_all((*C.uint8_t)(unsafe.Pointer(&b[0])), C.size_t(len(b)), times))
}

// fromGo vets the message from Go.
func fromGo(b []byte) (accepted int) {
	for i := 0; i < times; i++ {
		if _, err := capvet.Vet(b, nil); err == nil {
			accepted++
		}
	}
	return accepted
}

func main() {
	b, err := os.ReadFile(os.Args[1])
	if err != nil {
		log.Fatal(err)
	}
	ways := [...]func([]byte) int{fromC, fromGo}
	least := [len(ways)]time.Duration{time.Hour, time.Hour}
	for round := 0; round < rounds; round++ {
		for i, way := range ways {
			begin := time.Now()
			if accepted := way(b); accepted != times {
				log.Fatal(accepted)
			}
			if took := time.Since(begin); took < least[i] {
				least[i] = took
			}
		}
	}
	fmt.Printf("%.1f %.1f\n", float64(least[0].Nanoseconds())/times, float64(least[1].Nanoseconds())/times)
}
