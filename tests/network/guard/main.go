// Load plays clients and a server at both ends of a proxy, for tests/network/guard.py.
//
//	load storm PROXY SERVER CONNECTIONS MESSAGES FILE
//	load exact PROXY SERVER CONNECTIONS MESSAGES SEED dry|real
//	load soak PROXY SERVER SECONDS CALLS GOOD_CLIENTS HOSTILE_CLIENTS SLOW_CLIENTS
//	load rate SERVER DIRECTION MESSAGE_BYTES TOTAL_BYTES PROXY..
//	load latency SERVER CALLS PROXY..
//
// SERVER is where it listens, and each PROXY is an address that leads there. DIRECTION is `requests` or `replies`.
package main

import (
	"fmt"
	"log"
	"os"
	"strconv"
)

func main() {
	log.SetFlags(0)
	if len(os.Args) < 5 {
		log.Fatal("usage: see the source")
	}
	words := os.Args[2:]
	switch os.Args[1] {
	case "storm":
		fmt.Println(storm(words[0], words[1], number(words[2]), number(words[3]), words[4]))
	case "exact":
		fmt.Println(exact(words[0], words[1], number(words[2]), number(words[3]), int64(number(words[4])), words[5] == "dry"))
	case "soak":
		fmt.Println(soak(words[0], words[1], number(words[2]), number(words[3]), number(words[4]), number(words[5]), number(words[6])))
	case "rate":
		for _, rate := range rates(words[0], words[1] == "replies", number(words[2]), number(words[3]), words[4:]) {
			fmt.Printf("%.1f ", rate)
		}
		fmt.Println()
	case "latency":
		for _, times := range latencies(words[0], number(words[1]), words[2:]) {
			fmt.Printf("%.1f %.1f ", times[0], times[1])
		}
		fmt.Println()
	}
}

// number reads a number of the command line.
func number(text string) int {
	n, err := strconv.Atoi(text)
	must(err)
	return n
}

// must ends the program at an error, since nothing can then be said of the proxy.
func must(err error) {
	if err != nil {
		log.Fatal(err)
	}
}
