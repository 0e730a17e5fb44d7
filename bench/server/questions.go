// Questions asks a running server over its socket: questions SOCKET TENANT CONNECTIONS AHEAD SECONDS. Each connection sends so many
// questions at once, and the next ones when all of these are answered. It prints how many were answered in a second, and the milliseconds
// that half of them, 99 of 100, and the slowest took.
package main

import (
	"bufio"
	"encoding/binary"
	"fmt"
	"io"
	"net"
	"os"
	"sort"
	"strconv"
	"time"
)

// answerHead is how many bytes an answer has before its reply: docs/FORMATS.md, "Frames".
const answerHead = 17

func must[T any](value T, err error) T {
	if err != nil {
		fmt.Fprintln(os.Stderr, "questions:", err)
		os.Exit(1)
	}
	return value
}

// frame is the question `head` of a tenant.
func frame(tenant string) []byte {
	const ask, query = 4, "head"
	text := append([]byte{ask, byte(len(tenant) >> 8), byte(len(tenant))}, tenant...)
	return append(binary.BigEndian.AppendUint32(text, uint32(len(query))), query...)
}

// asked asks until a time, and gives how long each question took.
func asked(socket, tenant string, ahead int, until time.Time) (took []time.Duration) {
	conn := must(net.Dial("unix", socket))
	defer conn.Close()
	in := bufio.NewReaderSize(conn, 1<<16)
	var text []byte
	for at := 0; at < ahead; at++ {
		text = append(text, frame(tenant)...)
	}
	var head [answerHead]byte
	for began := time.Now(); began.Before(until); began = time.Now() {
		must(conn.Write(text))
		for at := 0; at < ahead; at++ {
			must(io.ReadFull(in, head[:]))
			must(in.Discard(int(binary.BigEndian.Uint64(head[9:]))))
			took = append(took, time.Since(began))
		}
	}
	return took
}

func main() {
	if len(os.Args) != 6 {
		fmt.Fprintln(os.Stderr, "usage: questions SOCKET TENANT CONNECTIONS AHEAD SECONDS")
		os.Exit(2)
	}
	connections, ahead := must(strconv.Atoi(os.Args[3])), must(strconv.Atoi(os.Args[4]))
	seconds := must(strconv.ParseFloat(os.Args[5], 64))
	until := time.Now().Add(time.Duration(seconds * float64(time.Second)))
	answers := make(chan []time.Duration)
	for at := 0; at < connections; at++ {
		go func() { answers <- asked(os.Args[1], os.Args[2], ahead, until) }()
	}
	var all []time.Duration
	for at := 0; at < connections; at++ {
		all = append(all, <-answers...)
	}
	sort.Slice(all, func(i, k int) bool { return all[i] < all[k] })
	milliseconds := func(share int) float64 { return all[(len(all)-1)*share/1000].Seconds() * 1000 }
	fmt.Printf("%.0f a second; half %.2f ms, 99 of 100 %.2f ms, the slowest %.2f ms\n", float64(len(all))/seconds, milliseconds(500),
		milliseconds(990), milliseconds(1000))
}
