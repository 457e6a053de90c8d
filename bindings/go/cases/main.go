// Cases prints the package's result for each case in a file, one line each: cases FILE. bindings/play_more.py writes
// the file, with one case in each line of words: the query, the key and the chain in hex (- for none), from, end,
// least, simple, the reply in hex, for the nearest nodes the listed ids (- for none) and how many are wanted, and, with
// an age, the greatest age and a clock in seconds as the 11th and 12th words. With an age, the query `least` is the
// version to request from a gateway, and `young` the meaning of its 503.
package main

import (
	"bufio"
	"encoding/hex"
	"errors"
	"fmt"
	"log"
	"os"
	"strconv"
	"strings"
	"time"

	"gogbetiku"
)

func octets(text string) []byte {
	found, err := hex.DecodeString(strings.TrimPrefix(text, "-"))
	if err != nil {
		log.Fatal(err)
	}
	return found
}

func number(text string, bits int) uint64 {
	found, err := strconv.ParseUint(text, 10, bits)
	if err != nil {
		log.Fatal(err)
	}
	return found
}

func told(words []string) string {
	key, err := gogbetiku.KeyOf(words[1])
	if err != nil {
		log.Fatal(err)
	}
	client, err := gogbetiku.NewClient(key, octets(words[2]))
	if err != nil {
		log.Fatal(err)
	}
	from, least, reply := uint32(number(words[3], 32)), number(words[5], 64), octets(words[7])
	if len(words) > 11 {
		now := time.Unix(int64(number(words[11], 63)), 0)
		client = client.WithMaxAge(time.Duration(number(words[10], 63))*time.Second, func() time.Time { return now })
	}
	switch words[0] {
	case "least":
		asked, err := client.LeastToAsk(least)
		if err != nil {
			return refusal(err)
		}
		return fmt.Sprintf("asked %d", asked)
	case "young":
		return refusal(client.NoneYoung())
	}
	if words[0] == "nearest" {
		var ids []uint32
		for _, id := range strings.Split(strings.TrimPrefix(words[8], "-"), ",") {
			if id != "" {
				ids = append(ids, uint32(number(id, 32)))
			}
		}
		found, err := client.Nearest(reply, from, number(words[4], 64), ids, least, int(number(words[9], 31)))
		if err != nil {
			return refusal(err)
		}
		if found.Inside == 0 {
			return fmt.Sprintf("19 %d", found.Version)
		}
		return fmt.Sprintf("1 %d %d", found.Version, found.Inside) + reached(found.Nodes)
	}
	if words[0] == "reach" {
		within, err := client.CheckReach(reply, from, number(words[4], 64), least)
		if err != nil {
			return refusal(err)
		}
		return fmt.Sprintf("1 %d -", within.Version) + reached(within.Nodes)
	}
	route, err := client.CheckRoute(reply, from, uint32(number(words[4], 32)), least, words[6] == "1")
	if err != nil {
		return refusal(err)
	}
	if !route.Exists {
		return fmt.Sprintf("2 %d", route.Version)
	}
	said := fmt.Sprintf("1 %d %d", route.Version, route.Length)
	for _, node := range route.Nodes {
		said += fmt.Sprintf(" %d,%d,%d", node.ID, node.X, node.Y)
	}
	return said
}

func reached(nodes []gogbetiku.ReachedNode) (said string) {
	for _, node := range nodes {
		said += fmt.Sprintf(" %d,%d,%d,%d", node.ID, node.X, node.Y, node.Distance)
	}
	return said
}

func refusal(err error) string {
	var why *gogbetiku.Refused
	if !errors.As(err, &why) {
		log.Fatal(err)
	}
	return fmt.Sprintf("%d %d %d %s|%s|%s", why.Code, why.First, why.Second, why.Kind, why.Line, why)
}

func main() {
	file, err := os.Open(os.Args[1])
	if err != nil {
		log.Fatal(err)
	}
	lines := bufio.NewReaderSize(file, 1<<20)
	for {
		line, err := lines.ReadString('\n')
		if err != nil {
			return
		}
		fmt.Println(told(strings.Split(strings.TrimSuffix(line, "\n"), " ")))
	}
}
