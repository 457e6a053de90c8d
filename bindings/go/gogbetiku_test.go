package gogbetiku_test

import (
	"bytes"
	"errors"
	"fmt"
	"strings"
	"testing"

	"gogbetiku"
)

func Example() {
	client, err := gogbetiku.NewClient(make([]byte, gogbetiku.KeyOctets), nil)
	if err != nil {
		panic(err)
	}
	_, err = client.CheckRoute([]byte("no reply"), 1, 3, 1, true)
	var refused *gogbetiku.Refused
	if errors.As(err, &refused) {
		fmt.Println(refused.Kind, refused.First, refused)
	}
	// Output: Malformed 0 The octets are not a reply: the field at offset 0 cannot be read.
}

func TestKeys(t *testing.T) {
	key, err := gogbetiku.KeyOf(" " + strings.Repeat("0a", 56) + "\n")
	if err != nil || !bytes.Equal(key, bytes.Repeat([]byte{10}, 56)) {
		t.Errorf("a key in hex: %v, %v", key, err)
	}
	for _, text := range []string{"", "0a", strings.Repeat("0a", 57), strings.Repeat("g", 112)} {
		if _, err := gogbetiku.KeyOf(text); err != gogbetiku.ErrKey {
			t.Errorf("%q is taken for a key", text)
		}
	}
	for _, length := range []int{0, 55, 57} {
		if _, err := gogbetiku.NewClient(make([]byte, length), nil); err != gogbetiku.ErrKey {
			t.Errorf("%d octets are taken for a key", length)
		}
	}
}

func TestRefusals(t *testing.T) {
	client, _ := gogbetiku.NewClient(make([]byte, 56), nil)
	_, route := client.CheckRoute(nil, 1, 3, 0, false)
	_, reach := client.CheckReach(nil, 1, 3, 0)
	_, nearest := client.Nearest(nil, 1, 3, []uint32{2, 1}, 0, 1)
	_, none := client.Nearest(nil, 1, 3, nil, 0, -1)
	for _, err := range []error{route, reach, nearest, none} {
		refused, isRefused := err.(*gogbetiku.Refused)
		if !isRefused || refused.Kind != gogbetiku.Malformed || refused.Line != "refused Malformed 0" {
			t.Errorf("no octets: %v", err)
		}
	}
	broken, _ := gogbetiku.NewClient(make([]byte, 56), []byte("no chain"))
	_, err := broken.CheckRoute(nil, 1, 3, 0, false)
	if refused, isRefused := err.(*gogbetiku.Refused); !isRefused || refused.Kind != gogbetiku.MalformedChain {
		t.Errorf("no chain: %v", err)
	}
	if gogbetiku.Kind(99).String() != "Unknown" || gogbetiku.Kind(1).String() != "Unknown" {
		t.Error("an unknown kind has a name")
	}
}
