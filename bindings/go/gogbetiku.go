// Package gogbetiku checks the replies of an untrusted server against the public key of a map's owner, using the C
// library libgogbetiku.
//
//	client, err := gogbetiku.NewClient(key, nil)
//	route, err := client.CheckRoute(reply, 1, 3, 1, true)
//
// docs/LIBRARY.md says what it accepts; the proofs cover the three calls of the C library. This package is tested, not
// proved. A client keeps only its key and its chain, so goroutines may share it. Set CGO_CFLAGS=-I.. and
// CGO_LDFLAGS=-L.. if the library is not where the compiler looks.
package gogbetiku

/*
#cgo LDFLAGS: -lgogbetiku
#include <gogbetiku.h>
*/
import "C"

import (
	"encoding/hex"
	"errors"
	"strings"
	"unsafe"
)

// MostNodes is the greatest number of nodes in a map, and so in a route or a radius.
const MostNodes = C.GOG_MOST_NODES

// KeyOctets is the number of octets in a public key.
const KeyOctets = 56

// Node is a node with its coordinates in the owner's map.
type Node struct {
	ID   uint32
	X, Y int32
}

// ReachedNode is a node within a radius, with its distance in the owner's unit of length.
type ReachedNode struct {
	Node
	Distance uint64
}

// Route is what an accepted reply says of two nodes: a shortest route or, if Exists is false, that no walk joins them.
type Route struct {
	Exists  bool
	Nodes   []Node // from end to end, at least one where it exists
	Length  uint64 // in the owner's unit
	Version uint64 // of the map: keep the greatest, and pass it as least
}

// Within is what an accepted reply says of a radius: all nodes within it, by ascending id.
type Within struct {
	Nodes   []ReachedNode
	Version uint64
}

// Nearest is what an accepted reply says of listed nodes: the nearest of those within a radius, by ascending distance
// and then by ascending id. Inside counts all listed nodes within the radius; any other listed id is farther, not
// joined to the start, or not a node.
type Nearest struct {
	Nodes   []ReachedNode
	Inside  uint64 // how many of the listed nodes are within the radius
	Version uint64
}

// Kind is the test that a reply fails: a code of gogbetiku.h.
type Kind uint32

// The kinds. The comment of each says what First and Second of the refusal are.
const (
	Unknown        Kind = 0  // a code unknown to this package, or an answer that fits none
	NotAnswer      Kind = 3  // without a proof: an end is not a node or, from older servers, no route exists: the kind
	Malformed      Kind = 4  // not a reply: the offset of the first field that cannot be read
	Stale          Kind = 5  // older than the minimum version: its version
	BadChain       Kind = 6  // a link is not signed: its number, and a reason. Fetch the chain again
	BadSignature   Kind = 7  // not signed under the key or the chain: a reason
	BadCover       Kind = 8  // the leaves are not those of the signed map: the tree, and what is wrong with its cover
	RepeatedNode   Kind = 9  // two items are of the same node: its id
	BadRoute       Kind = 10 // the route does not follow signed roads from end to end: the hop
	MissingTuple   Kind = 11 // a node that the proof needs is missing: its id
	MissingPair    Kind = 12 // a distance that the proof needs is missing: the lesser id, and the greater
	Shorter        Kind = 13 // the leaves show a shorter walk, or a walk although the reply says there is none: its length
	Disagrees      Kind = 14 // a signed distance differs from the route's length: that distance
	PassesTwice    Kind = 15 // the route passes a node twice, which simple refuses
	NoMemory       Kind = 16 // out of memory: try again
	TooLong        Kind = 17 // a reply or a chain has 2^32 octets or more
	MalformedChain Kind = 18 // not a chain: the offset of the first field that cannot be read. Fetch it again
	Ahead          Kind = 32 // with WithMaxAge, dated more than a day ahead of the clock: the version, and the clock
	WrongClock     Kind = 33 // the clock, by which an age is measured, cannot be right: the clock
	NoneYoung      Kind = 34 // a gateway has no map young enough: the greatest age
)

var names = [...]string{"Unknown", 3: "NotAnswer", "Malformed", "Stale", "BadChain", "BadSignature", "BadCover",
	"RepeatedNode", "BadRoute", "MissingTuple", "MissingPair", "Shorter", "Disagrees", "PassesTwice", "NoMemory", "TooLong",
	"MalformedChain", Ahead: "Ahead", "WrongClock", "NoneYoung"}

// String returns the name of the kind.
func (kind Kind) String() string {
	if int(kind) < len(names) && names[kind] != "" {
		return names[kind]
	}
	return names[Unknown]
}

// Refused is the error for a reply that is not accepted. Its text is a sentence for people.
type Refused struct {
	Kind          Kind
	Code          uint32 // the number of the kind in the C library
	First, Second uint64 // what the test found
	Sentence      string
	Line          string // what the command line writes, where it has a line for it
}

func (refused *Refused) Error() string { return refused.Sentence }

// ErrKey is the error for a key that does not have 56 octets, or 112 hex digits.
var ErrKey = errors.New("a public key has 56 octets, or 112 hex digits")

// KeyOf decodes a public key in hex, as `road_proof key` writes it. It ignores space around it.
func KeyOf(text string) ([]byte, error) {
	key, err := hex.DecodeString(strings.TrimSpace(text))
	if err != nil || len(key) != KeyOctets {
		return nil, ErrKey
	}
	return key, nil
}

// LibraryVersion returns the version of the C library in use.
func LibraryVersion() string { return C.GoString(C.gog_version()) }

// Client checks replies under the public key of an owner. Name is the map's name, for people; it comes from the owner
// with the key, since no reply has one.
type Client struct {
	Name       string
	key, chain []byte
	age        *age
}

// NewClient makes a client with the owner's public key and the octets of the chain file that leads to the owner's later
// keys, or none if there is only one key. It keeps copies.
func NewClient(key, chain []byte) (*Client, error) {
	if len(key) != KeyOctets {
		return nil, ErrKey
	}
	return &Client{key: copied(key), chain: copied(chain)}, nil
}

// CheckRoute returns what a reply proves of the shortest route between two nodes, or a *Refused. Least is the minimum
// version accepted. With simple, a route that passes a node twice is refused; an honest server never sends one.
func (client *Client) CheckRoute(reply []byte, from, to uint32, least uint64, simple bool) (*Route, error) {
	room := make([]C.struct_gog_node, MostNodes)
	var verdict C.struct_gog_verdict
	var asks C.uint32_t
	if simple {
		asks = 1
	}
	least, _, err := client.leasts(least)
	if err != nil {
		return nil, err
	}
	reply = copied(reply) // another goroutine may write the caller's
	code := C.gog_check_route(at(client.key), C.size_t(len(client.key)), at(client.chain), C.size_t(len(client.chain)),
		at(reply), C.size_t(len(reply)), C.uint32_t(from), C.uint32_t(to), C.uint64_t(least), asks,
		&room[0], C.size_t(len(room)), &verdict)
	code = client.judged(code, &verdict)
	if code == C.GOG_NO_ROUTE && accepts(code, &verdict) {
		return &Route{Version: uint64(verdict.version)}, nil
	}
	if code != C.GOG_ACCEPTED || !accepts(code, &verdict) {
		return nil, refusal(code, &verdict)
	}
	nodes := make([]Node, verdict.count)
	for place := range nodes {
		nodes[place] = Node{uint32(room[place].id), int32(room[place].x), int32(room[place].y)}
	}
	return &Route{true, nodes, uint64(verdict.length), uint64(verdict.version)}, nil
}

// CheckReach returns the nodes that a reply proves to be all those within a radius of a node, or a *Refused.
func (client *Client) CheckReach(reply []byte, from uint32, radius, least uint64) (*Within, error) {
	room := make([]C.struct_gog_reached_node, MostNodes)
	var verdict C.struct_gog_verdict
	least, _, err := client.leasts(least)
	if err != nil {
		return nil, err
	}
	reply = copied(reply)
	code := C.gog_check_reach(at(client.key), C.size_t(len(client.key)), at(client.chain), C.size_t(len(client.chain)),
		at(reply), C.size_t(len(reply)), C.uint32_t(from), C.uint64_t(radius), C.uint64_t(least),
		&room[0], C.size_t(len(room)), &verdict)
	code = client.judged(code, &verdict)
	if code != C.GOG_ACCEPTED || !accepts(code, &verdict) {
		return nil, refusal(code, &verdict)
	}
	return &Within{reached(room[:verdict.count]), uint64(verdict.version)}, nil
}

// Nearest returns the nearest of the listed nodes that a reply to a range query proves to lie within the radius, at
// most count of them, or all if count is negative, or a *Refused. The ids may be in any order; one that is listed twice
// counts once.
func (client *Client) Nearest(reply []byte, from uint32, radius uint64, ids []uint32, least uint64, count int) (*Nearest, error) {
	if count < 0 || count > MostNodes {
		count = MostNodes
	}
	room := make([]C.struct_gog_reached_node, count+1) // C is told of count of them
	least, _, err := client.leasts(least)
	if err != nil {
		return nil, err
	}
	var listed *C.uint32_t
	if len(ids) > 0 {
		ids = append([]uint32(nil), ids...)
		listed = (*C.uint32_t)(unsafe.Pointer(&ids[0]))
	}
	var verdict C.struct_gog_verdict
	reply = copied(reply)
	code := C.gog_nearest(at(client.key), C.size_t(len(client.key)), at(client.chain), C.size_t(len(client.chain)),
		at(reply), C.size_t(len(reply)), C.uint32_t(from), C.uint64_t(radius), C.uint64_t(least),
		listed, C.size_t(len(ids)), &room[0], C.size_t(count), &verdict)
	code = client.judged(code, &verdict)
	if (code != C.GOG_ACCEPTED && code != C.GOG_NONE_WITHIN) || !accepts(code, &verdict) {
		return nil, refusal(code, &verdict)
	}
	if uint64(count) > uint64(verdict.count) {
		count = int(verdict.count)
	}
	return &Nearest{reached(room[:count]), uint64(verdict.count), uint64(verdict.version)}, nil
}

func reached(room []C.struct_gog_reached_node) []ReachedNode {
	nodes := make([]ReachedNode, len(room))
	for place := range nodes {
		it := &room[place]
		nodes[place] = ReachedNode{Node{uint32(it.id), int32(it.x), int32(it.y)}, uint64(it.distance)}
	}
	return nodes
}

func copied(octets []byte) []byte { return append([]byte(nil), octets...) }

// at returns a pointer to octets; C takes a null pointer for none.
func at(octets []byte) *C.uint8_t {
	if len(octets) == 0 {
		return nil
	}
	return (*C.uint8_t)(unsafe.Pointer(&octets[0]))
}

// accepts reports whether a verdict accepts and has this code.
func accepts(code C.uint32_t, verdict *C.struct_gog_verdict) bool {
	return code == verdict.code && C.gog_accepted(verdict) == 1 && verdict.count <= MostNodes
}

func refusal(code C.uint32_t, verdict *C.struct_gog_verdict) *Refused {
	if code <= C.GOG_NO_ROUTE {
		code = C.GOG_UNCHECKED
	}
	kind := Kind(code)
	if int(kind) >= len(names) || names[kind] == "" {
		kind = Unknown
	}
	var text [256]C.char
	C.gog_sentence(code, verdict.first, verdict.second, &text[0], C.size_t(len(text)))
	return &Refused{kind, uint32(code), uint64(verdict.first), uint64(verdict.second), C.GoString(&text[0]),
		strings.TrimSuffix(C.GoString(&verdict.line[0]), "\n")}
}
