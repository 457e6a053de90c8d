package gogbetiku

/*
#include <gogbetiku.h>
*/
import "C"

import "time"

// age is a greatest age, and the clock by which it is measured.
type age struct {
	greatest time.Duration
	clock    func() time.Time
}

// now returns the clock in seconds since 1970-01-01 UTC. An earlier clock gives 0, which counts as wrong too.
func (age *age) now() C.uint64_t {
	if seconds := age.clock().Unix(); seconds > 0 {
		return C.uint64_t(seconds)
	}
	return 0
}

// seconds returns the greatest age in whole seconds; a fraction of a second does not count, and a negative age counts
// as 0.
func (age *age) seconds() C.uint64_t {
	if age.greatest < 0 {
		return 0
	}
	return C.uint64_t(age.greatest / time.Second)
}

// WithMaxAge returns a client that accepts no map that is older by the clock, or dated more than a day ahead of it, if
// the owner's versions are dates. time.Now is this machine's clock.
func (client *Client) WithMaxAge(greatest time.Duration, clock func() time.Time) *Client {
	other := *client
	other.age = &age{greatest, clock}
	return &other
}

// LeastToAsk returns the version to request from a gateway as least, if no version below floor is accepted. The age is
// rounded up to the minute, so that requests repeat. Its error is a *Refused of the kind WrongClock.
func (client *Client) LeastToAsk(floor uint64) (uint64, error) {
	_, asked, err := client.leasts(floor)
	return asked, err
}

// NoneYoung returns what a gateway's status 503 on LeastToAsk means if its problem type says that no map is as new, or
// nil if the client accepts maps of any age.
func (client *Client) NoneYoung() error {
	if client.age == nil {
		return nil
	}
	return refusal(C.GOG_NONE_YOUNG, &C.struct_gog_verdict{first: client.age.seconds()})
}

// leasts returns the least version to check with, and the one to request.
func (client *Client) leasts(floor uint64) (uint64, uint64, error) {
	if client.age == nil {
		return floor, floor, nil
	}
	var least, asked C.uint64_t
	now := client.age.now()
	if C.gog_least_of_age(C.uint64_t(floor), now, client.age.seconds(), &least, &asked) != 1 {
		return 0, 0, refusal(C.GOG_WRONG_CLOCK, &C.struct_gog_verdict{first: now})
	}
	return uint64(least), uint64(asked), nil
}

// judged returns the code of a verdict, after refusing a version that is ahead of the clock.
func (client *Client) judged(code C.uint32_t, verdict *C.struct_gog_verdict) C.uint32_t {
	if client.age == nil || code != verdict.code {
		return code
	}
	return C.gog_refuse_ahead(verdict, client.age.now())
}
