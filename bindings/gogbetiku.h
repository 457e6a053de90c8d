/* The client of authenticated routes as a library: it checks replies against the public key of a map's
 * owner. docs/LIBRARY.md has the meaning of each number and the duties of a caller. */
#ifndef GOGBETIKU_H
#define GOGBETIKU_H

#include <stddef.h>
#include <stdint.h>

#ifdef __cplusplus
extern "C" {
#endif

/* The version of this header; gog_version() returns that of the library in use. */
#define GOG_VERSION "0.1.0"

/* The greatest number of nodes in a map: a buffer of this many is always large enough. */
#define GOG_MOST_NODES 65536u

/* A version from this number, the first second of 2020, to 2^34 - 1 may be a date: the seconds since 1970-01-01 UTC at
 * which the owner signed. Versions that are counts are below 2^30. */
#define GOG_FIRST_DATE 1577836800u

/* No clock is before this second, the first of 2026: these sources are younger. */
#define GOG_FIRST_CLOCK 1767225600u

/* The line of a refusal fits into this many octets, including a closing 0. */
#define GOG_LINE_ROOM 128u

#if defined(__cplusplus) && __cplusplus >= 201703L
#define GOG_READ_IT [[nodiscard]]
#elif defined(__GNUC__)
#define GOG_READ_IT __attribute__((warn_unused_result))
#else
#define GOG_READ_IT
#endif

/* The result of a check. Three codes accept, all others refuse; treat unknown codes as refusals.
 * The comment of each code says what `first` and `second` are. */
enum gog_code {
    GOG_UNCHECKED = 0,      /* no check has written this verdict: not accepted */
    GOG_ACCEPTED = 1,       /* a shortest route, or all nodes within the radius */
    GOG_NO_ROUTE = 2,       /* accepted: no walk joins the two nodes */
    GOG_NOT_ANSWER = 3,     /* the kind of the reply */
    GOG_MALFORMED = 4,      /* the offset of the first field that cannot be read */
    GOG_STALE = 5,          /* the version of the reply */
    GOG_BAD_CHAIN = 6,      /* the number of the link, and a `gog_seal` */
    GOG_BAD_SIGNATURE = 7,  /* a `gog_seal` */
    GOG_BAD_COVER = 8,      /* 1 for nodes or 2 for pairs, and a `gog_cover` */
    GOG_REPEATED_NODE = 9,  /* the id */
    GOG_BAD_ROUTE = 10,     /* the index of the hop */
    GOG_MISSING_TUPLE = 11, /* the id */
    GOG_MISSING_PAIR = 12,  /* the lesser id, and the greater */
    GOG_SHORTER = 13,       /* the length of the shorter walk */
    GOG_DISAGREES = 14,     /* the distance in the items */
    GOG_PASSES_TWICE = 15,  /* if `simple` is not 0: the route passes a node twice */
    GOG_NO_MEMORY = 16,
    GOG_TOO_LONG = 17,
    GOG_MALFORMED_CHAIN = 18, /* the offset of the first field of the chain that cannot be read */
    GOG_NONE_WITHIN = 19,     /* accepted, by gog_nearest: no listed node lies within the radius */
    /* only from the calls on ages, never from a check */
    GOG_AHEAD = 32,       /* the version, which is more than a day ahead of the clock, and the clock */
    GOG_WRONG_CLOCK = 33, /* the clock, which is not a date or is before GOG_FIRST_CLOCK */
    GOG_NONE_YOUNG = 34   /* the greatest age; a gateway has no map as young, as its status 503 says */
};

/* Why a signature does not verify. */
enum gog_seal { GOG_BAD_KEY = 1, GOG_BAD_FORM = 2, GOG_NO_MATCH = 3 };

/* Why items and a cover do not give a root. */
enum gog_cover { GOG_COVER_PLACE = 1, GOG_COVER_SHORT = 2, GOG_COVER_LONG = 3, GOG_COVER_DIFFERS = 4 };

/* The verdict of a check. Unused fields are 0. */
struct gog_verdict {
    uint32_t code;    /* a `gog_code` */
    uint64_t count;   /* the number of accepted nodes; it may exceed the caller's buffer */
    uint64_t length;  /* the length of the accepted route */
    uint64_t version; /* the version of the accepted reply's map; keep the greatest */
    uint64_t first;   /* what the failed test found */
    uint64_t second;
    uint64_t line_length;
    char line[GOG_LINE_ROOM]; /* the command line's output for a refusal, with a line end */
};

/* A verdict that no check has written; it is a refusal. */
#define GOG_VERDICT_INIT \
    { \
        GOG_UNCHECKED, 0, 0, 0, 0, 0, 0, { 0 } \
    }

/* A node of an accepted route, with its coordinates in the owner's map. */
struct gog_node {
    uint32_t id;
    int32_t x, y;
};

/* A node within a radius, with its coordinates in the owner's map and its distance. */
struct gog_reached_node {
    uint32_t id;
    int32_t x, y;
    uint64_t distance;
};

/* Checks a reply to the query for a shortest route from one node to another, and returns `code`.
 * `key` has the 56 octets of the owner's public key. `chain` has the octets of a chain file, or none if the
 * owner has had only one key. `least` is the minimum version accepted. If `simple` is not 0, a route that
 * passes a node twice is refused; an honest server sends none. The nodes of an accepted route go into
 * `nodes`, at most `room` of them. A null pointer counts as no octets, or no room. */
GOG_READ_IT uint32_t gog_check_route(const uint8_t *key, size_t key_length, const uint8_t *chain, size_t chain_length,
                                     const uint8_t *reply, size_t reply_length, uint32_t from, uint32_t to,
                                     uint64_t least, uint32_t simple, struct gog_node *nodes, size_t room,
                                     struct gog_verdict *verdict);

/* Checks a reply to the query for the nodes within a radius of a node, in the same way. The accepted
 * nodes go into `nodes`, by ascending id. */
GOG_READ_IT uint32_t gog_check_reach(const uint8_t *key, size_t key_length, const uint8_t *chain, size_t chain_length,
                                     const uint8_t *reply, size_t reply_length, uint32_t from, uint64_t radius,
                                     uint64_t least, struct gog_reached_node *nodes, size_t room,
                                     struct gog_verdict *verdict);

/* Computes the minimum version from the greatest age of a map, if the owner's versions are dates. `now` is the caller's
 * clock, in seconds since 1970-01-01 UTC, `max_age` the greatest age in seconds, and `floor` the greatest version
 * accepted so far. `least` is the version to check with: the greatest of `floor`, GOG_FIRST_DATE and `now` minus
 * `max_age`. `asked`, which may be null, is the version to request from a gateway: the age is rounded up to the minute,
 * so that requests repeat. Returns 1, or 0 if the clock is before GOG_FIRST_CLOCK or not a date: then both are the
 * greatest number, and no reply should be accepted. */
GOG_READ_IT int gog_least_of_age(uint64_t floor, uint64_t now, uint64_t max_age, uint64_t *least, uint64_t *asked);

/* Refuses an accepted verdict whose version is more than a day ahead of the clock: its code becomes GOG_AHEAD, and
 * it accepts nothing. With a greatest age, call this before you keep a floor. Returns the code of the verdict. */
GOG_READ_IT uint32_t gog_refuse_ahead(struct gog_verdict *verdict, uint64_t now);

/* Checks a reply as gog_check_reach does, and selects the accepted nodes whose ids are listed. `count` is their
 * number. The nearest of them go into `nodes`, at most `room` of them, by ascending distance and then by
 * ascending id. The ids may be in any order; one that is listed twice counts once. A listed id that is not
 * counted is farther than the radius, not joined to the start, or not a node. If none is counted, the code is
 * GOG_NONE_WITHIN. */
GOG_READ_IT uint32_t gog_nearest(const uint8_t *key, size_t key_length, const uint8_t *chain, size_t chain_length,
                                 const uint8_t *reply, size_t reply_length, uint32_t from, uint64_t radius,
                                 uint64_t least, const uint32_t *ids, size_t ids_length, struct gog_reached_node *nodes,
                                 size_t room, struct gog_verdict *verdict);

/* Returns 1 if a verdict accepts: a route or nodes, at least one, or that there is no route, or that no listed
 * node lies within the radius. Returns 0 otherwise. */
GOG_READ_IT int gog_accepted(const struct gog_verdict *verdict);

/* Returns the number of accepted nodes in a buffer of this size: the lesser of `count` and the size.
 * A route that is cut short is not a route: if this is less than `count`, check again with a larger buffer. */
GOG_READ_IT size_t gog_filled(const struct gog_verdict *verdict, size_t room);

/* Writes the sentence for a code and its two numbers into `text`, cut to fit `room` and closed by a 0. Returns
 * the number of octets in the whole sentence. */
size_t gog_sentence(uint32_t code, uint64_t first, uint64_t second, char *text, size_t room);

/* Returns the version of the library in use. */
GOG_READ_IT const char *gog_version(void);

#ifdef __cplusplus
}
#endif

#endif
