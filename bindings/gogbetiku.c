/* The code around the three proved calls for a caller in C: null pointers, sentences, and queries on a
 * verdict. It is tested, not proved; only the proved calls write the verdict and the nodes. */
#include "gogbetiku.h"

/* the proved calls, from crates/route_check_c: no pointer is null, and a verdict is the seven numbers before its line */
uint32_t gog_proved_route(const uint8_t *key, size_t key_length, const uint8_t *chain, size_t chain_length,
                          const uint8_t *reply, size_t reply_length, uint32_t from, uint32_t to, uint64_t least,
                          uint32_t simple, struct gog_node *nodes, size_t room, uint8_t *line, size_t line_room,
                          struct gog_verdict *verdict);
uint32_t gog_proved_reach(const uint8_t *key, size_t key_length, const uint8_t *chain, size_t chain_length,
                          const uint8_t *reply, size_t reply_length, uint32_t from, uint64_t radius, uint64_t least,
                          struct gog_reached_node *nodes, size_t room, uint8_t *line, size_t line_room,
                          struct gog_verdict *verdict);
uint32_t gog_proved_nearest(const uint8_t *key, size_t key_length, const uint8_t *chain, size_t chain_length,
                            const uint8_t *reply, size_t reply_length, uint32_t from, uint64_t radius, uint64_t least,
                            const uint32_t *ids, size_t ids_length, struct gog_reached_node *nodes, size_t room,
                            uint8_t *line, size_t line_room, struct gog_verdict *verdict);

/* replaces a null pointer with a length of 0: nothing there is read or written */
static uint64_t nothing;

#define AT(pointer) ((pointer) != NULL ? (pointer) : (void *)&nothing)
#define LENGTH(pointer, length) ((pointer) != NULL ? (length) : 0)

/* fills the line of the verdict with zeros */
static uint8_t *empty_line(struct gog_verdict *verdict) {
    for (size_t at = 0; at < GOG_LINE_ROOM; at++) verdict->line[at] = 0;
    return (uint8_t *)verdict->line;
}

uint32_t gog_check_route(const uint8_t *key, size_t key_length, const uint8_t *chain, size_t chain_length,
                         const uint8_t *reply, size_t reply_length, uint32_t from, uint32_t to, uint64_t least,
                         uint32_t simple, struct gog_node *nodes, size_t room, struct gog_verdict *verdict) {
    if (verdict == NULL) return GOG_UNCHECKED;
    return gog_proved_route(AT(key), LENGTH(key, key_length), AT(chain), LENGTH(chain, chain_length), AT(reply),
                            LENGTH(reply, reply_length), from, to, least, simple, AT(nodes), LENGTH(nodes, room),
                            empty_line(verdict), GOG_LINE_ROOM - 1, verdict);
}

uint32_t gog_check_reach(const uint8_t *key, size_t key_length, const uint8_t *chain, size_t chain_length,
                         const uint8_t *reply, size_t reply_length, uint32_t from, uint64_t radius, uint64_t least,
                         struct gog_reached_node *nodes, size_t room, struct gog_verdict *verdict) {
    if (verdict == NULL) return GOG_UNCHECKED;
    return gog_proved_reach(AT(key), LENGTH(key, key_length), AT(chain), LENGTH(chain, chain_length), AT(reply),
                            LENGTH(reply, reply_length), from, radius, least, AT(nodes), LENGTH(nodes, room),
                            empty_line(verdict), GOG_LINE_ROOM - 1, verdict);
}

uint32_t gog_nearest(const uint8_t *key, size_t key_length, const uint8_t *chain, size_t chain_length,
                     const uint8_t *reply, size_t reply_length, uint32_t from, uint64_t radius, uint64_t least,
                     const uint32_t *ids, size_t ids_length, struct gog_reached_node *nodes, size_t room,
                     struct gog_verdict *verdict) {
    if (verdict == NULL) return GOG_UNCHECKED;
    return gog_proved_nearest(AT(key), LENGTH(key, key_length), AT(chain), LENGTH(chain, chain_length), AT(reply),
                              LENGTH(reply, reply_length), from, radius, least, AT(ids), LENGTH(ids, ids_length),
                              AT(nodes), LENGTH(nodes, room), empty_line(verdict), GOG_LINE_ROOM - 1, verdict);
}

int gog_accepted(const struct gog_verdict *verdict) {
    return (verdict->code == GOG_ACCEPTED && verdict->count > 0) || verdict->code == GOG_NO_ROUTE ||
           verdict->code == GOG_NONE_WITHIN;
}

size_t gog_filled(const struct gog_verdict *verdict, size_t room) {
    if (verdict->code != GOG_ACCEPTED) return 0;
    return verdict->count < room ? (size_t)verdict->count : room;
}

const char *gog_version(void) { return GOG_VERSION; }

#define LAST_DATE (((uint64_t)1 << 34) - 1)
#define MINUTE 60u
#define DAY 86400u
#define NO_VERSION (~(uint64_t)0)

static uint64_t greater(uint64_t one, uint64_t two) { return one > two ? one : two; }

int gog_least_of_age(uint64_t floor, uint64_t now, uint64_t max_age, uint64_t *least, uint64_t *asked) {
    int is_right = GOG_FIRST_CLOCK <= now && now <= LAST_DATE;
    uint64_t oldest = now > max_age ? now - max_age : 0;
    uint64_t taken = greater(floor, GOG_FIRST_DATE);
    if (least != NULL) *least = is_right ? greater(taken, oldest) : NO_VERSION;
    if (asked != NULL) *asked = is_right ? greater(taken, (oldest + MINUTE - 1) / MINUTE * MINUTE) : NO_VERSION;
    return is_right;
}

uint32_t gog_refuse_ahead(struct gog_verdict *verdict, uint64_t now) {
    if (gog_accepted(verdict) && verdict->version > now && verdict->version - now > DAY) {
        verdict->code = GOG_AHEAD;
        verdict->first = verdict->version;
        verdict->second = now;
        verdict->count = verdict->length = verdict->version = 0;
    }
    return verdict->code;
}

/* by code; # is replaced by the first number, ## by the second, and @ by the first one as a time */
static const char *const sentences[] = {
    [GOG_UNCHECKED] = "Nothing was checked.",
    [GOG_ACCEPTED] = "The reply is accepted: its answer is true of the map that the owner signed.",
    [GOG_NO_ROUTE] = "No route leads from one to the other: the map that the owner signed shows this.",
    [GOG_NOT_ANSWER] =
        "The server says, without proof, that an end is not a node, or that no route joins the two (kind #).",
    [GOG_MALFORMED] = "The octets are not a reply: the field at offset # cannot be read.",
    [GOG_STALE] = "The reply is from version # of the map, which is older than the minimum version.",
    [GOG_BAD_CHAIN] = "Link # of the owner's chain of keys is not signed. Fetch the chain again.",
    [GOG_BAD_SIGNATURE] =
        "The owner has not signed this map, or this is not the owner's key, or a newer chain is needed.",
    [GOG_BAD_COVER] = "The roads in the reply are not those of the signed map.",
    [GOG_REPEATED_NODE] = "The reply has the node # twice.",
    [GOG_BAD_ROUTE] = "The route does not run along signed roads from one end to the other.",
    [GOG_MISSING_TUPLE] = "The reply lacks the node #, which the proof needs.",
    [GOG_MISSING_PAIR] = "The reply lacks the distance between the nodes # and ##, which the proof needs.",
    [GOG_SHORTER] = "The signed roads in the reply show a way of length #, which contradicts the server's answer.",
    [GOG_DISAGREES] = "A signed distance, #, contradicts the server's answer.",
    [GOG_PASSES_TWICE] = "The route passes a node twice; a route from an honest server never does.",
    [GOG_NO_MEMORY] = "There was not enough memory to check the reply. Try again.",
    [GOG_TOO_LONG] = "A reply or a chain of 4,294,967,296 octets or more is not read.",
    [GOG_MALFORMED_CHAIN] =
        "The octets are not a chain of keys: the field at offset # cannot be read. Fetch the chain again.",
    [GOG_NONE_WITHIN] = "None of the listed nodes lies within the radius: the map that the owner signed shows this.",
    [GOG_AHEAD] = "The map is dated #, more than a day ahead of the clock here, which says ##: either the date or the "
                  "clock is wrong.",
    [GOG_WRONG_CLOCK] =
        "The clock here says #, which is impossible. Set the clock: until then no map is known to be young enough.",
    [GOG_NONE_YOUNG] = "No map younger than @ is here.",
};

/* writes an octet if there is room for it and a 0 */
static size_t put(char *text, size_t room, size_t at, char octet) {
    if (at + 1 < room) text[at] = octet;
    return at + 1;
}

static size_t put_number(char *text, size_t room, size_t at, uint64_t number) {
    if (number >= 10) at = put_number(text, room, at, number / 10);
    return put(text, room, at, (char)('0' + number % 10));
}

/* writes a time in the greatest unit that measures it */
static size_t put_time(char *text, size_t room, size_t at, uint64_t seconds) {
    static const struct {
        uint32_t seconds;
        const char *name;
    } units[] = {{DAY, " day"}, {3600, " hour"}, {MINUTE, " minute"}, {1, " second"}};
    size_t unit = 0;
    while (seconds == 0 ? unit < 3 : seconds % units[unit].seconds != 0) unit++;
    at = put_number(text, room, at, seconds / units[unit].seconds);
    for (const char *from = units[unit].name; *from != 0; from++) at = put(text, room, at, *from);
    return seconds == units[unit].seconds ? at : put(text, room, at, 's');
}

size_t gog_sentence(uint32_t code, uint64_t first, uint64_t second, char *text, size_t room) {
    const char *from = "The reply is refused for a reason that this version of the library does not know.";
    size_t at = 0;
    if (code < sizeof sentences / sizeof *sentences && sentences[code] != NULL) from = sentences[code];
    for (; *from != 0; from++) {
        if (from[0] == '@') {
            at = put_time(text, room, at, first);
        } else if (from[0] != '#') {
            at = put(text, room, at, *from);
        } else if (from[1] == '#') {
            at = put_number(text, room, at, second);
            from++;
        } else {
            at = put_number(text, room, at, first);
        }
    }
    if (room > 0) text[at < room ? at : room - 1] = 0;
    return at;
}
