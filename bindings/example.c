/* Checks the reply in a file to the query for a shortest route. Prints the route with its coordinates, or that no route
 * exists, or the refusal. Usage: example KEY REPLY FROM TO LEAST [CHAIN], where KEY has the public key in hex. */
#include <gogbetiku.h>

#include <inttypes.h>
#include <stdio.h>
#include <stdlib.h>

struct octets {
    uint8_t *at;
    size_t length;
};

static struct octets load(const char *name) {
    FILE *file = fopen(name, "rb");
    if (file == NULL || fseek(file, 0, SEEK_END) != 0) {
        perror(name);
        exit(2);
    }
    struct octets octets = {NULL, (size_t)ftell(file)};
    rewind(file);
    octets.at = malloc(octets.length + 1);
    if (octets.at == NULL || fread(octets.at, 1, octets.length, file) != octets.length) {
        perror(name);
        exit(2);
    }
    octets.at[octets.length] = 0;
    fclose(file);
    return octets;
}

static void read_key(const char *name, uint8_t key[56]) {
    struct octets hex = load(name);
    for (int place = 0; place < 56; place++) {
        unsigned octet;
        if (hex.length < 112 || sscanf((const char *)hex.at + 2 * place, "%2x", &octet) != 1) {
            fprintf(stderr, "%s: no public key\n", name);
            exit(2);
        }
        key[place] = (uint8_t)octet;
    }
    free(hex.at);
}

static int tell(const struct gog_verdict *verdict, const struct gog_node *nodes) {
    if (!gog_accepted(verdict)) {
        char text[256];
        gog_sentence(verdict->code, verdict->first, verdict->second, text, sizeof text);
        printf("%s", verdict->line);
        fprintf(stderr, "%s\n", text);
        return 1;
    }
    if (verdict->code == GOG_NO_ROUTE) {
        printf("accepted none\n");
        return 0;
    }
    printf("accepted %" PRIu64 ":", verdict->length);
    for (uint64_t stop = 0; stop < verdict->count; stop++) printf(" %" PRIu32, nodes[stop].id);
    printf("\n");
    for (uint64_t stop = 0; stop < verdict->count; stop++)
        fprintf(stderr, "%" PRIu32 " %" PRId32 " %" PRId32 "\n", nodes[stop].id, nodes[stop].x, nodes[stop].y);
    return 0;
}

int main(int count, char **words) {
    static struct gog_node nodes[GOG_MOST_NODES];
    struct gog_verdict verdict = GOG_VERDICT_INIT;
    struct octets chain = {NULL, 0};
    uint8_t key[56];
    if (count < 6 || count > 7) {
        fprintf(stderr, "usage: example KEY REPLY FROM TO LEAST [CHAIN]\n");
        return 2;
    }
    read_key(words[1], key);
    struct octets reply = load(words[2]);
    if (count == 7) chain = load(words[6]);
    uint32_t from = (uint32_t)strtoul(words[3], NULL, 10), to = (uint32_t)strtoul(words[4], NULL, 10);
    if (gog_check_route(key, sizeof key, chain.at, chain.length, reply.at, reply.length, from, to,
                        strtoull(words[5], NULL, 10), 0, nodes, GOG_MOST_NODES, &verdict) == GOG_UNCHECKED)
        return 2;
    int status = tell(&verdict, nodes);
    free(reply.at);
    free(chain.at);
    return status;
}
