/* A manual stress test of the library: refuses each allocation of a check in turn, and then runs that many checks
 * from eight threads, each with its own buffers. Usage: strain KEY REPLY FROM TO CHECKS.
 * cc -O2 -pthread -Wl,--wrap=malloc,--wrap=realloc strain.c FOLDER/libgogbetiku.a -o strain */
#include "gogbetiku.h"

#include <pthread.h>
#include <stdio.h>
#include <stdlib.h>
#include <string.h>

enum { THREADS = 8, ROOM = 64 };

static uint8_t key[56], *reply;
static size_t length;
static uint32_t from, to;
static unsigned long checks;
static _Thread_local long calls, refused_call;

void *__real_malloc(size_t);
void *__real_realloc(void *, size_t);
void *__wrap_malloc(size_t size) { return ++calls == refused_call ? NULL : __real_malloc(size); }
void *__wrap_realloc(void *at, size_t size) { return ++calls == refused_call ? NULL : __real_realloc(at, size); }

static uint32_t check(struct gog_node *nodes, struct gog_verdict *verdict) {
    return gog_check_route(key, sizeof key, NULL, 0, reply, length, from, to, 0, 1, nodes, ROOM, verdict);
}

static void *check_often(void *bad) {
    struct gog_node nodes[ROOM];
    struct gog_verdict verdict;
    for (unsigned long turn = 0; turn < checks / THREADS; turn++)
        if (check(nodes, &verdict) != GOG_ACCEPTED || nodes[0].id != from) ++*(unsigned long *)bad;
    return NULL;
}

int main(int count, char **words) {
    struct gog_node nodes[ROOM];
    struct gog_verdict verdict;
    char hex[113] = {0};
    FILE *file = count == 6 ? fopen(words[1], "rb") : NULL;
    if (file == NULL || fread(hex, 1, 112, file) != 112) return 2;
    for (int place = 0; place < 56; place++) sscanf(hex + 2 * place, "%2hhx", &key[place]);
    file = fopen(words[2], "rb");
    reply = malloc(1 << 20);
    length = fread(reply, 1, 1 << 20, file);
    from = (uint32_t)atoi(words[3]), to = (uint32_t)atoi(words[4]), checks = strtoul(words[5], NULL, 10);

    long went_on = 0;
    for (refused_call = 1;; refused_call++) {
        calls = 0;
        memset(nodes, 7, sizeof nodes);
        uint32_t code = check(nodes, &verdict);
        if (calls < refused_call) break;
        if (code == GOG_ACCEPTED && nodes[0].id == from)
            went_on++;
        else if (code != GOG_NO_MEMORY || nodes[0].id != 0x07070707)
            return printf("request %ld: code %u\n", refused_call, code), 1;
    }
    printf("%ld requests for memory, each refused in turn: the check continued without %ld of them, and reported no "
           "memory "
           "else\n",
           calls, went_on);
    refused_call = 0;

    pthread_t threads[THREADS];
    unsigned long bad[THREADS] = {0}, all = 0;
    for (int thread = 0; thread < THREADS; thread++) pthread_create(&threads[thread], NULL, check_often, &bad[thread]);
    for (int thread = 0; thread < THREADS; thread++) pthread_join(threads[thread], NULL), all += bad[thread];
    printf("%lu checks from %d threads: %lu not accepted\n", checks, THREADS, all);
    return all != 0;
}
