/* Packs a job file through the library, from C. In the repository's folder:
 *
 *     tools/staticlib
 *     cc -Iinclude examples/pack.c target/staticlib/libivs.a -o pack
 *     ./pack 1 examples/two-sets.job
 *
 * It prints the store's bytes, and for each set its row and the row's value for region 0. */
#include "ivs.h"
#include <stdio.h>
#include <stdlib.h>

typedef struct {
    uint8_t *out;
    uint32_t *ids, *map;
    uint64_t report[16];
} packed;

/* Never null, also for no bytes. */
static void *room(size_t bytes) {
    void *at = malloc(bytes + 4);
    if (!at) abort();
    return at;
}

/* Built in as much memory as the forecast says. README shows this function. */
uint32_t build(uint32_t axes, const uint8_t *job, size_t records, size_t sets, packed *p) {
    static uint32_t log[3 * 1023], origins[2 * 1024];
    static ivs_pair pairs[IVS_PAIRS]; /* 12 MiB, for every job */
    size_t job_len = 12 * records, words = ivs_work_words(records, ivs_head_regions(axes, job, job_len));
    uint32_t *work = room(4 * words);
    uint32_t number = ivs_forecast(axes, 0, job, job_len, work, words, pairs, IVS_PAIRS, p->report);
    if (number == 0) {
        size_t bytes = p->report[2], ids = p->report[5];
        p->out = room(bytes);
        p->ids = room(4 * sets);
        p->map = room(4 * ids);
        number = ivs_build(axes, 0, job, job_len, work, words, pairs, IVS_PAIRS, p->out, bytes, p->ids, sets, p->map, ids,
                           log, 3 * 1023, origins, 2 * 1024, p->report);
    }
    free(work);
    return number; /* 0, or the refusal, with its place in report[1] and its byte in report[12] */
}

/* The whole file, as far as there is room. */
static size_t read_file(const char *name, uint8_t *bytes, size_t room) {
    FILE *file = fopen(name, "rb");
    if (!file) {
        perror(name);
        exit(1);
    }
    size_t length = fread(bytes, 1, room, file);
    fclose(file);
    return length;
}

int main(int count, char **arguments) {
    static uint8_t job[12 * (1048576 + 1)]; /* a record more than is taken, so that it shows */
    packed p;
    if (count != 3) {
        fprintf(stderr, "usage: pack AXES JOB\n");
        return 1;
    }
    size_t length = read_file(arguments[2], job, sizeof job);
    size_t records = length / 12, sets = 0;
    if (length % 12 != 0) {
        fprintf(stderr, "%s: no whole records\n", arguments[2]);
        return 1;
    }
    for (size_t i = 0; i < records; i++) sets += job[12 * i] == 3;
    uint32_t number = build((uint32_t)atoi(arguments[1]), job, records, sets, &p);
    if (number != 0) {
        unsigned long long place = p.report[1], byte = p.report[12];
        fprintf(stderr, "refused: %u at %llu, byte %llu\n", number, place, byte);
        return 2;
    }
    printf("store ");
    for (size_t i = 0; i < p.report[2]; i++) printf("%02x", p.out[i]);
    printf("\n");
    for (size_t i = 0; i < sets; i++) {
        uint32_t word = p.map[p.ids[i]];
        uint64_t value = ivs_read(p.out, p.report[2], word >> 16, word & 0xFFFF, 0);
        printf("set %zu: outer %u, inner %u: ", i, word >> 16, word & 0xFFFF);
        if (value >> 32 == 0) {
            printf("%d\n", (int32_t)(uint32_t)value);
        } else if (value >> 32 == 1) {
            printf("no column\n");
        } else {
            printf("refused, %u\n", (uint32_t)(value >> 32));
        }
    }
    free(p.out);
    free(p.ids);
    free(p.map);
    return 0;
}
