/* From nothing to a value read back, in C. With the library installed (`make install PREFIX=..`):
 *
 *     cc examples/value.c $(pkg-config --cflags --libs ivs) -o value
 *     ./value
 *
 * It prints 'set 1, light: -300'. README shows the function main. */
#include <ivs.h>
#include <stdio.h>
#include <stdlib.h>

/* Two regions of one axis, bold and light, then two sets. The records are those of README, "The job". */
static const uint8_t job[] = {
    1, 0, 0, 0, 0x00, 0x00, 0x40, 0x00, 0x40, 0x00, 0, 0, /* region 0, bold: 0 to 1, peak at 1 */
    1, 1, 0, 0, 0xC0, 0x00, 0xC0, 0x00, 0x00, 0x00, 0, 0, /* region 1, light: -1 to 0, peak at -1 */
    2, 0, 0, 0, 0x00, 0x00, 0x00, 0x0A, 0, 0, 0, 0,       /* set 0: bold 10 */
    3, 0, 0, 0, 0, 0, 0, 0, 0, 0, 0, 0,                   /* and its end */
    2, 1, 0, 0, 0xFF, 0xFF, 0xFE, 0xD4, 0, 0, 0, 0,       /* set 1: light -300 */
    3, 0, 0, 0, 0, 0, 0, 0, 0, 0, 0, 0,                   /* and its end */
};

int main(void) {
    static ivs_pair pairs[IVS_PAIRS]; /* 12 MiB, for every job */
    size_t words = ivs_work_words(sizeof job / 12, ivs_head_regions(1, job, sizeof job));
    uint32_t *work = malloc(4 * words), ids[2]; /* an id for each set */
    uint64_t report[16];
    if (!work) abort();

    /* What a build would say: how much to lend for it. */
    uint32_t number = ivs_forecast(1, IVS_DEDUPLICATING, job, sizeof job, work, words, pairs, IVS_PAIRS, report);
    if (number != IVS_DONE) {
        fprintf(stderr, "refused: %u %s at record %llu\n", number, ivs_name(number), (unsigned long long)report[1]);
        return 2;
    }
    size_t bytes = report[2], rows = report[5], shapes = report[6];
    uint8_t *store = malloc(bytes);
    uint32_t *map = malloc(4 * rows), *log = malloc(12 * shapes), *origins = malloc(8 * shapes);
    if (!store || !map || !log || !origins) abort();
    ivs_build(1, IVS_DEDUPLICATING, job, sizeof job, work, words, pairs, IVS_PAIRS, store, bytes, ids, 2, map, rows,
              log, 3 * shapes, origins, 2 * shapes, report);

    /* Set 1 has an id, the id has a row; bold and light are regions 0 and 1 of the store too, by their first use. */
    uint32_t row = map[ids[1]];
    uint64_t value = ivs_read(store, bytes, row >> 16, row & 0xFFFF, 1);
    printf("set 1, light: %d\n", value >> 32 == 0 ? (int32_t)(uint32_t)value : 0);
    free(origins);
    free(log);
    free(map);
    free(store);
    free(work);
    return 0;
}
