/* Lists the sums of an arc: an arc file of at most 64 KiB on standard input, its records taken from the empty state. */
#include <stdint.h>
#include <stdio.h>
#include "wheloruka.h"

static uint8_t file[65536], heading[WHL_HEADING_MOST], tally[WHL_TALLY_BYTES], answers[65535];
static int64_t matrix[WHL_MATRIX_SUMS(50)], rights[50];

static unsigned two(const uint8_t *p) { return p[0] + 256u * p[1]; }

int main(void)
{
    size_t bytes = fread(file, 1, sizeof file, stdin);
    uint64_t found[2];
    uint32_t refusal = whl_read(file, bytes, heading, sizeof heading, found, 2);
    if (refusal) {
        printf("refused %u at %llu\n", refusal, (unsigned long long)whl_read_place(file, bytes));
        return 1;
    }
    size_t parameters = two(heading + 12), records = found[0], start = found[1];

    /* A heading that was read is sound and the rooms are the longest, so no call below refuses; each is asked all the same. */
    refusal = whl_start(heading, sizeof heading, tally, sizeof tally, matrix, WHL_MATRIX_SUMS(50), rights, 50);
    if (!refusal)
        refusal = whl_take_run(heading, sizeof heading, tally, sizeof tally, matrix, WHL_MATRIX_SUMS(50), rights, 50, file + start, bytes - start,
                               answers, sizeof answers);
    if (refusal) {
        printf("refused %u\n", refusal);
        return 1;
    }

    size_t accepted = 0;
    for (size_t i = 0; i < records; i++)
        accepted += answers[i] == 0;
    for (size_t i = 0; i < parameters; i++) {
        const uint8_t *label = heading + 16 + 16 * i;
        uint32_t seen = 0, stations = 0;
        refusal = whl_seen(heading, sizeof heading, tally, sizeof tally, matrix, WHL_MATRIX_SUMS(50), rights, 50, i, &seen, 1);
        if (!refusal)
            refusal = whl_carriers(heading, sizeof heading, tally, sizeof tally, matrix, WHL_MATRIX_SUMS(50), rights, 50, i, &stations, 1);
        if (refusal) {
            printf("refused %u\n", refusal);
            return 1;
        }
        printf("%u %u %s %lld %lld %u\n", two(label), two(label + 2), seen ? "seen" : "unseen", (long long)matrix[i * (i + 3) / 2],
               (long long)rights[i], stations);
    }
    printf("%zu of %zu records accepted\n", accepted, records);
    return 0;
}
