/* Takes an arc file on standard input as it arrives, of any length, and says how many of its records were accepted. */
#include <stdint.h>
#include <stdio.h>
#include <unistd.h>
#include "wheloruka.h"

static uint8_t bytes[4096], position[WHL_POSITION_BYTES], tally[WHL_TALLY_BYTES];
static uint8_t answers[sizeof bytes / WHL_RECORD_BYTES(1) + 1]; /* a part completes no more records: one that was begun, and whole ones */
static int64_t matrix[WHL_MATRIX_SUMS(50)], rights[50];

int main(void)
{
    uint64_t found[2] = { 0, 0 };
    size_t accepted = 0;
    ssize_t got = 0;
    uint32_t refusal = whl_begin(position, sizeof position, tally, sizeof tally, matrix, WHL_MATRIX_SUMS(50), rights, 50);
    while (!refusal && (got = read(0, bytes, sizeof bytes)) > 0) {
        refusal = whl_part(position, sizeof position, tally, sizeof tally, matrix, WHL_MATRIX_SUMS(50), rights, 50, bytes, (size_t)got, answers,
                           sizeof answers, found, 2);
        for (uint64_t i = 0; !refusal && i < found[0]; i++)
            accepted += answers[i] == 0;
    }
    if (got < 0) {
        printf("the input can't be read\n");
        return 1;
    }
    if (!refusal)
        refusal = whl_finish(position, sizeof position, found, 2);
    if (refusal) {
        printf("refused %u at %llu\n", refusal, (unsigned long long)found[1]);
        return 1;
    }
    printf("%zu of %llu records accepted\n", accepted, (unsigned long long)found[0]);
    return 0;
}
