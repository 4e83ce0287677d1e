/* The benchmark's four functions, through the library's calls: bench/drive.c, linked with this file in place of the benchmark's own library,
   compares them with the plain C peer on the records that it makes. */
#include <stdint.h>
#include "wheloruka.h"

#define PASS heading, sizeof heading, lent, sizeof lent, matrix, matrix_length, rights, rights_length

static uint8_t heading[WHL_HEADING_MOST], lent[WHL_TALLY_BYTES];

static uint64_t word(const uint8_t *p, int n) { return n ? p[0] + 256 * word(p + 1, n - 1) : 0; }

/* The tally's numbers as the driver compares them. */
static void show(uint64_t *tally)
{
    tally[0] = word(lent, 8);
    for (int i = 0; i < 16; i++)
        tally[1 + i] = word(lent + 8 + 4 * i, 4);
    for (int i = 0; i < 160; i++)
        tally[17 + i] = word(lent + 72 + 8 * i, 8);
    for (int i = 0; i < 50; i++)
        tally[177 + i] = word(lent + 1352 + 2 * i, 2);
}

uint8_t bench_run(const uint8_t *file, size_t length, int64_t *matrix, size_t matrix_length, int64_t *rights, size_t rights_length,
                  uint64_t *tally, size_t tally_length, uint8_t *answers, size_t answers_length)
{
    uint64_t found[2];
    uint32_t n = whl_read(file, length, heading, sizeof heading, found, 2);
    if (!n) n = whl_start(PASS);
    if (!n) n = whl_take_run(PASS, file + found[1], length - found[1], answers, answers_length);
    if (!n) show(tally);
    return (uint8_t)n;
}

uint8_t bench_take(const uint8_t *file, size_t length, int64_t *matrix, size_t matrix_length, int64_t *rights, size_t rights_length,
                   uint64_t *tally, size_t tally_length, uint8_t *answers, size_t answers_length)
{
    uint64_t found[2];
    uint32_t n = whl_read(file, length, heading, sizeof heading, found, 2);
    if (!n) n = whl_start(PASS);
    size_t size = WHL_RECORD_BYTES(heading[12] + 256 * heading[13]);
    for (size_t i = 0; !n && i < answers_length; i++)
        answers[i] = (uint8_t)whl_take(PASS, file + found[1] + i * size, size);
    if (!n) n = whl_judge(PASS);
    if (!n) show(tally);
    return (uint8_t)n;
}

/* The file in parts of so many bytes. */
static uint8_t parts_of(size_t size, const uint8_t *file, size_t length, int64_t *matrix, size_t matrix_length, int64_t *rights,
                        size_t rights_length, uint64_t *tally, uint8_t *answers, size_t answers_length)
{
    static uint8_t position[WHL_POSITION_BYTES];
    uint64_t told[2];
    size_t done = 0;
    uint32_t n = whl_begin(position, sizeof position, lent, sizeof lent, matrix, matrix_length, rights, rights_length);
    for (size_t at = 0; !n && at < length; at += size) {
        n = whl_part(position, sizeof position, lent, sizeof lent, matrix, matrix_length, rights, rights_length, file + at,
                     length - at < size ? length - at : size, answers + done, answers_length - done, told, 2);
        if (!n) done += told[0];
    }
    if (!n) n = whl_finish(position, sizeof position, told, 2);
    if (!n) show(tally);
    return (uint8_t)n;
}

uint8_t bench_parts(const uint8_t *file, size_t length, int64_t *matrix, size_t matrix_length, int64_t *rights, size_t rights_length,
                    uint64_t *tally, size_t tally_length, uint8_t *answers, size_t answers_length)
{
    return parts_of(65536, file, length, matrix, matrix_length, rights, rights_length, tally, answers, answers_length);
}

uint8_t bench_bytes(const uint8_t *file, size_t length, int64_t *matrix, size_t matrix_length, int64_t *rights, size_t rights_length,
                    uint64_t *tally, size_t tally_length, uint8_t *answers, size_t answers_length)
{
    return parts_of(1, file, length, matrix, matrix_length, rights, rights_length, tally, answers, answers_length);
}
