/* Runs the library's calls on cases whose answers plain C works out here or in bench/peer.c, and prints what was compared: days and cells one by
   one, units at random and at the limits, residuals at random and across north, forged headings and states, the marks of each parameter, rooms
   one element too short or longer than needed, files cut short, arc files in parts, arc files read and written again, normal files unpacked,
   written again and merged, listings; and units, taking and listings with the processor rounding otherwise, with its traps unmasked and with
   subnormals taken for zero. */
#include <stdint.h>
#include <stdio.h>
#include <string.h>
#include "wheloruka.h"
#include "../bench/peer.c"

#define ROOM WHL_MATRIX_SUMS(50)
#define STATE tally, sizeof tally, matrix, ROOM, rights, 50
#define CHECK(t) check(t, #t, __LINE__)

static unsigned long checks, wrong;
static u64 seed = 1;
static uint8_t file[4096], heading[WHL_HEADING_MOST], tally[WHL_TALLY_BYTES], answers[64];
static int64_t matrix[ROOM], rights[50];

static void check(int holds, const char *what, int line)
{
    checks++;
    if (!holds && wrong++ < 10) printf("WRONG at line %d: %s\n", line, what);
}

static void told(const char *what) { printf("%s: %lu cases\n", what, checks); checks = 0; }
static u32 next(u32 n) { seed = seed * 6364136223846793005ULL + 1442695040888963407ULL; return (u32)(seed >> 33) % n; }
static size_t put(size_t at, u64 x, int n) { while (n--) { file[at++] = (u8)x; x >>= 8; } return at; }
static size_t put_double(size_t at, double x) { u64 b; memcpy(&b, &x, 8); return put(at, b, 8); }

/* ---- days and cells */

static void days(void)
{
    static const u32 lengths[12] = { 31, 28, 31, 30, 31, 30, 31, 31, 30, 31, 30, 31 };
    uint32_t n = 0, out[4];
    for (u32 year = 1950; year < 2100; year++)
        for (u32 month = 1; month <= 12; month++) {
            u32 long_month = lengths[month - 1] + (month == 2 && year % 4 == 0);
            for (u32 day = 1; day <= long_month; day++) {
                n++;
                CHECK(whl_day_of_date(year, month, day, out, 1) == 0 && out[0] == n);
                CHECK(whl_date_of_day(n, out, 3) == 0 && out[0] == year && out[1] == month && out[2] == day);
            }
            CHECK(whl_day_of_date(year, month, 0, out, 1) == 4 && whl_day_of_date(year, month, long_month + 1, out, 1) == 4);
        }
    CHECK(n == 54787 && whl_date_of_day(0, out, 3) == 4 && whl_date_of_day(n + 1, out, 3) == 4);
    CHECK(whl_day_of_date(1949, 12, 31, out, 1) == 4 && whl_day_of_date(2100, 1, 1, out, 1) == 4 && whl_day_of_date(2000, 13, 1, out, 1) == 4);
    out[0] = out[1] = out[2] = out[3] = 77;
    CHECK(whl_day_of_date(2000, 1, 1, out, 0) == 20 && whl_date_of_day(1, out, 2) == 20 && out[0] == 77 && out[1] == 77);
    CHECK(whl_date_of_day(1, out, 4) == 0 && out[3] == 77);
    told("days");
}

static void cells(void)
{
    uint32_t out[3];
    for (u32 index = 0; index < 990; index++) {
        CHECK(whl_cell_at(index, out, 3) == 0 && (out[0] == 'C' || out[0] == 'S') && out[1] >= 1 && out[1] <= 30 && out[2] <= out[1]);
        u32 row = out[0] == 'C' ? out[1] : 31 - out[1], column = out[0] == 'C' ? out[2] + 1 : 33 - out[2];
        CHECK(33 * (row - 1) + column - 1 == index);
        CHECK(whl_index_of(out[0], out[1], out[2], out, 1) == 0 && out[0] == index);
    }
    CHECK(whl_cell_at(990, out, 3) == 4 && whl_cell_at(0, out, 2) == 20);
    CHECK(whl_index_of('c', 2, 0, out, 1) == 4 && whl_index_of('C', 31, 0, out, 1) == 4 && whl_index_of('S', 2, 3, out, 1) == 4);
    told("cells");
}

/* ---- units */

static double any_double(void)
{
    double x;
    u64 bits = next(1u << 31);
    bits = bits << 31 ^ next(1u << 31);
    bits = bits << 2 ^ next(4);
    memcpy(&x, &bits, 8);
    return x;
}

static double inside(const struct type *t)
{
    return ((double)t->low + ((double)t->high - (double)t->low) * (next(1u << 30) / 1073741824.0)) / (double)(1ULL << t->k);
}

static void unit_case(u32 kind, double x)
{
    i64 q = 0;
    int64_t p = 77;
    double back = 77;
    int answer = unit(&types[kind - 1], x, &q);
    uint32_t n = whl_unit_of(kind, x, &p, 1);
    if (!answer && types[kind - 1].turns && q == TURN) q = 0;
    CHECK(n == (u32)answer && p == (answer ? 77 : q));
    if (answer) return;
    CHECK(whl_double_of(kind, q, &back, 1) == 0 && back == (double)q / (double)(1ULL << types[kind - 1].k));
}

static void units(void)
{
    for (u32 kind = 1; kind <= 10; kind++) {
        const struct type *t = &types[kind - 1];
        double scale = (double)(1ULL << t->k);
        for (int i = 0; i < 20000; i++) {
            unit_case(kind, any_double());
            unit_case(kind, inside(t));
        }
        for (int half = -4; half <= 4; half++) {
            unit_case(kind, ((double)t->low + half / 2.0) / scale);
            unit_case(kind, ((double)t->high + half / 2.0) / scale);
            unit_case(kind, half / 2.0 / scale);
        }
        double out = 77;
        int64_t q = 77;
        i64 top = t->turns ? TURN - 1 : t->high;
        CHECK(whl_double_of(kind, t->low - 1, &out, 1) == 16 && whl_double_of(kind, top + 1, &out, 1) == 16 && out == 77);
        CHECK(whl_double_of(kind, 0, &out, 0) == 20 && whl_unit_of(kind, 0, &q, 0) == 20 && out == 77 && q == 77);
    }
    double out;
    int64_t q;
    CHECK(whl_unit_of(0, 1, &q, 1) == 11 && whl_unit_of(11, 1, &q, 1) == 11 && whl_double_of(0, 1, &out, 1) == 11);
    told("units");
}

/* ---- residuals: around one turn the shorter way */

static void residual_case(u32 kind, double observed, double computed)
{
    const struct type *t = &types[kind - 1];
    i64 o = 0, c = 0;
    int64_t got = 77;
    int a = unit(t, observed, &o), b = unit(t, computed, &c), answer = a == 15 || b == 15 ? 15 : a ? a : b;
    uint32_t n = whl_residual(kind, observed, computed, &got, 1);
    i64 r = t->turns ? (o - c) % TURN : o - c;
    if (t->turns && 2 * r > TURN) r -= TURN;
    if (t->turns && 2 * r < -TURN) r += TURN;
    CHECK(n == (u32)answer && got == (answer ? 77 : r));
    CHECK(whl_residual(kind, observed, computed, &got, 0) == (u32)(answer ? answer : 20));
}

static void residuals(void)
{
    int64_t q = 77;
    for (u32 kind = 1; kind <= 10; kind++) {
        const struct type *t = &types[kind - 1];
        double scale = (double)(1ULL << t->k), not_a_number = __builtin_nan("");
        for (int i = 0; i < 20000; i++) {
            double x = inside(t);
            residual_case(kind, x, inside(t));
            residual_case(kind, x, x + ((int)next(2001) - 1000) / scale);
            residual_case(kind, any_double(), x);
            residual_case(kind, x, any_double());
        }
        /* at the limits, which for azimuth and right ascension are north from both sides */
        for (int i = -9; i <= 9; i++)
            for (int j = -9; j <= 9; j++) {
                double low = (double)t->low, high = (double)t->high;
                residual_case(kind, (low + i / 2.0) / scale, (high + j / 2.0) / scale);
                residual_case(kind, (high + i / 2.0) / scale, (low + j / 2.0) / scale);
                residual_case(kind, (low + i / 2.0) / scale, (low + j / 2.0) / scale);
                residual_case(kind, (high + i / 2.0) / scale, (high + j / 2.0) / scale);
                /* half a turn apart */
                if (t->turns) residual_case(kind, (100 + i) / scale, (100 + HALF + j) / scale);
                if (t->turns) residual_case(kind, (100 + HALF + j) / scale, (100 + i) / scale);
            }
        residual_case(kind, not_a_number, (double)(t->high + 1) / scale);
        residual_case(kind, (double)(t->low - 1) / scale, __builtin_inf());
    }
    /* two units before north and three behind it */
    CHECK(whl_residual(7, (TURN - 2) / 268435456.0, 3 / 268435456.0, &q, 1) == 0 && q == -5);
    CHECK(whl_residual(7, 3 / 268435456.0, (TURN - 2) / 268435456.0, &q, 1) == 0 && q == 5);
    q = 77;
    CHECK(whl_residual(0, 1, 1, &q, 1) == 11 && whl_residual(11, 1, 1, &q, 1) == 11 && whl_residual(256 + 1, 1, 1, &q, 0) == 11 && q == 77);
    told("residuals");
}

/* ---- an arc file of P parameters, T stations and some records that are accepted: its length */

static size_t make(int p, int t, int records)
{
    size_t at = put(put(put(put(put(0, 1, 4), 7, 4), 8036, 4), 2, 2), 30, 2);
    at = put(at, (u64)p, 4);
    for (int i = 0; i < p; i++) at = put(put(put(put(at, 2, 2), 3 * (u64)i, 2), 5, 4), (u64)(-1000003LL * i), 8);
    at = put(at, (u64)t, 4);
    for (int i = 0; i < t; i++) at = put(put(put(at, 13 + 60 * (u64)i, 2), 0, 2), (u32)(100 * i - 500), 4);
    at = put(at, (u64)records, 4);
    for (int i = 0; i < records; i++) {
        at = put(put(put(put(put(at, 13 + 60 * (u64)(i % t), 2), 2, 2), 1, 4), 8036, 4), 10000 + 1000 * (u64)i, 4);
        at = put_double(put_double(at, 1000.25 + next(5) / 16.0), 1000.25);
        for (int k = 0; k < p; k++) at = put(at, next(65536), 2);
    }
    return at;
}

/* ---- forged headings and states, against the peer's judge */

/* The heading that stands in bytes, with no labels and stations where there are more than there can be. */
static struct heading lent_heading(void)
{
    struct heading h = { u32_at(heading), u32_at(heading + 4), u16_at(heading + 8), u16_at(heading + 10), u16_at(heading + 12), u16_at(heading + 14), { { 0, 0, 0, 0 } }, { { 0, 0 } } };
    if (h.parameters > 50 || h.stations > 16)
        return h;
    for (usize i = 0; i < h.parameters; i++) {
        const u8 *p = heading + 16 + 16 * i;
        h.labels[i] = (struct label){ u16_at(p), u16_at(p + 2), u32_at(p + 4), (i64)u64_at(p + 8) };
    }
    for (usize i = 0; i < h.stations; i++) {
        const u8 *p = heading + 16 + 16 * h.parameters + 8 * i;
        h.listed[i] = (struct station){ u16_at(p), (i32)u32_at(p + 4) };
    }
    return h;
}

static int peer_judges(void)
{
    struct heading h = lent_heading();
    struct tally t = { u64_at(tally), { 0 }, { { 0 } }, { 0 } };
    for (usize i = 0; i < 16; i++) t.counts[i] = u32_at(tally + 8 + 4 * i);
    for (usize i = 0; i < 160; i++) t.last[i / 10][i % 10] = u64_at(tally + 72 + 8 * i);
    for (usize i = 0; i < 50; i++) t.marks[i] = u16_at(tally + 1352 + 2 * i);
    return judge_state(&h, &t, (const i64 *)matrix, (const i64 *)rights);
}

static void forged(void)
{
    static const int ps[4] = { 1, 3, 7, 50 };
    unsigned long numbers[8] = { 0 };
    for (int round = 0; round < 40000; round++) {
        int p = ps[round % 4], t = 1 + (int)next(16);
        uint64_t found[2];
        size_t length = make(p, t, 6);
        memset(tally, 0, sizeof tally);
        CHECK(whl_read(file, length, heading, sizeof heading, found, 2) == 0 && found[0] == 6);
        CHECK(whl_start(heading, sizeof heading, STATE) == 0);
        CHECK(whl_take_run(heading, sizeof heading, STATE, file + found[1], length - found[1], answers, 6) == 0 && answers[5] == 0);
        u8 bit = (u8)(1 << next(8));
        int64_t big = next(1u << 31);
        big <<= next(33);
        switch (next(5)) {
        case 0: heading[next((u32)WHL_HEADING_BYTES(p, t))] ^= bit; break;
        case 1: tally[next(sizeof tally)] ^= bit; break;
        case 2: matrix[next((u32)WHL_MATRIX_SUMS(p))] = bit < 8 ? 0 : big; break;
        case 3: rights[next((u32)p)] = bit < 8 ? big : -big; break;
        }
        int peer = peer_judges();
        uint32_t n = whl_judge(heading, sizeof heading, STATE);
        CHECK(n == (u32)peer);
        numbers[n & 7]++;
        /* a refused state takes nothing, and nothing changes */
        if (n) {
            uint8_t t0[sizeof tally];
            int64_t m0[ROOM], r0[50];
            memcpy(t0, tally, sizeof tally); memcpy(m0, matrix, sizeof matrix); memcpy(r0, rights, sizeof rights); answers[0] = 77;
            CHECK(whl_take(heading, sizeof heading, STATE, file + found[1], WHL_RECORD_BYTES(p)) == n);
            CHECK(whl_take_run(heading, sizeof heading, STATE, file + found[1], WHL_RECORD_BYTES(p), answers, 6) == n && answers[0] == 77);
            CHECK(!memcmp(t0, tally, sizeof tally) && !memcmp(m0, matrix, sizeof matrix) && !memcmp(r0, rights, sizeof rights));
        }
    }
    CHECK(numbers[0] && numbers[2] && numbers[4] && numbers[5] && numbers[6]);
    told("forged headings and states");
}

/* ---- who saw a parameter: the state of two records, by the marks that plain C makes of their partials */

#define SUMS matrix, m, rights, r

static void marks(int p, int t, size_t h, const uint8_t *records)
{
    size_t m = WHL_MATRIX_SUMS(p), r = (size_t)p;
    uint32_t out[2] = { 77, 77 };
    CHECK(whl_carriers(heading, h - 1, tally, 1452, SUMS, 0, out, 1) == 20 && whl_carriers(heading, h, tally, 1451, SUMS, 0, out, 1) == 20);
    CHECK(whl_carriers(heading, h, tally, 1452, matrix, m - 1, rights, r, 0, out, 1) == 20 && whl_carriers(heading, h, tally, 1452, matrix, m, rights, r - 1, 0, out, 1) == 20);
    CHECK(whl_carriers(heading, h, tally, 1452, SUMS, 0, out, 0) == 20 && whl_carriers(heading, h, tally, 1452, SUMS, r, out, 1) == 4 && whl_carriers(heading, h, tally, 1452, SUMS, r, out, 0) == 4);
    CHECK(whl_carries(heading, h - 1, tally, 1452, SUMS, 0, 0, out, 1) == 20 && whl_carries(heading, h, tally, 1451, SUMS, 0, 0, out, 1) == 20);
    CHECK(whl_carries(heading, h, tally, 1452, matrix, m - 1, rights, r, 0, 0, out, 1) == 20 && whl_carries(heading, h, tally, 1452, matrix, m, rights, r - 1, 0, 0, out, 1) == 20);
    CHECK(whl_carries(heading, h, tally, 1452, SUMS, 0, 0, out, 0) == 20 && whl_carries(heading, h, tally, 1452, SUMS, r, 0, out, 1) == 4);
    CHECK(whl_carries(heading, h, tally, 1452, SUMS, 0, (size_t)t, out, 1) == 4 && whl_carries(heading, h, tally, 1452, SUMS, 0, (size_t)t, out, 0) == 4);
    CHECK(whl_carries(heading, h, tally, 1452, SUMS, 0, (size_t)-1, out, 1) == 4 && out[0] == 77);
    for (int i = 0; i < 50; i++) {
        u32 word = 0;
        for (int k = 0; k < 2 && i < p; k++) word |= (u32)(u16_at(records + k * WHL_RECORD_BYTES(p) + 32 + 2 * i) != 0) << (k % t);
        CHECK(u16_at(tally + 1352 + 2 * i) == word);
        if (i >= p) continue;
        CHECK(whl_carriers(heading, h, tally, 1452, SUMS, (size_t)i, out, 2) == 0 && out[0] == (u32)__builtin_popcount(word) && out[1] == 77);
        for (int k = 0; k < t; k++) CHECK(whl_carries(heading, h, tally, 1452, SUMS, (size_t)i, (size_t)k, out, 2) == 0 && out[0] == (word >> k & 1) && out[1] == 77);
    }
    /* a mark of a station that has no record, one of a parameter that is none, and none for a parameter that is seen: 6, before 4 and 20 */
    for (int forge = 0; forge < 3; forge++) {
        uint8_t was[2], *word = tally + 1352 + (forge == 1 ? 2 * p : 0);
        if ((forge == 1 && p == 50) || (forge == 2 && matrix[0] == 0)) continue;
        memcpy(was, word, 2); out[0] = 77;
        if (forge == 0) word[1] |= 128; else if (forge == 1) word[0] = 1; else word[0] = word[1] = 0;
        CHECK(whl_judge(heading, h, tally, 1452, SUMS) == 6 && whl_seen(heading, h, tally, 1452, SUMS, 0, out, 1) == 6);
        CHECK(whl_carriers(heading, h, tally, 1452, SUMS, 0, out, 1) == 6 && whl_carriers(heading, h, tally, 1452, SUMS, r, out, 0) == 6);
        CHECK(whl_carries(heading, h, tally, 1452, SUMS, 0, 0, out, 1) == 6 && whl_carries(heading, h, tally, 1452, SUMS, r, (size_t)t, out, 0) == 6 && out[0] == 77);
        memcpy(word, was, 2);
        CHECK(whl_judge(heading, h, tally, 1452, SUMS) == 0);
    }
}

/* ---- rooms that are one element too short, and longer ones */

static void rooms(void)
{
    for (int p = 1; p <= 50; p++) {
        int t = p % 16 + 1;
        size_t length = make(p, t, 2), h = WHL_HEADING_BYTES(p, t), m = WHL_MATRIX_SUMS(p), r = (size_t)p, size = WHL_RECORD_BYTES(p);
        uint64_t found[2] = { 77, 77 };
        memset(heading, 7, sizeof heading); memset(tally, 7, sizeof tally); memset(matrix, 7, sizeof matrix); memset(rights, 7, sizeof rights); memset(answers, 7, sizeof answers);
        CHECK(whl_read(file, length, heading, h - 1, found, 2) == 20 && whl_read(file, length, heading, h, found, 1) == 20 && heading[0] == 7 && found[0] == 77);
        CHECK(whl_read(file, length, heading, h, found, 2) == 0 && (h == sizeof heading || heading[h] == 7));
        CHECK(whl_start(heading, h - 1, tally, 1452, matrix, m, rights, r) == 20 && whl_start(heading, h, tally, 1451, matrix, m, rights, r) == 20);
        CHECK(whl_start(heading, h, tally, 1452, matrix, m - 1, rights, r) == 20 && whl_start(heading, h, tally, 1452, matrix, m, rights, r - 1) == 20);
        CHECK(tally[0] == 7 && matrix[0] == 0x0707070707070707 && rights[0] == 0x0707070707070707);
        CHECK(whl_start(heading, h, tally, 1452, matrix, m, rights, r) == 0);
        CHECK((m == ROOM || matrix[m] == 0x0707070707070707) && (r == 50 || rights[r] == 0x0707070707070707));
        CHECK(whl_take_run(heading, h, tally, 1452, matrix, m, rights, r, file + found[1], 2 * size, answers, 1) == 20 && answers[0] == 7);
        CHECK(whl_take_run(heading, h, tally, 1452, matrix, m, rights, r, file + found[1], 2 * size - 1, answers, 2) == 1 && answers[0] == 7);
        CHECK(whl_take(heading, h, tally, 1452, matrix, m, rights, r, file + found[1], size - 1) == 1);
        CHECK(whl_take(heading, h, tally, 1452, matrix, m, rights, r, file + found[1], size + 1) == 3);
        CHECK(whl_take_run(heading, h, tally, 1452, matrix, m, rights, r, file + found[1], 2 * size, answers, 3) == 0);
        CHECK(answers[0] == 0 && answers[1] == 0 && answers[2] == 7);
        CHECK(whl_take(heading, h, tally, 1452, matrix, m, rights, r, file + found[1], size) == 17);
        /* in taking a short room comes before a bad heading, in writing only before what it holds */
        static uint8_t bad[sizeof heading];
        uint64_t written = 77;
        memcpy(bad, heading, h); bad[12] = 51;
        CHECK(whl_of_state(bad, 15, tally, 0, matrix, 0, rights, 0, answers, 0, &written, 0) == 20 && whl_of_state(bad, 16, tally, 0, matrix, 0, rights, 0, answers, 0, &written, 0) == 2);
        memcpy(bad, heading, h); bad[16] = 9;
        CHECK(whl_of_state(bad, h - 1, tally, 0, matrix, 0, rights, 0, answers, 0, &written, 0) == 20 && whl_of_state(bad, h, tally, 0, matrix, 0, rights, 0, answers, 0, &written, 0) == 4);
        CHECK(whl_judge(bad, h, tally, 1451, matrix, m, rights, r) == 20 && whl_judge(bad, h, tally, 1452, matrix, m, rights, r) == 4);
        CHECK(whl_of_state(heading, h, tally, 1451, matrix, m, rights, r, answers, 0, &written, 1) == 20 && whl_of_state(heading, h, tally, 1452, matrix, m - 1, rights, r, answers, 0, &written, 1) == 20);
        matrix[0] = -matrix[0] - 1;
        CHECK(whl_of_state(heading, h, tally, 1452, matrix, m, rights, r - 1, answers, 0, &written, 1) == 20 && whl_of_state(heading, h, tally, 1452, matrix, m, rights, r, answers, 0, &written, 0) == 6);
        matrix[0] = -matrix[0] - 1;
        CHECK(written == 77);
        uint32_t seen[2] = { 77, 77 };
        CHECK(whl_seen(heading, h - 1, tally, 1452, matrix, m, rights, r, 0, seen, 1) == 20 && whl_seen(heading, h, tally, 1451, matrix, m, rights, r, 0, seen, 1) == 20);
        CHECK(whl_seen(heading, h, tally, 1452, matrix, m - 1, rights, r, 0, seen, 1) == 20 && whl_seen(heading, h, tally, 1452, matrix, m, rights, r - 1, 0, seen, 1) == 20);
        CHECK(whl_seen(heading, h, tally, 1452, matrix, m, rights, r, 0, seen, 0) == 20 && whl_seen(heading, h, tally, 1452, matrix, m, rights, r, (size_t)p, seen, 1) == 4 && seen[0] == 77);
        for (int i = 0; i < p; i++) CHECK(whl_seen(heading, h, tally, 1452, matrix, m, rights, r, (size_t)i, seen, 2) == 0 && seen[0] == (matrix[i * (i + 3) / 2] != 0) && seen[1] == 77);
        marks(p, t, h, file + found[1]);
    }
    told("rooms");
}

/* ---- files cut short, or with a byte more */

static void cuts(void)
{
    size_t length = make(3, 2, 4);
    uint64_t found[2], out[7];
    for (size_t n = 0; n < length; n++)
        CHECK(whl_read(file, n, heading, sizeof heading, found, 2) == 1 && whl_read_place(file, n) == n);
    file[length] = 0;
    CHECK(whl_read(file, length, heading, sizeof heading, found, 2) == 0 && whl_read_place(file, length) == 0 && found[0] == 4 && found[1] == 28 + 48 + 16);
    CHECK(whl_read(file, length + 1, heading, sizeof heading, found, 2) == 3 && whl_read_place(file, length + 1) == length);
    /* a normal file of one arc and one parameter: 36 + 4 + 32 + 8 bytes */
    size_t at = put(put(0, 1, 4), 7, 4);
    at = put(put(put(put(put(put(put(at, 1, 4), 3, 2), 0, 2), 7, 4), 5, 4), 0, 4), 0, 8);
    at = put(put(put(put(put(put(put(at, 1, 4), 147456, 8), 1, 4), 50331648, 8), 1, 4), 1, 8), 17179869184, 8);
    CHECK(at == 80);
    for (size_t n = 0; n < at; n++)
        CHECK(whl_normal_read(file, n, out, 7) == 1 && whl_normal_place(file, n) == n);
    out[0] = 77;
    CHECK(whl_normal_read(file, at, out, 6) == 20 && out[0] == 77);
    CHECK(whl_normal_read(file, at, out, 7) == 0 && whl_normal_place(file, at) == 0);
    CHECK(out[0] == 1 && out[1] == 1 && out[2] == 40 && out[3] == 52 && out[4] == 64 && out[5] == 1 && out[6] == 0);
    file[47] = 0x80; /* the diagonal sum below zero */
    CHECK(whl_normal_read(file, at, out, 7) == 6 && whl_normal_place(file, at) == 40);
    told("files");
}

/* ---- arc files in parts, against whl_read and whl_take_run on the whole */

#define PART_ROOMS position, sizeof position, part_tally, sizeof part_tally, part_matrix, ROOM, part_rights, 50

static uint8_t position[WHL_POSITION_BYTES], part_tally[WHL_TALLY_BYTES], part_answers[64], part_heading[WHL_HEADING_MOST];
static int64_t part_matrix[ROOM], part_rights[50];

/* All that a call may change, so that it can be compared. */
static uint8_t kept[sizeof position + sizeof part_tally + sizeof part_matrix + sizeof part_rights + sizeof part_answers];
static void keep(uint8_t *to)
{
    memcpy(to, position, sizeof position); to += sizeof position;
    memcpy(to, part_tally, sizeof part_tally); to += sizeof part_tally;
    memcpy(to, part_matrix, sizeof part_matrix); to += sizeof part_matrix;
    memcpy(to, part_rights, sizeof part_rights); to += sizeof part_rights;
    memcpy(to, part_answers, sizeof part_answers);
}
static int is_kept(void) { static uint8_t now[sizeof kept]; keep(now); return !memcmp(now, kept, sizeof kept); }

static int begin(void)
{
    memset(position, 7, sizeof position); memset(part_tally, 7, sizeof part_tally); memset(part_answers, 7, sizeof part_answers);
    memset(part_matrix, 7, sizeof part_matrix); memset(part_rights, 7, sizeof part_rights);
    return whl_begin(PART_ROOMS) == 0;
}

/* The bytes from one place to another in parts of some size: 0, or the first refusal. *taken counts the records completed. */
static uint32_t feed(size_t from, size_t to, size_t size, size_t *taken, uint64_t *out)
{
    do {
        size_t n = size < to - from ? size : to - from;
        uint32_t refusal = whl_part(PART_ROOMS, file + from, n, part_answers + *taken, sizeof part_answers - *taken, out, 2);
        if (refusal) return refusal;
        CHECK(out[1] == 0);
        *taken += out[0];
        from += n;
    } while (from < to);
    return 0;
}

static int same_state(size_t records)
{
    return !memcmp(tally, part_tally, sizeof tally) && !memcmp(matrix, part_matrix, sizeof matrix) && !memcmp(rights, part_rights, sizeof rights)
           && !memcmp(answers, part_answers, records);
}

/* The state of the first records of the file, taken as a run. */
static void take_first(size_t records, size_t start, size_t size)
{
    memset(matrix, 0, sizeof matrix); memset(rights, 0, sizeof rights);
    CHECK(whl_start(heading, sizeof heading, STATE) == 0);
    CHECK(whl_take_run(heading, sizeof heading, STATE, file + start, records * size, answers, sizeof answers) == 0);
}

/* Cut in two at every byte, in parts of every size, over at every byte, and with a byte too many. */
static void part_cuts(int p, int t, size_t records)
{
    size_t length = make(p, t, (int)records), size = WHL_RECORD_BYTES(p), taken, h = WHL_HEADING_BYTES(p, t);
    uint64_t found[2], out[3];
    file[length - size] ^= 1; /* a station that is not listed */
    file[length] = 0;
    CHECK(whl_read(file, length, heading, sizeof heading, found, 2) == 0 && found[0] == records);
    take_first(records, found[1], size);
    for (size_t cut = 0; cut <= length; cut++) {
        taken = 0; out[2] = 77;
        CHECK(begin() && feed(0, cut, length + 1, &taken, out) == 0 && taken == (cut < found[1] ? 0 : (cut - found[1]) / size));
        keep(kept);
        memset(part_heading, 7, sizeof part_heading);
        uint32_t n = whl_position_heading(position, sizeof position, part_heading, sizeof part_heading, out, 2);
        CHECK(n == (cut < found[1]) && out[0] == taken && out[1] == (n ? cut : 0) && part_heading[0] == (n ? 7 : heading[0]));
        CHECK(n || (!memcmp(heading, part_heading, h) && (h == sizeof part_heading || part_heading[h] == 7)));
        CHECK(is_kept() && feed(cut, length, length + 1, &taken, out) == 0 && taken == records && same_state(records));
        CHECK(whl_finish(position, sizeof position, out, 2) == 0 && out[0] == records && out[1] == 0 && out[2] == 77);
        CHECK(whl_position_heading(position, sizeof position, part_heading, h, out, 2) == 0 && out[0] == records && !memcmp(heading, part_heading, h));
        keep(kept);
        CHECK(feed(0, length, length, &taken, out) == 28 && whl_finish(position, sizeof position, out, 2) == 28 && is_kept());
    }
    for (size_t step = 1; step <= 150; step++) {
        taken = 0;
        CHECK(begin() && feed(0, length, step, &taken, out) == 0 && taken == records && same_state(records));
        CHECK(feed(length, length + 1, 1, &taken, out) == 3 && out[0] == records && out[1] == length && same_state(records));
        CHECK(whl_finish(position, sizeof position, out, 2) == 28 && whl_position_heading(position, sizeof position, part_heading, h, out, 2) == 1);
        CHECK(out[0] == records && out[1] == 0);
    }
    for (size_t n = 0; n < length; n++) {
        size_t whole = n < found[1] ? 0 : (n - found[1]) / size;
        taken = 0;
        CHECK(begin() && feed(0, n, 100, &taken, out) == 0 && taken == whole);
        CHECK(whl_finish(position, sizeof position, out, 2) == whl_read(file, n, heading, sizeof heading, found, 2) && out[0] == whole && out[1] == whl_read_place(file, n));
        keep(kept);
        CHECK(feed(n, length, length, &taken, out) == 28 && is_kept());
    }
    /* a part that completes records and is then refused has taken them, and none where there is no room for their answers */
    taken = 0;
    CHECK(begin() && feed(0, found[1] + size + 1, length, &taken, out) == 0 && taken == 1);
    keep(kept); out[0] = 77;
    CHECK(whl_part(PART_ROOMS, file + found[1] + size + 1, length - found[1] - size, part_answers + 1, records - 2, out, 2) == 20 && is_kept() && out[0] == 77);
    CHECK(whl_part(PART_ROOMS, file + found[1] + size + 1, length - found[1] - size, part_answers + 1, records - 1, out, 2) == 3);
    CHECK(out[0] == records && out[1] == length && same_state(records) && part_answers[records] == 7);
}

/* Bad fields and counts are told by the part that completes them, at their place in the file. */
static void part_forms(void)
{
    for (int round = 0; round < 4000; round++) {
        size_t length = make(3, 2, 4), taken = 0, step = 1 + next(200);
        uint64_t found[2], out[2] = { 0, 77 };
        file[next(96)] ^= (u8)(1 << next(8));
        uint32_t whole = whl_read(file, length, heading, sizeof heading, found, 2);
        uint32_t n = begin() ? feed(0, length, step, &taken, out) : 77;
        if (!n) n = whl_finish(position, sizeof position, out, 2);
        CHECK(n == whole && out[1] == whl_read_place(file, length) && (n || out[0] == found[0]));
    }
}

/* Positions and states that the calls do not give, and rooms that are one element too short. */
static void part_forged(void)
{
    size_t length = make(3, 2, 4), size = WHL_RECORD_BYTES(3), start = 92, taken = 0, zeros = 0;
    uint64_t out[2] = { 77, 77 };
    unsigned long numbers[32] = { 0 };
    for (int round = 0; round < 20000; round++) {
        taken = 0;
        CHECK(begin() && feed(0, next((u32)length + 1), length, &taken, out) == 0);
        if (next(4)) position[next(2) ? next(sizeof position) : 1088 + next(24)] ^= (u8)(1 << next(8));
        else part_tally[next(sizeof part_tally)] ^= (u8)(1 << next(8));
        keep(kept); out[0] = out[1] = 77;
        uint32_t n = whl_part(PART_ROOMS, file + 40, next(100), part_answers + 8, 50, out, 2);
        numbers[n & 31]++;
        zeros += n == 0;
        if (n == 28 || n == 20 || n == 6) CHECK(is_kept() && out[0] == 77 && out[1] == 77);
        else CHECK(n <= 5 && out[0] <= 65535);
    }
    CHECK(zeros && numbers[6] && numbers[28]);
    taken = 0;
    CHECK(begin() && feed(0, start + size + 5, length, &taken, out) == 0 && taken == 1);
    keep(kept); out[0] = 77;
    position[97 + 1] = 1; /* past the bytes kept */
    CHECK(whl_part(PART_ROOMS, file, 1, part_answers, 1, out, 2) == 6 && whl_finish(position, sizeof position, out, 2) == 6);
    CHECK(whl_position_heading(position, sizeof position, part_heading, sizeof part_heading, out, 2) == 6);
    position[97 + 1] = 0; position[1104] = 2; /* over, by a number that no call gives */
    CHECK(whl_part(PART_ROOMS, file, 1, part_answers, 1, out, 2) == 28 && whl_finish(position, sizeof position, out, 2) == 28);
    CHECK(whl_position_heading(position, sizeof position, part_heading, sizeof part_heading, out, 2) == 6);
    position[1104] = 0; position[1096] = 5; /* more records than there are */
    CHECK(whl_part(PART_ROOMS, file, 1, part_answers, 1, out, 2) == 6 && whl_finish(position, sizeof position, out, 2) == 6);
    position[1096] = 0; /* fewer than were accepted: the state is unsound, the position is not */
    CHECK(whl_part(PART_ROOMS, file, 1, part_answers, 1, out, 2) == 6 && out[0] == 77);
    position[1096] = 1;
    CHECK(is_kept());
    CHECK(whl_part(position, 1111, part_tally, 1452, part_matrix, 6, part_rights, 3, file, 1, part_answers, 1, out, 2) == 20);
    CHECK(whl_part(position, 1112, part_tally, 1451, part_matrix, 6, part_rights, 3, file, 1, part_answers, 1, out, 2) == 20);
    CHECK(whl_part(position, 1112, part_tally, 1452, part_matrix, 5, part_rights, 3, file, 1, part_answers, 1, out, 2) == 20);
    CHECK(whl_part(position, 1112, part_tally, 1452, part_matrix, 6, part_rights, 2, file, 1, part_answers, 1, out, 2) == 20);
    CHECK(whl_part(position, 1112, part_tally, 1452, part_matrix, 6, part_rights, 3, file, 1, part_answers, 1, out, 1) == 20);
    CHECK(whl_finish(position, 1111, out, 2) == 20 && whl_finish(position, 1112, out, 1) == 20);
    CHECK(whl_position_heading(position, 1111, part_heading, 80, out, 2) == 20 && whl_position_heading(position, 1112, part_heading, 80, out, 1) == 20);
    memset(part_heading, 7, sizeof part_heading);
    CHECK(whl_position_heading(position, 1112, part_heading, 79, out, 2) == 20 && part_heading[0] == 7);
    CHECK(whl_begin(position, 1111, part_tally, 1452, part_matrix, 1275, part_rights, 50) == 20 && whl_begin(position, 1112, part_tally, 1451, part_matrix, 1275, part_rights, 50) == 20);
    CHECK(whl_begin(position, 1112, part_tally, 1452, part_matrix, 1274, part_rights, 50) == 20 && whl_begin(position, 1112, part_tally, 1452, part_matrix, 1275, part_rights, 49) == 20);
    CHECK(is_kept() && out[0] == 77);
    CHECK(whl_position_heading(position, 1112, part_heading, 80, out, 2) == 0 && out[0] == 1 && part_heading[80] == 7);
    CHECK(whl_part(position, 1112, part_tally, 1452, part_matrix, 6, part_rights, 3, file + start + size + 5, size, part_answers + 1, 1, out, 2) == 0 && out[0] == 1);
}

static void parts(void)
{
    part_cuts(1, 1, 4);
    part_cuts(3, 2, 5);
    part_cuts(50, 16, 3);
    part_forms();
    part_forged();
    told("files in parts");
}

/* ---- arc files written from a heading in bytes and a run */

static uint8_t arc[WHL_ARC_BYTES(1, 1, 65535) + 1], long_run[65536 * WHL_RECORD_BYTES(1)];

/* What is to be answered to the heading's first h bytes, a run of so many bytes, and rooms. */
static int write_answer(size_t h, size_t run, size_t room, size_t sizes)
{
    struct heading x = lent_heading();
    if (h < 16)
        return 20;
    if (x.parameters < 1 || x.parameters > 50 || x.stations > 16 || run / WHL_RECORD_BYTES(x.parameters) > 65535)
        return 2;
    if (h < WHL_HEADING_BYTES(x.parameters, x.stations))
        return 20;
    int n = judge_heading(&x);
    if (n)
        return n;
    if (run % WHL_RECORD_BYTES(x.parameters))
        return 1;
    return room < WHL_ARC_BYTES(x.parameters, x.stations, run / WHL_RECORD_BYTES(x.parameters)) || sizes < 1 ? 20 : 0;
}

static uint32_t write_case(size_t h, const uint8_t *run, size_t bytes, size_t room, size_t sizes)
{
    static uint8_t back[WHL_HEADING_MOST];
    uint64_t size = 77, found[2];
    memset(arc, 7, 4096);
    uint32_t n = whl_write(heading, h, run, bytes, arc, room, &size, sizes);
    CHECK(n == (u32)write_answer(h, bytes, room, sizes));
    if (n) {
        CHECK(size == 77);
        for (size_t i = 0; i < 4096; i += 64) CHECK(arc[i] == 7);
        return n;
    }
    /* what was written is read: the same heading but for two bytes of each station, and the same records */
    CHECK((size == room || size >= 4096 || arc[size] == 7) && whl_read(arc, size, back, sizeof back, found, 2) == 0);
    CHECK(size - found[1] == bytes && !memcmp(arc + found[1], run, bytes) && !memcmp(back, heading, 16 + 16 * u16_at(heading + 12)));
    return n;
}

static void writes(void)
{
    unsigned long numbers[32] = { 0 };
    for (int p = 1; p <= 50; p++) {
        int t = p % 16 + 1, records = p % 5;
        size_t length = make(p, t, records), h = WHL_HEADING_BYTES(p, t), record = WHL_RECORD_BYTES(p);
        uint64_t found[2];
        CHECK(length == WHL_ARC_BYTES(p, t, records) && whl_read(file, length, heading, sizeof heading, found, 2) == 0);
        const uint8_t *run = file + found[1];
        CHECK(write_case(h, run, length - found[1], sizeof arc, 1) == 0 && !memcmp(arc, file, length));
        CHECK(write_case(h, run, length - found[1], length, 1) == 0 && !memcmp(arc, file, length));
        CHECK(write_case(h, run, length - found[1], length, 0) == 20);
        for (size_t n = 0; n < h; n++) CHECK(write_case(n, run, length - found[1], sizeof arc, 1) == 20);
        for (size_t n = 0; n < length; n++) CHECK(write_case(h, run, length - found[1], n, 1) == 20);
        for (size_t n = 0; n < length - found[1]; n++) CHECK(write_case(h, run, n, sizeof arc, 1) == (n % record ? 1 : 0));
    }
    for (int round = 0; round < 40000; round++) {
        int p = 1 + (int)next(50), t = (int)next(17), records = t ? (int)next(4) : 0;
        size_t length = make(p, t, records), h = WHL_HEADING_BYTES(p, t);
        uint64_t found[2];
        CHECK(whl_read(file, length, heading, sizeof heading, found, 2) == 0);
        if (next(4)) heading[next(2) ? next((u32)h) : 12 + next(4)] ^= (u8)(1 << next(8));
        size_t bytes = length - found[1];
        if (bytes && !next(4)) bytes -= next((u32)bytes);
        size_t lent = next(3) ? sizeof heading : next((u32)h + 1), room = next(3) ? 4096 : next((u32)length + 1);
        numbers[write_case(lent, file + found[1], bytes, room, next(9) ? 1 : 0)]++;
    }
    CHECK(numbers[0] && numbers[1] && numbers[2] && numbers[4] && numbers[5] && numbers[20]);
    /* 65,536 records are too many, and are told before a heading that is not there whole */
    size_t length = make(1, 1, 0), most = sizeof long_run;
    uint64_t found[2];
    CHECK(whl_read(file, length, heading, sizeof heading, found, 2) == 0 && found[0] == 0);
    CHECK(write_case(40, long_run, most, sizeof arc, 1) == 2 && write_case(16, long_run, most, sizeof arc, 1) == 2 && write_case(15, long_run, most, sizeof arc, 1) == 20);
    CHECK(write_case(16, long_run, most - 1, sizeof arc, 1) == 20 && write_case(40, long_run, most - 1, sizeof arc, 1) == 1);
    CHECK(write_case(40, long_run, most - 34, sizeof arc, 1) == 0 && write_case(40, long_run, most - 34, sizeof arc - 2, 1) == 20);
    told("arc files written");
}

/* ---- normal files from states, unpacked, written again and merged; listings */

static uint8_t files[3][WHL_NORMAL_BYTES(2, 100)];
static uint64_t heads[WHL_HEADS(2, 100)];
static int64_t sums[WHL_MATRIX_SUMS(100)], sides[100];

/* The normal file of a state of p parameters that was taken for an arc, into files[k]: its length. */
static size_t one_arc(int k, int p, u32 arc)
{
    size_t length = make(p, 5, 6);
    uint64_t found[2], size = 77, out[7];
    put(4, arc, 4);
    CHECK(whl_read(file, length, heading, sizeof heading, found, 2) == 0 && whl_start(heading, sizeof heading, STATE) == 0);
    CHECK(whl_take_run(heading, sizeof heading, STATE, file + found[1], length - found[1], answers, 6) == 0);
    size_t needed = WHL_NORMAL_BYTES(1, p);
    memset(files[k], 7, sizeof files[k]);
    CHECK(whl_of_state(heading, sizeof heading, STATE, files[k], needed - 1, &size, 1) == 20 && whl_of_state(heading, sizeof heading, STATE, files[k], needed, &size, 0) == 20);
    CHECK(size == 77 && files[k][0] == 7);
    CHECK(whl_of_state(heading, sizeof heading, STATE, files[k], sizeof files[k], &size, 1) == 0 && size == needed && files[k][needed] == 7);
    CHECK(whl_normal_read(files[k], needed, out, 7) == 0 && out[0] == 1 && out[1] == (u64)p);
    CHECK(!memcmp(files[k] + out[2], matrix, 8 * WHL_MATRIX_SUMS(p)) && !memcmp(files[k] + out[3], rights, 8 * (size_t)p));
    CHECK(u64_at(files[k] + out[4]) == 6 && u64_at(files[k] + out[4] + 8) == u64_at(tally));
    return needed;
}

/* A file of the old form moved to the small one and back, and a merging of either form: the same bytes. */
static void moves(const uint8_t *bytes, size_t length, size_t p)
{
    static uint8_t small[sizeof files[0]], old[sizeof files[0]];
    uint64_t out[7], size = 77, other = 77;
    size_t seen = 0;
    CHECK(whl_normal_read(bytes, length, out, 7) == 0 && out[1] == p && out[5] == p && out[6] == 0);
    size_t a = out[0];
    for (size_t i = 0; i < p; i++) seen += u64_at(bytes + out[2] + 8 * (i * (i + 3) / 2)) != 0;
    size_t needed = 36 + 4 * a + 24 * p + 4 * seen * (seen + 1) + 8 * seen;
    memset(small, 7, sizeof small);
    CHECK(whl_normal_small(bytes, length, small, needed - 1, &size, 1) == 20 && whl_normal_small(bytes, length, small, needed, &size, 0) == 20);
    CHECK(size == 77 && small[0] == 7);
    CHECK(whl_normal_small(bytes, length, small, sizeof small, &size, 1) == 0 && size == needed && small[needed] == 7);
    CHECK(whl_normal_read(small, needed, out, 7) == 0 && out[0] == a && out[1] == p && out[5] == seen && out[6] == 1);
    CHECK(whl_normal_old(small, needed, old, length - 1, &other, 1) == 20 && other == 77);
    CHECK(whl_normal_old(small, needed, old, sizeof old, &other, 1) == 0 && other == length && !memcmp(old, bytes, length));
    CHECK(whl_normal_small(small, needed, old, sizeof old, &other, 1) == 0 && other == needed && !memcmp(old, small, needed));
    CHECK(whl_normal_old(bytes, length, old, sizeof old, &other, 1) == 0 && other == length && !memcmp(old, bytes, length));
    CHECK(whl_normal_small(bytes, length - 1, old, sizeof old, &other, 1) == 1 && whl_normal_place(bytes, length - 1) == length - 1);
}

/* What a file holds, written again, is the file. */
static void again(const uint8_t *bytes, size_t length)
{
    uint64_t out[7], size = 77;
    static uint8_t copy[sizeof files[0]];
    CHECK(whl_normal_read(bytes, length, out, 7) == 0);
    size_t a = out[0], p = out[1], h = WHL_HEADS(a, p), m = WHL_MATRIX_SUMS(p);
    heads[0] = 77;
    CHECK(whl_normal_unpack(bytes, length, heads, h - 1, sums, m, sides, p) == 20 && whl_normal_unpack(bytes, length, heads, h, sums, m - 1, sides, p) == 20);
    CHECK(whl_normal_unpack(bytes, length, heads, h, sums, m, sides, p - 1) == 20 && heads[0] == 77);
    CHECK(whl_normal_unpack(bytes, length - 1, heads, h, sums, m, sides, p) == 1 && heads[0] == 77);
    CHECK(whl_normal_unpack(bytes, length, heads, h, sums, m, sides, p) == 0);
    CHECK(whl_normal_write(a, p, heads, h - 1, sums, m, sides, p, copy, sizeof copy, &size, 1) == 20);
    CHECK(whl_normal_write(a, p, heads, h, sums, m, sides, p, copy, length - 1, &size, 1) == 20 && size == 77);
    CHECK(whl_normal_write(a, p, heads, h, sums, m, sides, p, copy, sizeof copy, &size, 1) == 0 && size == length && !memcmp(copy, bytes, length));
    /* 2 before the heads' room, 4 before the sums', 6 before the bytes' */
    CHECK(whl_normal_write(17, p, heads, 0, sums, 0, sides, 0, copy, 0, &size, 0) == 2 && whl_normal_write(a, 501, heads, 0, sums, 0, sides, 0, copy, 0, &size, 0) == 2);
    uint64_t kind = heads[a];
    int64_t corner = sums[0];
    heads[a] = 9;
    CHECK(whl_normal_write(a, p, heads, h - 1, sums, 0, sides, 0, copy, 0, &size, 0) == 20 && whl_normal_write(a, p, heads, h, sums, 0, sides, 0, copy, 0, &size, 0) == 4);
    heads[a] = kind; sums[0] = -1;
    CHECK(whl_normal_write(a, p, heads, h, sums, m - 1, sides, p, copy, 0, &size, 0) == 20 && whl_normal_write(a, p, heads, h, sums, m, sides, p - 1, copy, 0, &size, 0) == 20);
    CHECK(whl_normal_write(a, p, heads, h, sums, m, sides, p, copy, 0, &size, 0) == 6);
    sums[0] = corner;
    heads[0]++; heads[a]++; /* another arc, another kind: never the same file, often none */
    CHECK(whl_normal_write(a, p, heads, h, sums, m, sides, p, copy, sizeof copy, &size, 1) || memcmp(copy, bytes, length));
    sums[0] = -1;
    CHECK(whl_normal_write(a, p, heads, h, sums, m, sides, p, copy, sizeof copy, &size, 1) != 0);
}

static void normals(void)
{
    for (int p = 1; p <= 50; p++) {
        size_t a = one_arc(0, p, 7), b = one_arc(1, 51 - p, 9);
        uint64_t size = 77, other = 77;
        static uint8_t twice[sizeof files[0]];
        memset(files[2], 7, sizeof files[2]);
        again(files[0], a);
        /* the labels are of kind 2 in both: the longer list is the union */
        size_t most = (size_t)(p > 51 - p ? p : 51 - p), needed = WHL_NORMAL_BYTES(2, most);
        CHECK(whl_merge(files[0], a, files[1], b, files[2], needed - 1, &size, 1) == 20 && whl_merge(files[0], a, files[1], b, files[2], needed, &size, 0) == 20);
        CHECK(size == 77 && files[2][0] == 7);
        CHECK(whl_merge(files[0], a, files[1], b, files[2], sizeof files[2], &size, 1) == 0 && size == needed);
        CHECK(whl_merge(files[1], b, files[0], a, twice, sizeof twice, &other, 1) == 0 && other == needed && !memcmp(files[2], twice, needed));
        again(files[2], needed);
        moves(files[0], a, (size_t)p);
        moves(files[2], needed, most);
        CHECK(whl_merge(files[0], a, files[0], a, files[2], sizeof files[2], &size, 1) == 21);
        CHECK(whl_merge(files[0], a - 1, files[1], b, files[2], sizeof files[2], &size, 1) == 101);
        CHECK(whl_merge(files[0], a, files[1], b - 1, files[2], sizeof files[2], &size, 1) == 201);
    }
    told("normal files");
}

static void listings(void)
{
    static const char edge[] = "arc 7\nparameters 1\n3 0 seen 147456 50331648 1\nrecords 2 accepted 1\n18 1\nsquare sum 17179869184\n";
    static const char cut[] = "refused 1 at 119\n";
    static uint8_t text[WHL_LISTING_MOST];
    uint64_t size = 77;
    size_t at = put(put(put(put(put(0, 1, 4), 7, 4), 8036, 4), 1, 2), 30, 2);
    at = put(put(put(put(put(at, 1, 4), 3, 2), 0, 2), 5, 4), 0, 8);
    at = put(put(put(put(put(at, 1, 4), 12, 2), 0, 2), 0, 4), 2, 4);
    for (int i = 0; i < 2; i++) {
        at = put(put(put(put(put(at, 12, 2), 2, 2), 1, 4), 8036, 4), 1000 * (u64)i, 4);
        at = put(put_double(put_double(at, i ? 1001.5 : 1000.5), 1000.25), 3, 2);
    }
    text[0] = 7;
    CHECK(whl_list(file, at, text, sizeof edge - 2, &size, 1) == 20 && whl_list(file, at, text, sizeof text, &size, 0) == 20 && text[0] == 7 && size == 77);
    CHECK(whl_list(file, at, text, sizeof text, &size, 1) == 0 && size == sizeof edge - 1 && !memcmp(text, edge, size));
    CHECK(whl_list(file, at - 1, text, sizeof text, &size, 1) == 0 && size == sizeof cut - 1 && !memcmp(text, cut, size));
    told("listings");
}

/* ---- the processor rounding otherwise, its traps unmasked, subnormals taken for zero: every answer is as it was, and no exception is raised.
   Where it is emulated nothing may trap, so that the exceptions raised are looked at in any case. */

#define PATTERNS (2048 * 8 + 4096)
static uint64_t patterns[PATTERNS];
static struct { uint32_t unit, residual; int64_t q, r; uint64_t back; } now[PATTERNS], before[PATTERNS];
static uint8_t text_now[WHL_LISTING_MOST], text_before[WHL_LISTING_MOST], state_before[sizeof tally + sizeof matrix + sizeof rights + sizeof answers];
static volatile double one = 1, three = 3, third;

/* MXCSR: 6 bits of exceptions raised, 6 bits that mask them, 2 bits of rounding; two bits take subnormals for zero, as operands and as results. */
static u32 control(void) { u32 c; __asm__ volatile("stmxcsr %0" : "=m"(c)); return c; }
static void set_control(u32 c) { __asm__ volatile("ldmxcsr %0" : : "m"(c) : "memory"); }
static double of_bits(u64 bits) { double x; memcpy(&x, &bits, 8); return x; }

/* Each pattern to a unit of a type and back, and its residual against the next one. */
static void convert_all(u32 kind)
{
    for (size_t i = 0; i < PATTERNS; i++) {
        double back = 0, x = of_bits(patterns[i]), y = of_bits(patterns[(i + 1) % PATTERNS]);
        now[i].q = now[i].r = 77;
        now[i].unit = whl_unit_of(kind, x, &now[i].q, 1);
        now[i].residual = whl_residual(kind, x, y, &now[i].r, 1);
        if (!now[i].unit) now[i].unit = 1000 + whl_double_of(kind, now[i].q, &back, 1);
        memcpy(&now[i].back, &back, 8);
    }
}

/* The file's records taken, as a run and one by one, and the file listed. */
static uint32_t take_and_list(size_t length, uint64_t *size)
{
    uint64_t found[2];
    uint32_t n = whl_read(file, length, heading, sizeof heading, found, 2);
    size_t record = WHL_RECORD_BYTES(heading[12]);
    n += whl_start(heading, sizeof heading, STATE);
    for (size_t i = 0; i < found[0]; i++) answers[i] = (uint8_t)whl_take(heading, sizeof heading, STATE, file + found[1] + record * i, record);
    n += whl_start(heading, sizeof heading, STATE);
    uint8_t single[sizeof answers];
    memcpy(single, answers, sizeof answers);
    n += whl_take_run(heading, sizeof heading, STATE, file + found[1], length - found[1], answers, sizeof answers);
    return n + whl_list(file, length, text_now, sizeof text_now, size, 1) + (memcmp(single, answers, found[0]) ? 1000 : 0);
}

static void keep_state(uint8_t *to)
{
    memcpy(to, tally, sizeof tally); to += sizeof tally;
    memcpy(to, matrix, sizeof matrix); to += sizeof matrix;
    memcpy(to, rights, sizeof rights); to += sizeof rights;
    memcpy(to, answers, sizeof answers);
}

/* An arc file whose records have doubles of all kinds: pairs near each other, ties, and a pattern of any exponent beside one of them. */
static size_t strange_file(void)
{
    size_t length = make(3, 2, 60), start = length - 60 * WHL_RECORD_BYTES(3);
    for (u32 i = 0; i < 60; i++) {
        const struct type *t = &types[i % 10];
        size_t at = start + i * WHL_RECORD_BYTES(3);
        double scale = (double)(1ULL << t->k), x = (double)(i64)(inside(t) * scale);
        put(at + 4, i % 10 + 1, 4);
        put_double(put_double(at + 16, (x + (int)next(5) / 2.0) / scale), x / scale);
        if (i % 3 == 2) put(at + 16 + 8 * next(2), patterns[next(PATTERNS)], 8);
    }
    return length;
}

static void environments(void)
{
    static const u64 fractions[4] = { 0, 1, 0xfffffffffffff, 0x8000000000000 };
    static uint8_t state_now[sizeof state_before];
    u32 usual = control() & ~63u;
    for (u32 i = 0; i < 2048 * 8; i++) patterns[i] = (u64)(i / 8) << 52 | (u64)(i / 4 % 2) << 63 | fractions[i % 4];
    for (u32 i = 2048 * 8; i < PATTERNS; i++) {
        const struct type *t = &types[i % 10];
        double x = i % 2 ? any_double() : ((double)(i64)(inside(t) * (double)(1ULL << t->k)) + 0.5) / (double)(1ULL << t->k);
        memcpy(&patterns[i], &x, 8);
    }
    for (u32 round = 0; round < 41; round++) {
        u32 kind = round + 1, rest = 0;
        size_t length = round < 10 ? 0 : strange_file();
        uint64_t size_before = 0, size = 0;
        uint32_t n_before = 0, n = 0;
        if (round < 10) convert_all(kind); else n_before = take_and_list(length, &size_before);
        memcpy(before, now, sizeof now);
        memcpy(text_before, text_now, sizeof text_now);
        keep_state(state_before);
        for (u32 e = 0; e < 16; e++) {
            set_control((e & 3) << 13 | (e & 4 ? 0 : 0x1f80) | (e & 8 ? 0x8040 : 0));
            if (round < 10) convert_all(kind); else n = take_and_list(length, &size);
            rest = control();
            set_control(usual);
            keep_state(state_now);
            CHECK(!(rest & 63));
            CHECK(!memcmp(before, now, sizeof now));
            CHECK(n == n_before && size == size_before && !memcmp(text_before, text_now, sizeof text_now) && !memcmp(state_before, state_now, sizeof state_now));
        }
    }
    /* that a mode is in force, and what is raised is seen */
    set_control(0x1f80 | 1 << 13); third = one / three;
    double down = third;
    set_control(0x1f80 | 2 << 13); third = one / three;
    u32 raised = control();
    set_control(usual);
    CHECK(down < third && (raised & 63) == 32);
    told("environments");
}

int main(void)
{
    days();
    cells();
    units();
    residuals();
    forged();
    rooms();
    cuts();
    parts();
    writes();
    normals();
    listings();
    environments();
    if (wrong) printf("%lu WRONG\n", wrong);
    return wrong != 0;
}
