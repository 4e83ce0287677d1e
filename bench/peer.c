/* The plain C peer: the same judging and the same sums, written as one would in C. Compiled apart from the driver, so that nothing is
   inlined into its loop. No headers: the kit has none. */
typedef long long i64; typedef unsigned long long u64; typedef int i32; typedef unsigned u32; typedef short i16; typedef unsigned short u16;
typedef unsigned char u8; typedef unsigned long usize;

#define TURN 1686629713
#define HALF 843314856
#define QUARTER 421657428

struct type { u64 k; i64 low, high; u64 step, factor; int turns; };
static const struct type types[10] = {
    { 10, 0, 1LL << 40, 64, 4, 0 },
    { 16, -(1LL << 31), 1LL << 31, 64, 4, 0 },
    { 28, -(1LL << 28), 1LL << 28, 256, 1, 0 },
    { 28, -(1LL << 28), 1LL << 28, 256, 1, 0 },
    { 28, -QUARTER, QUARTER, 256, 1, 0 },
    { 28, -QUARTER, QUARTER, 256, 1, 0 },
    { 28, 0, TURN, 256, 1, 1 },
    { 28, 0, QUARTER, 256, 1, 0 },
    { 28, 0, TURN, 256, 1, 1 },
    { 28, -QUARTER, QUARTER, 256, 1, 0 },
};

struct label { u16 kind, index; u32 weight; i64 estimate; };
struct station { u16 number; i32 correction; };
struct heading { u32 arc, first; u16 days, level; usize parameters, stations; struct label labels[50]; struct station listed[16]; };
struct tally { u64 square; u32 counts[16]; u64 last[16][10]; u16 marks[50]; };

static u16 u16_at(const u8 *p) { u16 x; __builtin_memcpy(&x, p, 2); return x; }
static u32 u32_at(const u8 *p) { u32 x; __builtin_memcpy(&x, p, 4); return x; }
static u64 u64_at(const u8 *p) { u64 x; __builtin_memcpy(&x, p, 8); return x; }
static double f64_at(const u8 *p) { double x; __builtin_memcpy(&x, p, 8); return x; }

/* An arc file that is known to be good: its heading, and where its records begin. */
static usize read_heading(struct heading *h, const u8 *file)
{
    usize at = 4;
    h->arc = u32_at(file + at); h->first = u32_at(file + at + 4); h->days = u16_at(file + at + 8); h->level = u16_at(file + at + 10);
    at += 12;
    h->parameters = u32_at(file + at);
    at += 4;
    for (usize i = 0; i < h->parameters; i++, at += 16)
        h->labels[i] = (struct label){ u16_at(file + at), u16_at(file + at + 2), u32_at(file + at + 4), (i64)u64_at(file + at + 8) };
    h->stations = u32_at(file + at);
    at += 4;
    for (usize i = 0; i < h->stations; i++, at += 8)
        h->listed[i] = (struct station){ u16_at(file + at), (i32)u32_at(file + at + 4) };
    return at + 4;
}

/* ---- the judging of a heading and a state that are handed in */

static int is_parameter(u32 index) { return index < 990 && index % 33 != 32; }

static int label_ok(const struct label *l)
{
    if (l->weight > 1073741824)
        return 0;
    switch (l->kind) {
    case 1: return is_parameter(l->index);
    case 2: return l->index < 3000;
    case 3: return l->index < 6;
    case 4: return l->index < 2;
    default: return 0;
    }
}

static int judge_heading(const struct heading *h)
{
    if (h->parameters < 1 || h->parameters > 50 || h->stations > 16)
        return 2;
    if (h->arc < 1 || h->arc > 999999 || h->level < 10 || h->level > 100 || h->days < 1 || h->days > 30 || h->first < 1 || (u64)h->first + h->days > 54788)
        return 4;
    for (usize i = 0; i < h->parameters; i++)
        if (!label_ok(&h->labels[i]))
            return 4;
    for (usize i = 0; i < h->stations; i++)
        if (h->listed[i].number > 999 || h->listed[i].correction < -60000 || h->listed[i].correction > 60000)
            return 4;
    for (usize i = 1; i < h->parameters; i++)
        if (((u32)h->labels[i].kind << 16 | h->labels[i].index) <= ((u32)h->labels[i - 1].kind << 16 | h->labels[i - 1].index))
            return 5;
    for (usize i = 1; i < h->stations; i++)
        if (h->listed[i].number <= h->listed[i - 1].number)
            return 5;
    return 0;
}

static int judge_state(const struct heading *h, const struct tally *t, const i64 *matrix, const i64 *rights)
{
    usize p = h->parameters;
    u64 n = 0;
    int answer = judge_heading(h);
    if (answer)
        return answer;
    for (usize i = 0; i < 16; i++) {
        if (t->counts[i] > (i < h->stations ? 256 : 0))
            return 6;
        n += t->counts[i];
    }
    for (usize i = h->stations; i < 16; i++)
        for (usize k = 0; k < 10; k++)
            if (t->last[i][k])
                return 6;
    if (t->square > n << 40)
        return 6;
    i64 top = (i64)(n << 46), side = (i64)(n << 43);
    /* where each diagonal is above 0 the bounds alone judge, as in the proved code */
    int plain = 1;
    for (usize i = 0; i < p && plain; i++)
        plain = matrix[i * (i + 3) / 2] > 0;
    for (usize k = 0; k < p * (p + 1) / 2 && plain; k++)
        plain = matrix[k] <= top && matrix[k] >= -top;
    for (usize j = 0, k = 0; j < p && !plain; j++)
        for (usize i = 0; i <= j; i++, k++) {
            i64 x = matrix[k];
            if (x > top || x < -top)
                return 6;
            if (i == j ? x < 0 : x != 0 && (matrix[i * (i + 3) / 2] == 0 || matrix[j * (j + 3) / 2] == 0))
                return 6;
        }
    for (usize i = 0; i < p; i++)
        if (rights[i] > side || rights[i] < -side || (rights[i] != 0 && matrix[i * (i + 3) / 2] == 0))
            return 6;
    u16 heard = 0;
    for (usize i = 0; i < 16; i++)
        if (t->counts[i])
            heard |= 1 << i;
    for (usize i = 0; i < 50; i++)
        if ((t->marks[i] != 0) != (i < p && matrix[i * (i + 3) / 2] != 0) || (t->marks[i] & ~heard))
            return 6;
    return 0;
}

/* ---- one record */

/* The unit of a double: 0 and q, 15 or 16. */
static int unit(const struct type *t, double x, i64 *q)
{
    if (!(x < __builtin_inf() && x > -__builtin_inf()))
        return 15;
    double y = x * (double)(1ULL << t->k);
    if (!(y < 2251799813685248.0 && y > -2251799813685248.0))
        return 16;
    *q = (i64)(y + 6755399441055744.0) - 6755399441055744;
    return *q < t->low || *q > t->high ? 16 : 0;
}

/* ---- leap seconds: the listed days, and how many lie before each stretch of 128 days */

static const u32 listed_days[28] = {
    8217, 8401, 8766, 9131, 9496, 9862, 10227, 10592, 10957, 11504, 11869, 12234, 12965, 13879, 14610, 14975, 15522, 15887, 16252, 16801,
    17348, 17897, 20454, 21550, 22827, 23922, 24472, 65535,
};
static const u8 before_stretch[429] = {
    0, 0, 0, 0, 0, 0, 0, 0, 0, 0, 0, 0, 0, 0, 0, 0, 0, 0, 0, 0, 0, 0, 0, 0, 0, 0, 0, 0, 0, 0, 0, 0, 0, 0, 0, 0, 0, 0, 0, 0, 0, 0, 0, 0, 0,
    0, 0, 0, 0, 0, 0, 0, 0, 0, 0, 0, 0, 0, 0, 0, 0, 0, 0, 0, 0, 1, 2, 2, 2, 3, 3, 3, 4, 4, 4, 5, 5, 5, 6, 6, 7, 7, 7, 8, 8, 8, 9, 9, 9, 9,
    10, 10, 10, 11, 11, 11, 12, 12, 12, 12, 12, 12, 13, 13, 13, 13, 13, 13, 13, 14, 14, 14, 14, 14, 14, 15, 15, 16, 16, 16, 16, 16, 17, 17,
    17, 18, 18, 19, 19, 19, 19, 19, 20, 20, 20, 20, 21, 21, 21, 21, 22, 22, 22, 22, 22, 22, 22, 22, 22, 22, 22, 22, 22, 22, 22, 22, 22, 22,
    22, 22, 23, 23, 23, 23, 23, 23, 23, 23, 23, 24, 24, 24, 24, 24, 24, 24, 24, 24, 24, 25, 25, 25, 25, 25, 25, 25, 25, 26, 26, 26, 26, 26,
    27, 27, 27, 27, 27, 27, 27, 27, 27, 27, 27, 27, 27, 27, 27, 27, 27, 27, 27, 27, 27, 27, 27, 27, 27, 27, 27, 27, 27, 27, 27, 27, 27, 27,
    27, 27, 27, 27, 27, 27, 27, 27, 27, 27, 27, 27, 27, 27, 27, 27, 27, 27, 27, 27, 27, 27, 27, 27, 27, 27, 27, 27, 27, 27, 27, 27, 27, 27,
    27, 27, 27, 27, 27, 27, 27, 27, 27, 27, 27, 27, 27, 27, 27, 27, 27, 27, 27, 27, 27, 27, 27, 27, 27, 27, 27, 27, 27, 27, 27, 27, 27, 27,
    27, 27, 27, 27, 27, 27, 27, 27, 27, 27, 27, 27, 27, 27, 27, 27, 27, 27, 27, 27, 27, 27, 27, 27, 27, 27, 27, 27, 27, 27, 27, 27, 27, 27,
    27, 27, 27, 27, 27, 27, 27, 27, 27, 27, 27, 27, 27, 27, 27, 27, 27, 27, 27, 27, 27, 27, 27, 27, 27, 27, 27, 27, 27, 27, 27, 27, 27, 27,
    27, 27, 27, 27, 27, 27, 27, 27, 27, 27, 27, 27, 27, 27, 27, 27, 27, 27, 27, 27, 27, 27, 27, 27, 27, 27, 27, 27, 27, 27, 27, 27, 27, 27,
    27, 27, 27, 27, 27, 27, 27, 27, 27, 27, 27, 27, 27, 27, 27, 27, 27, 27, 27, 27, 27, 27, 27, 27, 27, 27, 27, 27, 27, 27, 27, 27, 27,
};

static u32 listed_before(u32 day)
{
    u32 n = before_stretch[day >> 7];
    return n + (listed_days[n] < day);
}

static i64 day_start(u32 day) { return (i64)day * 86400000 + 1000 * (i64)listed_before(day); }

static int in_day(u32 day, u32 ms) { return ms < 86400000 || (ms < 86401000 && listed_before(day) < listed_before(day + 1)); }

static u8 take_one(const struct heading *h, struct tally *t, i64 *restrict matrix, i64 *restrict rights, const u8 *restrict bytes, usize length)
{
    usize p = h->parameters, place = 0;
    if (length < 32 + 2 * p)
        return 1;
    if (length > 32 + 2 * p)
        return 3;
    u16 number = u16_at(bytes), s = u16_at(bytes + 2);
    u32 kind = u32_at(bytes + 4), day = u32_at(bytes + 8), ms = u32_at(bytes + 12);
    double observed = f64_at(bytes + 16), computed = f64_at(bytes + 24);
    while (place < h->stations && h->listed[place].number != number)
        place++;
    if (place == h->stations)
        return 10;
    if (kind < 1 || kind > 10)
        return 11;
    const struct type *type = &types[kind - 1];
    if (s < 1 || s > 256)
        return 12;
    if (day < 1 || day > 54787 || !in_day(day, ms))
        return 13;
    i64 time = day_start(day) + ms + h->listed[place].correction;
    if (time < day_start(h->first) || time >= day_start(h->first + h->days))
        return 14;
    i64 o, c;
    int a = unit(type, observed, &o), b = unit(type, computed, &c);
    if (a | b)
        return a == 15 || b == 15 ? 15 : 16;
    i64 r;
    if (type->turns) {
        r = (o == TURN ? 0 : o) - (c == TURN ? 0 : c);
        if (r > HALF)
            r -= TURN;
        else if (r < -HALF)
            r += TURN;
    } else
        r = o - c;
    if ((u64)time <= t->last[place][kind - 1])
        return 17;
    if (10 * (u64)(r < 0 ? -r : r) > (u64)h->level * s * type->step)
        return 18;
    if (t->counts[place] >= 256)
        return 19;
    u32 ss = (u32)s * s;
    i64 w = 65536 / ss + (ss < 2 * (65536 % ss)), scaled = r * (i64)type->factor, side = w * scaled;
    i16 x[50];
    __builtin_memcpy(x, bytes + 32, 2 * p);
    for (usize j = 0, k = 0; j < p; j++) {
        i64 f = w * x[j];
        for (usize i = 0; i <= j; i++)
            matrix[k + i] += f * x[i];
        k += j + 1;
    }
    for (usize i = 0; i < p; i++) {
        rights[i] += side * x[i];
        if (x[i])
            t->marks[i] |= 1 << place;
    }
    t->square += (u64)(w * (scaled * scaled));
    t->counts[place]++;
    t->last[place][kind - 1] = (u64)time;
    return 0;
}

/* ---- what the driver calls */

static void start(struct tally *t, const struct heading *h, i64 *matrix, i64 *rights)
{
    __builtin_memset(t, 0, sizeof *t);
    for (usize i = 0; i < h->parameters * (h->parameters + 1) / 2; i++)
        matrix[i] = 0;
    for (usize i = 0; i < h->parameters; i++)
        rights[i] = 0;
}

static void put_tally(const struct tally *t, u64 *out)
{
    out[0] = t->square;
    for (usize i = 0; i < 16; i++)
        out[1 + i] = t->counts[i];
    for (usize i = 0; i < 160; i++)
        out[17 + i] = t->last[i / 10][i % 10];
    for (usize i = 0; i < 50; i++)
        out[177 + i] = t->marks[i];
}

u8 peer_run(const u8 *file, usize length, i64 *matrix, usize nm, i64 *rights, usize nr, u64 *tally, usize nt, u8 *answers, usize na)
{
    struct heading h;
    struct tally t;
    usize at = read_heading(&h, file), size = 32 + 2 * h.parameters, n = (length - at) / size;
    start(&t, &h, matrix, rights);
    int answer = judge_state(&h, &t, matrix, rights);
    if (answer)
        return answer;
    for (usize i = 0; i < n; i++)
        answers[i] = take_one(&h, &t, matrix, rights, file + at + i * size, size);
    put_tally(&t, tally);
    return 0;
}

u8 peer_take(const u8 *file, usize length, i64 *matrix, usize nm, i64 *rights, usize nr, u64 *tally, usize nt, u8 *answers, usize na)
{
    struct heading h;
    struct tally t;
    usize at = read_heading(&h, file), size = 32 + 2 * h.parameters, n = (length - at) / size;
    start(&t, &h, matrix, rights);
    for (usize i = 0; i < n; i++) {
        int answer = judge_state(&h, &t, matrix, rights);
        answers[i] = answer ? answer : take_one(&h, &t, matrix, rights, file + at + i * size, size);
    }
    put_tally(&t, tally);
    return 0;
}
