/* Makes arc files, has the proved functions and their C peers take the records by turns, compares all that they leave, and only then
   prints times; `drive same` compares only. `drive WHICH P REPEATS RECORDS` has one of them take so many records so many times, for the counting of instructions. No headers: the kit has none. */
typedef long long i64; typedef unsigned long long u64; typedef int i32; typedef unsigned u32; typedef short i16; typedef unsigned short u16;
typedef unsigned char u8; typedef unsigned long usize;
struct timespec { long s, ns; };
int clock_gettime(int, struct timespec *);
int printf(const char *, ...);
int memcmp(const void *, const void *, usize);
int atoi(const char *);
typedef u8 take_fn(const u8 *, usize, i64 *, usize, i64 *, usize, u64 *, usize, u8 *, usize);
extern take_fn bench_run, bench_take, bench_parts, bench_bytes, peer_run, peer_take;

#define RECORDS 4000
#define MOST 60000
struct result { i64 matrix[1275], rights[50]; u64 tally[227]; u8 answers[MOST], answer; };
static struct result results[6];
static u8 file[1 << 23];
static u64 seed;

static u32 next(u32 n) { seed = seed * 6364136223846793005ULL + 1442695040888963407ULL; return (u32)(seed >> 33) % n; }
static void put(usize *at, u64 x, int n) { while (n--) { file[(*at)++] = (u8)x; x >>= 8; } }
static void put_double(usize *at, double x) { u64 b; __builtin_memcpy(&b, &x, 8); put(at, b, 8); }

static const int shift[11] = { 0, 10, 16, 28, 28, 28, 28, 28, 28, 28, 28 };
static const i64 low[11] = { 0, 0, -(1LL << 31), -(1LL << 28), -(1LL << 28), -421657428, -421657428, 0, 0, 0, -421657428 };
static const i64 high[11] = { 0, 1LL << 40, 1LL << 31, 1LL << 28, 1LL << 28, 421657428, 421657428, 1686629713, 421657428, 1686629713, 421657428 };

/* One record. `harsh` of a thousand records break a rule of any kind; of the rest one in 32 fails the edit, one in 64 is not later, one in
   128 is out of the window. A day has 500 records, or so many that they end within thirty days. */
static void put_record(usize *at, int p, int i, int harsh, int daily)
{
    u32 station = next(16), kind = 1 + next(10), s = 1 + next(20), day = 8036 + i / daily, ms = 100000 + (i % daily) * (85000000 / daily) + next(1000);
    u32 step = kind < 3 ? 64 : 256, edit = 3 * s * step, fault = next(1000) < (u32)harsh ? 1 + next(9) : 0;
    i64 r = (i64)next(2 * edit + 1) - edit, span = high[kind] - low[kind];
    i64 c = low[kind] + (i64)((u64)next(1 << 30) * (u64)(span >> 12) >> 18), o = c + r;
    if (span < 4 * (i64)edit) { c = (low[kind] + high[kind]) / 2; o = c + r; }
    if (o < low[kind] || o > high[kind]) o = kind == 7 || kind == 9 ? (o < 0 ? o + 1686629713 : o - 1686629713) : c;
    if (next(32) == 0) o = low[kind] + span / 2 + (c < low[kind] + span / 2 ? 10000000 : -10000000);
    if (next(64) == 0) { day = 8036; ms = 70000; }
    if (next(128) == 0) day = 8066;
    double observed = (double)o / (double)(1LL << shift[kind]), computed = (double)c / (double)(1LL << shift[kind]);
    observed += (double)((i32)next(101) - 50) / 128 / (double)(1LL << shift[kind]);
    switch (fault) {
    case 1: station = 17; break;
    case 2: kind = next(2) ? 0 : 11 + next(1000); break;
    case 3: s = next(2) ? 0 : 257 + next(1000); break;
    case 4: day = next(2) ? 0 : 54788; break;
    case 5: ms = 86400000 + next(1000); break;
    case 6: observed = __builtin_nan(""); break;
    case 7: computed = next(2) ? -__builtin_inf() : 1e300 * 1e10; break;
    case 8: observed = next(2) ? 1e300 : -1e300; break;
    case 9: computed = (double)(high[kind] + 1 + next(3)) / (double)(1LL << shift[kind]); break;
    }
    put(at, 13 + 60 * station, 2); put(at, s, 2); put(at, kind, 4); put(at, day, 4); put(at, ms, 4);
    put_double(at, observed); put_double(at, computed);
    for (int j = 0; j < p; j++) put(at, next(65536), 2);
}

/* An arc file of p parameters, sixteen stations and some records: its length. */
static usize make(int p, int harsh, u64 start, int records)
{
    usize at = 0;
    seed = start;
    put(&at, 1, 4); put(&at, 7, 4); put(&at, 8036, 4); put(&at, 30, 2); put(&at, 30, 2);
    put(&at, p, 4);
    for (int i = 0; i < p; i++) { put(&at, 2, 2); put(&at, 3 * i, 2); put(&at, 5, 4); put(&at, i * 1000003, 8); }
    put(&at, 16, 4);
    for (int i = 0; i < 16; i++) { put(&at, 13 + 60 * i, 2); put(&at, 0, 2); put(&at, (u32)(i * 7919 % 120001 - 60000), 4); }
    put(&at, records, 4);
    for (int i = 0; i < records; i++) put_record(&at, p, i, harsh, records > RECORDS ? 2500 : 500);
    return at;
}

static take_fn *const fs[6] = { peer_run, bench_run, peer_take, bench_take, bench_parts, bench_bytes };
static const char *const names[6] = { "c run", "take_run", "c take", "take", "parts", "bytes" };

static void call(int f, usize length, int p, usize records)
{
    struct result *r = &results[f];
    r->answer = fs[f](file, length, r->matrix, f < 4 ? p * (p + 1) / 2 : 1275, r->rights, f < 4 ? p : 50, r->tally, 227, r->answers, records);
}

/* Whether all six leave the same; how many records of the file are accepted, and how many refused by each number, where told to. */
static int same(int p, int tell)
{
    usize length = make(p, tell ? 0 : 500, p + 1000 * tell, RECORDS);
    for (int f = 0; f < 6; f++) call(f, length, p, RECORDS);
    for (int f = 1; f < 6; f++)
        if (memcmp(&results[0], &results[f], sizeof results[0])) { printf("DIFFERENT %s at P %d\n", names[f], p); return 0; }
    int n[32] = { 0 };
    for (int i = 0; i < RECORDS; i++) n[results[0].answers[i] & 31]++;
    printf("same at P %2d:", p);
    for (int i = 0; i < 32; i++) if (n[i]) printf(" %d: %d", i, n[i]);
    printf("\n");
    return 1;
}

static double now(void) { struct timespec t; clock_gettime(1, &t); return t.s * 1e9 + t.ns; }

int main(int argc, char **argv)
{
    static const int ps[] = { 1, 6, 20, 50 };
    if (argc == 5) {
        int f = atoi(argv[1]), p = atoi(argv[2]), n = atoi(argv[3]), records = atoi(argv[4]);
        usize length = make(p, 0, p + 1000, records);
        for (int i = 0; i < n; i++) call(f, length, p, records);
        return 0;
    }
    for (int q = 0; q < 4; q++) if (!same(ps[q], 0) || !same(ps[q], 1)) return 1;
    if (argc == 2) return 0;
    for (int q = 0; q < 4; q++) {
        int p = ps[q];
        usize length = make(p, 0, p + 1000, RECORDS);
        for (int pair = 0; pair < 4; pair += 2) {
            double least[2] = { 1e18, 1e18 }; /* of fifteen turns, so that what else the machine does counts little */
            for (int k = 0; k < 30; k++) {
                double begin = now();
                call(pair + k % 2, length, p, RECORDS);
                double t = (now() - begin) / RECORDS;
                if (t < least[k % 2]) least[k % 2] = t;
            }
            printf("%s at P %d: c %.0f ns, proved %.0f ns, ratio %.2f\n", pair ? "take" : "take_run", p, least[0], least[1], least[1] / least[0]);
        }
    }
    return 0;
}
