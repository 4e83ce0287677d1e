/* Makes normal files, has the proved functions and their C peers read and merge them, compares answers and bytes, and only then prints
   times; `drive same` compares only. `drive WHICH P REPEATS` has one of them do its work so many times, for the counting of
   instructions. No headers: the kit has none. */
typedef long long i64; typedef unsigned long long u64; typedef unsigned u32; typedef unsigned char u8; typedef unsigned long usize;
struct timespec { long s, ns; };
int clock_gettime(int, struct timespec *);
int printf(const char *, ...);
int memcmp(const void *, const void *, usize);
void *memcpy(void *, const void *, usize);
int atoi(const char *);
typedef u8 read_fn(const u8 *, usize, u64 *, usize);
typedef u8 merge_fn(const u8 *, usize, const u8 *, usize, u8 *, usize, u64 *, usize);
extern read_fn bench_read, peer_read;
extern merge_fn bench_merge, peer_merge;

#define LONGEST 1018100
struct file { usize length; u8 bytes[LONGEST + 8]; };
static struct file whole, first, second, third, fourth, changed;
static struct file small_whole, small_first, small_second;
static u8 merged[2][LONGEST];
static u64 told[2][9];
static u64 seed;

static u32 next(u32 n) { seed = seed * 6364136223846793005ULL + 1442695040888963407ULL; return (u32)(seed >> 33) % n; }
static void put(struct file *f, u64 x, int n) { while (n--) { f->bytes[f->length++] = (u8)x; x >>= 8; } }

/* A sum of up to 40 bits, not 0. */
static i64 sum(void) { i64 x = (i64)next(1 << 30) << 10 | (1 + next(1000)); return next(2) ? x : -x; }

/* The file of those of p labels whose number modulo 4 is not `without`, with so many arcs from `arc` on. One parameter in nine is silent:
   its sums are 0. Labels are cells, then coordinates, the same in every file whose `shift` is the same. */
static void make(struct file *f, int p, int without, int shift, u32 arc, int arcs, u64 start)
{
    int labels[500], n = 0;
    seed = start;
    for (int i = 0; i < p; i++) if (i % 4 != without) labels[n++] = i;
    f->length = 0;
    put(f, arcs, 4);
    for (int i = 0; i < arcs; i++) put(f, arc + i, 4);
    put(f, n, 4);
    for (int i = 0; i < n; i++) {
        int l = labels[i], cell = !shift && l < p / 2;
        put(f, cell ? 1 : 2, 2); put(f, cell ? l / 32 * 33 + l % 32 : 5 * l + shift, 2); put(f, 0, 4); put(f, l * 1000, 4); put(f, 0, 4); put(f, l * 999983ULL - 1000000, 8);
    }
    put(f, n * (n + 1) / 2, 4);
    for (int j = 0; j < n; j++)
        for (int i = 0; i <= j; i++) {
            i64 x = sum();
            put(f, labels[i] % 9 == 4 || labels[j] % 9 == 4 ? 0 : i == j && x < 0 ? -x : x, 8);
        }
    put(f, n, 4);
    for (int i = 0; i < n; i++) { i64 x = sum(); put(f, labels[i] % 9 == 4 ? 0 : x, 8); }
    put(f, 1, 4); put(f, 8 * 4000, 8); put(f, 123456789, 8);
}

static u64 get(const struct file *f, usize at, int n) { u64 x = 0; while (n--) x = x << 8 | f->bytes[at + n]; return x; }

/* The file in the small form. */
static void shrink(struct file *f, const struct file *from)
{
    usize arcs = get(from, 0, 4), n = get(from, 4 + 4 * arcs, 4), labels = 8 + 4 * arcs, matrix = labels + 24 * n + 4, rights = matrix + 4 * n * (n + 1) + 4;
    int seen[500], m = 0;
    for (usize j = 0; j < n; j++) if (get(from, matrix + 4 * j * (j + 3), 8)) seen[m++] = j;
    memcpy(f, from, sizeof *f);
    for (usize j = 0; j < n; j++) f->bytes[labels + 24 * j + 12] = get(from, matrix + 4 * j * (j + 3), 8) ? 1 : 2;
    f->length = matrix - 4;
    put(f, m * (m + 1) / 2, 4);
    for (int j = 0; j < m; j++)
        for (int i = 0; i <= j; i++) put(f, get(from, matrix + 4 * seen[j] * (seen[j] + 1) + 8 * seen[i], 8), 8);
    put(f, m, 4);
    for (int i = 0; i < m; i++) put(f, get(from, rights + 8 * seen[i], 8), 8);
    for (int i = 0; i < 20; i++) put(f, from->bytes[rights + 8 * n + i], 1);
}

/* The two to be merged have half of p labels in common, and p together. A third has one arc too many to be merged with the first, a fourth
   has other labels. */
static void make_all(int p)
{
    make(&whole, p, 4, 0, 1, 8, p);
    make(&first, p, 3, 0, 1, 8, p + 1000);
    make(&second, p, 1, 0, 9, 8, p + 2000);
    make(&third, p, 1, 0, 9, 9, p + 3000);
    make(&fourth, p, 1, 1, 9, 8, p + 4000);
    shrink(&small_whole, &whole);
    shrink(&small_first, &first);
    shrink(&small_second, &second);
}

static read_fn *const readers[2] = { peer_read, bench_read };
static merge_fn *const mergers[2] = { peer_merge, bench_merge };
static void read_by(int f, const struct file *s) { readers[f](s->bytes, s->length, told[f], 9); }
static void merge_by(int f, const struct file *s, const struct file *t, usize room)
{
    mergers[f](s->bytes, s->length, t->bytes, t->length, merged[f], room, told[f], 9);
}

static void clear(void) { for (int i = 0; i < 9; i++) told[0][i] = told[1][i] = 0; }
static int alike(void) { return !memcmp(told[0], told[1], sizeof told[0]) && !memcmp(merged[0], merged[1], LONGEST); }

/* Whether both read and merge alike: good files, files with a byte or a word changed, files that are cut or too long, short room. How
   many answers there were of each number. */
static int same(int p)
{
    int n[32] = { 0 };
    make_all(p);
    for (int k = 0; k < 400; k++) {
        const struct file *s = k % 3 ? &whole : &small_whole, *a = k % 5 < 3 ? &first : &small_first, *b = k % 3 ? &second : &small_second;
        usize room = LONGEST;
        if (k > 2) {
            const struct file *of = k % 2 ? s : k % 4 ? a : b;
            memcpy(&changed, of, sizeof changed);
            usize heads = 12 + 32 + 24 * p, at = next(3) ? next(heads < of->length ? heads : of->length) : next(of->length);
            switch (next(5)) {
            case 0: changed.bytes[at] = next(256); break;
            case 1: changed.bytes[at] ^= 1 << next(8); break;
            case 2: changed.length = next(2) ? at : of->length - next(40); break;
            case 3: changed.length += 1 + next(8); break;
            case 4: for (int i = 0; i < 8; i++) changed.bytes[at / 4 * 4 + i] = next(2) ? 255 : 0; break;
            }
            if (k % 7 == 6) { changed.length = of->length; memcpy(&changed, of, sizeof changed); room = of->length + next(9) * (p + 1); }
            if (k % 2) s = &changed; else if (k % 4) a = &changed; else b = &changed;
        }
        clear();
        for (int f = 0; f < 2; f++) read_by(f, s);
        if (!alike()) { printf("DIFFERENT reading at P %d, turn %d\n", p, k); return 0; }
        n[told[0][0] & 31]++;
        clear();
        for (int f = 0; f < 2; f++) merge_by(f, a, k % 11 == 10 ? a : k % 11 == 9 ? &third : k % 11 == 8 ? &fourth : b, room);
        if (!alike()) { printf("DIFFERENT merging at P %d, turn %d\n", p, k); return 0; }
        n[told[0][0] & 31]++;
    }
    printf("same at P %d:", p);
    for (int i = 0; i < 32; i++) if (n[i]) printf(" %d: %d", i, n[i]);
    printf("\n");
    return 1;
}

static double now(void) { struct timespec t; clock_gettime(1, &t); return t.s * 1e9 + t.ns; }
static void call(int which)
{
    switch (which / 2) {
    case 0: read_by(which % 2, &whole); break;
    case 1: merge_by(which % 2, &first, &second, LONGEST); break;
    case 2: read_by(which % 2, &small_whole); break;
    case 3: merge_by(which % 2, &small_first, &small_second, LONGEST); break;
    }
}

int main(int argc, char **argv)
{
    static const int ps[] = { 50, 200, 500 };
    static const char *const names[4] = { "read", "merge", "read-small", "merge-small" };
    if (argc == 4) {
        make_all(atoi(argv[2]));
        for (int i = 0; i < atoi(argv[3]); i++) call(atoi(argv[1]));
        return 0;
    }
    for (int q = 0; q < 3; q++) if (!same(ps[q])) return 1;
    if (argc == 2) return 0;
    for (int q = 0; q < 3; q++) {
        make_all(ps[q]);
        double sums = ps[q] * (ps[q] + 3) / 2;
        for (int pair = 0; pair < 8; pair += 2) {
            double least[2] = { 1e18, 1e18 }; /* of fifteen turns, so that what else the machine does counts little */
            for (int k = 0; k < 30; k++) {
                double begin = now();
                call(pair + k % 2);
                double t = (now() - begin) / sums;
                if (t < least[k % 2]) least[k % 2] = t;
            }
            printf("%s at P %d: c %.2f ns, proved %.2f ns, ratio %.2f\n", names[pair / 2], ps[q], least[0], least[1], least[1] / least[0]);
        }
    }
    return 0;
}
