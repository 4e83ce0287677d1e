/* The plain C peer of reading and merging normal files: the same judgements in the same order, the same sums, written as one would in C.
   Compiled apart from the driver, so that nothing is inlined into its loop. No headers: the kit has none. */
typedef long long i64; typedef unsigned long long u64; typedef unsigned u32; typedef unsigned short u16; typedef unsigned char u8; typedef unsigned long usize;

static u16 u16_at(const u8 *p) { u16 x; __builtin_memcpy(&x, p, 2); return x; }
static u32 u32_at(const u8 *p) { u32 x; __builtin_memcpy(&x, p, 4); return x; }
static u64 u64_at(const u8 *p) { u64 x; __builtin_memcpy(&x, p, 8); return x; }
static i64 i64_at(const u8 *p) { i64 x; __builtin_memcpy(&x, p, 8); return x; }
static void put_u32(u8 *p, u32 x) { __builtin_memcpy(p, &x, 4); }
static void put_u64(u8 *p, u64 x) { __builtin_memcpy(p, &x, 8); }
static void put_i64(u8 *p, i64 x) { __builtin_memcpy(p, &x, 8); }

struct answer { u64 number, place, arcs, parameters, matrix, rights, totals, stored, small; };

static int refuse(struct answer *r, u64 number, u64 place)
{
    *r = (struct answer){ number, place };
    return 0;
}

static usize tri(usize j) { return j * (j + 1) / 2; }

/* ---- reading */

/* A count from low to high: 1, 2. */
static int count_at(struct answer *r, const u8 *s, usize length, usize at, u32 low, u32 high, usize *n)
{
    if (length - at < 4)
        return refuse(r, 1, length);
    *n = u32_at(s + at);
    return (*n >= low && *n <= high) || refuse(r, 2, at);
}

static int index_ok(u16 kind, u16 index)
{
    switch (kind) {
    case 1: return index < 990 && index % 33 != 32;
    case 2: return index < 3000;
    case 3: return index < 6;
    case 4: return index < 2;
    default: return 0;
    }
}

static u64 key_at(const u8 *l) { return (u64)u16_at(l) << 48 | (u64)u32_at(l + 4) << 16 | u16_at(l + 2); }

/* In the old form the field is 0, in the small one 1 or 2. */
static int label_ok(const u8 *l, const u8 *arcs, usize n, int small)
{
    u32 arc = u32_at(l + 4), field = u32_at(l + 12);
    if ((small ? field - 1 > 1 : field != 0) || u32_at(l + 8) > 1073741824 || !index_ok(u16_at(l), u16_at(l + 2)))
        return 0;
    if (u16_at(l) <= 2)
        return arc == 0;
    for (usize i = 0; i < n; i++)
        if (u32_at(arcs + 4 * i) == arc)
            return 1;
    return 0;
}

/* The place of the first unsound sum, or 0. */
static usize unsound(const u8 *s, const struct answer *r)
{
    const u8 *m = s + r->matrix;
    usize p = r->stored;
    i64 least = (i64)r->small;
    u64 accepted = u64_at(s + r->totals), square = u64_at(s + r->totals + 8), arcs = accepted ? r->arcs : 0;
    i64 bound = (i64)arcs << 58, side = (i64)arcs << 55;
    for (usize j = 0, k = 0; j < p; j++)
        for (usize i = 0; i <= j; i++, k++) {
            i64 x = i64_at(m + 8 * k);
            if (x > bound || x < -bound)
                return r->matrix + 8 * k;
            if (i == j ? x < least : x != 0 && (i64_at(m + 8 * (tri(i) + i)) == 0 || i64_at(m + 8 * (tri(j) + j)) == 0))
                return r->matrix + 8 * k;
        }
    for (usize i = 0; i < p; i++) {
        i64 y = i64_at(s + r->rights + 8 * i);
        if (y > side || y < -side || (y != 0 && i64_at(m + 8 * (tri(i) + i)) == 0))
            return r->rights + 8 * i;
    }
    if (accepted > r->arcs * 4096)
        return r->totals;
    return square > arcs << 52 ? r->totals + 8 : 0;
}

static int read_file(struct answer *r, const u8 *s, usize length)
{
    usize arcs, p, n, at = 4, place, stored = 0;
    u64 floor = 0;
    int small = 0;
    if (!count_at(r, s, length, 0, 1, 16, &arcs))
        return 0;
    for (usize i = 0; i < arcs; i++, at += 4) {
        if (length - at < 4)
            return refuse(r, 1, length);
        u32 a = u32_at(s + at);
        if (a < 1 || a > 999999)
            return refuse(r, 4, at);
        if (a < floor)
            return refuse(r, 5, at);
        floor = (u64)a + 1;
    }
    if (!count_at(r, s, length, at, 1, 500, &p))
        return 0;
    at += 4;
    floor = 0;
    for (usize i = 0; i < p; i++, at += 24) {
        if (length - at < 24)
            return refuse(r, 1, length);
        if (i == 0)
            small = u32_at(s + at + 12) != 0;
        if (!label_ok(s + at, s + 4, arcs, small))
            return refuse(r, 4, at);
        stored += u32_at(s + at + 12) != 2;
        u64 key = key_at(s + at);
        if (key < floor)
            return refuse(r, 5, at);
        floor = key + 1;
    }
    *r = (struct answer){ 0, 0, arcs, p, 0, 0, 0, stored, small };
    static const u32 sizes[3] = { 8, 8, 16 };
    usize counts[3] = { tri(stored), stored, 1 }, places[3];
    for (int i = 0; i < 3; i++) {
        if (!count_at(r, s, length, at, counts[i], counts[i], &n))
            return 0;
        places[i] = at += 4;
        if (length - at < n * sizes[i])
            return refuse(r, 1, length);
        at += n * sizes[i];
    }
    if (at < length)
        return refuse(r, 3, at);
    r->matrix = places[0]; r->rights = places[1]; r->totals = places[2];
    place = unsound(s, r);
    return place ? refuse(r, 6, place) : 1;
}

u8 peer_read(const u8 *s, usize length, u64 *out, usize room)
{
    struct answer r;
    read_file(&r, s, length);
    __builtin_memcpy(out, &r, sizeof r);
    return r.number;
}

/* ---- merging */

/* Two ascending lists united: how many, and for each its places in both, the length where it has none. */
static usize join(const u64 *xs, usize n, const u64 *ys, usize m, usize *left, usize *right)
{
    usize i = 0, j = 0, k = 0;
    while (i < n || j < m) {
        int first = i < n && (j == m || xs[i] <= ys[j]), second = j < m && (i == n || ys[j] <= xs[i]);
        left[k] = first ? i++ : n;
        right[k++] = second ? j++ : m;
    }
    return k;
}

/* Which of n united labels a file of p has with their sums, where left has their places in it. */
static usize locate(const usize *left, usize n, const u8 *labels, usize p, usize *t)
{
    usize m = 0;
    for (usize i = 0; i < n; i++)
        if (left[i] < p && u32_at(labels + 24 * left[i] + 12) != 2) t[m++] = i;
    return m;
}

/* Adds sums that stand one after the other, each at its place. */
static void add_column(i64 *col, const u8 *s, usize rows, const usize *t)
{
    for (usize i = 0; i < rows; i++) col[t[i]] += i64_at(s + 8 * i);
}

/* Adds to column j what a file of p labels has of it: its next column, the qth, where that one's place is j. How many are then done. */
static usize add_next(i64 *col, const u8 *s, const usize *t, usize p, usize q, usize j)
{
    if (q == p || t[q] != j)
        return q;
    add_column(col, s + 8 * tri(q), q + 1, t);
    return q + 1;
}

static u64 merge_pair(const u8 *s, const struct answer *x, const u8 *t, const struct answer *y, u8 *out, usize room, usize *length)
{
    u64 xs[500], ys[500];
    usize left[1000], right[1000], al[32], ar[32];
    for (usize i = 0; i < x->arcs; i++) xs[i] = u32_at(s + 4 + 4 * i);
    for (usize i = 0; i < y->arcs; i++) ys[i] = u32_at(t + 4 + 4 * i);
    usize arcs = join(xs, x->arcs, ys, y->arcs, al, ar);
    if (arcs < x->arcs + y->arcs)
        return 21;
    if (arcs > 16)
        return 22;
    const u8 *ls = s + 8 + 4 * x->arcs, *lt = t + 8 + 4 * y->arcs;
    u64 united[32];
    for (usize i = 0; i < arcs; i++) united[i] = al[i] < x->arcs ? xs[al[i]] : ys[ar[i]];
    for (usize i = 0; i < x->parameters; i++) xs[i] = key_at(ls + 24 * i);
    for (usize i = 0; i < y->parameters; i++) ys[i] = key_at(lt + 24 * i);
    usize n = join(xs, x->parameters, ys, y->parameters, left, right);
    if (n > 500)
        return 23;
    for (usize i = 0; i < n; i++)
        if (left[i] < x->parameters && right[i] < y->parameters) {
            const u8 *a = ls + 24 * left[i], *b = lt + 24 * right[i];
            if (u32_at(a + 8) != u32_at(b + 8) || u64_at(a + 16) != u64_at(b + 16))
                return 24;
        }
    *length = 36 + 4 * arcs + 32 * n + 8 * tri(n);
    if (room < *length)
        return 20;
    put_u32(out, arcs); out += 4;
    for (usize i = 0; i < arcs; i++, out += 4) put_u32(out, united[i]);
    put_u32(out, n); out += 4;
    for (usize i = 0; i < n; i++, out += 24) {
        __builtin_memcpy(out, left[i] < x->parameters ? ls + 24 * left[i] : lt + 24 * right[i], 24);
        put_u32(out + 12, 0);
    }
    put_u32(out, tri(n)); out += 4;
    i64 col[500];
    usize ts[500], tt[500], p = locate(left, n, ls, x->parameters, ts), q = locate(right, n, lt, y->parameters, tt);
    for (usize j = 0, d = 0, e = 0; j < n; j++) {
        for (usize i = 0; i <= j; i++) col[i] = 0;
        d = add_next(col, s + x->matrix, ts, p, d, j);
        e = add_next(col, t + y->matrix, tt, q, e, j);
        for (usize i = 0; i <= j; i++, out += 8) put_i64(out, col[i]);
    }
    put_u32(out, n); out += 4;
    for (usize i = 0; i < n; i++) col[i] = 0;
    add_column(col, s + x->rights, p, ts);
    add_column(col, t + y->rights, q, tt);
    for (usize i = 0; i < n; i++, out += 8) put_i64(out, col[i]);
    put_u32(out, 1);
    put_u64(out + 4, u64_at(s + x->totals) + u64_at(t + y->totals));
    put_u64(out + 12, u64_at(s + x->totals + 8) + u64_at(t + y->totals + 8));
    return 0;
}

/* The answer: the refusal's number, the file it is of (0, 1, 2), its place or the merged file's length. */
u8 peer_merge(const u8 *s, usize n, const u8 *t, usize m, u8 *out, usize room, u64 *told, usize numbers)
{
    struct answer x, y;
    usize length = 0;
    if (!read_file(&x, s, n)) { told[0] = x.number; told[1] = 1; told[2] = x.place; return x.number; }
    if (!read_file(&y, t, m)) { told[0] = y.number; told[1] = 2; told[2] = y.place; return y.number; }
    told[0] = merge_pair(s, &x, t, &y, out, room, &length);
    told[1] = 0;
    told[2] = told[0] ? 0 : length;
    return told[0];
}
