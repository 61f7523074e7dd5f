/* One cell of the search in C, with the answer of port_cell bit for bit, in as few instructions as were found. A yardstick: it is NOT PROVED, and no part of the
 * product. docs/SPEED.md, 'How low it can go', lists what a proof would have to show; main.c compares it with the port; bench/run floor builds and counts.
 *     -DNAME=...    the name of the function
 *     -DSHARE       the first columns of the systems of all faces are cleared together
 * Every operation that reaches an answer is one that crates/cell and crates/solver do, in their order, rounded once (-ffp-contract=off); what is left out here
 * decides nothing, and the comments say why. No headers, so that a clang that has none builds it. */
typedef double f64;
typedef __SIZE_TYPE__ usize;
typedef struct { f64 a_min, a_max, pivot_tolerance, feasibility_tolerance; } Limits;
typedef struct { _Bool some; f64 objective, x[3]; _Bool active[7]; usize faces, updates; } Cell;
typedef struct { const f64 *y, *h, *w, *t; usize count; } Quotes;
typedef struct { f64 q[9], right[3]; } Base; /* the 3 by 3 block of every system, row by row, and its right side */
typedef struct { f64 x[3]; _Bool ok; } Point;
typedef struct { f64 objective, x[3]; usize mask; _Bool some; } Best;

f64 port_hypot(f64 x, f64 y);

/* Sizes and columns are constants wherever they are passed: no loop over a system is left, and rows are worked on two numbers at a time. */
#define INLINE static inline __attribute__((always_inline))
static const Point none = { { 0.0, 0.0, 0.0 }, 0 };
static const f64 G[7][3] = { { 0, 0, -1 }, { 0, 1, -1 }, { 0, -1, -1 }, { 0, 1, 1 }, { 0, -1, 1 }, { -1, 0, 0 }, { 1, 0, 0 } };

INLINE f64 size_of(f64 x) { return x < 0.0 ? -x : x; }
INLINE f64 larger(f64 a, f64 b) { return a < b ? b : a; }
INLINE _Bool is_finite(f64 x) { return (x < 1.0 / 0.0) & (-(1.0 / 0.0) < x); }
INLINE void copy(f64 *to, const f64 *from, usize first, usize end) { for (usize j = first; j < end; j++) to[j] = from[j]; }

/* ---- the system of one face: n rows of 8, the right side in column n. After an even n comes a pad, whose numbers reach no answer. */

/* Columns left of the pivot's are never read again, nor is its own below the pivot: the work of an odd column begins one to the right. */
#define FIRST(col) (((col) + 1) / 2 * 2)
#define END(n) ((n) / 2 * 2 + 2)

/* The pivot is the last of the largest, and a NaN is above all. Nothing follows the test of the last column. A row that is worked on counts its n - col entries from
 * the pivot's column on, also those that are left out here. */
INLINE _Bool column(f64 *m, usize n, f64 limit, usize col, usize *updates) {
    usize p = col;
    f64 top = size_of(m[col * 8 + col]);
    for (usize i = col + 1; i < n; i++) {
        f64 size = size_of(m[i * 8 + col]);
        if (top <= size) { p = i; top = size; } else if (size != size) { p = i; top = size; }
    }
    if (top <= limit) return 0;
    if (col + 1 == n) return 1;
    f64 values[8], old[8], pivot = m[p * 8 + col];
    copy(values, m + p * 8, FIRST(col), END(n));
    if (p != col) {
        if (FIRST(col) > col) { m[p * 8 + col] = m[col * 8 + col]; m[col * 8 + col] = pivot; }
        copy(old, m + col * 8, FIRST(col), END(n));
        copy(m + p * 8, old, FIRST(col), END(n));
        copy(m + col * 8, values, FIRST(col), END(n));
    }
    for (usize row = col + 1; row < n; row++) {
        f64 factor = m[row * 8 + col] / pivot;
        if (factor == 0.0) continue;
        *updates += n - col;
        for (usize j = FIRST(col); j < END(n); j++) m[row * 8 + j] = m[row * 8 + j] - factor * values[j];
    }
    return 1;
}

INLINE _Bool eliminate(f64 *m, usize n, f64 limit, usize *updates) {
    for (usize i = 0; n % 2 == 0 && i < n; i++) m[i * 8 + n + 1] = 0.0;
    return column(m, n, limit, 0, updates) && column(m, n, limit, 1, updates) && (n < 3 || column(m, n, limit, 2, updates)) && (n < 4 || column(m, n, limit, 3, updates)) &&
           (n < 5 || column(m, n, limit, 4, updates)) && (n < 6 || column(m, n, limit, 5, updates));
}

INLINE void back(const f64 *m, usize n, f64 *x) {
    for (usize k = 0; k < n; k++) {
        usize row = n - 1 - k;
        f64 tail = 0.0;
        for (usize j = row + 1; j < n; j++) tail = tail + m[row * 8 + j] * x[j];
        x[row] = (m[row * 8 + n] - tail) / m[row * 8 + row];
    }
}

/* x[0] is finite only where all unknowns are: its tail holds a product with every other one, and what is not finite stays so through the product, the sum, the
 * difference and the quotient. So one test does for all. */
INLINE Point point(f64 x0, f64 x1, f64 x2) { return (Point){ { x0, x1, x2 }, x0 - x0 == 0.0 }; }

INLINE Point solved(f64 *m, usize n, f64 limit, usize *updates) {
    f64 x[6];
    if (!eliminate(m, n, limit, updates)) return none;
    back(m, n, x);
    return point(x[0], x[1], x[2]);
}

INLINE void base_rows(f64 *m, const Base *b, usize n) {
    for (usize i = 0; i < 3; i++) { copy(m + i * 8, b->q + i * 3, 0, 3); m[i * 8 + n] = b->right[i]; }
}

/* Constraint c as row and column r. */
INLINE void constraint(f64 *m, const f64 *h, usize n, usize c, usize r) {
    for (usize j = 0; j < 3; j++) m[r * 8 + j] = m[j * 8 + r] = G[c][j];
    for (usize j = 3; j < n; j++) m[r * 8 + j] = 0.0;
    m[r * 8 + n] = h[c];
}

/* The face of constraints i, j and k, of which n - 3 count, by itself. */
INLINE Point own(const Base *b, const f64 *h, f64 limit, usize n, usize i, usize j, usize k, usize *updates) {
    f64 m[48];
    base_rows(m, b, n);
    constraint(m, h, n, i, 3);
    if (n > 4) constraint(m, h, n, j, 4);
    if (n > 5) constraint(m, h, n, k, 5);
    return solved(m, n, limit, updates);
}

#ifdef SHARE
/* ---- the first columns of all faces at once: ten rows of 12. Columns 0 to 2, those of the seven constraints (3 to 9), the right side (10), a pad; rows 0 to 2 are
 * the base, row 3 + c is constraint c. While the pivot of a column is a row of the base and strictly above the entry of each constraint of a face, the face's own
 * system has the same pivot, and each of its entries goes through the same operations here: an entry's next value depends on itself, the pivot, the entry of its
 * row in the pivot's column and that of its column in the pivot's row, all of them the face's own. */
enum { WIDE = 12, RIGHT = 10 };
typedef struct {
    f64 m[10 * WIDE];        /* after columns 0 and 1 */
    f64 after[10 * WIDE];    /* the constraints' rows after column 2 */
    _Bool two[7], three[7];  /* whether a constraint lies below the pivots of columns 0 and 1, and of column 2 too */
    usize base, both[7], all[7]; /* the work: of the base's rows, and of each constraint's in columns 0 and 1, and in column 2 too */
} Shared;

/* Rows that were worked on, and the sum of the columns in which they were, in one number each: a face of n unknowns updates n entries for each of those rows, less
 * the columns before the pivot's. No sum here reaches 1 << 16. */
#define WORK(col) (((usize)1 << 16) + (col))
#define UPDATES(n, work) ((n) * ((work) >> 16) - ((work) & 0xffff))

/* The work: none where the factor is 0. */
INLINE usize less(f64 *to, const f64 *m, usize row, usize col) {
    f64 factor = m[row * WIDE + col] / m[col * WIDE + col], values[WIDE], mine[WIDE];
    copy(mine, m + row * WIDE, FIRST(col), WIDE);
    if (factor == 0.0) { copy(to + row * WIDE, mine, FIRST(col), WIDE); return 0; }
    copy(values, m + col * WIDE, FIRST(col), WIDE);
    for (usize j = FIRST(col); j < WIDE; j++) to[row * WIDE + j] = mine[j] - factor * values[j];
    return WORK(col);
}

/* False where no face may share: the pivot of the base is at most the limit, or a NaN. */
INLINE _Bool shared_column(Shared *s, _Bool *low, f64 limit, usize col) {
    f64 *m = s->m;
    usize p = col;
    f64 top = size_of(m[col * WIDE + col]), mine[WIDE], other[WIDE];
    for (usize i = col + 1; i < 3; i++) {
        f64 size = size_of(m[i * WIDE + col]);
        if (top <= size || size != size) { p = i; top = size; }
    }
    if (!(limit < top)) return 0;
    if (p != col) {
        copy(mine, m + col * WIDE, 0, WIDE);
        copy(other, m + p * WIDE, 0, WIDE);
        copy(m + col * WIDE, other, 0, WIDE);
        copy(m + p * WIDE, mine, 0, WIDE);
    }
    for (usize i = col + 1; i < 3; i++) s->base += less(m, m, i, col);
    for (usize c = 0; c < 7; c++) {
        low[c] = low[c] & (size_of(m[(c + 3) * WIDE + col]) < top);
        if (low[c]) s->both[c] += less(m, m, c + 3, col);
    }
    return 1;
}

static void share(Shared *s, const Base *b, const f64 *h, f64 limit) {
    f64 *m = s->m;
    for (usize i = 0; i < 10 * WIDE; i++) m[i] = 0.0;
    for (usize i = 0; i < 3; i++) { copy(m + i * WIDE, b->q + i * 3, 0, 3); m[i * WIDE + RIGHT] = b->right[i]; }
    for (usize c = 0; c < 7; c++) {
        for (usize j = 0; j < 3; j++) m[(3 + c) * WIDE + j] = m[j * WIDE + 3 + c] = G[c][j];
        m[(3 + c) * WIDE + RIGHT] = h[c];
    }
    _Bool low[7] = { 1, 1, 1, 1, 1, 1, 1 };
    s->base = 0;
    for (usize c = 0; c < 7; c++) s->both[c] = 0;
    _Bool ok = shared_column(s, low, limit, 0) && shared_column(s, low, limit, 1);
    f64 top = size_of(m[2 * WIDE + 2]);
    for (usize c = 0; c < 7; c++) {
        s->two[c] = ok & low[c];
        s->three[c] = s->two[c] & (limit < top) & (size_of(m[(c + 3) * WIDE + 2]) < top);
        s->all[c] = s->both[c];
        if (s->three[c]) s->all[c] += less(s->after, m, c + 3, 2);
    }
}

/* The entries that a face of n - 3 constraints has updated once the columns that it shares are cleared. */
INLINE usize behind(const Shared *s, const usize *work, usize n, usize i, usize j, usize k) {
    return UPDATES(n, s->base + work[i] + (n > 4 ? work[j] : 0) + (n > 5 ? work[k] : 0));
}

/* t and a row's products with the unknowns x3, x4 and x5 of columns a, b and c, of which n - 3 count. */
INLINE f64 sum(f64 t, const f64 *row, usize n, usize a, usize b, usize c, f64 x3, f64 x4, f64 x5) {
    t = t + row[a] * x3;
    if (n > 4) t = t + row[b] * x4;
    if (n > 5) t = t + row[c] * x5;
    return t;
}

INLINE Point upper_two(const f64 *m, usize n, usize a, usize b, usize c, f64 x2, f64 x3, f64 x4, f64 x5) {
    const f64 *row = m + WIDE;
    f64 x1 = (row[RIGHT] - sum(0.0 + row[2] * x2, row, n, a, b, c, x3, x4, x5)) / row[1];
    f64 x0 = (m[RIGHT] - sum(0.0 + m[1] * x1 + m[2] * x2, m, n, a, b, c, x3, x4, x5)) / m[0];
    return point(x0, x1, x2);
}

INLINE Point upper_three(const f64 *m, usize n, usize a, usize b, usize c, f64 x3, f64 x4, f64 x5) {
    const f64 *row = m + 2 * WIDE;
    return upper_two(m, n, a, b, c, (row[RIGHT] - sum(0.0, row, n, a, b, c, x3, x4, x5)) / row[2], x3, x4, x5);
}

/* Two columns shared: n - 2 rows are left, row 2 of the base and those of the constraints. They are a system like any other, whose rows end where the whole one's do. */
INLINE Point half(const Shared *s, f64 limit, usize n, usize i, usize j, usize k, usize *updates) {
    usize at[4] = { 2, 3 + i, 3 + j, 3 + k };
    *updates += behind(s, s->both, n, i, j, k);
    f64 m[32], x[4] = { 0.0 };
    for (usize r = 0; r < n - 2; r++) {
        for (usize c = 0; c < n - 2; c++) m[r * 8 + c] = s->m[at[r] * WIDE + at[c]];
        m[r * 8 + n - 2] = s->m[at[r] * WIDE + RIGHT];
    }
    if (!eliminate(m, n - 2, limit, updates)) return none;
    back(m, n - 2, x);
    return upper_two(s->m, n, at[1], at[2], at[3], x[0], x[1], x[2], x[3]);
}

/* Three columns shared: one, two or three rows are left, which stay where they are. None of them has a NaN in a constraint's column: entries there began as 0, 1 or
 * -1, and no factor so far was above 1 in size. Only a limit below 0 lets a pivot of 0 pass; then all rows that are left turn to NaN at once, each is worked on
 * and the face is refused, whichever of them is the pivot. */
INLINE Point rest1(const Shared *s, f64 limit, usize i, usize *updates) {
    usize a = 3 + i;
    const f64 *p = s->after + a * WIDE;
    *updates += behind(s, s->all, 4, i, 0, 0);
    if (size_of(p[a]) <= limit) return none;
    return upper_three(s->m, 4, a, 0, 0, p[RIGHT] / p[a], 0.0, 0.0);
}

INLINE Point rest2(const Shared *s, f64 limit, usize i, usize j, usize *updates) {
    usize a = 3 + i, b = 3 + j;
    const f64 *p = s->after + a * WIDE, *q = s->after + b * WIDE, *first = p;
    *updates += behind(s, s->all, 5, i, j, 0);
    if (size_of(p[a]) <= size_of(q[a])) { p = q; q = first; }
    if (size_of(p[a]) <= limit) return none;
    f64 factor = q[a] / p[a], qb = q[b], right = q[RIGHT];
    if (factor != 0.0) { *updates += 2; qb = qb - factor * p[b]; right = right - factor * p[RIGHT]; }
    if (size_of(qb) <= limit) return none;
    f64 x4 = right / qb, x3 = (p[RIGHT] - (0.0 + p[b] * x4)) / p[a];
    return upper_three(s->m, 5, a, b, 0, x3, x4, 0.0);
}

typedef struct { f64 b, c, right; } Row;

INLINE Row cleared(const f64 *row, f64 pivot, Row p, usize a, usize b, usize c, usize *updates) {
    f64 factor = row[a] / pivot;
    if (factor == 0.0) return (Row){ row[b], row[c], row[RIGHT] };
    *updates += 3;
    return (Row){ row[b] - factor * p.b, row[c] - factor * p.c, row[RIGHT] - factor * p.right };
}

INLINE Point rest3(const Shared *s, f64 limit, usize i, usize j, usize k, usize *updates) {
    usize a = 3 + i, b = 3 + j, c = 3 + k;
    const f64 *p = s->after + a * WIDE, *q = s->after + b * WIDE, *r = s->after + c * WIDE, *first = p;
    f64 tp = size_of(p[a]), tq = size_of(q[a]), tr = size_of(r[a]);
    *updates += behind(s, s->all, 6, i, j, k);
    if (tp <= tq && !(tq <= tr)) { p = q; q = first; } else if (tp <= tq || tp <= tr) { p = r; r = first; }
    f64 pivot = p[a];
    if (size_of(pivot) <= limit) return none;
    Row x = { p[b], p[c], p[RIGHT] }, y = cleared(q, pivot, x, a, b, c, updates), z = cleared(r, pivot, x, a, b, c, updates);
    if (size_of(y.b) <= size_of(z.b)) { Row second = y; y = z; z = second; }
    if (size_of(y.b) <= limit) return none;
    f64 factor = z.b / y.b;
    if (factor != 0.0) { *updates += 2; z.c = z.c - factor * y.c; z.right = z.right - factor * y.right; }
    if (size_of(z.c) <= limit) return none;
    f64 x5 = z.right / z.c, x4 = (y.right - (0.0 + y.c * x5)) / y.b, x3 = (x.right - (0.0 + x.b * x4 + x.c * x5)) / pivot;
    return upper_three(s->m, 6, a, b, c, x3, x4, x5);
}
#endif

/* ---- which point is best */

/* g x - h, at a finite x: the products with 0, 1 and -1 are exact, a zero more changes nothing but the sign of a zero, and what is negated rounds alike. The
 * comparison does not see the sign of a zero. */
INLINE _Bool feasible(const f64 *h, const f64 *x, f64 slack) {
    f64 d = x[1] - x[2], s = x[1] + x[2];
    return -x[2] - h[0] <= slack && d - h[1] <= slack && -s - h[2] <= slack && s - h[3] <= slack && -d - h[4] <= slack && -x[0] - h[5] <= slack && x[0] - h[6] <= slack;
}

/* The smaller objective, the earlier face on a tie. */
static void judge(const f64 *x, const Quotes *q, usize mask, Best *best) {
    f64 objective = 0.0;
    for (usize i = 0; i < q->count; i++) {
        f64 r = x[0] + x[1] * q->y[i] + x[2] * q->h[i] - q->w[i];
        objective = objective + q->t[i] * r * r;
    }
    if (is_finite(objective) && (!best->some || objective < best->objective)) *best = (Best){ objective, { x[0], x[1], x[2] }, mask, 1 };
}

/* All faces but the empty one, in their order; the entries that they update. */
static usize others(const Base *base, const f64 *h, const Quotes *q, f64 limit, f64 slack, Best *best) {
    usize updates = 0;
#ifdef SHARE
    Shared s;
    share(&s, base, h, limit);
#define ALL(marks, n) (s.marks[i] & (n < 5 || s.marks[j]) & (n < 6 || s.marks[k]))
#define FACE(n, rest) (ALL(three, n) ? rest : ALL(two, n) ? half(&s, limit, n, i, j, k, &updates) : own(base, h, limit, n, i, j, k, &updates))
#else
#define FACE(n, rest) own(base, h, limit, n, i, j, k, &updates)
#endif
#define TRY(mask, face) do { Point p = face; if (p.ok && feasible(h, p.x, slack)) judge(p.x, q, mask, best); } while (0)
    for (usize i = 0, j = 0, k = 0; i < 7; i++)
        TRY(1u << i, FACE(4, rest1(&s, limit, i, &updates)));
    for (usize i = 0, k = 0; i < 7; i++)
        for (usize j = i + 1; j < 7; j++)
            TRY(1u << i | 1u << j, FACE(5, rest2(&s, limit, i, j, &updates)));
    for (usize i = 0; i < 7; i++)
        for (usize j = i + 1; j < 7; j++)
            for (usize k = j + 1; k < 7; k++)
                TRY(1u << i | 1u << j | 1u << k, FACE(6, rest3(&s, limit, i, j, k, &updates)));
    return updates;
}

/* The empty face where it qualifies, else the best of all. The scale of a system is its largest magnitude, NaN passed over: the block's for the empty face, the
 * larger of the block's and 1 for every other one, as constraints have entries 0, 1 and -1 and each has one that is not 0. One that is not finite refuses. */
Cell NAME(const f64 *k, usize ks, const f64 *w, usize ws, const f64 *t, usize ts, Limits l, f64 m, f64 sigma) {
    if (ks > 256 || ws != ks || ts != ks) return (Cell){ 0 };
    f64 y[256], h[256], a[4] = { 0.0 }, d[4] = { 0.0 }, c[4] = { 0.0 }, system[24], scale = 0.0, spread = 1.0;
    for (usize i = 0; i < ks; i++) { y[i] = (k[i] - m) / sigma; h[i] = port_hypot(y[i], 1.0); }
    for (usize i = 0; i < ks; i++) {
        f64 row[4] = { 1.0, y[i], h[i], w[i] }, ty = t[i] * y[i], th = t[i] * h[i];
        for (usize j = 0; j < 4; j++) { a[j] = a[j] + t[i] * row[j]; d[j] = d[j] + ty * row[j]; c[j] = c[j] + th * row[j]; }
    }
    Base base = { { 2.0 * a[0], 2.0 * a[1], 2.0 * a[2], 2.0 * d[0], 2.0 * d[1], 2.0 * d[2], 2.0 * c[0], 2.0 * c[1], 2.0 * c[2] }, { 2.0 * a[3], 2.0 * d[3], 2.0 * c[3] } };
    f64 bounds[7] = { 0.0, 0.0, 0.0, 2.0 * sigma, 2.0 * sigma, -l.a_min, l.a_max };
    for (usize i = 0; i < 9; i++) scale = larger(scale, size_of(base.q[i]));
    for (usize i = 3; i < 7; i++) spread = larger(spread, size_of(bounds[i]));
    f64 slack = l.feasibility_tolerance * spread;
    Quotes q = { y, h, w, t, ks };
    Best best = { 0 };
    usize faces = 1, updates = 0;
    if (is_finite(scale) & (scale > 0.0)) {
        base_rows(system, &base, 3);
        Point p = solved(system, 3, l.pivot_tolerance * scale, &updates);
        if (p.ok && feasible(bounds, p.x, slack)) judge(p.x, &q, 0, &best);
    }
    if (!best.some) {
        faces = 64;
        scale = larger(scale, 1.0);
        if (is_finite(scale)) updates += others(&base, bounds, &q, l.pivot_tolerance * scale, slack, &best);
    }
    Cell cell = { best.some, best.objective, { best.x[0], best.x[1], best.x[2] }, { 0 }, faces, updates };
    for (usize i = 0; i < 7; i++) cell.active[i] = best.mask >> i & 1;
    return cell;
}
