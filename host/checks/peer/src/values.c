/* The check of sorts and the evaluation of a list, written by hand in C: what the library's two calls are measured
   against. Answers, words that are told and refusals are those of x87_check and x87_evaluate (the manual, sections
   4 to 7). */
#include <stddef.h>
#include <stdint.h>

enum { DONE = 0, NO_SORT = 8, TOO_WIDE = 9, TOO_SHORT = 10 };

/* The nodes that a list can have, the widest bits, and the formats. A sort is a width or the number of a format. */
enum { MOST = 65535, WIDEST = 80, SINGLE = 2072, DOUBLE = 2869, EXTENDED = 3904 };

typedef unsigned __int128 wide;

/* The bits of a sort's values: exponent and significand of a float. The upper byte of a width is 0. */
static inline uint64_t width(uint64_t sort)
{
    return (sort >> 8) + (sort & 255);
}

static inline int is_word(uint64_t bits)
{
    return bits == 64 || bits == 32 || bits == 16;
}

static inline int is_format(uint64_t number)
{
    return number == EXTENDED || number == DOUBLE || number == SINGLE;
}

/* What a value has above these bits, which are 1 to 80: 0 where it fits them. */
static inline uint64_t excess(const uint64_t *x, uint64_t bits)
{
    return bits < 64 ? x[0] >> bits | x[1] : x[1] >> (bits - 64);
}

/* The sort of an operand of node n: 0 where it is not earlier. */
static inline uint64_t sort_at(const uint16_t *sorts, uint64_t n, uint64_t operand)
{
    return operand < n ? sorts[operand] : 0;
}

/* The width that two operands share, or 0. */
static inline uint64_t bits_alike(const uint16_t *sorts, uint64_t n, uint64_t x, uint64_t y)
{
    if (x >= n || y >= n || sorts[x] != sorts[y] || sorts[x] > WIDEST)
        return 0;
    return sorts[x];
}

/* The format that two operands share, or 0. */
static inline uint64_t floats_alike(const uint16_t *sorts, uint64_t n, uint64_t x, uint64_t y)
{
    if (x >= n || y >= n || sorts[x] != sorts[y] || sorts[x] <= WIDEST)
        return 0;
    return sorts[x];
}

/* The format of an operand, or 0. */
static inline uint64_t float_at(const uint16_t *sorts, uint64_t n, uint64_t x)
{
    return x < n && sorts[x] > WIDEST ? sorts[x] : 0;
}

/* The sort of node n from its row and the sorts of the earlier nodes, or 0. Those are not 0, and a format is over the
   widest bits: so a sum or an 'or' of two sorts is small only where both are bits. */
static inline uint64_t sort_of(const uint64_t *row, uint64_t n, const uint16_t *sorts)
{
    uint64_t a = row[1], b = row[2], c = row[3], s;
    switch (row[0]) {
    case 1: return c == 0 && (b == 79 || b == 16) ? b : 0;
    case 2: case 3: return c == 0 && (is_word(b) || b == 80) ? b : 0;
    case 4: return (a | b | c) == 0 ? 16 : 0;
    case 5: return a <= 2 && (b | c) == 0;
    case 6: return c - 1 < WIDEST && !excess(row + 1, c) ? c : 0;
    case 7: case 8: return c == 0 ? bits_alike(sorts, n, a, b) : 0;
    case 9: return c == 0 && bits_alike(sorts, n, a, b) != 0;
    case 10: case 11: return c == 0 && a < n && b < n && (sorts[a] | sorts[b]) == 1;
    case 12: return (b | c) == 0 && a < n && sorts[a] == 1;
    case 13: return a < n && sorts[a] == 1 ? bits_alike(sorts, n, b, c) : 0;
    case 14: return a < n && sorts[a] <= WIDEST && c <= b && b < sorts[a] ? b - c + 1 : 0;
    case 15:
        if (c != 0 || a >= n || b >= n)
            return 0;
        s = sorts[a] + sorts[b];
        return s <= WIDEST ? s : 0;
    case 16: case 17: case 18: case 19: return c <= 1 ? floats_alike(sorts, n, a, b) : 0;
    case 20: case 21: return c == 0 && floats_alike(sorts, n, a, b) != 0;
    case 22: return (b | c) == 0 && float_at(sorts, n, a) != 0;
    case 23: case 24: return b <= 1 && c == 0 ? float_at(sorts, n, a) : 0;
    case 25: return b == 0 && is_format(c) && sort_at(sorts, n, a) == width(c) ? c : 0;
    case 26: return (b | c) == 0 ? width(float_at(sorts, n, a)) : 0;
    case 27: return b <= 1 && is_word(c) && float_at(sorts, n, a) != 0 ? c : 0;
    case 28: return b <= 1 && c == EXTENDED && is_word(sort_at(sorts, n, a)) ? c : 0;
    case 29: return b <= 1 && is_format(c) && float_at(sorts, n, a) != 0 ? c : 0;
    default: return 0;
    }
}

/* Fill the table of sorts, and give the first node without one, or the count. */
static inline size_t fill(const uint64_t *nodes, size_t count, uint16_t *sorts)
{
    for (size_t n = 0; n < count; n++) {
        uint64_t sort = sort_of(nodes + 4 * n, n, sorts);
        if (sort == 0)
            return n;
        sorts[n] = (uint16_t)sort;
    }
    return count;
}

static inline int is_short(size_t nodes_len, size_t count)
{
    return count > MOST || count > nodes_len / 4;
}

uint32_t peer_check(const uint64_t *nodes, size_t nodes_len, size_t count, uint64_t *out, size_t out_len)
{
    uint16_t sorts[MOST + 1];
    if (out_len < 1)
        return TOO_SHORT;
    out[0] = 0;
    if (is_short(nodes_len, count))
        return TOO_SHORT;
    size_t fault = fill(nodes, count, sorts);
    if (fault == count)
        return DONE;
    out[0] = fault;
    return NO_SORT;
}

/* The kinds whose value is given: 1 to 5, 16 to 19, 23, 24, 27 to 29. */
static const uint32_t GIVEN = 0x398f003e;

/* The first node whose given value does not fit, or the count. */
static inline size_t scan(const uint64_t *nodes, size_t count, const uint64_t *given, const uint16_t *sorts)
{
    for (size_t n = 0; n < count; n++)
        if (GIVEN >> nodes[4 * n] & 1 && excess(given + 2 * n, width(sorts[n])))
            return n;
    return count;
}

static inline void put(uint64_t *to, uint64_t lo, uint64_t hi)
{
    to[0] = lo;
    to[1] = hi;
}

/* Give a float of any pattern: every NaN becomes the one. The functions below know of no other. */
static inline void put_float(uint64_t *to, const uint64_t *x, uint64_t format)
{
    uint64_t lo = x[0], hi = x[1];
    if (format == EXTENDED) {
        if ((hi & 0x3fff) == 0x3fff && lo > 0x8000000000000000)
            put(to, 0xc000000000000000, 0x3fff);
        else
            put(to, lo, hi);
    } else if (format == DOUBLE) {
        put(to, lo << 1 > 0xffe0000000000000 ? 0x7ff8000000000000 : lo, 0);
    } else {
        put(to, (lo & 0x7fffffff) > 0x7f800000 ? 0x7fc00000 : lo, 0);
    }
}

static inline int is_nan(const uint64_t *x, uint64_t format)
{
    if (format == EXTENDED)
        return x[1] == 0x3fff && x[0] == 0xc000000000000000;
    return x[0] == (format == DOUBLE ? 0x7ff8000000000000 : 0x7fc00000);
}

/* The number of a pattern that the machine has numbers for. */
static inline double of_double(const uint64_t *x)
{
    union { uint64_t bits; double number; } as = { x[0] };
    return as.number;
}

static inline float of_single(const uint64_t *x)
{
    union { uint32_t bits; float number; } as = { (uint32_t)x[0] };
    return as.number;
}

static inline wide of(const uint64_t *x)
{
    return (wide)x[1] << 64 | x[0];
}

static inline int extended_equal(const uint64_t *x, const uint64_t *y)
{
    if (x[0] != y[0])
        return 0;
    if (x[1] == y[1])
        return !is_nan(x, EXTENDED);
    return x[0] == 0 && ((x[1] | y[1]) & 0x3fff) == 0;
}

/* The NaN is the greatest pattern without a sign: as x it is below nothing, and as y it is asked for. */
static inline int extended_less(const uint64_t *x, const uint64_t *y)
{
    if (y[1] > 0x3fff)
        return of(y) < of(x);
    if (is_nan(y, EXTENDED))
        return 0;
    if (x[1] > 0x3fff)
        return (x[0] | y[0] | (x[1] ^ 0x4000) | y[1]) != 0;
    return of(x) < of(y);
}

static inline int equal(const uint64_t *x, const uint64_t *y, uint64_t format)
{
    if (format == EXTENDED)
        return extended_equal(x, y);
    return format == DOUBLE ? of_double(x) == of_double(y) : of_single(x) == of_single(y);
}

static inline int less(const uint64_t *x, const uint64_t *y, uint64_t format)
{
    if (format == EXTENDED)
        return extended_less(x, y);
    return format == DOUBLE ? of_double(x) < of_double(y) : of_single(x) < of_single(y);
}

/* Give bits hi down to lo of x. */
static inline void extract(uint64_t *to, const uint64_t *x, uint64_t hi, uint64_t lo)
{
    if (hi < 64) {
        put(to, x[0] << (63 - hi) >> (63 - hi + lo), 0);
    } else if (lo >= 64) {
        put(to, x[1] << (127 - hi) >> (127 - hi + lo - 64), 0);
    } else {
        uint64_t above = 127 - hi;
        wide bits = ((wide)(x[1] << above >> above) << 64 | x[0]) >> (lo & 63);
        put(to, (uint64_t)bits, (uint64_t)(bits >> 64));
    }
}

/* Give x above the bits of y; both have so many. */
static inline void concat(uint64_t *to, const uint64_t *x, const uint64_t *y, uint64_t bits, uint64_t both)
{
    if (both <= 64)
        put(to, x[0] << bits | y[0], 0);
    else if (bits < 64)
        put(to, x[0] << bits | y[0], x[1] << bits | x[0] >> (64 - bits));
    else
        put(to, y[0], x[0] << (bits - 64) | y[1]);
}

/* The values of a row's operands. */
#define A (column + 2 * row[1])
#define B (column + 2 * row[2])
#define C (column + 2 * row[3])

/* The values of nodes that were checked: each operand is an earlier node, and each given value fits. */
static inline void run(const uint64_t *nodes, size_t count, const uint64_t *given, const uint16_t *sorts,
                       uint64_t *column)
{
    for (size_t at = 0; at < 2 * count; at += 2) {
        const uint64_t *row = nodes + 2 * at, *taken = given + at, *x;
        uint64_t *to = column + at;
        switch (row[0]) {
        case 1: case 2: case 3: case 4: case 5: case 27: put(to, taken[0], taken[1]); break;
        case 6: put(to, row[1], row[2]); break;
        case 7: put(to, A[0] & B[0], A[1] & B[1]); break;
        case 8: put(to, A[0] ^ B[0], A[1] ^ B[1]); break;
        case 9: put(to, A[0] == B[0] && A[1] == B[1], 0); break;
        case 10: put(to, A[0] & B[0], 0); break;
        case 11: put(to, A[0] | B[0], 0); break;
        case 12: put(to, A[0] ^ 1, 0); break;
        case 13: x = A[0] ? B : C; put(to, x[0], x[1]); break;
        case 14: extract(to, A, row[2], row[3]); break;
        case 15: concat(to, A, B, sorts[row[2]], sorts[at / 2]); break;
        case 20: put(to, equal(A, B, sorts[row[1]]), 0); break;
        case 21: put(to, less(A, B, sorts[row[1]]), 0); break;
        case 22: put(to, is_nan(A, sorts[row[1]]), 0); break;
        case 25: put_float(to, A, row[3]); break;
        case 26: put(to, A[0], A[1]); break;
        case 16: case 17: case 18: case 19: case 23: case 24: case 28: case 29:
            put_float(to, taken, sorts[at / 2]);
            break;
        default: __builtin_unreachable();
        }
    }
}

uint32_t peer_evaluate(const uint64_t *nodes, size_t nodes_len, size_t count, const uint64_t *given, size_t given_len,
                       uint64_t *column, size_t column_len, uint64_t *out, size_t out_len)
{
    uint16_t sorts[MOST + 1];
    if (out_len < 1)
        return TOO_SHORT;
    out[0] = 0;
    if (count > given_len / 2 || count > column_len / 2 || is_short(nodes_len, count))
        return TOO_SHORT;
    size_t fault = fill(nodes, count, sorts);
    if (fault < count) {
        out[0] = fault;
        return NO_SORT;
    }
    fault = scan(nodes, count, given, sorts);
    if (fault < count) {
        out[0] = fault;
        return TOO_WIDE;
    }
    run(nodes, count, given, sorts, column);
    return DONE;
}
