/* What our Hadamard and our turn by an eighth do to a dense register of 12 qubits, in C and in two layouts: one list
   of rows, and four lists of coordinates. For each argument `rows` or `lists` it does 1,000 pairs of a Hadamard and a
   turn, as crates/gate_timing; `check` compares both with a plain reference, gate by gate.

   A coefficient is a + b w + c w^2 + d w^3 with w^4 = -1. A Hadamard makes of each two rows their sum and their
   difference, and divides all by what they have in common, a power of 1 - w. Sum and difference agree in parity, so
   that power is read off the rows before: then sums are written divided, in one pass. The weight is known from the
   step, and stays balanced by the choice between 1 - w and 1 + w. Buffers are a value and the next one, which change
   places after each gate. */
#include <stdint.h>
#include <stdio.h>
#include <stdlib.h>
#include <string.h>

enum { PLACES = 12, ROWS = 1 << PLACES, ROUNDS = 500, LINES = 24 };

typedef struct { int64_t a, b, c, d; } omega;
typedef struct { int64_t x, y; } weight;

/* So far apart that equal rows of the lists don't fall in one set of the cache. */
typedef struct { int64_t at[ROWS + LINES]; } list;
typedef struct { list a, b, c, d; } lists;

/* What a gate divides by, in the order of the power of 1 - w. By both is by 1 - w^2 = (1 - w) (1 + w). */
enum divisor { NOTHING, DELTA, CONJUGATE, BOTH, BOTH_DELTA, BOTH_CONJUGATE, BOTH_TWICE };

#define INLINE static inline __attribute__((always_inline))

INLINE omega plus(omega z, omega u) { return (omega){z.a + u.a, z.b + u.b, z.c + u.c, z.d + u.d}; }
INLINE omega minus(omega z, omega u) { return (omega){z.a - u.a, z.b - u.b, z.c - u.c, z.d - u.d}; }

/* Half of an even number below 2^62, as an unsigned shift, which all processors have for vectors. */
INLINE int64_t half(int64_t n) {
    return (int64_t)(((uint64_t)n + (1ULL << 62)) >> 1) - (1LL << 61);
}

INLINE omega over_delta(omega z) {
    int64_t d = half(z.a + z.b + z.c + z.d), a = z.a - d, b = z.b + a, c = z.c + b;
    return (omega){a, b, c, d};
}

INLINE omega over_conjugate(omega z) {
    int64_t a = half(z.a + z.b + z.c + z.d) - z.c, b = z.b - a, c = z.c - b, d = z.d - c;
    return (omega){a, b, c, d};
}

INLINE omega over_both(omega z) {
    int64_t a = half(z.a - z.c), b = half(z.b - z.d);
    return (omega){a, b, z.a - a, z.b - b};
}

INLINE omega over(omega z, enum divisor by) {
    switch (by) {
    case DELTA: return over_delta(z);
    case CONJUGATE: return over_conjugate(z);
    case BOTH: return over_both(z);
    case BOTH_DELTA: return over_delta(over_both(z));
    case BOTH_CONJUGATE: return over_conjugate(over_both(z));
    case BOTH_TWICE: return over_both(over_both(z));
    default: return z;
    }
}

/* Times w, or times its inverse. */
INLINE omega turned(omega z, int back) {
    return back ? (omega){z.b, z.c, z.d, -z.a} : (omega){-z.d, z.a, z.b, z.c};
}

static weight weight_over(weight of, enum divisor by) {
    if (by >= BOTH)
        of = (weight){of.x / 2, of.y / 2};
    if (by == DELTA || by == BOTH_DELTA)
        return (weight){of.x + of.y, of.y + of.x / 2};
    if (by == CONJUGATE || by == BOTH_CONJUGATE)
        return (weight){of.x - of.y, of.y - of.x / 2};
    return by == BOTH_TWICE ? (weight){of.x / 2, of.y / 2} : of;
}

/* What coordinates of rows have in common: each is even where all numbers that were put in it are even. */
typedef struct { uint64_t sums, halves, neighbours, all; } parities;

INLINE parities with(parities in, uint64_t a, uint64_t b, uint64_t c, uint64_t d) {
    return (parities){in.sums | (a ^ b ^ c ^ d), in.halves | (a ^ c) | (b ^ d), in.neighbours | (a ^ b), in.all | a};
}

/* The divisor, of what has the weight; of two that go, the one that doesn't raise the sum of squares. */
static enum divisor divisor_of(parities of, weight whole) {
    if (of.sums & 1)
        return NOTHING;
    if (of.halves & 1)
        return whole.y > 0 ? CONJUGATE : DELTA;
    if (of.neighbours & 1)
        return BOTH;
    if (of.all & 1)
        return whole.y > 0 ? BOTH_CONJUGATE : BOTH_DELTA;
    return BOTH_TWICE;
}

/* Does it for each two rows `low` and `high` that differ in the bit at a place and are so far apart. */
#define PAIRS(run, ...)                                                                                               \
    for (int begin = 0; begin < ROWS; begin += 2 * (run))                                                             \
        for (int low = begin; low < begin + (run); low++) {                                                           \
            int high = low + (run);                                                                                   \
            __VA_ARGS__                                                                                               \
        }

/* Small distances are constants, so that the compiler can lay such rows side by side. */
#define AT_PLACE(run, function, ...)                                                                                  \
    switch (run) {                                                                                                    \
    case 1: function(1, __VA_ARGS__); break;                                                                          \
    case 2: function(2, __VA_ARGS__); break;                                                                          \
    case 4: function(4, __VA_ARGS__); break;                                                                          \
    default: function(run, __VA_ARGS__);                                                                              \
    }

/* One list of rows. */

INLINE void rows_parities_by(int run, const omega *restrict from, parities *out) {
    parities in = {0, 0, 0, 0};
    PAIRS(run, {
        omega z = from[low], u = from[high];
        in = with(in, z.a ^ u.a, z.b ^ u.b, z.c ^ u.c, z.d ^ u.d);
    })
    *out = in;
}

INLINE void rows_sums_by(int run, const omega *restrict from, omega *restrict to, enum divisor by) {
    PAIRS(run, {
        omega z = from[low], u = from[high];
        to[low] = over(plus(z, u), by);
        to[high] = over(minus(z, u), by);
    })
}

#define BY(divisor) case divisor: AT_PLACE(run, rows_sums_by, from, to, divisor) break;
static void rows_sums(int run, const omega *restrict from, omega *restrict to, enum divisor by) {
    switch (by) { BY(NOTHING) BY(DELTA) BY(CONJUGATE) BY(BOTH) BY(BOTH_DELTA) BY(BOTH_CONJUGATE) BY(BOTH_TWICE) }
}
#undef BY

static weight rows_hadamard(int place, const omega *from, omega *to, weight of) {
    parities in;
    AT_PLACE(1 << place, rows_parities_by, from, &in)
    of = (weight){2 * of.x, 2 * of.y};
    enum divisor by = divisor_of(in, of);
    rows_sums(1 << place, from, to, by);
    return weight_over(of, by);
}

INLINE void rows_turn_by(int run, const omega *restrict from, omega *restrict to, int back) {
    PAIRS(run, {
        to[low] = from[low];
        to[high] = turned(from[high], back);
    })
}

static void rows_turn(int place, const omega *from, omega *to, int back) {
    if (back)
        AT_PLACE(1 << place, rows_turn_by, from, to, 1)
    else
        AT_PLACE(1 << place, rows_turn_by, from, to, 0)
}

/* Four lists of coordinates. */

#define GET(from, row) ((omega){(from)->a.at[row], (from)->b.at[row], (from)->c.at[row], (from)->d.at[row]})
#define PUT(to, row, z)                                                                                               \
    do {                                                                                                              \
        omega it = (z);                                                                                               \
        (to)->a.at[row] = it.a, (to)->b.at[row] = it.b, (to)->c.at[row] = it.c, (to)->d.at[row] = it.d;               \
    } while (0)

INLINE void lists_parities_by(int run, const lists *restrict from, parities *out) {
    parities in = {0, 0, 0, 0};
    PAIRS(run, {
        omega z = GET(from, low), u = GET(from, high);
        in = with(in, z.a ^ u.a, z.b ^ u.b, z.c ^ u.c, z.d ^ u.d);
    })
    *out = in;
}

INLINE void lists_sums_by(int run, const lists *restrict from, lists *restrict to, enum divisor by) {
    PAIRS(run, {
        omega z = GET(from, low), u = GET(from, high);
        PUT(to, low, over(plus(z, u), by));
        PUT(to, high, over(minus(z, u), by));
    })
}

#define BY(divisor) case divisor: AT_PLACE(run, lists_sums_by, from, to, divisor) break;
static void lists_sums(int run, const lists *restrict from, lists *restrict to, enum divisor by) {
    switch (by) { BY(NOTHING) BY(DELTA) BY(CONJUGATE) BY(BOTH) BY(BOTH_DELTA) BY(BOTH_CONJUGATE) BY(BOTH_TWICE) }
}
#undef BY

static weight lists_hadamard(int place, const lists *from, lists *to, weight of) {
    parities in;
    AT_PLACE(1 << place, lists_parities_by, from, &in)
    of = (weight){2 * of.x, 2 * of.y};
    enum divisor by = divisor_of(in, of);
    lists_sums(1 << place, from, to, by);
    return weight_over(of, by);
}

INLINE void lists_turn_by(int run, const lists *restrict from, lists *restrict to, int back) {
    PAIRS(run, {
        PUT(to, low, GET(from, low));
        PUT(to, high, turned(GET(from, high), back));
    })
}

static void lists_turn(int place, const lists *from, lists *to, int back) {
    if (back)
        AT_PLACE(1 << place, lists_turn_by, from, to, 1)
    else
        AT_PLACE(1 << place, lists_turn_by, from, to, 0)
}

/* The plain reference: each step a pass of its own, by the rules as they are stated. */

static omega plain[ROWS];
static weight plain_weight;

static int all_even(int64_t (*of)(omega)) {
    for (int row = 0; row < ROWS; row++)
        if (of(plain[row]) % 2 != 0)
            return 0;
    return 1;
}

static int64_t sum(omega z) { return z.a + z.b + z.c + z.d; }
static int64_t even_halves(omega z) { return (z.a - z.c) % 2 != 0 || (z.b - z.d) % 2 != 0; }

/* The product with p + q w + r w^2 + s w^3. */
static omega times(omega z, int64_t p, int64_t q, int64_t r, int64_t s) {
    return (omega){z.a * p - z.b * s - z.c * r - z.d * q, z.a * q + z.b * p - z.c * s - z.d * r,
                   z.a * r + z.b * q + z.c * p - z.d * s, z.a * s + z.b * r + z.c * q + z.d * p};
}

/* All rows times p + q w + r w^2 + s w^3, over a number that divides them. */
static void plain_times(int64_t p, int64_t q, int64_t r, int64_t s, int64_t over) {
    for (int row = 0; row < ROWS; row++) {
        omega z = times(plain[row], p, q, r, s);
        plain[row] = (omega){z.a / over, z.b / over, z.c / over, z.d / over};
    }
}

static weight plain_sum_of_weights(void) {
    weight of = {0, 0};
    for (int row = 0; row < ROWS; row++) {
        omega z = plain[row];
        of.x += z.a * z.a + z.b * z.b + z.c * z.c + z.d * z.d;
        of.y += z.a * z.b + z.b * z.c + z.c * z.d - z.d * z.a;
    }
    return of;
}

static void plain_hadamard(int place) {
    for (int row = 0; row < ROWS; row++)
        if (!(row >> place & 1)) {
            omega z = plain[row], u = plain[row | 1 << place];
            plain[row] = plus(z, u);
            plain[row | 1 << place] = minus(z, u);
        }
    while (all_even(even_halves))
        plain_times(1, 0, 1, 0, 2);
    while (all_even(sum)) {
        if (plain_sum_of_weights().y > 0)
            plain_times(1, -1, 1, -1, 2);
        else
            plain_times(1, 1, 1, 1, 2);
    }
    plain_weight = plain_sum_of_weights();
    while (plain_weight.x < 2 * plain_weight.y) {
        plain_times(-1, 1, 0, -1, 1);
        plain_weight = plain_sum_of_weights();
    }
    while (plain_weight.x < -2 * plain_weight.y) {
        plain_times(1, 1, 0, -1, 1);
        plain_weight = plain_sum_of_weights();
    }
}

static void plain_turn(int place, int back) {
    for (int row = 0; row < ROWS; row++)
        if (row >> place & 1)
            plain[row] = back ? times(plain[row], 0, 0, 0, -1) : times(plain[row], 0, 1, 0, 0);
}

/* The registers: a value and room for the next, which change places. */

static omega rows_room[2][ROWS] __attribute__((aligned(64)));
static lists lists_room[2] __attribute__((aligned(64)));
static int rows_now, lists_now;
static weight rows_weight, lists_weight;

static void rows_gate(int place, int turns, int back) {
    if (turns)
        rows_turn(place, rows_room[rows_now], rows_room[!rows_now], back);
    else
        rows_weight = rows_hadamard(place, rows_room[rows_now], rows_room[!rows_now], rows_weight);
    rows_now = !rows_now;
}

static void lists_gate(int place, int turns, int back) {
    if (turns)
        lists_turn(place, &lists_room[lists_now], &lists_room[!lists_now], back);
    else
        lists_weight = lists_hadamard(place, &lists_room[lists_now], &lists_room[!lists_now], lists_weight);
    lists_now = !lists_now;
}

static void plain_gate(int place, int turns, int back) {
    if (turns)
        plain_turn(place, back);
    else
        plain_hadamard(place);
}

static void check(void) {
    for (int row = 0; row < ROWS; row++) {
        omega one = rows_room[rows_now][row], other = GET(&lists_room[lists_now], row);
        if (memcmp(&one, &plain[row], sizeof one) != 0 || memcmp(&other, &plain[row], sizeof other) != 0) {
            fprintf(stderr, "row %d differs\n", row);
            exit(1);
        }
    }
    if (memcmp(&rows_weight, &plain_weight, sizeof plain_weight) != 0 ||
        memcmp(&lists_weight, &plain_weight, sizeof plain_weight) != 0) {
        fprintf(stderr, "weights differ\n");
        exit(1);
    }
}

static void all_gate(int place, int turns, int back) {
    rows_gate(place, turns, back);
    lists_gate(place, turns, back);
    plain_gate(place, turns, back);
    check();
}

/* Gates in a mixed order, which come to sums with each divisor, and then Hadamards and turns at one place, which come to
   large coordinates. */
static void check_many(void) {
    uint32_t seed = 1;
    for (int gate = 0; gate < 600; gate++) {
        seed = seed * 1664525 + 1013904223;
        all_gate((seed >> 8) % PLACES, (seed >> 20) % 3 != 0, (seed >> 28) & 1);
    }
    for (int gate = 0; gate < 60; gate++)
        all_gate(0, gate % 2, gate % 3 == 0);
}

static void begin(void) {
    weight one = {1, 0};
    plain[0] = rows_room[0][0] = (omega){1, 0, 0, 0};
    lists_room[0].a.at[0] = 1;
    plain_weight = rows_weight = lists_weight = one;
    for (int place = 0; place < PLACES; place++) {
        all_gate(place, 0, 0);
        all_gate(place, 1, 0);
    }
}

/* A Hadamard and a turn, and then their inverses. */
static void pairs(void (*gate)(int, int, int)) {
    for (int round = 0; round < ROUNDS; round++) {
        gate(round % PLACES, 0, 0);
        gate(round % PLACES, 1, 0);
        gate(round % PLACES, 1, 1);
        gate(round % PLACES, 0, 0);
    }
}

int main(int argc, char **argv) {
    begin();
    for (int word = 1; word < argc; word++) {
        if (strcmp(argv[word], "rows") == 0)
            pairs(rows_gate);
        else if (strcmp(argv[word], "lists") == 0)
            pairs(lists_gate);
        else
            check_many();
    }
    printf("x %lld and %lld\n", (long long)rows_weight.x, (long long)lists_weight.x);
    return 0;
}
