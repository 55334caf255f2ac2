/* How many divisions a square root takes: the steps of crates/spread/src/squareroot.rt, written again and counted, over numbers at which it should take most
   and over numbers drawn at random. cc -O2 tools/divisions.c -lm -o target/divisions && target/divisions */
#include <math.h>
#include <stdint.h>
#include <stdio.h>
#include <stdlib.h>

static uint64_t table[1024], counts[8], highest;

static uint64_t start(uint64_t x) {
    int digits = 64 - __builtin_clzll(x), half = digits > 9 ? (digits - 9) / 2 : 0;
    return table[x >> (2 * half)] << half;
}

/* divisions of the root of x now, and of Newton's method as it was before the table: from a power of two, whose first division was a shift */
static int now(uint64_t x) {
    if (x < 1024) return 0;
    uint64_t r = (start(x) + x / start(x)) / 2;
    int divisions = 1;
    for (; x < r * r; divisions++) r = (r + x / r) / 2;
    if (r * r > x || (r + 1) * (r + 1) <= x || start(x) > r || 16 * (r - start(x)) > start(x)) {
        printf("wrong at %llu\n", (unsigned long long)x);
        exit(1);
    }
    return divisions;
}

static int before(uint64_t x) {
    if (x == 0) return 0;
    int shift = (64 - __builtin_clzll(x)) / 2, divisions = 1;
    uint64_t r = (((uint64_t)1 << shift) + (x >> shift)) / 2;
    for (uint64_t q = x / r; q < r; q = x / r, divisions++) r = (r + q) / 2;
    return divisions;
}

static void count(uint64_t x) {
    if (x >= 1024 && x <= highest) counts[now(x)]++;
}

static uint64_t drawn(void) {
    static uint64_t state = 88172645463325252u;
    state ^= state << 13, state ^= state >> 7, state ^= state << 17;
    return state;
}

static void run(const char *name, uint64_t up_to) {
    highest = up_to;
    for (uint64_t x = 1024; x < 1 << 22; x++) count(x);
    /* about each entry's first number, however many digits were cut off */
    for (int half = 0; half <= 26; half++)
        for (uint64_t j = 256; j < 1024; j++)
            for (int k = -600; k <= 600; k++) count((j << (2 * half)) + k);
    /* just below a square, and anywhere, by size and by length */
    for (int i = 0; i < 20000000; i++) {
        uint64_t r = drawn() % (uint64_t)sqrt((double)up_to) + 1;
        count(r * r - 1), count(drawn() % up_to), count(drawn() >> (2 + drawn() % 52));
    }
    printf("%s:", name);
    for (int i = 1; i < 8; i++) printf(" %d division%s %llu%s", i, i == 1 ? "" : "s", (unsigned long long)counts[i], i < 7 ? "," : "\n"), counts[i] = 0;
}

/* the numbers below up_to, on average */
static void average(uint64_t up_to) {
    int draws = 10000000;
    double now_sum = 0, before_sum = 0;
    for (int i = 0; i < draws; i++) {
        uint64_t x = drawn() % up_to;
        now_sum += now(x), before_sum += before(x);
    }
    printf("on average: before %.1f, now %.1f\n", before_sum / draws, now_sum / draws);
}

/* the roots of the bench's year of ten engines with the eleventh: its numbers are k * k * V / (n * (n - 1)) */
static void year(void) {
    int now_sum = 0, before_sum = 0, roots = 0;
    for (int co = 0; co < 2; co++) {
        uint64_t sum = 0, squares = 0;
        for (uint64_t n = 1; n <= 11; n++) {
            uint64_t result = co ? 5000 + n * 71 % 257 : 700 + n * 37 % 101;
            sum += result, squares += result * result;
            if (n == 1) continue;
            uint64_t x = 1024 * 1024 * (n * squares - sum * sum) / (n * (n - 1));
            now_sum += now(x), before_sum += before(x), roots++;
        }
    }
    printf("%d roots of an engine command on ten engines: before %d, now %d\n", roots, before_sum, now_sum);
}

int main(void) {
    for (uint64_t j = 0, r = 0; j < 1024; table[j++] = r) r += (r + 1) * (r + 1) <= j;
    run("up to 210,000,000,000,000", 210000000000000u);
    run("below 2^62", ((uint64_t)1 << 62) - 1);
    average(210000000000000u);
    year();
    return 0;
}
