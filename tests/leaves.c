/* Compares `narrow` and `cross` of the crate vectors with this machine's own arithmetic, pattern by pattern, the bits of a NaN too. */
#include <inttypes.h>
#include <math.h>
#include <stdint.h>
#include <stdio.h>
#include <string.h>

typedef struct {
    float x, y, z;
} Vec3;

uint32_t vectors_narrow(double x);
Vec3 vectors_cross(Vec3 a, Vec3 b);

enum { NORMAL, SUBNORMAL, ZERO, INFINITE, NOT_A_NUMBER, KINDS };
static const char *const KIND[KINDS] = {"normal", "subnormal", "zero", "infinite", "NaN"};

static int passed, failed;
static uint64_t compared, wrong, seen[KINDS];

static double wide(uint64_t b) {
    double x;
    memcpy(&x, &b, 8);
    return x;
}

static float single(uint32_t b) {
    float x;
    memcpy(&x, &b, 4);
    return x;
}

static uint64_t wide_bits(double x) {
    uint64_t b;
    memcpy(&b, &x, 8);
    return b;
}

static uint32_t bits(float x) {
    uint32_t b;
    memcpy(&b, &x, 4);
    return b;
}

/* The machine's NaNs have many patterns; what is wanted has one, 7FC00000. */
static uint32_t wanted(float machine) { return machine != machine ? 0x7fc00000 : bits(machine); }

static uint64_t random64(void) {
    static uint64_t s = 88172645463325252u;
    s ^= s << 13;
    s ^= s >> 7;
    return s ^= s << 17;
}

static uint32_t random32(void) { return (uint32_t)(random64() >> 32); }

static void compare(uint32_t got, uint32_t due, const char *what, uint64_t of) {
    uint32_t m = due & 0x7fffffff;
    seen[m > 0x7f800000 ? NOT_A_NUMBER : m == 0x7f800000 ? INFINITE : m == 0 ? ZERO : m < 0x800000 ? SUBNORMAL : NORMAL]++;
    compared++;
    if (got != due && wrong++ < 5)
        printf("differs: %s of %016" PRIx64 ": %08" PRIx32 ", not %08" PRIx32 "\n", what, of, got, due);
}

static void narrow(uint64_t b) {
    volatile float machine = (float)wide(b);
    compare(vectors_narrow(wide(b)), wanted(machine), "narrow", b);
}

static void cross(const uint32_t v[6]) {
    Vec3 a = {single(v[0]), single(v[1]), single(v[2])}, b = {single(v[3]), single(v[4]), single(v[5])};
    Vec3 r = vectors_cross(a, b);
    double p[3] = {(double)a.y * b.z, (double)a.z * b.x, (double)a.x * b.y};
    double q[3] = {(double)a.z * b.y, (double)a.x * b.z, (double)a.y * b.x};
    float got[3] = {r.x, r.y, r.z};
    for (int i = 0; i < 3; i++) {
        volatile float machine = (float)(p[i] - q[i]);
        compare(bits(got[i]), wanted(machine), "cross", v[i]);
    }
}

/* A family passes where nothing differs and it gave each kind of result that it is meant to give. */
static void family(const char *name, unsigned kinds) {
    int ok = wrong == 0;
    printf("%-28s %9" PRIu64 " compared", name, compared);
    for (int k = 0; k < KINDS; k++) {
        printf(", %" PRIu64 " %s", seen[k], KIND[k]);
        ok = ok && (seen[k] > 0 || !(kinds >> k & 1));
    }
    printf("\n");
    if (ok)
        passed++;
    else {
        failed++;
        printf("failed: %s: %" PRIu64 " differ\n", name, wrong);
    }
    compared = wrong = 0;
    memset(seen, 0, sizeof seen);
}

#define ALL ((1u << KINDS) - 1)

/* Each exponent, both signs; each place where the digits may be cut, with a tie there, and its two neighbours, after random digits. */
static void every_exponent(void) {
    for (uint64_t head = 0; head < 4096; head++)
        for (int cut = 0; cut < 52; cut++) {
            uint64_t kept = random64() % (1ull << 52) >> (cut + 1) << (cut + 1);
            uint64_t tie = head << 52 | kept | 1ull << cut;
            narrow(tie - 1), narrow(tie), narrow(tie + 1), narrow(head << 52 | kept);
        }
    family("narrow, every exponent", ALL);
}

/* Half way between an f32 and the next, from the smallest subnormal to the largest and infinity; and the f64 on either side. */
static void half_way(uint32_t b) {
    uint64_t next = b == 0x7f7fffff ? wide_bits(0x1p128) : wide_bits(single(b + 1));
    double middle = (single(b) + wide(next)) / 2;
    for (int sign = 0; sign < 2; sign++) {
        uint64_t m = wide_bits(sign ? -middle : middle);
        narrow(m - 1), narrow(m), narrow(m + 1);
    }
}

static void halves(void) {
    for (uint32_t i = 0; i < 1000000; i++)
        half_way(random32() % 0x7f800000);
    family("narrow, half way", 1u << NORMAL);
    for (uint32_t b = 0; b < 0x800000; b += 1 + random32() % 16)
        half_way(b);
    half_way(0), half_way(1), half_way(0x7fffff);
    family("narrow, half way, subnormal", 1u << SUBNORMAL | 1u << ZERO);
    for (uint32_t b = 0x7f7fffff; b > 0x7f7fffff - 100000; b--)
        half_way(b);
    family("narrow, half way, largest", 1u << NORMAL | 1u << INFINITE);
}

static void ends(void) {
    for (uint64_t i = 0; i < 200000; i++)
        for (uint64_t sign = 0; sign < 2; sign++) {
            uint64_t s = sign << 63;
            narrow(s | i), narrow(s | (0x7ff0000000000000 - i)), narrow(s | (0x7ff0000000000000 + i)), narrow(s | (0x7fffffffffffffff - i));
            narrow(s | (0x47efffffe0000000 + i)), narrow(s | (0x47f0000000000000 + i)), narrow(s | (0x36a0000000000000 - i)), narrow(s | (0x36900000000000ff - i % 256));
        }
    family("narrow, ends of the range", ALL);
}

static void at_random(void) {
    for (int i = 0; i < 4000000; i++)
        narrow(random64());
    for (int i = 0; i < 4000000; i++)
        narrow((random64() & 0x800fffffffffffff) | (860 + random64() % 300) << 52);
    family("narrow, random", ALL);
}

/* Six random numbers whose exponents lie in a stretch of `width` from `low` on. */
static void crosses(const char *name, uint32_t low, uint32_t width, unsigned kinds) {
    for (int i = 0; i < 1000000; i++) {
        uint32_t v[6];
        for (int j = 0; j < 6; j++)
            v[j] = (random32() & 0x807fffff) | (low + random32() % width) << 23;
        cross(v);
    }
    family(name, kinds);
}

/* Products that nearly cancel, so that the f64 difference keeps few digits. */
static void cancelling(void) {
    for (int i = 0; i < 1000000; i++) {
        uint32_t v[6];
        for (int j = 0; j < 3; j++) {
            v[j] = (random32() & 0x807fffff) | (100 + random32() % 50) << 23;
            v[j + 3] = v[j] + random32() % 4;
        }
        cross(v);
    }
    family("cross, cancelling", 1u << NORMAL | 1u << ZERO);
}

int main(void) {
    every_exponent();
    halves();
    ends();
    at_random();
    crosses("cross, all exponents", 0, 256, ALL);
    crosses("cross, middle exponents", 97, 60, 1u << NORMAL);
    crosses("cross, small exponents", 40, 40, 1u << NORMAL | 1u << SUBNORMAL | 1u << ZERO);
    crosses("cross, large exponents", 180, 60, 1u << NORMAL | 1u << INFINITE);
    cancelling();
    printf("%d passed, %d failed\n", passed, failed);
    return failed != 0;
}
