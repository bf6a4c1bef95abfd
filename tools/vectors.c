/* Prints operands for the program replay_numbers, or the answers that are stored beside it: see tools/vectors.
 *
 * The answers are the hardware's: its instructions for a fused multiply-add and for a ceiling (vfmadd and roundsd of x86-64, fmadd and
 * frintp of aarch64), in the default modes (nearest even, subnormals kept); and C's `fmod`, which is exact. The seed is fixed, so the list
 * is the same every time.
 *
 * A line is `m A B C`, answered by A * B + C rounded once; `u X`, by the least whole number at or above X; `r X`, by X less a whole multiple
 * of TAU, at most PI in size; or `l X STEP I`, by I * STEP + X rounded once, where I is a whole number. Each other number is a double's
 * bits in 16 lowercase hex digits, and a NaN's are 7ff8000000000000.
 */
#include <math.h>
#include <stdint.h>
#include <stdio.h>
#include <string.h>

#define SIGN 0x8000000000000000u
#define FRACTION 0x000fffffffffffffu
#define INFINITE 0x7ff0000000000000u
#define COUNT(a) (sizeof(a) / sizeof((a)[0]))

/* ---- doubles and their bits */

static double of(uint64_t bits)
{
    double x;
    memcpy(&x, &bits, sizeof x);
    return x;
}

static uint64_t bits_of(double x)
{
    uint64_t bits;
    memcpy(&bits, &x, sizeof bits);
    return bits;
}

/* sign, exponent field and fraction */
static uint64_t made(uint64_t sign, int field, uint64_t fraction)
{
    return (sign & 1) << 63 | (uint64_t)field << 52 | (fraction & FRACTION);
}

static int clamped(int n, int least, int most)
{
    return n < least ? least : n > most ? most : n;
}

/* ---- the four kinds of line */

/* whether answers are printed, and not operands */
static int answers;

static void answered(char letter, double x)
{
    printf("%c %016lx\n", letter, x != x ? 0x7ff8000000000000u : bits_of(x));
}

static void fused(uint64_t a, uint64_t b, uint64_t c)
{
    if (answers)
        answered('m', fma(of(a), of(b), of(c)));
    else
        printf("m %016lx %016lx %016lx\n", a, b, c);
}

static void ceiling(uint64_t x)
{
    if (answers)
        answered('u', ceil(of(x)));
    else
        printf("u %016lx\n", x);
}

static void angle(uint64_t x)
{
    const double tau = of(0x401921fb54442d18u), pi = of(0x400921fb54442d18u);
    double r = fmod(of(x), tau);
    if (answers)
        answered('r', r > pi ? r - tau : r < -pi ? r + tau : r);
    else
        printf("r %016lx\n", x);
}

static void point(uint64_t x, uint64_t step, uint64_t i)
{
    if (answers)
        answered('l', fma((double)i, of(step), of(x)));
    else
        printf("l %016lx %016lx %016lx\n", x, step, i);
}

/* ---- chance: splitmix64. C leaves open in which order the operands of an expression are worked out, so each has one draw at most. */

static uint64_t state = 0x536b696572726131u;

static uint64_t chance(void)
{
    uint64_t z = state += 0x9e3779b97f4a7c15u;
    z = (z ^ z >> 30) * 0xbf58476d1ce4e5b9u;
    z = (z ^ z >> 27) * 0x94d049bb133111ebu;
    return z ^ z >> 31;
}

static int below(int n)
{
    return (int)(chance() % (uint64_t)n);
}

/* a fraction: often one with long runs of equal digits */
static uint64_t fraction(void)
{
    uint64_t run = ((uint64_t)1 << below(52)) - 1;
    switch (below(6)) {
    case 0: return 0;
    case 1: return FRACTION;
    case 2: return run;
    case 3: return FRACTION ^ run;
    default: return chance() & FRACTION;
    }
}

static uint64_t normal(int field)
{
    uint64_t sign = chance();
    return made(sign, field, fraction());
}

static uint64_t subnormal(void)
{
    uint64_t digits = chance();
    return (digits & SIGN) | (digits & FRACTION) >> below(52) | 1;
}

/* a number whose significand is an odd multiple of 2^26, so that the product of two has its last digit half way below a double's */
static uint64_t half_way(int field)
{
    uint64_t digits = chance();
    return made(digits >> 63, field, (digits & FRACTION) >> 27 << 27 | (uint64_t)1 << 26);
}

/* ---- special values: 0, 1, infinity, the smallest and the largest subnormal, the smallest normal, the largest finite, the numbers
 * next to 1, each with both signs; and a NaN */

static uint64_t special[19];

static void make_special(void)
{
    static const uint64_t plain[] = {
        0, 0x3ff0000000000000u, INFINITE, 1, FRACTION, 0x0010000000000000u, 0x7fefffffffffffffu, 0x3ff0000000000001u,
        0x3fefffffffffffffu,
    };
    for (size_t i = 0; i < COUNT(plain); i++) {
        special[2 * i] = plain[i];
        special[2 * i + 1] = plain[i] | SIGN;
    }
    special[18] = 0x7ff8000000000000u;
}

/* a third of all triples, so chosen that every pair of values stands in every two of the three places */
static void special_triples(void)
{
    for (size_t i = 0; i < COUNT(special); i++)
        for (size_t j = 0; j < COUNT(special); j++)
            for (size_t k = 0; k < COUNT(special); k++)
                if ((i + j + k) % 3 == 0)
                    fused(special[i], special[j], special[k]);
}

/* ---- classes of fused multiply-add */

/* the addend's exponent from 130 below the product's to 130 above it, with like and unlike signs */
static void every_exponent_relation(void)
{
    for (int d = -130; d <= 130; d++)
        for (int k = 0; k < 4; k++) {
            int ea = 823 + below(400);
            int eb = 823 + below(400);
            uint64_t a = normal(ea);
            uint64_t b = normal(eb);
            uint64_t like = (a ^ b) >> 63;
            uint64_t c = made(like ^ (uint64_t)k, ea + eb - 1023 + d, k < 2 ? fraction() : chance());
            fused(a, b, c);
        }
}

/* the addend is minus the rounded product, or a few units in the last place beside that */
static void cancellation(void)
{
    for (int i = 0; i < 80; i++) {
        uint64_t a = normal(523 + below(1000));
        uint64_t b = normal(923 + below(200));
        uint64_t p = bits_of(of(a) * of(b)) ^ SIGN;
        for (int n = -3; n <= 3; n++)
            fused(a, b, p + (uint64_t)n);
    }
}

/* subnormal operands; products among or below the subnormals; results at the edge of the normal numbers */
static void around_the_subnormals(void)
{
    for (int i = 0; i < 150; i++) {
        uint64_t a = subnormal();
        uint64_t b = normal(1 + below(2046));
        uint64_t c = i % 2 == 0 ? subnormal() : normal(1 + below(1100));
        fused(a, b, c);
        fused(b, a, c);
    }
    for (int i = 0; i < 300; i++) {
        int ea = 1 + below(1100);
        int eb = clamped(1023 - ea + below(180) - 120, 1, 2046);
        uint64_t a = normal(ea);
        uint64_t b = normal(eb);
        uint64_t c = i % 3 == 0 ? chance() & SIGN : i % 3 == 1 ? subnormal() : normal(1 + below(3));
        fused(a, b, c);
    }
}

/* sums just below, at and just over half a unit above the largest finite number; and products about as large as it */
static void around_the_overflow(void)
{
    static const uint64_t edge[] = {
        0x7c90000000000000u, 0x7c8fffffffffffffu, 0x7c90000000000001u, 0x7ca0000000000000u, 0x7c80000000000000u, 1, 0,
        0x7fefffffffffffffu,
    };
    static const uint64_t most[] = {0x7fefffffffffffffu, 0x7feffffffffffffeu, 0x7fe0000000000000u};
    static const uint64_t one[] = {0x3ff0000000000000u, 0x3ff0000000000001u, 0x3fefffffffffffffu, 0x4000000000000000u};
    for (size_t i = 0; i < COUNT(edge); i++)
        for (size_t j = 0; j < COUNT(most); j++)
            for (size_t k = 0; k < COUNT(one); k++)
                for (uint64_t s = 0; s < 2; s++) {
                    fused(most[j], one[k], edge[i] ^ s << 63);
                    if (s == 0)
                        fused(most[j] | SIGN, one[k], edge[i] | SIGN);
                }
    for (int i = 0; i < 200; i++) {
        int ea = 1024 + below(1023);
        uint64_t a = normal(ea);
        uint64_t b = normal(clamped(3069 - ea + below(4) - 2, 1, 2046));
        uint64_t c = normal(2046 - below(110));
        fused(a, b, c);
    }
}

/* The product is half a unit in the last place of the addend, exactly; or off from that by a bit 52 or 104 places further down.
 * Then the product itself lies half way between two doubles, and the addend is 0 or the smallest bit there is. */
static void ties(void)
{
    for (int i = 0; i < 100; i++) {
        int field = 500 + below(1000);
        uint64_t c = normal(field);
        uint64_t sign = chance();
        int eb = field - 53;
        fused(0x3ff0000000000000u, made(sign, eb, 0), c);
        fused(0x3ff0000000000001u, made(sign, eb, 0), c);
        fused(0x3fefffffffffffffu, made(sign, eb, 0), c);
        fused(0x3ff0000000000001u, made(sign, eb - 1, FRACTION - 1), c);
    }
    for (int i = 0; i < 50; i++) {
        uint64_t a = half_way(1023);
        uint64_t b = half_way(823 + below(400));
        fused(a, b, chance() & SIGN);
        fused(a, b, 1);
        fused(a, b, SIGN | 1);
        fused(a, b, normal(523));
    }
}

static void any_bits(void)
{
    for (int i = 0; i < 400; i++) {
        uint64_t a = chance();
        uint64_t b = chance();
        uint64_t c = chance();
        fused(a, b, c);
    }
}

/* ---- classes of ceiling */

/* two numbers of every exponent field, one of each sign; eight where a number can have whole digits and others */
static void every_exponent(void)
{
    for (int field = 0; field < 2047; field++)
        for (uint64_t sign = 0; sign < 2; sign++) {
            ceiling(made(sign, field, chance()));
            if (1020 <= field && field <= 1077) {
                ceiling(made(sign, field, 0));
                ceiling(made(sign, field, FRACTION));
                ceiling(made(sign, field, fraction()));
            }
        }
}

/* powers of two up to 2^53, the whole numbers beside them and halves, each with its neighbours */
static void around_whole_numbers(void)
{
    for (int e = 0; e <= 53; e += e < 4 || e > 48 ? 1 : 4) {
        double p = (double)((uint64_t)1 << e);
        const double beside[] = {p, p + 1.0, p - 1.0, p + 0.5};
        for (size_t i = 0; i < COUNT(beside); i++)
            for (int n = -1; n <= 1; n++) {
                uint64_t x = bits_of(beside[i]);
                if (x == 0 && n < 0)
                    continue;
                ceiling(x + (uint64_t)n);
                ceiling((x + (uint64_t)n) | SIGN);
            }
    }
}

static void special_ceilings(void)
{
    static const uint64_t nans[] = {0xfff8000000000000u, 0x7ff0000000000001u, 0xffffffffffffffffu};
    for (size_t i = 0; i < COUNT(special); i++)
        ceiling(special[i]);
    for (size_t i = 0; i < COUNT(nans); i++)
        ceiling(nans[i]);
    ceiling(bits_of(0.5));
    ceiling(bits_of(-0.5));
    for (int i = 0; i < 40; i++)
        ceiling(subnormal());
}

/* ---- classes of angles */

/* up to 2^e turns and more: none, some, too many for two exact products */
static void angles_of_every_size(void)
{
    for (int field = 1015; field < 1080; field++)
        for (int k = 0; k < 2; k++)
            angle(normal(field));
    for (int i = 0; i < 40; i++)
        angle(normal(1 + below(2046)));
    for (size_t i = 0; i < COUNT(special); i++)
        angle(special[i]);
}

/* multiples of PI, and the doubles beside them; the double PI is exact, so these are what an exact multiple rounds to */
static void around_half_turns(void)
{
    for (int i = 0; i < 48; i++) {
        int most = 1 << (1 + i % 24);
        uint64_t x = bits_of(of(0x400921fb54442d18u) * (1 + below(most)));
        for (int n = -2; n <= 2; n++)
            angle((x + (uint64_t)n) | (uint64_t)(i & 1) << 63);
    }
}

/* ---- classes of points */

/* heads and tails as envelopes have them: a width and a plateau in samples, not always whole */
static void parts_of_envelopes(void)
{
    for (int i = 0; i < 120; i++) {
        double rate = 1e9 * (1 + below(8)) / (1 + below(3));
        double dt = 1 / rate;
        double width = (1 + below(400)) * 1e-9;
        double flat = below(200) * 1e-9;
        double late = i % 2 == 0 ? 0.0 : dt * (double)(chance() >> 11) / 9007199254740992.0;
        double t1 = width / 2 - late;
        double t2 = width / 2 + flat - late;
        uint64_t step = bits_of(dt / width);
        point(bits_of(-t1 / width), step, (uint64_t)below(64));
        point(bits_of(fma(ceil(t2 * rate), dt, -t2) / width), step, (uint64_t)below(64));
    }
}

/* starts from the smallest to 1 with steps from 2^-34 to 1, beside the edges of what sums are taken for too */
static void any_parts(void)
{
    for (int i = 0; i < 240; i++) {
        uint64_t x = i % 3 == 0 ? normal(980 + below(44)) : i % 3 == 1 ? normal(930 + below(60)) : normal(1 + below(1023));
        uint64_t step = normal(989 + below(34)) & ~SIGN;
        point(x, step, (uint64_t)below(64));
    }
    static const uint64_t edge[] = {
        0x3db0000000000000u, 0x3e10000000000000u, 0x3fe8000000000000u, 0x3f9f07c1f07c1f08u, 0x3fa0000000000000u, 0x3a80000000000000u,
        0x3a90000000000000u, 0,
    };
    for (size_t i = 0; i < COUNT(edge); i++)
        for (size_t j = 0; j < COUNT(edge); j++)
            for (int n = -1; n <= 1; n++)
                if (edge[i] + edge[j] != 0 || n == 0)
                    point((edge[i] + (uint64_t)(edge[i] ? n : 0)) | (uint64_t)(j & 1) << 63, edge[j] + (uint64_t)(edge[j] ? n : 0), (uint64_t)below(64));
    for (size_t i = 0; i < COUNT(special); i++) {
        point(special[i], 0x3f80000000000000u, (uint64_t)below(64));
        point(0x3fc0000000000000u, special[i], (uint64_t)below(64));
    }
}

int main(int count, char **words)
{
    answers = count > 1 && strcmp(words[1], "answers") == 0;
    make_special();
    special_triples();
    every_exponent_relation();
    cancellation();
    around_the_subnormals();
    around_the_overflow();
    ties();
    any_bits();
    special_ceilings();
    every_exponent();
    around_whole_numbers();
    angles_of_every_size();
    around_half_turns();
    parts_of_envelopes();
    any_parts();
    return 0;
}
