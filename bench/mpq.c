// The work of the program bench_fractions, done by GMP's mpq: the same pseudo-random operands, and the same sums over the
// results, where a result counts as wide if a part of it is above 9223372036854775807.
//     gcc -O2 bench/mpq.c -o mpq -lgmp && ./mpq 1
#include <gmp.h>
#include <stdint.h>
#include <stdio.h>
#include <stdlib.h>
#include <string.h>

enum { PAIRS = 1024 };

static uint64_t state;

static uint64_t next(void) {
    state ^= state << 13;
    state ^= state >> 7;
    state ^= state << 17;
    return state;
}

static int64_t below(uint64_t limit) { return (int64_t)(next() % limit) + 1; }

static void fraction(mpq_t q, uint64_t num_limit, uint64_t den_limit) {
    int64_t num = below(num_limit);
    int64_t den = below(den_limit);
    mpz_set_si(mpq_numref(q), num);
    mpz_set_si(mpq_denref(q), den);
    mpq_canonicalize(q);
    if (next() % 2 != 0) mpq_neg(q, q);
}

// The weight of a result.
static uint64_t weight(const mpq_t q) {
    if (mpz_sizeinbase(mpq_numref(q), 2) > 63 || mpz_sizeinbase(mpq_denref(q), 2) > 63) return 1;
    return mpz_get_ui(mpq_numref(q)) * 3 + mpz_get_ui(mpq_denref(q));
}

// The weight of the sum with a product, where the product or then the sum counts as wide.
static uint64_t added(mpq_t r, const mpq_t left, const mpq_t right) {
    mpq_mul(r, left, right);
    if (mpz_sizeinbase(mpq_numref(r), 2) > 63 || mpz_sizeinbase(mpq_denref(r), 2) > 63) return 1;
    mpq_add(r, left, r);
    return weight(r);
}

int main(int argc, char **argv) {
    static mpq_t left[PAIRS], right[PAIRS];
    static const char *sizes[] = {"whole", "small", "middle", "large"};
    static const uint64_t nums[] = {999, 999, 999999999, 9223372036854775807u};
    static const uint64_t dens[] = {1, 999, 999999999, 9223372036854775807u};
    static const char *ops[] = {"plus", "times", "add_product", "over", "cmp"};
    uint64_t rounds = argc > 1 ? strtoull(argv[1], NULL, 10) : 1;
    mpq_t r;
    mpq_init(r);
    for (int i = 0; i < PAIRS; i++) {
        mpq_init(left[i]);
        mpq_init(right[i]);
    }
    for (int s = 0; s < 4; s++) {
        if (argc == 4 && strcmp(argv[3], sizes[s]) != 0) continue;
        state = 88172645463325252u;
        for (int i = 0; i < PAIRS; i++) {
            fraction(left[i], nums[s], dens[s]);
            fraction(right[i], nums[s], dens[s]);
        }
        for (int o = 0; o < 5; o++) {
            if (argc == 4 && strcmp(argv[2], ops[o]) != 0) continue;
            uint64_t sum = 0;
            for (uint64_t k = 0; k < rounds; k++) {
                for (int i = 0; i < PAIRS; i++) {
                    switch (o) {
                    case 0: mpq_add(r, left[i], right[i]); sum += weight(r); break;
                    case 1: mpq_mul(r, left[i], right[i]); sum += weight(r); break;
                    case 2: sum += added(r, left[i], right[i]); break;
                    case 3: mpq_div(r, left[i], right[i]); sum += weight(r); break;
                    default: sum += mpq_cmp(left[i], right[i]) > 0; break;
                    }
                }
            }
            printf("%s %s %llu\n", ops[o], sizes[s], (unsigned long long)sum);
        }
    }
    return 0;
}
