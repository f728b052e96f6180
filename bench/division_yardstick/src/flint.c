/* Products and exact quotients of drawn polynomials by FLINT, with the words of `bench_division`:
   MODE TERMS COEFS ROUNDS NAMES BOUND, where MODE is `multiply` or `divide`. */
#include <flint/fmpz_mpoly.h>
#include <stdint.h>
#include <stdio.h>
#include <stdlib.h>
#include <string.h>

static uint64_t below(uint64_t state, uint64_t bound) { return bound == 0 ? 0 : (state >> 11) % bound; }

static uint64_t next(uint64_t state) { return state * 6364136223846793005u + 1442695040888963407u; }

static void draw(fmpz_mpoly_t p, uint64_t terms, uint64_t coefs, uint64_t names, uint64_t bound, uint64_t state, fmpz_mpoly_ctx_t ctx) {
    fmpz_mpoly_init(p, ctx);
    for (uint64_t k = 0; k < terms; k++) {
        ulong exps[3] = {0, 0, 0};
        for (int i = 0; i < 3; i++) {
            state = next(state);
            if ((uint64_t)i < names) exps[i] = below(state, bound);
        }
        state = next(state);
        fmpz_mpoly_push_term_ui_ui(p, below(state, coefs) + 1, exps, ctx);
    }
    fmpz_mpoly_sort_terms(p, ctx);
    fmpz_mpoly_combine_like_terms(p, ctx);
}

int main(int argc, char **argv) {
    if (argc < 7) return 2;
    uint64_t terms = strtoull(argv[2], 0, 10), coefs = strtoull(argv[3], 0, 10), rounds = strtoull(argv[4], 0, 10);
    uint64_t names = strtoull(argv[5], 0, 10), bound = strtoull(argv[6], 0, 10);
    fmpz_mpoly_ctx_t ctx;
    fmpz_mpoly_t p, q, product, found;
    fmpz_mpoly_ctx_init(ctx, (slong)names, ORD_DEGLEX);
    draw(p, terms, coefs, names, bound, 1, ctx);
    draw(q, terms, coefs, names, bound, 2, ctx);
    fmpz_mpoly_init(product, ctx);
    fmpz_mpoly_init(found, ctx);
    if (!strcmp(argv[1], "divide")) fmpz_mpoly_mul(product, p, q, ctx);
    for (uint64_t k = 0; k < rounds; k++) {
        if (!strcmp(argv[1], "divide")) fmpz_mpoly_divides(found, product, q, ctx);
        else fmpz_mpoly_mul(found, p, q, ctx);
    }
    fmpz_t norm, c;
    fmpz_init(norm);
    fmpz_init(c);
    for (slong i = 0; i < fmpz_mpoly_length(found, ctx); i++) {
        fmpz_mpoly_get_term_coeff_fmpz(c, found, i, ctx);
        fmpz_abs(c, c);
        fmpz_add(norm, norm, c);
    }
    printf("%ld terms, norm ", (long)fmpz_mpoly_length(found, ctx));
    fmpz_print(norm);
    printf("\n");
    return 0;
}
