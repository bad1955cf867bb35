/* Times the calls of plates.h beside the yardsticks, limit.c and limit_fused.c. Reads cases from standard input, each as how many cages it has, then for each cage levels, how
   many indices, how many coordinates, and those, all 32-bit words. Writes a line for each case: output faces (of a refused cage its own), bytes of work room that the largest cage
   needs, and the nanoseconds of processor time of the fastest run over all its cages: our whole call, the yardstick's, the fused one's, our f32 call, the yardstick's, the fused
   one's, our whole call with no positions lent, which makes every check and then refuses, zeroing the work room that the cages need, and, where RUST is defined, the mended Rust. Ends with
   status 1 where two of them disagree (but for normals: the yardsticks and the Rust have a library's sine); a cage that we refuse the yardstick must refuse by the same number, and
   the Rust is not asked. The argument is the number of repetitions; in each, all take their turn. With a second argument only our whole call and our plain one are timed, and they must agree too. */
#include <stdint.h>
#include <stdio.h>
#include <stdlib.h>
#include <string.h>
#include <time.h>
#include "../crates/plates/plates.h"
#include "limit.h"

enum { F = 32768, V = 32768, CAGES = 64 };

typedef struct {
    uint32_t levels, n, m, *indices;
    int32_t *coords;
    float *floats;
    void *for_rust;
    size_t words, coordinates; /* of work room that it needs */
} cage;

static cage cages[CAGES];
static int32_t ours[3 * V], theirs[3 * V], work[6 * V];
static float our_points[3 * V], their_points[3 * V], our_normals[3 * V], their_normals[3 * V], float_work[6 * V];
static uint32_t our_faces[3 * F], their_faces[3 * F], words[16 * F + 8 * V], told[5];
static limit_result result;
static const uint32_t no_sides[1];

static void get(void *to, size_t n) {
    if (fread(to, 4, n, stdin) != n) {
        fprintf(stderr, "a case ends early\n");
        exit(2);
    }
}

static void *room(size_t n) {
    void *p = malloc(4 * n + 4);
    if (!p)
        exit(2);
    return p;
}

static uint64_t nanoseconds(void) {
    struct timespec t;
    clock_gettime(CLOCK_THREAD_CPUTIME_ID, &t);
    return (uint64_t)t.tv_sec * 1000000000u + (uint64_t)t.tv_nsec;
}

/* each is a function of its own, so that instructions can be counted by name */
#define APART __attribute__((noinline, noclone))

static APART void our_whole(const cage *c) {
    plates_loop_subdivide_whole(c->levels, c->indices, c->n, c->coords, c->m, no_sides, 0, ours, 3 * V, our_faces, 3 * F, words, 16 * F + 8 * V, work, 6 * V, told);
}

static APART void our_plain(const cage *c) {
    plates_loop_subdivide_plain(c->levels, c->indices, c->n, c->coords, c->m, no_sides, 0, ours, 3 * V, our_faces, 3 * F, words, 16 * F + 8 * V, work, 6 * V, told);
}

static APART void their_whole(const cage *c) { result = limit_run(1, c->levels, c->m / 3, c->coords, c->n / 3, c->indices, theirs, 0, their_faces, words, work); }

static APART void fused_whole(const cage *c) { result = limit_fused(1, c->levels, c->m / 3, c->coords, c->n / 3, c->indices, theirs, 0, their_faces, words, work); }

static APART void our_single(const cage *c) {
    plates_loop_subdivide(c->levels, c->indices, c->n, c->floats, c->m, our_points, 3 * V, our_normals, 3 * V, our_faces, 3 * F, words, 16 * F + 8 * V, float_work, 6 * V, told);
}

static APART void their_single(const cage *c) {
    result = limit_run(0, c->levels, c->m / 3, c->floats, c->n / 3, c->indices, their_points, their_normals, their_faces, words, float_work);
}

static APART void fused_single(const cage *c) {
    result = limit_fused(0, c->levels, c->m / 3, c->floats, c->n / 3, c->indices, their_points, their_normals, their_faces, words, float_work);
}

static APART void our_checks(const cage *c) {
    plates_loop_subdivide_whole(c->levels, c->indices, c->n, c->coords, c->m, no_sides, 0, ours, 0, our_faces, 3 * F, words, 16 * F + 8 * V, work, 6 * V, told);
}

/* what the calls do to the work room in the end, and the yardsticks do not */
static APART void zeroing(const cage *c) {
    memset(words, 0, 4 * c->words);
    memset(work, 0, 4 * c->coordinates);
}

/* oracle/src/lib.rs: the Rust has its own form of a cage, made before it is timed, and keeps its mesh to be read afterwards */
#ifdef RUST
void *oracle_cage(uint32_t levels, const uint32_t *indices, size_t n, const float *coords, size_t m);
void oracle_free(void *);
void oracle_subdivide(const void *);
void oracle_mesh(uint32_t *counts, float *points, float *normals, uint32_t *corners);

static APART void rust_single(const cage *c) { oracle_subdivide(c->for_rust); }

static void rust_begin(cage *c) {
    c->for_rust = oracle_cage(c->levels, c->indices, c->n, c->floats, c->m);
    if (told[0])
        return;
    rust_single(c);
    uint32_t counts[2];
    oracle_mesh(counts, their_points, their_normals, their_faces);
    result.vertices = counts[0];
    result.faces = counts[1];
}

static void rust_end(cage *c) { oracle_free(c->for_rust); }
#else
static void rust_begin(cage *c) { (void)c; }
static void rust_end(cage *c) { (void)c; }
#endif

typedef void run(const cage *);
static run *const runs[] = {
    our_whole,
    their_whole,
    fused_whole,
    our_single,
    their_single,
    fused_single,
    our_checks,
    zeroing,
#ifdef RUST
    rust_single,
#endif
};
enum { RUNS = sizeof runs / sizeof *runs, RUST_RUN = 8 };
static run *const plain_runs[] = {our_whole, our_plain};

static void agree(const void *mine, const void *its) {
    if (told[0] && told[0] == (uint32_t)result.no && told[1] == result.place)
        return;
    if (told[0] || result.no || told[2] != result.vertices || told[3] != result.faces || told[4] != result.rim || memcmp(mine, its, 12 * (size_t)told[2]) ||
        memcmp(our_faces, their_faces, 12 * (size_t)told[3])) {
        fprintf(stderr, "the two disagree: refusal %u, %d; vertices %u, %u; faces %u, %u\n", told[0], result.no, told[2], result.vertices, told[3], result.faces);
        exit(1);
    }
}

int main(int argc, char **argv) {
    int repetitions = argc > 1 ? atoi(argv[1]) : 9, plain = argc > 2, timed = plain ? 2 : RUNS;
    run *const *taking_turns = plain ? plain_runs : runs;
    uint32_t count;
    limit_tables();
    while (fread(&count, 4, 1, stdin) == 1) {
        uint64_t faces = 0, lent = 0, best[RUNS];
        int refused = 0;
        if (count > CAGES)
            return 2;
        for (uint32_t i = 0; i < count; i++) {
            cage *c = cages + i;
            get(c, 3);
            c->indices = room(c->n);
            c->coords = room(c->m);
            get(c->indices, c->n);
            get(c->coords, c->m);
            c->floats = room(c->m);
            for (uint32_t k = 0; k < c->m; k++)
                c->floats[k] = (float)c->coords[k];
            our_whole(c);
            their_whole(c);
            agree(ours, theirs);
            fused_whole(c);
            agree(ours, theirs);
            if (plain) {
                our_plain(c);
                agree(ours, theirs);
            }
            our_single(c);
            their_single(c);
            agree(our_points, their_points);
            fused_single(c);
            agree(our_points, their_points);
            rust_begin(c);
            agree(our_points, their_points);
            our_checks(c);
            our_whole(c);
            refused |= told[0] != 0;
            faces += told[0] ? c->n / 3 : told[3];
            c->words = 16 * (size_t)told[3] + 8 * (size_t)told[2];
            c->coordinates = 6 * (size_t)told[2];
            zeroing(c);
            uint64_t bytes = 4 * (c->words + c->coordinates);
            lent = bytes > lent ? bytes : lent;
        }
        for (int r = 0; r < RUNS; r++)
            best[r] = UINT64_MAX;
        for (int n = 0; n < repetitions; n++)
            for (int r = 0; r < timed; r++) {
                if (refused && r == RUST_RUN)
                    continue;
                uint64_t began = nanoseconds();
                for (uint32_t i = 0; i < count; i++)
                    taking_turns[r](cages + i);
                uint64_t took = nanoseconds() - began;
                best[r] = took < best[r] ? took : best[r];
            }
        printf("%llu %llu", (unsigned long long)faces, (unsigned long long)lent);
        for (int r = 0; r < timed; r++)
            printf(" %llu", (unsigned long long)best[r]);
        printf("\n");
        for (uint32_t i = 0; i < count; i++) {
            free(cages[i].indices);
            free(cages[i].coords);
            free(cages[i].floats);
            rust_end(cages + i);
        }
    }
    return 0;
}
