/* What crates/plates/plates.h says besides its declarations, tried: the name of each refusal, the room that always does, NULL at length 0, the side that normals point to,
   many threads at once, and each of the calls in a thread whose stack has the bytes that plates.h names and not one more. A call that wants more meets the page below it, and this
   program ends by a signal, without its last line. */
#define _GNU_SOURCE
#include <pthread.h>
#include <stdio.h>
#include <stdlib.h>
#include <string.h>
#include <sys/mman.h>
#include "plates.h"

enum { WHOLE, PLAIN, SINGLE, SHEET, SHEETS, LOOPS, CALLS, CLAIM, THREADS = 4, PAGE = 65536 };
static const char *const CALL[CALLS] = {"whole", "plain", "f32", "sheet", "sheets", "loops"};

static int passed, failed;

static void expect(const char *what, const char *more, int holds) {
    if (holds)
        passed++;
    else
        failed++, printf("failed: %s, %s\n", what, more);
}

/* ---- a cage in whole numbers, which are exact in f32 too, and a call on it */

typedef struct {
    const char *name;
    uint32_t levels;
    size_t corners, numbers, sharps;
    uint32_t indices[3 * PLATES_MOST_IN_CAGE + 3], sharp[PLATES_MOST_IN_CAGE];
    int32_t coords[3 * PLATES_MOST_IN_CAGE + 3];
    uint32_t told[5]; /* what is to come */
} Cage;

typedef struct {
    uint32_t *positions, *normals, *out, *words, *work, *list, told[5], six[6];
    size_t lent[6];
} Lent;

/* what a call takes, made before it, so that its thread does nothing else */
typedef struct {
    int kind;
    const Cage *cage;
    float floats[3 * PLATES_MOST_IN_CAGE + 3];
    uint8_t sheet[24 * PLATES_MOST_IN_CAGE + 24 + 20];
    size_t bytes;
    Lent *lent;
    const Lent *claim; /* a plate, for a claim alone */
} Task;

static uint32_t *some(size_t n) {
    uint32_t *p = calloc(n, 4);
    if (!p)
        exit(2);
    return p;
}

static Lent *ample(void) {
    static const size_t lent[6] = {PLATES_ROOM_POSITIONS, PLATES_ROOM_POSITIONS, PLATES_ROOM_OUT, PLATES_ROOM_WORDS, PLATES_ROOM_WORK, PLATES_ROOM_LIST};
    Lent *l = calloc(1, sizeof *l);
    if (!l)
        exit(2);
    memcpy(l->lent, lent, sizeof lent);
    l->positions = some(lent[0]), l->normals = some(lent[1]), l->out = some(lent[2]), l->words = some(lent[3]), l->work = some(lent[4]), l->list = some(lent[5]);
    return l;
}

static Task *task(int kind, const Cage *c, Lent *lent) {
    Task *t = calloc(1, sizeof *t);
    if (!t)
        exit(2);
    uint32_t v = (uint32_t)(c->numbers / 3), f = (uint32_t)(c->corners / 3), trailer[5] = {0, v, 12 * v, f, c->levels};
    t->kind = kind, t->cage = c, t->lent = lent;
    for (size_t i = 0; i < c->numbers; i++)
        t->floats[i] = (float)c->coords[i];
    memcpy(t->sheet, c->coords, 4 * c->numbers);
    memcpy(t->sheet + 4 * c->numbers, c->indices, 4 * c->corners);
    memcpy(t->sheet + 4 * c->numbers + 4 * c->corners, trailer, sizeof trailer);
    t->bytes = 4 * c->numbers + 4 * c->corners + sizeof trailer;
    return t;
}

static void *run(void *given) {
    Task *t = given;
    const Cage *c = t->cage;
    Lent *l = t->lent;
    if (t->kind == WHOLE || t->kind == PLAIN)
        (t->kind == PLAIN ? plates_loop_subdivide_plain : plates_loop_subdivide_whole)(c->levels, c->indices, c->corners, c->coords, c->numbers, c->sharp, c->sharps,
                                                                                       (int32_t *)l->positions, l->lent[0], l->out, l->lent[2], l->words, l->lent[3],
                                                                                       (int32_t *)l->work, l->lent[4], l->told);
    else if (t->kind == SINGLE)
        plates_loop_subdivide(c->levels, c->indices, c->corners, t->floats, c->numbers, (float *)l->positions, l->lent[0], (float *)l->normals, l->lent[1], l->out,
                              l->lent[2], l->words, l->lent[3], (float *)l->work, l->lent[4], l->told);
    else if (t->kind == SHEET)
        plates_subdivide_sheet(t->sheet, t->bytes, (int32_t *)l->positions, l->lent[0], l->out, l->lent[2], l->words, l->lent[3], (int32_t *)l->work, l->lent[4],
                               l->told);
    else if (t->kind == LOOPS)
        plates_rim_loops(c->levels, c->indices, c->corners, c->coords, c->numbers, (int32_t *)l->positions, l->lent[0], l->out, l->lent[2], l->words, l->lent[3],
                         (int32_t *)l->work, l->lent[4], l->list, l->lent[5], l->told);
    else if (t->kind == CLAIM)
        plates_accept(1, 1, c->indices, c->corners, c->coords, c->numbers, t->claim->out, 3 * (size_t)t->claim->told[3], (int32_t *)t->claim->positions,
                      3 * (size_t)t->claim->told[2], (int32_t *)l->positions, l->lent[0], l->out, l->lent[2], l->words, l->lent[3], (int32_t *)l->work, l->lent[4], l->six);
    else {
        uint32_t length = (uint32_t)t->bytes;
        uint32_t number = plates_subdivide_sheets(t->sheet, t->bytes, &length, 1, (int32_t *)l->positions, l->lent[0], l->out, l->lent[2], l->words, l->lent[3],
                                                  (int32_t *)l->work, l->lent[4], l->told, 5);
        if (number != PLATES_DONE)
            l->told[0] = number;
    }
    return NULL;
}

/* ---- a thread with a stack of exactly so many bytes, above memory that must not be touched */

typedef struct {
    pthread_t thread;
    char *under;
    size_t stack;
} Small;

static Small begin(Task *t, size_t stack) {
    Small s = {.stack = stack};
    pthread_attr_t how;
    s.under = mmap(NULL, PAGE + stack, PROT_NONE, MAP_PRIVATE | MAP_ANONYMOUS, -1, 0);
    if (s.under == MAP_FAILED || mprotect(s.under + PAGE, stack, PROT_READ | PROT_WRITE) || pthread_attr_init(&how) ||
        pthread_attr_setstack(&how, s.under + PAGE, stack) || pthread_create(&s.thread, &how, run, t)) {
        printf("failed: a thread could not be made\n");
        exit(2);
    }
    pthread_attr_destroy(&how);
    return s;
}

static void end(Small s) {
    pthread_join(s.thread, NULL);
    munmap(s.under, PAGE + s.stack);
}

/* ---- the cages */

static Cage *cages[64];
static size_t made;

static Cage *cage(const char *name, uint32_t levels) {
    Cage *c = calloc(1, sizeof *c);
    if (!c || made == sizeof cages / sizeof *cages)
        exit(2);
    c->name = name, c->levels = levels;
    return cages[made++] = c;
}

static void face(Cage *c, size_t a, size_t b, size_t d) {
    c->indices[c->corners] = (uint32_t)a, c->indices[c->corners + 1] = (uint32_t)b, c->indices[c->corners + 2] = (uint32_t)d;
    c->corners += 3;
}

static void vertex(Cage *c, int32_t x, int32_t y, int32_t z) {
    c->coords[c->numbers] = x, c->coords[c->numbers + 1] = y, c->coords[c->numbers + 2] = z;
    c->numbers += 3;
}

static Cage *solved(Cage *c, uint32_t vertices, uint32_t faces, uint32_t rims) {
    c->told[2] = vertices, c->told[3] = faces, c->told[4] = rims;
    return c;
}

static Cage *refused(Cage *c, uint32_t number, uint32_t place) {
    c->told[0] = number, c->told[1] = place;
    return c;
}

/* faces and vertices that would do if they were fewer, with k vertices somewhere */
static Cage *list(const char *name, uint32_t levels, const char *corners, size_t vertices) {
    Cage *c = cage(name, levels);
    for (; *corners; corners++)
        c->indices[c->corners++] = (uint32_t)(*corners - 'a');
    for (size_t v = 0; v < vertices; v++)
        vertex(c, (int32_t)(8 * (v % 3)), (int32_t)(8 * (v / 3)), (int32_t)(v * v % 7));
    return c;
}

/* a plate of w by h cells, each two faces: counterclockwise seen from above, or turned over */
static Cage *plate(const char *name, uint32_t levels, size_t w, size_t h, int over) {
    Cage *c = cage(name, levels);
    for (size_t y = 0; y <= h; y++)
        for (size_t x = 0; x <= w; x++)
            vertex(c, (int32_t)(100 * x), (int32_t)(100 * y), 0);
    for (size_t y = 0; y < h; y++)
        for (size_t x = 0; x < w; x++) {
            size_t a = y * (w + 1) + x, b = a + 1, d = a + w + 1, e = d + 1;
            if (over)
                face(c, a, e, b), face(c, a, d, e);
            else
                face(c, a, b, e), face(c, a, e, d);
        }
    uint32_t v = (uint32_t)((w + 1) * (h + 1)), f = (uint32_t)(2 * w * h), rims = (uint32_t)(2 * (w + h));
    for (uint32_t l = 0; l < levels; l++) {
        v += (3 * f + rims) / 2;
        f *= 4;
        rims *= 2;
    }
    return solved(c, v, f, rims);
}

/* every second side 2, the edge between the two faces of a cell, is sharp in the whole call */
static Cage *creased(Cage *c) {
    for (size_t f = 0; f < c->corners / 3; f += 2)
        c->sharp[c->sharps++] = (uint32_t)(3 * f + 2);
    return c;
}

/* a fan of n faces round vertex 0, closed or open */
static Cage *fan(const char *name, size_t n, int closed) {
    Cage *c = cage(name, 0);
    for (size_t v = 0; v <= n + !closed; v++)
        vertex(c, (int32_t)(10 * v), (int32_t)(7 * v * v % 100), 0);
    for (size_t k = 0; k < n; k++)
        face(c, 0, 1 + k, closed && k + 1 == n ? 1 : 2 + k);
    return c;
}

/* n faces that share no vertex */
static Cage *apart(const char *name, uint32_t levels, size_t n) {
    Cage *c = cage(name, levels);
    for (size_t k = 0; k < n; k++) {
        face(c, 3 * k, 3 * k + 1, 3 * k + 2);
        for (int32_t i = 0; i < 3; i++)
            vertex(c, (int32_t)(20 * k) + 8 * (i == 1), 8 * (i == 2), 0);
    }
    return c;
}

static void make_cages(void) {
    solved(cage("the empty cage", 0), 0, 0, 0);
    solved(list("T", 0, "abc", 3), 3, 1, 3);
    solved(list("T", 7, "abc", 3), 8385, 16384, 384);
    solved(list("H", 6, "abcacdadbbdc", 4), 8194, 16384, 0);
    plate("a cage of 3,200 faces", 0, 40, 40, 0);
    plate("a cage of 3,200 faces", 1, 40, 40, 0);
    plate("a cage of 4,026 faces", 0, 61, 33, 0);
    plate("a cage of 4,026 faces", 1, 61, 33, 0);
    plate("32,768 faces", 3, 16, 16, 0);
    plate("32,768 faces", 7, 1, 1, 0);
    plate("a plate", 2, 3, 3, 0);
    plate("a plate turned over", 2, 3, 3, 1);
    creased(plate("a plate with sharp edges", 2, 3, 3, 0));
    creased(plate("two faces with a sharp edge, 32,768", 7, 1, 1, 0));
    creased(plate("512 faces with sharp edges, 32,768", 3, 16, 16, 0));
    creased(plate("4,026 faces with sharp edges", 1, 61, 33, 0));
    solved(fan("a closed fan of 24", 24, 1), 25, 24, 24);
    solved(fan("an open fan of 23", 23, 0), 25, 23, 25);
    solved(apart("1,365 faces apart", 1, 1365), 8190, 5460, 8190);
    refused(list("1", 8, "abc", 3), PLATES_TOO_MANY_LEVELS, 0);
    refused(apart("3", 0, 1366), PLATES_CAGE_TOO_LARGE, 1);
    refused(list("4", 0, "abc", 3), PLATES_COORDINATE_OUT_OF_RANGE, 4)->coords[4] = 1000000001;
    refused(list("5", 0, "abd", 3), PLATES_CORNER_NAMES_NO_VERTEX, 2);
    refused(list("6", 0, "abcaab", 3), PLATES_EQUAL_CORNERS, 1);
    refused(list("7", 0, "abcabd", 4), PLATES_SIDE_USED_TWICE, 3);
    refused(list("8", 0, "abcacb", 3), PLATES_FACE_ON_ANOTHER, 1);
    refused(list("9", 0, "abc", 4), PLATES_VERTEX_ON_NO_FACE, 3);
    refused(list("10", 0, "abcade", 5), PLATES_TWO_FANS, 0);
    refused(fan("12, closed", 25, 1), PLATES_TOO_MANY_RAYS, 0);
    refused(fan("12, open", 24, 0), PLATES_TOO_MANY_RAYS, 0);
    refused(apart("13", 7, 3), PLATES_LAST_LEVEL_TOO_LARGE, 0);
}

/* f32 takes what is out of range in micrometres */
static int said(const Task *t) {
    if (t->kind == SINGLE && t->cage->told[0] == PLATES_COORDINATE_OUT_OF_RANGE)
        return t->lent->told[0] == PLATES_DONE;
    if (t->kind == LOOPS) /* the refusal, or as many vertices listed as there are rim sides, in loops of three at least */
        return t->lent->told[0] == t->cage->told[0] && t->lent->told[1] == t->cage->told[1] && t->lent->told[3] == t->cage->told[4] &&
               3 * t->lent->told[2] <= t->cage->told[4] && !t->lent->told[2] == !t->cage->told[4];
    return memcmp(t->lent->told, t->cage->told, sizeof t->lent->told) == 0;
}

/* ---- what is tried */

static void small_threads(void) {
    Lent *lent = ample();
    for (size_t i = 0; i < made; i++)
        for (int kind = 0; kind < CALLS; kind++) {
            if (kind == PLAIN && cages[i]->told[3] > 1024) /* it would take minutes, and no more stack */
                continue;
            Task *t = task(kind, cages[i], lent);
            end(begin(t, kind <= SINGLE ? PLATES_STACK : PLATES_STACK_SHEET));
            expect(cages[i]->name, CALL[kind], said(t));
            free(t);
        }
}

/* our own plate at level 1, as a claim at tolerance 1 */
static void small_claims(void) {
    Lent *lent = ample(), *ours = ample();
    for (size_t i = 0; i < made; i++) {
        const Cage *c = cages[i];
        if (c->told[0] != PLATES_DONE)
            continue;
        plates_loop_subdivide_whole(1, c->indices, c->corners, c->coords, c->numbers, NULL, 0, (int32_t *)ours->positions, ours->lent[0], ours->out, ours->lent[2], ours->words,
                                    ours->lent[3], (int32_t *)ours->work, ours->lent[4], ours->told);
        Task *t = task(CLAIM, c, lent);
        t->claim = ours;
        end(begin(t, PLATES_STACK_SHEET));
        expect(c->name, "claim", lent->six[0] == PLATES_DONE && lent->six[2] == 1 && lent->six[3] == PLATES_NOTHING_WRONG);
        free(t);
    }
}

static void many_threads(void) {
    Lent *lent[THREADS], *alone = ample();
    for (int k = 0; k < THREADS; k++)
        lent[k] = ample();
    for (size_t i = 0; i < made; i++) {
        Task *t[THREADS], *one;
        Small s[THREADS];
        int same = 1, kind = SINGLE;
        one = task(kind, cages[i], alone);
        end(begin(one, PLATES_STACK));
        for (int k = 0; k < THREADS; k++)
            s[k] = begin(t[k] = task(kind, cages[i], lent[k]), PLATES_STACK);
        for (int k = 0; k < THREADS; k++) {
            end(s[k]);
            same &= said(t[k]) && !memcmp(lent[k]->positions, alone->positions, 4 * alone->lent[0]) && !memcmp(lent[k]->normals, alone->normals, 4 * alone->lent[1]) &&
                    !memcmp(lent[k]->out, alone->out, 4 * alone->lent[2]);
            free(t[k]);
        }
        expect(cages[i]->name, "in four threads at once", same);
        free(one);
    }
}

static void rooms(void) {
    Lent *lent = ample();
    Task *t = task(SINGLE, cages[1], lent);
    static const size_t needed[5] = {9, 9, 3, 40, 18};
    static const char *const which[5] = {"positions", "normals", "out", "words", "work"};
    for (uint32_t b = 0; b < 5; b++) {
        memcpy(lent->lent, needed, sizeof needed);
        run(t);
        expect("room to the entry", which[b], said(t));
        lent->lent[b]--;
        run(t);
        expect("one short", which[b], lent->told[0] == PLATES_BUFFER_SHORT && lent->told[1] == b);
    }
    expect("room that always does", "words", PLATES_ROOM_WORDS == 16 * PLATES_MOST + 8 * PLATES_MOST);
    free(t);
}

/* told, and whether it is this */
static int tells(const uint32_t *told, uint32_t number, uint32_t place) { return told[0] == number && told[1] == place && !told[2] && !told[3] && !told[4]; }

static void nulls(void) {
    uint32_t told[5], corner = 0, is[3], ws[40];
    int32_t ps[9], cs[18];
    static const uint32_t t[3] = {0, 1, 2};
    static const int32_t xs[9] = {0, 0, 0, 8, 0, 0, 0, 8, 0};
    static const float fs[9] = {0, 0, 0, 8, 0, 0, 0, 8, 0};
    plates_loop_subdivide_whole(7, NULL, 0, NULL, 0, NULL, 0, NULL, 0, NULL, 0, NULL, 0, NULL, 0, told);
    expect("NULL for all", "whole", tells(told, PLATES_DONE, 0));
    plates_loop_subdivide_plain(7, NULL, 0, NULL, 0, NULL, 0, NULL, 0, NULL, 0, NULL, 0, NULL, 0, told);
    expect("NULL for all", "plain", tells(told, PLATES_DONE, 0));
    plates_loop_subdivide(7, NULL, 0, NULL, 0, NULL, 0, NULL, 0, NULL, 0, NULL, 0, NULL, 0, told);
    expect("NULL for all", "f32", tells(told, PLATES_DONE, 0));
    plates_subdivide_sheet(NULL, 0, NULL, 0, NULL, 0, NULL, 0, NULL, 0, told);
    expect("NULL for all", "sheet", tells(told, PLATES_NOT_A_SHEET, 0));
    plates_write_sheet(7, NULL, 0, NULL, 0, NULL, 0, told);
    expect("NULL for all", "writer", told[0] == PLATES_NO_ROOM_FOR_SHEET && !told[1] && !told[2]);
    plates_rim_loops(7, NULL, 0, NULL, 0, NULL, 0, NULL, 0, NULL, 0, NULL, 0, NULL, 0, told);
    expect("NULL for all", "loops", !told[0] && !told[1] && !told[2] && !told[3]);
    plates_write_obj(NULL, 0, NULL, 0, NULL, 0, told);
    expect("NULL for all", "OBJ text", told[0] == PLATES_DONE && !told[1] && !told[2]);
    plates_read_obj(NULL, 0, NULL, 0, NULL, 0, told);
    expect("NULL for all", "OBJ lists", told[0] == PLATES_DONE && !told[1] && !told[2] && !told[3]);
    expect("room that always does", "text", PLATES_ROOM_TEXT == 38 * PLATES_MOST + 20 * PLATES_MOST);
    expect("NULL for all", "sheets", plates_subdivide_sheets(NULL, 0, NULL, 0, NULL, 0, NULL, 0, NULL, 0, NULL, 0, NULL, 0) == PLATES_DONE);
    expect("NULL for all but a byte", "sheets", plates_subdivide_sheets((const uint8_t *)told, 1, NULL, 0, NULL, 0, NULL, 0, NULL, 0, NULL, 0, NULL, 0) == PLATES_BAD_BATCH);
    plates_loop_subdivide_whole(8, NULL, 0, NULL, 0, NULL, 0, NULL, 0, NULL, 0, NULL, 0, NULL, 0, told);
    expect("NULL, and 8 levels", "whole", tells(told, PLATES_TOO_MANY_LEVELS, 0));
    plates_loop_subdivide_whole(0, &corner, 1, NULL, 0, NULL, 0, NULL, 0, NULL, 0, NULL, 0, NULL, 0, told);
    expect("a list of one corner", "whole", tells(told, PLATES_LIST_CUT_OFF, 0));
    plates_loop_subdivide_whole(0, NULL, 0, xs, 8, NULL, 0, NULL, 0, NULL, 0, NULL, 0, NULL, 0, told);
    expect("a list of eight coordinates", "whole", tells(told, PLATES_LIST_CUT_OFF, 1));
    plates_loop_subdivide_whole(0, t, 3, NULL, 0, NULL, 0, NULL, 0, NULL, 0, NULL, 0, NULL, 0, told);
    expect("faces and no vertices", "whole", tells(told, PLATES_CORNER_NAMES_NO_VERTEX, 0));
    plates_loop_subdivide_whole(0, NULL, 0, xs, 9, NULL, 0, NULL, 0, NULL, 0, NULL, 0, NULL, 0, told);
    expect("vertices and no faces", "whole", tells(told, PLATES_VERTEX_ON_NO_FACE, 0));
    plates_loop_subdivide_whole(0, t, 3, xs, 9, t, 1, NULL, 0, NULL, 0, NULL, 0, NULL, 0, told);
    expect("a rim side listed as sharp", "whole", tells(told, PLATES_SIDE_CANNOT_BE_SHARP, 0));
    plates_rim_loops(0, t, 3, xs, 9, ps, 9, is, 3, ws, 40, cs, 18, NULL, 0, told);
    expect("NULL for the list", "loops", told[0] == PLATES_NO_ROOM_FOR_LOOPS && !told[1] && !told[2] && !told[3]);
    for (uint32_t levels = 0; levels < 8; levels++) {
        plates_loop_subdivide_whole(levels, t, 3, xs, 9, NULL, 0, NULL, 0, NULL, 0, NULL, 0, NULL, 0, told);
        expect("NULL for the buffers", "whole", tells(told, PLATES_BUFFER_SHORT, 0));
        plates_loop_subdivide(levels, t, 3, fs, 9, NULL, 0, NULL, 0, NULL, 0, NULL, 0, NULL, 0, told);
        expect("NULL for the buffers", "f32", tells(told, PLATES_BUFFER_SHORT, 0));
    }
}

/* Seen from above a plate's faces turn counterclockwise and its normals point down; turned over, up. */
static void normals(void) {
    Lent *lent = ample();
    for (size_t i = 0; i < made; i++) {
        int over = !strcmp(cages[i]->name, "a plate turned over");
        if (!over && strcmp(cages[i]->name, "a plate"))
            continue;
        Task *t = task(SINGLE, cages[i], lent);
        const float *n = (const float *)lent->normals;
        int right = 1;
        run(t);
        for (uint32_t v = 0; v < lent->told[2]; v++)
            right &= n[3 * v] == 0 && n[3 * v + 1] == 0 && (over ? n[3 * v + 2] > 0 : n[3 * v + 2] < 0);
        expect(cages[i]->name, "the side of its normals", right && lent->told[2] == 16 + 33 + 120);
        free(t);
    }
}

int main(void) {
    make_cages();
    small_threads();
    small_claims();
    many_threads();
    rooms();
    nulls();
    normals();
    printf("%d passed, %d failed\n", passed, failed);
    return failed > 0;
}
