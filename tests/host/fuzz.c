/* Calls the library with good and bad input and compares with plain.c what it returns and every entry
 * and byte that it leaves.
 *
 *     fuzz CALLS [SEED]
 *
 * First each bad image, each bad STL, each bad tree, each small length, each rule, each step about the distance of
 * a point, each part of a triangle, each kind of foot and each of the nearest few in turn, then drawings, damages
 * and questions by chance, until so many calls are made. Each list and slice stands flush with a page that
 * cannot be touched, before it or behind it, and has other bytes beside it: a byte read or written
 * outside ends the program or is counted as a difference, and so is a byte that a refused call writes.
 * The exit status is 0 where nothing differs and, of ENOUGH calls or more, each call was done and refused
 * in every way that gauge.h lists for it, and each part of a triangle was answered. */
#define _DEFAULT_SOURCE
#include "damages.h"
#include "plain.h"

#include <float.h>
#include <math.h>
#include <stdio.h>
#include <stdlib.h>
#include <string.h>
#include <sys/mman.h>
#include <unistd.h>

/* ---- chance */

static float between(float lo, float hi)
{
    return lo + (hi - lo) * (float)(chance() >> 40) / 16777216.0f;
}

/* ---- lists beside pages that cannot be touched */

/* What a call may be handed: slices of bytes, lists of four bytes an entry. */
enum { IMAGE, STL, SETTINGS, TRIANGLES, ORDER, LINKS, BOXES, BOUNDS, CENTRES, SCRATCH, SUMS, POINTS, ANSWERS, LISTS };
enum { ROOM = 4 << 20, MARGIN = 64 };

/* One that is lent to a call: where it stands, and a copy for plain.c; both with margins as far as the
 * pages allow. What the library leaves must be what plain.c leaves in the copy. */
typedef struct { uint8_t *at, *copy, *first, *first_copy; size_t length, all; } Lent;

static uint8_t *rooms[LISTS], *copies[LISTS];
static Lent lent[LISTS];

static uint8_t *make_room(void)
{
    size_t page = (size_t)sysconf(_SC_PAGESIZE);
    uint8_t *all = mmap(NULL, ROOM + 2 * page, PROT_NONE, MAP_PRIVATE | MAP_ANONYMOUS, -1, 0);
    if (all == MAP_FAILED || mprotect(all + page, ROOM, PROT_READ | PROT_WRITE) != 0) {
        perror("mmap");
        exit(2);
    }
    return all + page;
}

static void paint(uint8_t *s, size_t length)
{
    for (size_t i = 0; i < length; i += 8) {
        uint64_t any = chance();
        memcpy(s + i, &any, length - i < 8 ? length - i : 8);
    }
}

/* Lends so many bytes: these, or painted ones where none are given. */
static void lend(int list, const void *bytes, size_t length)
{
    Lent *l = &lent[list];
    Lent nothing = {NULL, NULL, NULL, NULL, 0, 0};
    *l = nothing;
    if (length > ROOM) {
        fprintf(stderr, "fuzz: a list of %zu bytes has no room\n", length);
        exit(2);
    }
    if (length == 0 && below(2))
        return;
    size_t before = below(2) ? 0 : ROOM - length, behind = ROOM - length - before;
    size_t margin = before < MARGIN ? before : MARGIN, margin_behind = behind < MARGIN ? behind : MARGIN;
    l->length = length;
    l->all = margin + length + margin_behind;
    l->at = rooms[list] + before;
    l->first = l->at - margin;
    l->first_copy = copies[list];
    l->copy = copies[list] + margin;
    paint(l->first_copy, bytes == NULL ? l->all : margin);
    if (bytes != NULL) {
        memcpy(l->copy, bytes, length);
        paint(l->copy + length, margin_behind);
    }
    memcpy(l->first, l->first_copy, l->all);
}

static int as_wanted(void)
{
    for (int list = 0; list < LISTS; list++)
        if (lent[list].all != 0 && memcmp(lent[list].first, lent[list].first_copy, lent[list].all) != 0)
            return 0;
    return 1;
}

/* ---- one call, compared */

enum { MAX_CALL, COUNT, READ, READ_STL, WRITE_STL, BUILD, WRITE, CHECK, FEW, SURE, SOURCE, WINDING, NODE_SUMS, FAST, CALLS };
static const char *const names[CALLS] = {"gauge_image_max", "gauge_image_triangles", "gauge_read", "gauge_read_stl", "gauge_write_stl",
                                         "gauge_build", "gauge_write", "gauge_check", "gauge_few", "gauge_sure", "gauge_source",
                                         "gauge_winding", "gauge_node_sums", "gauge_fast_winding"};

/* How a call may end, as gauge.h lists it: the first is done, the others are refusals. */
enum { ENDS = 17, ENOUGH = 33000 };
static const unsigned numbers[ENDS] = {0, 1, 2, 3, 4, 5, 6, 71, 72, 73, 74, 75, 8, 9, 10, 11, 14};
static uint64_t calls, called[CALLS], ended[CALLS][ENDS], differences, unknown;
static const int listed[CALLS][ENDS] = {
    {1, 0, 0, 0, 0, 0, 0, 0, 0, 0, 0, 0, 0, 0, 0, 0, 0}, /* gauge_image_max */
    {1, 0, 0, 0, 0, 0, 0, 0, 0, 0, 0, 0, 0, 0, 1, 0, 0}, /* gauge_image_triangles */
    {1, 0, 0, 0, 0, 0, 1, 0, 0, 0, 0, 0, 0, 0, 1, 0, 0}, /* gauge_read */
    {1, 0, 1, 1, 1, 0, 1, 0, 0, 0, 0, 0, 0, 0, 0, 1, 0}, /* gauge_read_stl */
    {1, 1, 1, 1, 1, 0, 1, 0, 0, 0, 0, 0, 0, 0, 0, 0, 0}, /* gauge_write_stl */
    {1, 1, 1, 1, 1, 1, 1, 0, 0, 0, 0, 0, 0, 0, 0, 0, 0}, /* gauge_build */
    {1, 1, 1, 1, 1, 1, 1, 1, 1, 1, 1, 1, 0, 0, 0, 0, 0}, /* gauge_write */
    {1, 1, 1, 1, 1, 0, 0, 1, 1, 1, 1, 1, 0, 0, 0, 0, 0}, /* gauge_check */
    {1, 1, 1, 1, 1, 1, 1, 1, 1, 1, 1, 1, 1, 1, 0, 0, 0}, /* gauge_few */
    {1, 1, 1, 1, 1, 1, 1, 1, 1, 1, 1, 1, 1, 1, 0, 0, 0}, /* gauge_sure */
    {1, 1, 1, 1, 1, 0, 1, 1, 1, 1, 1, 1, 1, 1, 0, 0, 0}, /* gauge_source */
    {1, 1, 1, 1, 1, 0, 1, 0, 0, 0, 0, 0, 1, 0, 0, 0, 0}, /* gauge_winding */
    {1, 1, 1, 1, 1, 0, 1, 1, 1, 1, 1, 1, 0, 0, 0, 0, 0}, /* gauge_node_sums */
    {1, 1, 1, 1, 1, 0, 1, 1, 1, 1, 1, 1, 1, 0, 0, 0, 1}, /* gauge_fast_winding */
};

/* Who is called: the library, with the lists themselves, and plain.c, with their copies. */
enum { GAUGE, PLAIN, BOTH };
#define BYTES(list) (who == PLAIN ? lent[list].copy : lent[list].at), lent[list].length
#define WORDS(list) (uint32_t *)(who == PLAIN ? lent[list].copy : lent[list].at), lent[list].length / 4
#define FLOATS(list) (float *)(who == PLAIN ? lent[list].copy : lent[list].at), lent[list].length / 4
#define TREE FLOATS(TRIANGLES), WORDS(ORDER), WORDS(LINKS), FLOATS(BOXES)

/* Compares, and takes back what was lent. Returns what is right. */
static uint64_t compared(int call, const uint64_t returned[BOTH])
{
    uint64_t by_library = returned[GAUGE], wanted = returned[PLAIN];
    int same = as_wanted();
    for (int list = 0; list < LISTS; list++)
        lent[list].length = lent[list].all = 0;
    calls++;
    called[call]++;
    int end = 0;
    while (end < ENDS && numbers[end] != gauge_number(by_library))
        end++;
    if (end < ENDS)
        ended[call][end]++;
    else
        unknown++;
    if ((by_library != wanted || !same) && differences++ < 10)
        fprintf(stderr, "fuzz: call %llu, %s: returned %u at %llu, plain C %u at %llu; lists and slices %s\n",
                (unsigned long long)calls, names[call], gauge_number(by_library), (unsigned long long)gauge_place(by_library),
                gauge_number(wanted), (unsigned long long)gauge_place(wanted), same ? "same" : "differ");
    return wanted;
}

static void differs(const char *what)
{
    if (differences++ < 10)
        fprintf(stderr, "fuzz: call %llu: %s\n", (unsigned long long)calls, what);
}

/* A slice of bytes. */
typedef struct { const uint8_t *bytes; size_t length; } Slice;

/* The lists of a drawing and its tree, as they are handed over; lengths count entries. */
typedef struct {
    const float *triangles;
    size_t triangles_length;
    const uint32_t *order;
    size_t order_length;
    const uint32_t *links;
    size_t links_length;
    const float *boxes;
    size_t boxes_length, nodes;
} Drawing;

typedef struct { size_t strategy, leaf_minimum, maximum_depth; } Settings;

/* How many entries the lists have that a build or a reading writes. */
typedef struct { size_t settings, triangles, order, links, boxes, bounds, centres, scratch; } Rooms;

static Rooms rooms_for(size_t n, size_t nodes)
{
    Rooms r = {3, 9 * n, n, 3 * nodes, 6 * nodes, 6 * n, 3 * n, n};
    return r;
}

static void lend_drawing(Drawing d)
{
    lend(TRIANGLES, d.triangles, 4 * d.triangles_length);
    lend(ORDER, d.order, 4 * d.order_length);
    lend(LINKS, d.links, 4 * d.links_length);
    lend(BOXES, d.boxes, 4 * d.boxes_length);
}

static void ask_max(size_t n)
{
    uint64_t returned[BOTH] = {gauge_image_max(n), plain_image_max(n)};
    if (n >= 1 && n <= GAUGE_MAX_TRIANGLES && returned[PLAIN] != GAUGE_IMAGE_MAX(n))
        differences++;
    compared(MAX_CALL, returned);
}

static uint64_t ask_count(Slice image)
{
    uint64_t returned[BOTH];
    lend(IMAGE, image.bytes, image.length);
    for (int who = 0; who < BOTH; who++)
        returned[who] = (who == PLAIN ? plain_image_triangles : gauge_image_triangles)(BYTES(IMAGE));
    return compared(COUNT, returned);
}

static uint64_t ask_read(Slice image, Rooms r)
{
    uint64_t returned[BOTH];
    lend(IMAGE, image.bytes, image.length);
    lend(SETTINGS, NULL, 4 * r.settings);
    lend(TRIANGLES, NULL, 4 * r.triangles);
    lend(ORDER, NULL, 4 * r.order);
    lend(LINKS, NULL, 4 * r.links);
    lend(BOXES, NULL, 4 * r.boxes);
    for (int who = 0; who < BOTH; who++)
        returned[who] = (who == PLAIN ? plain_read : gauge_read)(BYTES(IMAGE), WORDS(SETTINGS), TREE);
    return compared(READ, returned);
}

static uint64_t ask_read_stl(Slice stl, size_t room)
{
    uint64_t returned[BOTH];
    lend(STL, stl.bytes, stl.length);
    lend(TRIANGLES, NULL, 4 * room);
    for (int who = 0; who < BOTH; who++)
        returned[who] = (who == PLAIN ? plain_read_stl : gauge_read_stl)(BYTES(STL), FLOATS(TRIANGLES));
    return compared(READ_STL, returned);
}

static uint64_t ask_write_stl(const float *triangles, size_t length, size_t room)
{
    uint64_t returned[BOTH];
    lend(TRIANGLES, triangles, 4 * length);
    lend(STL, NULL, room);
    for (int who = 0; who < BOTH; who++)
        returned[who] = (who == PLAIN ? plain_write_stl : gauge_write_stl)(FLOATS(TRIANGLES), BYTES(STL));
    return compared(WRITE_STL, returned);
}

static uint64_t ask_build(Settings s, const float *triangles, size_t length, Rooms r)
{
    uint64_t returned[BOTH];
    lend(TRIANGLES, triangles, 4 * length);
    lend(ORDER, NULL, 4 * r.order);
    lend(LINKS, NULL, 4 * r.links);
    lend(BOXES, NULL, 4 * r.boxes);
    lend(BOUNDS, NULL, 4 * r.bounds);
    lend(CENTRES, NULL, 4 * r.centres);
    lend(SCRATCH, NULL, 4 * r.scratch);
    for (int who = 0; who < BOTH; who++)
        returned[who] = (who == PLAIN ? plain_build : gauge_build)(s.strategy, s.leaf_minimum, s.maximum_depth, TREE, FLOATS(BOUNDS),
                                                                   FLOATS(CENTRES), WORDS(SCRATCH));
    return compared(BUILD, returned);
}

static uint64_t ask_write(Settings s, Drawing d, size_t room)
{
    uint64_t returned[BOTH];
    lend_drawing(d);
    lend(IMAGE, NULL, room);
    for (int who = 0; who < BOTH; who++)
        returned[who] = (who == PLAIN ? plain_write : gauge_write)(s.strategy, s.leaf_minimum, s.maximum_depth, TREE, d.nodes, BYTES(IMAGE));
    return compared(WRITE, returned);
}

static void ask_check(Drawing d)
{
    uint64_t returned[BOTH];
    lend_drawing(d);
    for (int who = 0; who < BOTH; who++)
        returned[who] = (who == PLAIN ? plain_check : gauge_check)(TREE, d.nodes);
    compared(CHECK, returned);
}

/* How many bytes the answers to so many points take. */
static size_t room_for(size_t count)
{
    return GAUGE_ANSWER_BYTES * count;
}

/* The rule is the sure query's alone. Returns what is right. */
static uint64_t ask_points(int call, Drawing d, Slice points, float distance, uint32_t rule, size_t room)
{
    uint64_t returned[BOTH];
    lend_drawing(d);
    lend(POINTS, points.bytes, points.length);
    lend(ANSWERS, NULL, room);
    for (int who = 0; who < BOTH; who++)
        if (call == SURE)
            returned[who] = (who == PLAIN ? plain_sure : gauge_sure)(TREE, d.nodes, BYTES(POINTS), distance, rule, BYTES(ANSWERS));
        else if (call == SOURCE)
            returned[who] = (who == PLAIN ? plain_source : gauge_source)(TREE, d.nodes, BYTES(POINTS), distance, BYTES(ANSWERS));
        else
            returned[who] = (who == PLAIN ? plain_winding : gauge_winding)(FLOATS(TRIANGLES), BYTES(POINTS), BYTES(ANSWERS));
    return compared(call, returned);
}

/* The nearest few. Where they are answered, the first of each point must be what the library's sure query answers. */
static void ask_few(Drawing d, Slice points, float distance, uint32_t rule, uint32_t most, size_t room)
{
    static struct gauge_answer sure[64];
    uint64_t returned[BOTH];
    lend_drawing(d);
    lend(POINTS, points.bytes, points.length);
    lend(ANSWERS, NULL, room);
    for (int who = 0; who < BOTH; who++)
        returned[who] = (who == PLAIN ? plain_few : gauge_few)(TREE, d.nodes, BYTES(POINTS), distance, rule, most, BYTES(ANSWERS));
    size_t count = gauge_refused(returned[PLAIN]) ? 0 : returned[PLAIN];
    int who = GAUGE, firsts = 1;
    if (count != 0)
        firsts = gauge_sure(TREE, d.nodes, BYTES(POINTS), distance, rule, (uint8_t *)sure, sizeof sure) == count;
    for (size_t i = 0; i < count && firsts; i++)
        firsts = memcmp(&sure[i], lent[ANSWERS].at + room_for(most) * i, sizeof *sure) == 0;
    compared(FEW, returned);
    if (!firsts)
        differs("the first of the nearest few is not the sure query's answer");
}

/* The same bits for every NaN: which of them a call writes is left open. */
static void one_nan(uint8_t *list, size_t count)
{
    for (size_t i = 0; i < count; i++) {
        float x;
        memcpy(&x, list + 4 * i, 4);
        if (x != x)
            memset(list + 4 * i, 0x7f, 4);
    }
}

static void ask_sums(Drawing d, size_t room)
{
    uint64_t returned[BOTH];
    lend_drawing(d);
    lend(SUMS, NULL, 4 * room);
    for (int who = 0; who < BOTH; who++)
        returned[who] = (who == PLAIN ? plain_node_sums : gauge_node_sums)(TREE, d.nodes, FLOATS(SUMS));
    if (!gauge_refused(returned[PLAIN])) {
        one_nan(lent[SUMS].at, 16 * d.nodes);
        one_nan(lent[SUMS].copy, 16 * d.nodes);
    }
    compared(NODE_SUMS, returned);
}

/* A list of floats. */
typedef struct { const float *floats; size_t length; } Floats;

static void ask_fast(Drawing d, Floats sums, Slice points, float scale, size_t room)
{
    uint64_t returned[BOTH];
    lend_drawing(d);
    lend(SUMS, sums.floats, 4 * sums.length);
    lend(POINTS, points.bytes, points.length);
    lend(ANSWERS, NULL, room);
    for (int who = 0; who < BOTH; who++)
        returned[who] = (who == PLAIN ? plain_fast_winding : gauge_fast_winding)(TREE, d.nodes, FLOATS(SUMS), BYTES(POINTS), scale, BYTES(ANSWERS));
    compared(FAST, returned);
}

/* ---- drawings, points, distances, scales by chance */

enum { MOST = 5000, MOST_NODES = 2 * MOST + 2, MOST_IMAGE = 110 * MOST };

static float drawing[9 * MOST], touched[3 * 64];

static float any_bits(void)
{
    uint32_t bits = (uint32_t)chance();
    float x;
    memcpy(&x, &bits, 4);
    return x;
}

static float good_bits(void)
{
    float x = any_bits();
    return fabsf(x) <= GAUGE_MAX_COORDINATE ? x : between(-1, 1);
}

static float bad_coordinate(void)
{
    static const float bad[] = {1048576.125f, -1048576.125f, 3.4e38f, INFINITY, -INFINITY, NAN, -NAN};
    return bad[below(sizeof bad / sizeof *bad)];
}

/* A triangle that may have no computed point: corners that are the same, corners in one line, and sides of about 1e-10, where the
 * inverse of a square's square is infinite, or so short that their squares run under, some of them or all, seen from where their products
 * with a point do not. */
enum { SAME, LINE, SHORT, UNDER, NOUGHT, DEGENERATE };

static void make_degenerate(float *t, unsigned kind, float size)
{
    /* b is a, c is a, c is b, all are one; of many magnitudes, so that differences round */
    unsigned same = below(4), magnitudes = below(2) ? 24 : 1;
    float step = ldexpf(1, (int)below(8) - 4);
    float side = ldexpf(1, kind == SHORT ? -31 - (int)below(6) : kind == NOUGHT ? -76 - (int)below(8) : -70 - (int)below(18));
    float slope[3], span = ldexpf(side, (int)below(12));
    for (int k = 0; k < 3; k++) {
        t[k] = kind == LINE ? (float)below(9) * step : between(-span, span);
        slope[k] = (float)((int)below(5) - 2) * step;
    }
    for (int corner = 1; corner < 3; corner++) {
        float times = (float)((int)below(7) - 3), length = kind == UNDER && below(2) ? ldexpf(side, -(int)below(12)) : side;
        for (int k = 0; k < 3; k++)
            t[3 * corner + k] = t[k] + (kind == LINE ? times * slope[k] : between(-length, length));
    }
    for (int k = 0; k < 9 && kind == SAME; k++)
        t[k] = ldexpf(between(-size, size), -(int)below(magnitudes));
    if (kind == SAME || below(8) == 0)
        for (int k = 0; k < 3; k++) {
            if (same == 0 || same == 3)
                t[3 + k] = t[k];
            if (same != 0)
                t[6 + k] = same == 2 ? t[3 + k] : t[k];
        }
}

static void make_drawing(size_t n)
{
    static const float sizes[] = {1e-40f, 1e-22f, 1e-12f, 1e-3f, 1, 10, 1000, 1048576};
    float size = sizes[below(sizeof sizes / sizeof *sizes)], edge = between(0, 1) * size;
    unsigned kind = below(9 + DEGENERATE);
    for (size_t i = 0; i < n; i++) {
        float *t = drawing + 9 * i;
        float start[3] = {between(-size, size), between(-size, size), between(-size, size)};
        if (kind > 8)
            make_degenerate(t, kind - 9, size);
        for (int k = 0; k < 9 && kind < 9; k++) {
            if (kind == 0) /* anywhere */
                t[k] = between(-size, size);
            else if (kind == 1) /* small, spread out */
                t[k] = fmaxf(-1048576, fminf(1048576, start[k % 3] + between(-edge, edge) / 16));
            else if (kind == 2) /* whole numbers: many that are equal */
                t[k] = (float)below(4);
            else if (kind == 3) /* one triangle again and again */
                t[k] = i == 0 ? between(-size, size) : drawing[k];
            else if (kind == 4) /* pinched */
                t[k] = k < 3 || below(3) == 0 ? between(-size, size) : t[k - 3];
            else if (kind == 5) /* flat */
                t[k] = k % 3 == 2 ? 0.5f * size : between(-size, size);
            else if (kind == 6) /* on each axis ever nearer by sixteen: deep trees */
                t[k] = (size_t)k % 3 == i % 3 ? ldexpf(1.0f + 0.001f * (float)(k / 3), 19 - 4 * (int)(i / 3 % 40)) : 0;
            else if (kind == 7) /* any bits */
                t[k] = good_bits();
            else /* a height field */
                t[k] = k % 3 == 2 ? sinf((float)i) : (float)((k % 3 == 0 ? i % 8 : i / 8) + (k / 3 == 1 + k % 3));
            if (below(40) == 0)
                t[k] = below(2) ? -0.0f : 0.0f;
        }
    }
}

static float in_range(float x)
{
    return fabsf(x) <= GAUGE_MAX_COORDINATE ? x : 1048576.0f;
}

/* By an edge, before its start or past its end, and off it by nothing, by up to its length or by much more; or straight over the face or
 * over a corner, up to its length high or much higher. */
static void make_point_by_edge(const float *t, float *point)
{
    unsigned edge = below(3), off = below(4);
    const float *from = t + (edge == 2 ? 3 : 0), *to = t + (edge == 0 ? 3 : 6), *third = t + (edge == 0 ? 6 : edge == 1 ? 3 : 0);
    double along[3], side[3], share = below(4) ? between(-0.5f, 1.5f) : (double)below(2), inward = 0, up = 0, length = 0;
    for (int k = 0; k < 3; k++) {
        along[k] = (double)to[k] - from[k];
        side[k] = (double)third[k] - from[k];
        length = fmax(length, fabs(along[k]));
    }
    if (off == 3 && length > 0) {
        int over_face = below(4) != 0;
        share = over_face ? between(0, 1) : (double)below(2);
        inward = over_face ? between(0, 1) * (1 - share) : 0;
        up = ldexp(between(-2, 2) / length, below(2) ? 0 : (int)below(30));
    }
    float far = (float)(off == 1 ? length : off == 2 ? ldexp(length, (int)below(24)) : 0);
    for (int k = 0; k < 3; k++) {
        int next = (k + 1) % 3, last = (k + 2) % 3;
        double across = along[next] * side[last] - along[last] * side[next];
        point[k] = in_range((float)(from[k] + share * along[k] + inward * side[k] + up * across) + between(-far, far));
    }
}

static void make_points(size_t n, size_t triangles)
{
    for (size_t i = 0; i < n; i++) {
        const float *t = drawing + 9 * below((unsigned)triangles), *u = drawing + 9 * below((unsigned)triangles);
        unsigned kind = below(9);
        float s = between(0, 1), r = between(0, 1), by_edge[3];
        make_point_by_edge(t, by_edge);
        for (int k = 0; k < 3; k++) {
            float corner = t[3 * below(3) + k], x = corner;
            if (kind == 1) /* on a triangle */
                x = t[k] + s * (t[3 + k] - t[k]) + r * (t[6 + k] - t[3 + k]);
            else if (kind == 2) /* between two */
                x = (t[k] + u[k]) / 2;
            else if (kind == 3) /* near */
                x = corner + (corner - u[k]) * s;
            else if (kind == 4)
                x = (float)((int)below(9) - 4) / 2;
            else if (kind == 5)
                x = between(-1048576, 1048576);
            else if (kind == 6)
                x = good_bits();
            else if (kind > 6)
                x = by_edge[k];
            touched[3 * i + k] = in_range(x);
        }
    }
}

static float make_distance(void)
{
    static const float some[] = {0, -0.0f, 1e-30f, 0.5f, 1, 1.5f, 2, 50, 1048576, 4194304, 4194304, 4194304};
    static const float bad[] = {4194304.5f, -1e-45f, -1, INFINITY, -INFINITY, NAN};
    unsigned kind = below(12);
    if (kind == 0)
        return bad[below(sizeof bad / sizeof *bad)];
    return kind < 9 ? some[below(sizeof some / sizeof *some)] : ldexpf(between(1, 2), (int)below(60) - 38);
}

/* Numbers that are no rule, some of them one in fewer bits. */
static const uint32_t no_rules[] = {0, 3, 4, 255, 256, 257, 258, 65535, 65536, 65537, 65538, 0x80000001, 0x80000002, 0xfffffffe, 0xffffffff};
enum { NO_RULES = sizeof no_rules / sizeof *no_rules };

static uint32_t good_rule(void)
{
    return 1 + below(2);
}

static uint32_t make_rule(void)
{
    return below(12) ? good_rule() : no_rules[below(NO_RULES)];
}

/* Numbers that are no few, some of them one in fewer bits. */
static const uint32_t no_fews[] = {0, 17, 18, 32, 255, 256, 257, 272, 65535, 65536, 65537, 65552, 0x80000001, 0x80000010, 0xfffffff0, 0xffffffff};
enum { NO_FEWS = sizeof no_fews / sizeof *no_fews };

static uint32_t good_few(void)
{
    return 1 + below(below(3) ? 4 : GAUGE_MAX_FEW);
}

static uint32_t make_few(void)
{
    return below(12) ? good_few() : no_fews[below(NO_FEWS)];
}

static float make_scale(void)
{
    static const float some[] = {0, -0.0f, 1e-40f, 0.25f, 0.5f, 1, 1.5f, 2, 2, 2, 3, 10, 1000};
    static const float bad[] = {1000.0001f, 1e30f, -1e-45f, -2, INFINITY, -INFINITY, NAN, -NAN};
    unsigned kind = below(12);
    if (kind == 0)
        return bad[below(sizeof bad / sizeof *bad)];
    return kind < 9 ? some[below(sizeof some / sizeof *some)] : between(0, 4);
}

/* ---- a tree over the drawing, its sums and its image, by plain C */

static uint32_t tree_order[MOST], tree_links[3 * MOST_NODES];
static float tree_boxes[6 * MOST_NODES], tree_sums[16 * MOST_NODES], bad_sums[16 * MOST_NODES];
static uint8_t image_bytes[MOST_IMAGE];

static Slice bytes_of(const void *bytes, size_t length)
{
    Slice s = {bytes, length};
    return s;
}

static size_t done(uint64_t returned)
{
    if (gauge_refused(returned)) {
        fprintf(stderr, "fuzz: plain C refused a drawing: %u at %llu\n", gauge_number(returned), (unsigned long long)gauge_place(returned));
        exit(2);
    }
    return returned;
}

static Drawing tree_of(size_t n, size_t nodes)
{
    Drawing d = {drawing, 9 * n, tree_order, n, tree_links, 3 * nodes, tree_boxes, 6 * nodes, nodes};
    return d;
}

static Drawing make_tree(size_t n, Settings s)
{
    static float bounds[6 * MOST], centres[3 * MOST];
    static uint32_t scratch[MOST];
    return tree_of(n, done(plain_build(s.strategy, s.leaf_minimum, s.maximum_depth, drawing, 9 * n, tree_order, MOST, tree_links,
                                       3 * MOST_NODES, tree_boxes, 6 * MOST_NODES, bounds, 6 * MOST, centres, 3 * MOST, scratch, MOST)));
}

static uint64_t write_image(Settings s, Drawing d, uint8_t *image, size_t length)
{
    return plain_write(s.strategy, s.leaf_minimum, s.maximum_depth, d.triangles, d.triangles_length, d.order, d.order_length, d.links,
                       d.links_length, d.boxes, d.boxes_length, d.nodes, image, length);
}

/* How many floats the sums have, as far as there is room for them here. */
static size_t sums_length(Drawing d)
{
    return 16 * (d.nodes < MOST_NODES ? d.nodes : MOST_NODES);
}

/* The sums of a tree; of lists that are none, those that were made last. */
static Floats make_sums(Drawing d)
{
    Floats sums = {tree_sums, sums_length(d)};
    plain_node_sums(d.triangles, d.triangles_length, d.order, d.order_length, d.links, d.links_length, d.boxes, d.boxes_length, d.nodes,
                    tree_sums, sizeof tree_sums / 4);
    return sums;
}

/* Sums with something wrong in them, or nothing. Those of another tree are what was made last. */
static Floats any_sums(Drawing d)
{
    static const float some[] = {0, -0.0f, 1, -1, 1e-40f, 1e-20f, 1e20f, 3e38f, INFINITY, -INFINITY, NAN, -NAN};
    Floats bad = {bad_sums, sums_length(d)};
    unsigned kind = below(8), length = (unsigned)bad.length;
    if (kind == 0)
        memcpy(bad_sums, tree_sums, 4 * bad.length);
    Floats sums = make_sums(d);
    if (kind > 4 || length == 0)
        return sums;
    if (kind != 0)
        memcpy(bad_sums, tree_sums, 4 * bad.length);
    if (kind == 1) /* of other nodes */
        for (unsigned i = 0; i < length; i++)
            bad_sums[i] = tree_sums[(i + 16) % length];
    if (kind == 2) /* a few numbers are others */
        for (unsigned i = 1 + below(8); i > 0; i--)
            bad_sums[below(length)] = below(2) ? some[below(sizeof some / sizeof *some)] : any_bits();
    if (kind == 3) /* any bits */
        for (unsigned i = 0; i < length; i++)
            bad_sums[i] = below(4) ? any_bits() : some[below(sizeof some / sizeof *some)];
    if (kind == 4) /* too short, or longer */
        bad.length = below(3) ? below(length) : bad.length + below(sizeof bad_sums / 4 - length + 1) % 64;
    return bad;
}

static Slice make_image(Settings s, Drawing d)
{
    return bytes_of(image_bytes, done(write_image(s, d, image_bytes, sizeof image_bytes)));
}

/* The bytes of an entry and of a node in the image of n triangles, and where its headers stand. */
static size_t entry_bytes(size_t n)
{
    return n <= GAUGE_MAX_SMALL ? 2 : 4;
}

static size_t node_bytes(size_t n)
{
    return 26 + 2 * entry_bytes(n);
}

static size_t header_at(size_t n, int record)
{
    size_t at[4] = {0, 14, 20 + 36 * n, 26 + (36 + entry_bytes(n)) * n};
    return at[record];
}

static size_t nodes_in(Slice image, size_t n)
{
    return (image.length - header_at(n, 3) - 6) / node_bytes(n);
}

/* ---- distances at which a point's nearest stands exactly */

static uint64_t roots_sought, roots_met;

/* The distance whose square, rounded, is this one; where there is none, one of the two floats next to it. */
static float root_of(float squared)
{
    float near = sqrtf(squared), some[3] = {near, nextafterf(near, INFINITY), nextafterf(near, 0)};
    roots_sought++;
    for (int k = 0; k < 3; k++) {
        float square = some[k] * some[k];
        if (square == squared) {
            roots_met++;
            return some[k];
        }
    }
    return some[below(3)];
}

/* How far a point is from a drawing, which has a tree. */
static float nearest_root(Drawing d, const float *point)
{
    struct gauge_answer answer;
    done(plain_sure(d.triangles, d.triangles_length, d.order, d.order_length, d.links, d.links_length, d.boxes, d.boxes_length, d.nodes,
                    (const uint8_t *)point, 12, GAUGE_MAX_DISTANCE, 1, (uint8_t *)&answer, sizeof answer));
    return root_of(answer.squared);
}

/* How far it is from one triangle of it. */
static float triangle_root(const float *triangle, const float *point)
{
    uint32_t order[1], links[3];
    float boxes[6];
    size_t nodes = plain_chain(1, PLAIN_LEFT, triangle, 1, order, links, boxes);
    Drawing alone = {triangle, 9, order, 1, links, 3, boxes, 6, nodes};
    return nearest_root(alone, point);
}

/* Either of them, or one step of a float less or more. */
static float level_distance(Drawing d, const float *triangle, const float *point)
{
    for (int k = 0; k < 3; k++)
        if (!(fabsf(point[k]) <= GAUGE_MAX_COORDINATE))
            return make_distance();
    float at = triangle == NULL ? nearest_root(d, point) : triangle_root(triangle, point);
    unsigned step = below(4);
    return step == 0 ? nextafterf(at, 0) : step == 1 ? nextafterf(at, INFINITY) : at;
}

/* ---- every question to one drawing, and to one image */

static size_t exact_size(Drawing d)
{
    size_t n = d.triangles_length / 9, nodes = d.nodes < 2 * n + 2 ? d.nodes : 2 * n + 2;
    return header_at(n, 3) + 6 + node_bytes(n) * nodes;
}

static void ask_all(Settings s, Drawing d, Slice points, float distance)
{
    size_t n = points.length / 12;
    ask_check(d);
    ask_points(SURE, d, points, distance, good_rule(), room_for(n));
    if (below(2)) {
        uint32_t most = good_few();
        ask_few(d, points, distance, good_rule(), most, room_for(n * most));
    }
    ask_points(SOURCE, d, points, distance, 0, room_for(n));
    ask_points(WINDING, d, points, distance, 0, 4 * n);
    ask_write(s, d, exact_size(d));
    ask_sums(d, sums_length(d));
    ask_fast(d, make_sums(d), points, 2, 4 * n);
}

/* A copy of a drawing, to be damaged: each list has room for some entries more, by each of so many damages. */
enum { AT_ONCE = 4, LONGER = 40, SPARE = AT_ONCE * LONGER };
static float bad_triangles[9 * MOST + SPARE], bad_boxes[6 * MOST_NODES + SPARE];
static uint32_t bad_order[MOST + SPARE], bad_links[3 * MOST_NODES + SPARE];

/* The image is counted and read, and what was read is asked. Where it can be written it gives the same bytes. */
static void ask_image(Slice image, Slice points)
{
    static uint8_t again[MOST_IMAGE];
    uint32_t settings[3];
    uint64_t n = ask_count(image);
    if (gauge_refused(n)) {
        ask_read(image, rooms_for(3, 5));
        return;
    }
    size_t nodes = nodes_in(image, n);
    ask_read(image, rooms_for(n, nodes));
    if (n > MOST || nodes > MOST_NODES)
        return;
    plain_read(image.bytes, image.length, settings, 3, bad_triangles, 9 * n, bad_order, n, bad_links, 3 * nodes, bad_boxes, 6 * nodes);
    Settings s = {settings[0], settings[1], settings[2]};
    Drawing d = {bad_triangles, 9 * n, bad_order, n, bad_links, 3 * nodes, bad_boxes, 6 * nodes, nodes};
    ask_all(s, d, points, GAUGE_MAX_DISTANCE);
    uint64_t size = write_image(s, d, again, sizeof again);
    if (!gauge_refused(size) && (size != image.length || memcmp(again, image.bytes, size) != 0) && differences++ < 10)
        fprintf(stderr, "fuzz: call %llu: an image that was read is written as another\n", (unsigned long long)calls);
}

/* ---- damage */

static Drawing copied(Drawing d)
{
    memcpy(bad_triangles, d.triangles, 4 * d.triangles_length);
    memcpy(bad_order, d.order, 4 * d.order_length);
    memcpy(bad_links, d.links, 4 * d.links_length);
    memcpy(bad_boxes, d.boxes, 4 * d.boxes_length);
    for (int i = 0; i < SPARE; i++) {
        bad_triangles[d.triangles_length + (size_t)i] = between(-1, 1);
        bad_order[d.order_length + (size_t)i] = below((unsigned)d.order_length + 2);
        bad_links[d.links_length + (size_t)i] = below(4);
        bad_boxes[d.boxes_length + (size_t)i] = between(-1, 1);
    }
    d.triangles = bad_triangles;
    d.order = bad_order;
    d.links = bad_links;
    d.boxes = bad_boxes;
    return d;
}

static Drawing with_link(Drawing d, size_t at, uint32_t value)
{
    d = copied(d);
    bad_links[at] = value;
    return d;
}

static Drawing with_side(Drawing d, size_t at, uint32_t bits)
{
    d = copied(d);
    memcpy(bad_boxes + at, &bits, 4);
    return d;
}

static Drawing with_order(Drawing d, size_t at, uint32_t value)
{
    d = copied(d);
    bad_order[at] = value;
    return d;
}

static size_t made_up(size_t count)
{
    static const size_t some[] = {0, 1, 4096, 65536, 131071, 131072, 4294967296u, 4294967297u, SIZE_MAX / 6, SIZE_MAX / 3 + 1, SIZE_MAX};
    return below(2) ? some[below(sizeof some / sizeof *some)] : count + below(7) - 3;
}

/* Lists of other lengths, another node count, other triangles: what is not the tree's alone. The drawing is a copy. */
static Drawing damage_lengths(Drawing d)
{
    unsigned n = (unsigned)d.triangles_length / 9;
    switch (below(5)) {
    case 0: /* a bad corner */
        if (d.triangles_length != 0)
            bad_triangles[below((unsigned)d.triangles_length)] = bad_coordinate();
        return d;
    case 1: /* a node count that is made up */
        d.nodes = made_up(d.nodes);
        return d;
    case 2: /* lists that are longer */
        d.order_length += below(3) ? 0 : below(LONGER);
        d.links_length += below(LONGER);
        d.boxes_length += below(LONGER);
        d.nodes += below(3) ? 0 : below(4);
        return d;
    case 3: /* lists that are shorter */
        d.order_length -= below(3) ? 0 : below((unsigned)d.order_length + 1);
        d.links_length -= below(3) ? 0 : below((unsigned)d.links_length + 1);
        d.boxes_length -= below(3) ? 0 : below((unsigned)d.boxes_length + 1);
        return d;
    default: /* triangles of another length */
        d.triangles_length = below(2) ? d.triangles_length + below(20) : below(9 * n + 1);
        return d;
    }
}

/* A drawing with one thing wrong in it, or several, or nothing. */
static Drawing damage(Drawing d)
{
    d = copied(d);
    for (unsigned times = below(3) ? 1 : 2 + below(AT_ONCE - 1); times > 0; times--) {
        Tree t = {d.triangles_length / 9, bad_order, d.order_length, bad_links, d.links_length, bad_boxes, d.boxes_length, d.nodes};
        if (below(6) == 0 || t.count == 0) {
            d = damage_lengths(d);
            continue;
        }
        damage_tree(&t, (int)below(DAMAGES));
        d.order_length = t.order_length;
        d.links_length = t.links_length;
        d.boxes_length = t.boxes_length;
        d.nodes = t.nodes;
    }
    return d;
}

static uint8_t bad_image[MOST_IMAGE];

static Slice copied_image(Slice image)
{
    memcpy(bad_image, image.bytes, image.length);
    return bytes_of(bad_image, image.length);
}

static Slice with_bit(Slice image, size_t bit)
{
    image = copied_image(image);
    bad_image[bit / 8] ^= (uint8_t)(1u << bit % 8);
    return image;
}

static Slice with_u16(Slice image, size_t at, unsigned value)
{
    image = copied_image(image);
    bad_image[at] = (uint8_t)value;
    bad_image[at + 1] = (uint8_t)(value >> 8);
    return image;
}

static Slice with_u32(Slice image, size_t at, uint32_t value)
{
    image = copied_image(image);
    memcpy(bad_image + at, &value, 4);
    return image;
}

/* A NaN that signals, a quiet one, an infinity. */
static uint32_t no_number(void)
{
    static const uint32_t some[] = {0x7f800001, 0xff800001, 0x7fc00000, 0xffc00123, 0x7f800000, 0xff800000};
    return some[below(sizeof some / sizeof *some)];
}

/* The image of n triangles with something wrong in it, or nothing. */
static Slice damage_image(Slice image, size_t n)
{
    size_t nodes = header_at(n, 3) + 6, size = node_bytes(n), node = nodes + size * below((unsigned)nodes_in(image, n));
    switch (below(10)) {
    case 0: /* cut */
        image.length = below((unsigned)image.length);
        return image;
    case 1: /* a bit of a header */
        return with_bit(image, 8 * header_at(n, (int)below(4)) + below(48));
    case 2: /* a bit of the settings */
        return with_bit(image, 48 + below(64));
    case 3: /* any bit */
        return with_bit(image, 8 * (size_t)below((unsigned)image.length) + below(8));
    case 4: /* another version, another leaf minimum */
        return below(2) ? with_u16(image, 6, below(4)) : with_u16(image, 10, below(2) ? 0 : 4095 + below(3));
    case 5: /* in a corner or in a box */
        return with_u32(image, below(2) ? 20 + 4 * (size_t)below(9 * (unsigned)n) : node + size - 24 + 4 * below(6), no_number());
    case 6: /* in the order */
        return with_u16(image, nodes - 6 - entry_bytes(n) * (1 + below((unsigned)n)), (unsigned)chance());
    case 7: { /* bytes behind the last */
        size_t length = image.length;
        image = copied_image(image);
        image.length += 1 + below(40);
        for (size_t i = length; i < image.length; i++)
            bad_image[i] = (uint8_t)(below(3) ? 0 : chance());
        return image;
    }
    case 8: { /* a node left out, or twice, the length told right */
        size_t length = below(2) ? image.length + size : image.length - size, from = length > image.length ? node : node + size;
        Slice s = copied_image(image);
        memmove(bad_image + from + length - image.length, image.bytes + from, image.length - from);
        uint32_t told = (uint32_t)(length - nodes);
        memcpy(bad_image + nodes - 6, &told, 4);
        s.length = length;
        return s;
    }
    default: { /* some of it from elsewhere */
        Slice s = copied_image(image);
        for (unsigned k = 1 + below(12); k > 0; k--)
            bad_image[below((unsigned)image.length)] = image.bytes[below((unsigned)image.length)];
        return s;
    }
    }
}

/* ---- STLs */

enum { MOST_STL = GAUGE_STL_BYTES(GAUGE_MAX_TRIANGLES + 1), CORNERS = 96, FACET = 50 };
static uint8_t stl_bytes[MOST_STL + FACET];

/* Bits of coordinates: the last that are accepted, the first that are not, zeros, subnormals, infinities, and NaNs
 * that signal and that do not. */
static const uint32_t edges[] = {0x49800000, 0xc9800000, 0x49800001, 0xc9800001, 0x497fffff, 0x00000000, 0x80000000, 0x00000001, 0x807fffff,
                                 0x00800000, 0x7f7fffff, 0x7f800000, 0xff800000, 0x7f800001, 0xffbfffff, 0x7fc00000, 0xffffffff};
enum { EDGES = sizeof edges / sizeof *edges };

static void put_bits(void *at, uint32_t bits)
{
    memcpy(at, &bits, 4);
}

/* Where a number of the triangles stands. */
static uint8_t *corner_at(size_t number)
{
    return stl_bytes + CORNERS + FACET * (number / 9) + 4 * (number % 9);
}

/* The drawing's STL as another program may write it: with anything beside count and corners, maybe NaNs throughout,
 * and maybe it begins as one in text does. */
static Slice make_stl(size_t n)
{
    static const char text[] = "solid part\nfacet normal 0 0 1\n";
    size_t length = GAUGE_STL_BYTES(n);
    if (below(4))
        paint(stl_bytes, length + FACET);
    else
        memset(stl_bytes, below(2) ? 0xff : 0, length + FACET);
    if (below(2))
        memcpy(stl_bytes, text, sizeof text - 1);
    put_bits(stl_bytes + 80, (uint32_t)n);
    for (size_t i = 0; i < n; i++)
        memcpy(corner_at(9 * i), drawing + 9 * i, 36);
    return bytes_of(stl_bytes, length);
}

/* Where the STL is read, what was read is written: the same count and corners, and zeros beside them. Read again it is
 * the same triangles. */
static void ask_stl(Slice stl)
{
    static float once[9 * MOST], twice[9 * MOST];
    static uint8_t written[GAUGE_STL_BYTES(MOST)];
    size_t n = GAUGE_STL_TRIANGLES(stl.length), length = stl.length;
    if (gauge_refused(ask_read_stl(stl, 9 * n)) || n > MOST)
        return;
    if (gauge_read_stl(stl.bytes, length, once, 9 * n) != n || gauge_write_stl(once, 9 * n, written, length) != length ||
        gauge_read_stl(written, length, twice, 9 * n) != n || memcmp(once, twice, 36 * n) != 0)
        differs("an STL that was written is read as another");
    for (size_t i = 0; i < length; i++) {
        size_t in_facet = i < 84 ? 0 : (i - 84) % FACET;
        int kept = i < 84 ? i >= 80 : in_facet >= 12 && in_facet < 48;
        if (written[i] != (kept ? stl.bytes[i] : 0)) {
            differs("an STL that was read is written as another");
            break;
        }
    }
    ask_write_stl(once, 9 * n, length);
}

/* The STL of n triangles with something wrong in it, or nothing. */
static Slice damage_stl(size_t n)
{
    Slice stl = make_stl(n);
    unsigned length = (unsigned)stl.length;
    switch (below(8)) {
    case 0: /* cut */
        stl.length = below(length);
        break;
    case 1: /* longer */
        stl.length += 1 + below(FACET);
        break;
    case 2: /* a bit of the count, or another count */
        if (below(2))
            stl_bytes[80 + below(4)] ^= (uint8_t)(1u << below(8));
        else
            put_bits(stl_bytes + 80, below(2) ? (uint32_t)n + below(5) - 2 : (uint32_t)chance());
        break;
    case 3: /* facets left out, and counted so, or one twice */
        n = below(2) ? below((unsigned)n) : n + 1;
        put_bits(stl_bytes + 80, (uint32_t)n);
        stl.length = GAUGE_STL_BYTES(n);
        memmove(stl_bytes + stl.length - FACET, stl_bytes + 84, n == 0 ? 0 : FACET);
        break;
    case 4: /* some corners are others */
        for (unsigned k = 1 + below(3); k > 0; k--)
            put_bits(corner_at(below(9 * (unsigned)n)), edges[below(EDGES)]);
        break;
    case 5: /* some are anything */
        for (unsigned k = 1 + below(3); k > 0; k--)
            put_bits(corner_at(below(9 * (unsigned)n)), (uint32_t)chance());
        break;
    case 6: /* any bit */
        stl_bytes[below(length)] ^= (uint8_t)(1u << below(8));
        break;
    default:
        break;
    }
    return stl;
}

/* ---- each in turn */

static const Settings usual = {1, 1, 40};

static void each_cut(Slice image, Slice points)
{
    for (size_t k = 0; k < image.length; k++)
        ask_image(bytes_of(image.bytes, k), points);
}

/* Of record 1 the body too. */
static void each_header_bit(Slice image, size_t n, Slice points)
{
    for (int record = 0; record < 4; record++)
        for (size_t bit = 0; bit < (record == 0 ? 112u : 48u); bit++)
            ask_image(with_bit(image, 8 * header_at(n, record) + bit), points);
}

static void each_node(Drawing d, Slice points)
{
    static const uint32_t kinds[] = {0, 1, 2, 3, 257, 65537, 65538, 0xffffffff};
    static const uint32_t far[] = {65535, 65536, 0x80000000, 0xffffffff};
    static const uint32_t sides[] = {0x7fc00000, 0x7f800001, 0xff800000};
    for (size_t node = 0; node < d.nodes; node++) {
        for (size_t k = 0; k < sizeof kinds / sizeof *kinds; k++)
            ask_all(usual, with_link(d, 3 * node, kinds[k]), points, GAUGE_MAX_DISTANCE);
        for (size_t side = 1; side < 3; side++)
            for (uint32_t value = 0; value < 12; value++)
                ask_all(usual, with_link(d, 3 * node + side, value < 8 ? value : far[value - 8]), points, GAUGE_MAX_DISTANCE);
        for (size_t number = 6 * node; number < 6 * node + 6; number++)
            for (size_t k = 0; k < sizeof sides / sizeof *sides; k++)
                ask_all(usual, with_side(d, number, sides[k]), points, GAUGE_MAX_DISTANCE);
    }
}

static void each_order(Drawing d, Slice points)
{
    size_t n = d.order_length;
    for (size_t i = 0; i < n; i++)
        for (size_t value = 0; value <= n + 2; value++)
            ask_all(usual, with_order(d, i, value <= n ? (uint32_t)value : value == n + 1 ? 65536 + (uint32_t)i : 0xffffffff), points,
                    GAUGE_MAX_DISTANCE);
}

/* Node counts, and lists of other lengths. */
static void each_count(Drawing d, Slice points)
{
    static const size_t far[] = {4294967296u, 4294967297u, SIZE_MAX / 30, SIZE_MAX / 6 + 1, SIZE_MAX / 3 + 1, SIZE_MAX};
    Drawing more = copied(d);
    for (size_t k = 0; k < d.nodes + 9; k++) {
        more.links_length = d.links_length + 9;
        more.boxes_length = d.boxes_length + 18;
        more.nodes = k < d.nodes + 3 ? k : far[k - d.nodes - 3];
        ask_all(usual, more, points, GAUGE_MAX_DISTANCE);
    }
    more.nodes = d.nodes;
    for (size_t length = 0; length <= 6 * d.nodes + 1; length++) {
        Drawing order = more, links = more, boxes = more, triangles = more;
        order.order_length = length;
        links.links_length = length;
        boxes.boxes_length = length;
        triangles.triangles_length = length;
        if (length <= d.order_length + 2)
            ask_all(usual, order, points, GAUGE_MAX_DISTANCE);
        if (length <= 3 * d.nodes + 1)
            ask_all(usual, links, points, GAUGE_MAX_DISTANCE);
        ask_all(usual, boxes, points, GAUGE_MAX_DISTANCE);
        if (length <= 9 * d.order_length)
            ask_all(usual, triangles, points, GAUGE_MAX_DISTANCE);
    }
}

static void each_length(Drawing d, Slice points)
{
    enum { ONE = GAUGE_ANSWER_BYTES, WORD = sizeof(uint32_t) };
    static const size_t some[] = {0, 1, 4, 5, 11, 12, ONE - WORD, ONE - 1, ONE, ONE + 1, 2 * (ONE - WORD), 2 * ONE - 1, 2 * ONE, 2 * ONE + 1,
                                  3 * (ONE - WORD), 3 * ONE - 1, 3 * ONE, 3 * ONE + 1};
    for (size_t length = 0; length <= 40; length++)
        for (size_t k = 0; k < sizeof some / sizeof *some; k++)
            for (int call = SURE; call <= WINDING; call++) {
                ask_points(call, d, bytes_of(points.bytes, length), GAUGE_MAX_DISTANCE, good_rule(), some[k]);
                if (call == WINDING)
                    ask_fast(d, make_sums(d), bytes_of(points.bytes, length), 2, some[k]);
            }
    for (size_t length = 0; length <= 30; length++) {
        Settings s = {1 + length % 2, 1, 40};
        ask_build(s, drawing, length, rooms_for(4, 7));
    }
}

/* Each list that is written, from none to some entries too many, where the others are exact. */
static void each_room(Drawing d, Slice image)
{
    size_t n = d.order_length;
    for (size_t room = 0; room <= image.length + 3; room++)
        ask_write(usual, d, room);
    for (int list = 0; list < 8; list++) {
        Rooms exact = rooms_for(n, 2 * n - 1);
        size_t wanted[8] = {exact.settings, exact.triangles, exact.order, exact.links, exact.boxes, exact.bounds, exact.centres, exact.scratch};
        for (size_t room = 0; room <= wanted[list] + 2; room++) {
            Settings s = {1 + room % 2, 1, 40};
            size_t given[8];
            memcpy(given, wanted, sizeof given);
            given[list] = room;
            Rooms r = {given[0], given[1], given[2], given[3], given[4], given[5], given[6], given[7]};
            if (list >= 2)
                ask_build(s, drawing, 9 * n, r);
            if (list <= 4)
                ask_read(image, r);
        }
    }
}

/* Sums from none to some floats too many, and each scale. */
static void each_sums(Drawing d, Slice points)
{
    static const float scales[] = {0, -0.0f, 1e-45f, 1, 2, 1000, 1000.00006f, 1001, -1e-45f, -2, INFINITY, -INFINITY, NAN, -NAN};
    Floats sums = make_sums(d);
    for (size_t length = 0; length <= sums.length + 17; length++) {
        Floats other = {tree_sums, length};
        ask_sums(d, length);
        ask_fast(d, other, points, 2, points.length / 3);
    }
    for (size_t k = 0; k < sizeof scales / sizeof *scales; k++) {
        ask_fast(d, sums, points, scales[k], points.length / 3);
        ask_fast(d, sums, bytes_of(points.bytes, points.length - 1), scales[k], points.length / 3);
    }
}

/* Made-up sums: points exactly as far as radius times scale, and a centre so far off that its distance squared nearly or just overflows. */
static void each_reach(Drawing d)
{
    static const float points[] = {2, 0, 0, 0, 4, 0, 0, 0, -2.5f}, scales[] = {0, 1, 2, 2.5f, 4};
    Floats made = {bad_sums, sums_length(d)};
    float far = sqrtf(FLT_MAX / 3);
    for (int i = 0; i < 4; i++)
        far = nextafterf(far, 0);
    for (int centre = 0; centre < 10; centre++, far = nextafterf(far, INFINITY)) {
        for (size_t i = 0; i < made.length; i++)
            bad_sums[i] = i % 16 < 12 ? (float)(i % 16) - 4 : i % 16 == 12 ? 1 : centre == 0 ? 0 : far;
        for (size_t k = 0; k < sizeof scales / sizeof *scales; k++)
            ask_fast(d, made, bytes_of(points, sizeof points), scales[k], sizeof points / 3);
    }
}

static void each_setting(Drawing d)
{
    static const size_t some[] = {0, 1, 2, 3, 4, 40, 63, 64, 65, 4095, 4096, 4097, 65535, 65536, 65537, 4294967297u, SIZE_MAX};
    size_t many = sizeof some / sizeof *some, n = d.order_length;
    for (size_t i = 0; i < many; i++) {
        for (size_t k = 0; k < many; k++) {
            Settings one = {some[i], some[k], 40}, other = {2, some[i], some[k]};
            ask_build(one, drawing, 9 * n, rooms_for(n, 2 * n));
            ask_build(other, drawing, 9 * n, rooms_for(n, 2 * n));
            ask_write(one, d, exact_size(d));
            ask_write(other, d, exact_size(d));
        }
        ask_max(some[i]);
    }
}

static void each_max(void)
{
    for (size_t i = 0; i <= 65540; i += i < 8 || (i > 4090 && i < 4100) || i > 65530 ? 1 : i < 4090 ? 17 : 613)
        ask_max(i);
}

/* Each length and count of an STL, and each room for it. */
static void each_stl_size(size_t n)
{
    uint32_t counts[] = {0, (uint32_t)n + 1, (uint32_t)n - 1, 65536, 65537, 85899344, 85899345, 0x80000000 + (uint32_t)n, 0xffffffff};
    Slice stl = make_stl(n);
    ask_stl(stl);
    for (size_t length = 0; length <= stl.length + FACET; length++)
        ask_read_stl(bytes_of(stl_bytes, length), 9 * n);
    for (size_t room = 0; room <= 9 * n + 3; room++)
        ask_read_stl(stl, room);
    for (size_t k = 0; k < 32 + sizeof counts / sizeof *counts; k++) {
        put_bits(stl_bytes + 80, k < 32 ? (uint32_t)n ^ (uint32_t)1 << k : counts[k - 32]);
        ask_read_stl(stl, 9 * n);
    }
    for (size_t length = 0; length <= 9 * n + 9; length++)
        ask_write_stl(drawing, length, stl.length);
    for (size_t room = 0; room <= stl.length + 3; room++)
        ask_write_stl(drawing, 9 * n, room);
}

/* Each number of the corners with bits of every kind: alone, before another that is bad, and without room. */
static void each_corner(size_t n)
{
    size_t last = 9 * n - 1;
    for (size_t k = 0; k < 9 * n * EDGES; k++) {
        size_t number = k / EDGES;
        float kept = drawing[number], kept_last = drawing[last];
        put_bits(drawing + number, edges[k % EDGES]);
        ask_stl(make_stl(n));
        ask_read_stl(bytes_of(stl_bytes, GAUGE_STL_BYTES(n)), 9 * n - 1);
        ask_write_stl(drawing, 9 * n, GAUGE_STL_BYTES(n));
        if (number < last) {
            put_bits(drawing + last, 0x7fc00000);
            ask_read_stl(make_stl(n), 9 * n);
            ask_write_stl(drawing, 9 * n, GAUGE_STL_BYTES(n) - 1);
        }
        drawing[last] = kept_last;
        drawing[number] = kept;
    }
}

/* Each rule and each number that is none: alone, and beside whatever else is refused. */
static void each_rule(Drawing d, Slice points)
{
    size_t n = points.length / 12;
    for (size_t k = 0; k < 2 + NO_RULES; k++) {
        uint32_t rule = k < 2 ? 1 + (uint32_t)k : no_rules[k - 2];
        Drawing ragged = d, none = d, nodeless = d, corner = d;
        static float point[3];
        ragged.triangles_length--;
        none.triangles_length = 0;
        nodeless.nodes = 0;
        memcpy(point, points.bytes, 12);
        point[2] = NAN;
        ask_points(SURE, d, points, GAUGE_MAX_DISTANCE, rule, room_for(n));
        ask_points(SURE, d, bytes_of(NULL, 0), GAUGE_MAX_DISTANCE, rule, 0);
        ask_points(SURE, ragged, points, GAUGE_MAX_DISTANCE, rule, room_for(n));
        ask_points(SURE, none, points, GAUGE_MAX_DISTANCE, rule, room_for(n));
        corner = copied(d);
        bad_triangles[8] = INFINITY;
        ask_points(SURE, corner, points, GAUGE_MAX_DISTANCE, rule, room_for(n));
        ask_points(SURE, d, points, GAUGE_MAX_DISTANCE, rule, room_for(n) - 1);
        ask_points(SURE, with_order(d, 0, 65536), points, GAUGE_MAX_DISTANCE, rule, room_for(n));
        ask_points(SURE, nodeless, points, GAUGE_MAX_DISTANCE, rule, room_for(n));
        ask_points(SURE, with_link(d, 0, 3), points, GAUGE_MAX_DISTANCE, rule, room_for(n));
        ask_points(SURE, with_side(d, 0, 0x7fc00000), points, GAUGE_MAX_DISTANCE, rule, room_for(n));
        ask_points(SURE, d, bytes_of(points.bytes, points.length - 1), GAUGE_MAX_DISTANCE, rule, room_for(n));
        ask_points(SURE, d, bytes_of(point, 12), GAUGE_MAX_DISTANCE, rule, room_for(1));
        ask_points(SURE, d, points, -1, rule, room_for(n));
        ask_points(SURE, d, points, NAN, rule, room_for(n));
        ask_points(SURE, nodeless, bytes_of(point, 11), -1, rule, 0); /* 71 to 75, 8 and 9 at once, and no room */
    }
}

/* Each number of answers, and each that is none, by both rules and by none, and beside whatever else is refused: before it the triangles,
 * behind it all the rest, of which room is the first. */
static void each_most(Drawing d, Slice points)
{
    static float point[3];
    size_t n = points.length / 12;
    memcpy(point, points.bytes, 12);
    point[2] = NAN;
    for (uint32_t k = 0; k < GAUGE_MAX_FEW + NO_FEWS; k++) {
        uint32_t most = k < GAUGE_MAX_FEW ? 1 + k : no_fews[k - GAUGE_MAX_FEW], each = most <= GAUGE_MAX_FEW ? most : GAUGE_MAX_FEW + 1;
        size_t room = room_for(n * each);
        for (uint32_t rule = 0; rule <= 3; rule++)
            ask_few(d, points, GAUGE_MAX_DISTANCE, rule, most, room);
        ask_few(d, points, GAUGE_MAX_DISTANCE, good_rule(), most, 0);
        ask_few(d, bytes_of(NULL, 0), GAUGE_MAX_DISTANCE, good_rule(), most, 0);
        if (most > 2 && most < GAUGE_MAX_FEW)
            continue;
        Drawing ragged = d, none = d, nodeless = d, corner = copied(d);
        ragged.triangles_length--;
        none.triangles_length = 0;
        nodeless.nodes = 0;
        bad_triangles[8] = INFINITY;
        ask_few(corner, points, GAUGE_MAX_DISTANCE, good_rule(), most, room);
        ask_few(ragged, points, GAUGE_MAX_DISTANCE, good_rule(), most, room);
        ask_few(none, points, GAUGE_MAX_DISTANCE, good_rule(), most, room);
        ask_few(with_order(d, 0, 65536), points, GAUGE_MAX_DISTANCE, good_rule(), most, room);
        ask_few(nodeless, points, GAUGE_MAX_DISTANCE, good_rule(), most, room);
        ask_few(with_link(d, 0, 3), points, GAUGE_MAX_DISTANCE, good_rule(), most, room);
        ask_few(with_side(d, 0, 0x7fc00000), points, GAUGE_MAX_DISTANCE, good_rule(), most, room);
        ask_few(d, bytes_of(points.bytes, points.length - 1), GAUGE_MAX_DISTANCE, good_rule(), most, room);
        ask_few(d, bytes_of(point, 12), GAUGE_MAX_DISTANCE, good_rule(), most, room);
        ask_few(d, points, -1, good_rule(), most, room);
        ask_few(nodeless, bytes_of(point, 11), NAN, good_rule(), most, room);
        ask_few(nodeless, points, NAN, good_rule(), most, room_for(n) - 1); /* no room for one answer a point either */
    }
}

/* Room for the nearest few: as much as they take, a byte less and a byte more, an answer less, as much as one a point takes, and none. */
static void each_few_room(Drawing d, Slice points)
{
    for (size_t n = 0; 12 * n <= points.length; n++)
        for (uint32_t most = 1; most <= GAUGE_MAX_FEW; most++) {
            size_t exact = room_for(n * most), rooms_given[] = {exact, exact + 1, exact - 1, exact - room_for(1), room_for(n), 0};
            for (size_t k = 0; k < (n == 0 ? 2 : sizeof rooms_given / sizeof *rooms_given); k++)
                ask_few(d, bytes_of(points.bytes, 12 * n), GAUGE_MAX_DISTANCE, good_rule(), most, rooms_given[k]);
        }
}

/* Both rules at a distance. */
static void both_rules(Drawing d, Slice points, float distance)
{
    for (uint32_t rule = 1; rule <= 2; rule++)
        ask_points(SURE, d, points, distance, rule, room_for(points.length / 12));
}

/* Each step about the distance of each point. */
static void each_step(Drawing d, const float *points, size_t count)
{
    for (size_t i = 0; i < count; i++) {
        Slice point = bytes_of(points + 3 * i, 12);
        float at = nearest_root(d, points + 3 * i);
        both_rules(d, point, at);
        both_rules(d, point, nextafterf(at, INFINITY));
        both_rules(d, point, nextafterf(at, 0));
        both_rules(d, point, 0);
        both_rules(d, bytes_of(points, 12 * count), at);
        ask_points(SOURCE, d, point, at, 0, room_for(1)); /* it goes by no rule, and enters a box strictly below the distance */
    }
}

/* A drawing with each of three trees: each step about the distance of these points, and of its corners and the middles of its sides; and
 * all of them at a distance of 0, or of what is 0 when squared, or is not quite. */
static void each_tree_level(const float *corners, size_t n, const float *points, size_t count)
{
    static const float none[] = {0, -0.0f, 1e-45f, 1e-30f, 0x1p-75f, 0x1.000002p-75f, 0x1p-74f};
    static const Settings settings[] = {{1, 1, 40}, {2, 1, 40}, {1, 3, 40}};
    float on[18 * 3];
    memcpy(drawing, corners, 36 * n);
    for (size_t i = 0; i < 9 * n; i++) {
        const float *t = drawing + 9 * (i / 9);
        on[i] = t[i % 9];
        on[9 * n + i] = (t[i % 9] + t[(i % 9 + 3) % 9]) / 2;
    }
    for (size_t k = 0; k < sizeof settings / sizeof *settings; k++) {
        Drawing d = make_tree(n, settings[k]);
        each_step(d, points, count);
        each_step(d, on, 6 * n);
        for (size_t i = 0; i < sizeof none / sizeof *none; i++) {
            both_rules(d, bytes_of(on, 72 * n), none[i]);
            both_rules(d, bytes_of(points, 12 * count), none[i]);
        }
    }
}

/* Where the two rules differ, by hand. Two triangles ten apart, the first twice, and points whose distances are whole numbers, halves and
 * quarters; a triangle whose slanting side is exactly 60 from a point in its box, another that is 50 from it, and a third that is 60. */
static void each_level(void)
{
    static const float apart[] = {0, 0, 0, 1, 0, 0, 0, 1, 0, 10, 0, 0, 11, 0, 0, 10, 1, 0, 0, 0, 0, 1, 0, 0, 0, 1, 0};
    static const float points[] = {5.5f, 0, 0, 100, 0, 0, 0.25f, 0.25f, 4, 0.25f, 0.25f, -4, -3, -4, 0, 10.5f, 0.25f, 0.5f, 13, 0, 0, 5.5f, 0, 1.5f};
    static const float slanting[] = {0, 0, 0, 100, 0, 0, 0, 75, 0, 100, 125, 0, 100, 130, 0, 105, 130, 0, 160, 75, 0, 170, 75, 0, 160, 80, 0};
    static const float in_box[] = {100, 75, 0, 64, 27, 0, 100, 75, 1}, distances[] = {50, 60, 0};
    for (size_t n = 1; n <= 3; n++) {
        each_tree_level(apart, n, points, sizeof points / 12);
        each_tree_level(slanting, n, in_box, sizeof in_box / 12);
        for (size_t k = 0; k < sizeof distances / sizeof *distances; k++) {
            Drawing d = make_tree(n, usual);
            both_rules(d, bytes_of(in_box, sizeof in_box), nextafterf(distances[k], 0));
            both_rules(d, bytes_of(in_box, sizeof in_box), distances[k]);
            both_rules(d, bytes_of(in_box, sizeof in_box), nextafterf(distances[k], INFINITY));
        }
    }
}

/* Whether the sure query answers this, that was worked out by hand; and each step about the distance. */
static void expect_answer(Drawing d, const float *point, struct gauge_answer wanted, const char *otherwise)
{
    struct gauge_answer said;
    gauge_sure(d.triangles, d.triangles_length, d.order, d.order_length, d.links, d.links_length, d.boxes, d.boxes_length, d.nodes,
               (const uint8_t *)point, 12, GAUGE_MAX_DISTANCE, 1, (uint8_t *)&said, sizeof said);
    if (memcmp(&said, &wanted, sizeof said) != 0)
        differs(otherwise);
    each_step(d, point, 1);
}

/* Which part of a triangle is told where it has a computed point: of one from over it and from beside it, on it, where the point is on
 * another part by rounding, and where the box moves it; of several that are level that of the lowest number, whatever the parts are. */
static void each_part(void)
{
    static const float one[] = {0, 0, 0, 4, 0, 0, 0, 4, 0};
    static const struct { float point[3]; struct gauge_answer answer; } of_one[] = {
        {{1, 1, 3}, {1, 0, 1, 1, 0, 9, GAUGE_FACE}}, {{1, 1, 0}, {1, 0, 1, 1, 0, 0, GAUGE_FACE}},
        {{-3, -4, 0}, {1, 0, 0, 0, 0, 25, GAUGE_CORNER_A}}, {{0, 0, 5}, {1, 0, 0, 0, 0, 25, GAUGE_CORNER_A}},
        {{6, -1, 0}, {1, 0, 4, 0, 0, 5, GAUGE_CORNER_B}}, {{4, 0, 0}, {1, 0, 4, 0, 0, 0, GAUGE_CORNER_B}},
        {{-1, 6, 0}, {1, 0, 0, 4, 0, 5, GAUGE_CORNER_C}}, {{0, 4, -2}, {1, 0, 0, 4, 0, 4, GAUGE_CORNER_C}},
        {{1, -2, 0}, {1, 0, 1, 0, 0, 4, GAUGE_EDGE_AB}}, {{1, 0, 0}, {1, 0, 1, 0, 0, 0, GAUGE_EDGE_AB}},
        {{-2, 3, 0}, {1, 0, 0, 3, 0, 4, GAUGE_EDGE_AC}}, {{0, 3, 1}, {1, 0, 0, 3, 0, 1, GAUGE_EDGE_AC}},
        {{3, 3, 0}, {1, 0, 2, 2, 0, 2, GAUGE_EDGE_BC}}, {{2, 2, 7}, {1, 0, 2, 2, 0, 49, GAUGE_EDGE_BC}},
    };
    static const struct { float corners[9], point[3]; struct gauge_answer answer; } rounded[] = {
        {{0, 0, 0, 1048576, 0, 0, 0, 1048576, 0}, {524288, 0x1p-140f, 0}, {1, 0, 524288, 0, 0, 0, GAUGE_FACE}}, /* on ab */
        {{-1, 0, 0, 1, 0, 0, 0, 1, 0}, {0x1.fffffep-1f, -1, 0}, {1, 0, 1, 0, 0, 1, GAUGE_EDGE_AB}}, /* at b */
        /* and where the box moves it: */
        {{2, -3, 0, -2, 0x1p-23f, 0, 0x1.000008p1f, 0, 0}, {2, 0, 3}, {1, 0, 2, 0x1p-23f, 0, 9, GAUGE_FACE}}, /* from 2^-22 */
        {{1, 0, 0, 0x1p-30f, 0, 0, 1, 1, 0}, {0x1.8p-30f, -1, 0}, {1, 0, 0x1p-30f, 0, 0, 1, GAUGE_EDGE_AB}}, /* a + (b - a) is 0 */
        {{1, 0, 0, 1, 1, 0, 0x1p-30f, 0, 0}, {0x1.8p-30f, -1, 0}, {1, 0, 0x1p-30f, 0, 0, 1, GAUGE_EDGE_AC}},
    };
    /* two in one plane, two on either side of the point, three about a corner: as listed, and turned so that each is the first once */
    static const struct { size_t count; float corners[27], point[3]; struct gauge_answer answers[3]; } level[] = {
        {2, {0, 0, 0, 4, 0, 0, 0, 4, 0, 4, 0, 0, 0, 4, 0, 4, 4, 0}, {2, 2, 1},
         {{1, 0, 2, 2, 0, 1, GAUGE_EDGE_BC}, {1, 0, 2, 2, 0, 1, GAUGE_EDGE_AB}}},
        {2, {1, 1, -1, 5, 1, -9, 1, 5, -9, 0, 0, 1, 4, 0, 1, 0, 4, 1}, {1, 1, 0},
         {{1, 0, 1, 1, -1, 1, GAUGE_CORNER_A}, {1, 0, 1, 1, 1, 1, GAUGE_FACE}}},
        {3, {1, 0, -1, 0, 1, -1, 0, 0, 0, 0, 0, 0, 1, 0, -1, 0, 1, -1, 1, 0, -1, 0, 0, 0, 0, 1, -1}, {0, 0, 2},
         {{1, 0, 0, 0, 0, 4, GAUGE_CORNER_C}, {1, 0, 0, 0, 0, 4, GAUGE_CORNER_A}, {1, 0, 0, 0, 0, 4, GAUGE_CORNER_B}}},
    };
    static const Settings settings[] = {{1, 1, 40}, {2, 1, 40}, {1, 3, 40}};
    memcpy(drawing, one, sizeof one);
    for (size_t k = 0; k < sizeof of_one / sizeof *of_one; k++)
        expect_answer(make_tree(1, usual), of_one[k].point, of_one[k].answer, "a part is not what it is by hand");
    for (size_t k = 0; k < sizeof rounded / sizeof *rounded; k++) {
        memcpy(drawing, rounded[k].corners, 36);
        expect_answer(make_tree(1, usual), rounded[k].point, rounded[k].answer, "a part is another by rounding, or where the box moves the point");
    }
    for (size_t k = 0; k < sizeof level / sizeof *level; k++)
        for (size_t first = 0; first < level[k].count; first++) {
            for (size_t t = 0; t < level[k].count; t++)
                memcpy(drawing + 9 * t, level[k].corners + 9 * ((first + t) % level[k].count), 36);
            for (size_t i = 0; i < sizeof settings / sizeof *settings; i++)
                expect_answer(make_tree(level[k].count, settings[i]), level[k].point, level[k].answers[first],
                              "a part is not that of the lowest number");
        }
}

/* What the sure query answers where a triangle has no computed point, by hand. 0x1p-33f is about 1e-10. */
static void each_foot(void)
{
    static const struct { float corners[9], point[3]; struct gauge_answer answer; } feet[] = {
        {{0, 0, 0, 0, 0, 0, 4, 0, 0}, {1, 1, 0}, {1, 0, 1, 0, 0, 1, GAUGE_EDGE_AC}}, /* the example E7 */
        {{0, 0, 0, 0, 0, 0, 4, 0, 0}, {9, 0, 3}, {1, 0, 4, 0, 0, 34, GAUGE_EDGE_AC}}, /* past the end of ac */
        {{4, 0, 0, 4, 0, 0, 0, 0, 0}, {0, 0, 0}, {1, 0, 0, 0, 0, 0, GAUGE_EDGE_AC}}, /* at corner c */
        {{1, 0, 0, 1, 0, 0, 0x1p-30f, 0, 0}, {-1, 0, 0}, {1, 0, 0x1p-30f, 0, 0, 1, GAUGE_EDGE_AC}}, /* a + (c - a) is 0, which is outside the box */
        {{1, 0, 0, 1, 0, 0, 0x1.8p-25f, 0, 0}, {-1, 0, 0}, {1, 0, 0x1p-24f, 0, 0, 1, GAUGE_EDGE_AC}}, /* it is 2^-24, in the box and not c */
        {{0, 0, 0, 0x1p-24f, -0x1p-24f, 0, 0x1p-25f, 1, 0}, {8, 8, 0}, {1, 0, 0x1p-25f, 1, 0, 113, GAUGE_EDGE_AC}}, /* past the end of ac and not of the box */
        /* on ac, since that on bc is nearer only until it is held into the box, and level then */
        {{0, -2, 0, 0x1p-23f, -0x1.fffffep0f, 0, -2, 0x1p-21f, 0}, {-11, 9, 0}, {1, 0, -2, 0x1p-21f, 0, 162, GAUGE_EDGE_AC}},
        {{0, 0, 0, 0x1p-33f, 0, 0, 0, 0x1p-33f, 0}, {0x1p-35f, 0x1p-35f, 0}, {1, 0, 0x1p-35f, 0, 0, 0x1p-70f, GAUGE_EDGE_AB}}, /* on ab, and ac is level */
        {{0, 0, 0, 0x1p-33f, 0, 0, 0, 0x1p-33f, 0}, {0x1p-36f, 0x1p-35f, 0}, {1, 0, 0, 0x1p-35f, 0, 0x1p-72f, GAUGE_EDGE_AC}}, /* on ac */
        {{0, 0, 0, 0x1p-33f, 0, 0, 0, 0x1p-33f, 0}, {7 * 0x1p-37f, 7 * 0x1p-37f, 0}, {1, 0, 0x1p-34f, 0x1p-34f, 0, 0x1p-73f, GAUGE_EDGE_BC}}, /* on bc */
        {{0, 0, 0, 0, 0, 0, 0x1p-70f, 0, 0}, {0x1p-69f, 0, 0}, {1, 0, 0x1p-70f, 0, 0, 0x1p-140f, GAUGE_EDGE_AC}}, /* the square of ac is subnormal */
        {{0, 0, 0, 0, 0, 0, 0x1p-80f, 0, 0}, {1, 1, 0}, {1, 0, 0, 0, 0, 2, GAUGE_CORNER_A}}, /* it has run under to zero: the start, which is a */
        {{0, 0, 0x1p-10f, 0x1p-10f, 0, 0, 0, 0, 0}, {-1048576, 0, -1048576}, {1, 0, 0, 0, 0x1p-10f, 0x1p41f, GAUGE_EDGE_AB}}, /* from far off all are level */
        /* a tiny one from far over its plane: all are level, so ab it is, at its start and at its end */
        {{0, 0x1p-34f, 0, 0x1p-33f, 0x1p-33f, 0, -0x1p-34f, -0x1p-33f, 0}, {0, 0, -1024}, {1, 0, 0, 0x1p-34f, 0, 0x1p20f, GAUGE_EDGE_AB}},
        {{-0x1p-34f, 0x1p-34f, 0, -0x1p-35f, 0, 0, 0x1p-34f, -0x1p-35f, 0}, {0, 0, 0.25f}, {1, 0, -0x1p-35f, 0, 0, 0x1p-4f, GAUGE_EDGE_AB}},
        /* the square of ac has run under, and a, where it starts, is by rounding nearer than the foot on ab */
        {{0, 0, 0, 0x1.18f3e2p-16f, -0x1.3904e8p-17f, 0x1.370416p-16f, -0x1.6aeacep-80f, -0x1.cf9bbcp-78f, -0x1.ad5632p-79f},
         {0x1.00e5b2p-1f, 0x1.72fde6p-4f, -0x1.a17526p-2f}, {1, 0, 0, 0, 0, 0x1.b46274p-2f, GAUGE_CORNER_A}},
        /* the squares of all three have run under, and b, where bc starts, is nearer than a; c is no start */
        {{0, 0, 0, 0x1p-77f, -0x1p-78f, 0, 0x1p-76f, -0x1p-78f, 0}, {0x1p-73f, 0, 0}, {1, 0, 0x1p-77f, -0x1p-78f, 0, 7 * 0x1p-149f, GAUGE_CORNER_B}},
    };
    for (size_t k = 0; k < sizeof feet / sizeof *feet; k++) {
        memcpy(drawing, feet[k].corners, 36);
        expect_answer(make_tree(1, usual), feet[k].point, feet[k].answer, "a foot is not where it was put by hand, or not on that part");
    }
}

/* Of each kind of triangle that may have none drawings by chance, each at many points by their edges. */
static void each_degenerate(void)
{
    static const unsigned kinds[] = {SAME, LINE, SHORT, UNDER, SHORT, SHORT, NOUGHT}; /* where sides are short each edge may be the nearest */
    const unsigned many_kinds = sizeof kinds / sizeof *kinds;
    for (unsigned k = 0; k < 40 * many_kinds; k++) {
        size_t n = 1 + below(8), many = sizeof touched / 12;
        Settings s = {1 + below(2), 1 + below(3), 64};
        float size = ldexpf(1, (int)below(90) - 70);
        for (size_t i = 0; i < n; i++)
            make_degenerate(drawing + 9 * i, kinds[k % many_kinds], size);
        for (size_t i = 0; i < many; i++)
            make_point_by_edge(drawing + 9 * below((unsigned)n), touched + 3 * i);
        for (size_t i = 0; i < 3 * many && kinds[k % many_kinds] == NOUGHT; i++) { /* where some of the products are the least floats */
            float far = ldexpf(1, -60 - (int)below(14));
            touched[i] += between(-far, far);
        }
        Drawing d = make_tree(n, s);
        float distance = below(2) ? GAUGE_MAX_DISTANCE : level_distance(d, NULL, touched);
        both_rules(d, bytes_of(touched, sizeof touched), distance);
        ask_points(SOURCE, d, bytes_of(touched, sizeof touched), distance, 0, room_for(many));
        uint32_t most = good_few();
        ask_few(d, bytes_of(touched, sizeof touched), distance, good_rule(), most, room_for(many * most));
    }
}

/* Whether the nearest few are these, that were told by hand: each number of them, in bytes that were others; and one number of them beside
 * plain C. */
static void expect_few(Drawing d, const float *point, float distance, uint32_t rule, const struct gauge_answer *wanted, const char *otherwise)
{
    static const struct gauge_answer painted = {0xa5a5a5a5, 0xa5a5a5a5, 1, 1, 1, 1, 0xa5a5a5a5};
    struct gauge_answer said[GAUGE_MAX_FEW + 1];
    for (uint32_t most = 1; most <= GAUGE_MAX_FEW; most++) {
        for (int k = 0; k <= GAUGE_MAX_FEW; k++)
            said[k] = painted;
        uint64_t returned = gauge_few(d.triangles, d.triangles_length, d.order, d.order_length, d.links, d.links_length, d.boxes,
                                      d.boxes_length, d.nodes, (const uint8_t *)point, 12, distance, rule, most, (uint8_t *)said, sizeof said);
        if (returned != 1 || memcmp(said, wanted, room_for(most)) != 0 || memcmp(&said[most], &painted, sizeof painted) != 0)
            differs(otherwise);
    }
    uint32_t most = 1 + below(GAUGE_MAX_FEW);
    ask_few(d, bytes_of(point, 12), distance, rule, most, room_for(most));
}

/* Of the drawing trees of each kind: built, and chains, which come to the triangles in another order. There are so many. */
enum { TREES = 6 };

static Drawing few_tree(size_t n, int which)
{
    static const Settings settings[] = {{1, 1, 40}, {2, 1, 40}, {1, 3, 40}};
    if (which < 3)
        return make_tree(n, settings[which]);
    return tree_of(n, plain_chain(n, PLAIN_LEFT + which - 3, drawing, n, tree_order, tree_links, tree_boxes));
}

/* The nearest few by hand. Triangles that lie one over the other, seen from a point that stands square to the face of each: how high each
 * is, and their numbers as they must be told at the largest distance. At a distance it is the front of that, by rule 1 as far as they are
 * lower, by rule 2 those too that are as high. Then walls of two triangles each. */
static void each_few(void)
{
    static const struct { size_t count; float heights[20]; uint32_t told[20]; } stacks[] = {
        {1, {3}, {0}},
        {2, {-1, 1}, {0, 1}},                              /* level */
        {2, {2, -0.5f}, {1, 0}},                           /* a thin rib from inside */
        {2, {-3, -1}, {1, 0}},                             /* and from outside */
        {5, {2, 2, 2, 2, 2}, {0, 1, 2, 3, 4}},             /* one triangle five times */
        {6, {4, 1, 4, 1, -2, -2}, {1, 3, 4, 5, 0, 2}},     /* three told twice */
        {17, {4, 4, -4, 4, 4, 4, 4, 4, -4, 4, 4, 4, 4, 4, 4, 4, 4}, {0, 1, 2, 3, 4, 5, 6, 7, 8, 9, 10, 11, 12, 13, 14, 15, 16}},
        {18, {9, 8, 7, 6, 5, 4, 3, 2, 1, 18, 17, 16, 15, 14, 13, 12, 11, 10}, {8, 7, 6, 5, 4, 3, 2, 1, 0, 17, 16, 15, 14, 13, 12, 11, 10, 9}},
        {20, {3, 1, -1, 2, 1, -3, 1, 1, 2, 5, 4, -4, 6, 5, -6, 7, 8, 8, 9, -7}, /* five are level, then two and two, at 16 of them too */
         {1, 2, 4, 6, 7, 3, 8, 0, 5, 10, 11, 9, 13, 12, 14, 15, 19, 16, 17, 18}},
    };
    static const float walls[] = {0, 0, 0, 0, 4, 0, 0, 4, 4, 0, 0, 0, 0, 4, 4, 0, 0, 4, 1, 0, 0, 1, 4, 4, 1, 4, 0, 1, 0, 0, 1, 0, 4, 1, 4, 4};
    static const struct { float point[3]; struct gauge_answer answers[GAUGE_MAX_FEW]; } ribs[] = {
        /* over the edge between the two triangles of a wall: both are of this wall, then both of the other */
        {{-2, 2, 2}, {{1, 0, 0, 2, 2, 4, GAUGE_EDGE_AC}, {1, 1, 0, 2, 2, 4, GAUGE_EDGE_AB}, {1, 2, 1, 2, 2, 9, GAUGE_EDGE_AB},
                      {1, 3, 1, 2, 2, 9, GAUGE_EDGE_AC}}},
        /* inside: one wall, then the other, by their faces */
        {{0.25f, 1, 3}, {{1, 1, 0, 1, 3, 0.0625f, GAUGE_FACE}, {1, 3, 1, 1, 3, 0.5625f, GAUGE_FACE}, {1, 0, 0, 2, 2, 2.0625f, GAUGE_EDGE_AC},
                         {1, 2, 1, 2, 2, 2.5625f, GAUGE_EDGE_AB}}},
        /* beside a corner, where each wall is level with itself, and half way the walls are too */
        {{0.5f, -1, -1}, {{1, 0, 0, 0, 0, 2.25f, GAUGE_CORNER_A}, {1, 1, 0, 0, 0, 2.25f, GAUGE_CORNER_A}, {1, 2, 1, 0, 0, 2.25f, GAUGE_CORNER_A},
                          {1, 3, 1, 0, 0, 2.25f, GAUGE_CORNER_A}}},
    };
    static const float pinched[] = {0, 0, 0, 0, 0, 0, 4, 0, 0, 1, 3, 0, 1, 3, 0, 1, 3, 0}; /* an edge and a corner: no computed point */
    static const float by_pinched[] = {1, 1, 0};
    static const struct gauge_answer of_pinched[GAUGE_MAX_FEW] = {{1, 0, 1, 0, 0, 1, GAUGE_EDGE_AC}, {1, 1, 1, 3, 0, 4, GAUGE_CORNER_A}};
    static const float above[] = {1, 1, 0};
    for (size_t k = 0; k < sizeof stacks / sizeof *stacks; k++)
        for (int which = 0; which < TREES; which++) {
            size_t n = stacks[k].count;
            for (size_t t = 0; t < n; t++) {
                float h = stacks[k].heights[t], corners[] = {0, 0, h, 4, 0, h, 0, 4, h};
                memcpy(drawing + 9 * t, corners, sizeof corners);
            }
            Drawing d = few_tree(n, which);
            for (size_t i = 0; i < 3 * n + 2; i++) {
                float height = fabsf(stacks[k].heights[i / 3 % n]), distance = i == 3 * n ? 0 : GAUGE_MAX_DISTANCE;
                if (i < 3 * n) /* as high as one of them, a step lower, a step higher */
                    distance = i % 3 == 0 ? height : nextafterf(height, i % 3 == 1 ? 0 : INFINITY);
                for (uint32_t rule = 1; rule <= 2; rule++) {
                    struct gauge_answer wanted[20];
                    memset(wanted, 0, sizeof wanted);
                    for (size_t place = 0; place < n; place++) {
                        float h = stacks[k].heights[stacks[k].told[place]];
                        struct gauge_answer a = {1, stacks[k].told[place], 1, 1, h, h * h, GAUGE_FACE};
                        if (fabsf(h) < distance || (rule == 2 && fabsf(h) == distance))
                            wanted[place] = a;
                    }
                    expect_few(d, above, distance, rule, wanted, "the nearest few are not what they are by hand");
                }
            }
        }
    for (int which = 0; which < TREES; which++) {
        memcpy(drawing, walls, sizeof walls);
        Drawing d = few_tree(4, which);
        for (size_t k = 0; k < sizeof ribs / sizeof *ribs; k++)
            expect_few(d, ribs[k].point, 50, good_rule(), ribs[k].answers, "the walls of a rib are not what they are by hand");
        memcpy(drawing, pinched, sizeof pinched);
        expect_few(few_tree(2, which), by_pinched, 50, good_rule(), of_pinched,
                   "the nearest few without a computed point are not what they are by hand");
    }
}

static void in_turn(size_t n)
{
    Slice points = bytes_of(touched, 36);
    make_drawing(n);
    make_points(4, n);
    Settings s = {1 + below(2), 1, 40};
    Drawing d = make_tree(n, s);
    Slice image = make_image(s, d);
    ask_image(image, points);
    each_cut(image, points);
    each_header_bit(image, n, points);
    each_node(d, points);
    each_order(d, points);
    each_count(d, points);
    each_length(d, points);
    each_room(d, image);
    each_sums(d, points);
    each_reach(d);
    each_setting(d);
    each_stl_size(n);
    each_corner(n);
    each_rule(d, points);
    each_most(d, points);
    each_few_room(d, points);
    each_step(d, touched, 4);
}

/* 64 levels are accepted, 65 are not, and that is told before a box that is wrong. */
static void each_depth(void)
{
    static const size_t levels[] = {1, 2, 63, 64, 65, 66, 100, 200};
    make_drawing(200);
    make_points(3, 200);
    for (size_t k = 0; k < sizeof levels / sizeof *levels; k++)
        for (int leaves = PLAIN_LEFT; leaves <= PLAIN_TURNING; leaves++)
            for (size_t more = 0; more < 2; more++) {
                size_t n = levels[k] + more * (200 - levels[k]);
                size_t nodes = plain_chain(levels[k], leaves, drawing, n, tree_order, tree_links, tree_boxes);
                ask_all(usual, tree_of(n, nodes), bytes_of(touched, 36), GAUGE_MAX_DISTANCE);
                ask_all(usual, with_side(tree_of(n, nodes), 6 * below((unsigned)nodes), 0x7fc00000), bytes_of(touched, 36), GAUGE_MAX_DISTANCE);
            }
}

/* ---- few triangles and many */

/* An image of n zero triangles and so many zero nodes, by version. */
static Slice zero_image(unsigned version, size_t n, size_t nodes)
{
    static uint8_t bytes[32 + 40 * (GAUGE_MAX_TRIANGLES + 1) + 34];
    size_t entry = version == 1 ? 2 : 4, sizes[4] = {8, 36 * n, entry * n, (26 + 2 * entry) * nodes}, at = 0;
    memset(bytes, 0, sizeof bytes);
    for (int k = 0; k < 4; k++) {
        for (int i = 0; i < 4; i++)
            bytes[at + (size_t)i] = (uint8_t)(sizes[k] >> 8 * i);
        bytes[at + 4] = (uint8_t)(k + 1);
        if (k == 0) {
            bytes[6] = (uint8_t)version;
            bytes[8] = bytes[10] = bytes[12] = 1;
        }
        at += 6 + sizes[k];
    }
    return bytes_of(bytes, at);
}

static void ask_limits(void)
{
    static const size_t counts[] = {0, 4096, 4097, 65537};
    static float zeros[9 * (GAUGE_MAX_TRIANGLES + 1) + 1];
    static const size_t lengths[] = {0, 9 * 4096, 9 * 4097, 9 * 65536, 9 * 65537, 9 * 65537 + 1};
    Slice points = bytes_of(touched, 36);
    for (unsigned version = 1; version <= 2; version++)
        for (int i = 0; i < 4; i++)
            for (size_t nodes = 0; nodes < 2; nodes++)
                ask_image(zero_image(version, counts[i], nodes), points);
    for (int i = 0; i < 6; i++) {
        size_t n = lengths[i] / 9;
        Settings s = {1 + (size_t)i % 2, 1, 40};
        Drawing d = {zeros, lengths[i], tree_order, 1, tree_links, 3, tree_boxes, 6, 1};
        ask_build(s, zeros, lengths[i], rooms_for(n, 2 * n));
        ask_all(usual, d, points, GAUGE_MAX_DISTANCE);
        ask_points(SURE, d, points, GAUGE_MAX_DISTANCE, 3, room_for(points.length / 12));
        ask_few(d, points, GAUGE_MAX_DISTANCE, 1, GAUGE_MAX_FEW + 1, room_for(points.length / 12));
    }
}

/* STLs on either side of 65,536 triangles, and of none: a list that is too long for the tests of what it holds, a
 * number that is bad in the last facet, and room that is one short. */
static void ask_stl_limits(void)
{
    static float triangles[9 * (GAUGE_MAX_TRIANGLES + 1) + 1];
    for (size_t i = 0; i < sizeof triangles / 4; i++)
        triangles[i] = good_bits();
    each_stl_size(0);
    for (size_t n = GAUGE_MAX_TRIANGLES; n <= GAUGE_MAX_TRIANGLES + 1; n++) {
        size_t length = GAUGE_STL_BYTES(n), last = 9 * n - 1;
        Slice stl = bytes_of(stl_bytes, length);
        paint(stl_bytes, length);
        put_bits(stl_bytes + 80, (uint32_t)n);
        for (size_t i = 0; i < n; i++)
            memcpy(corner_at(9 * i), triangles + 9 * i, 36);
        ask_read_stl(stl, 9 * n);
        ask_read_stl(stl, 9 * n - 1);
        ask_read_stl(bytes_of(stl_bytes, length - 1), 9 * n);
        put_bits(corner_at(last), 0x49800001);
        ask_read_stl(stl, 0);
        ask_write_stl(triangles, 9 * n, length);
        ask_write_stl(triangles, 9 * n, length - 1);
        ask_write_stl(triangles, 9 * n + 1, length);
        float kept = triangles[last];
        triangles[last] = NAN;
        ask_write_stl(triangles, 9 * n, 0);
        triangles[last] = kept;
    }
}

/* A drawing on either side of 4,096 triangles: its image, and what is not quite its image. */
static void ask_large(size_t n, Settings s)
{
    Slice points = bytes_of(touched, 24);
    make_drawing(n);
    make_points(2, n);
    Rooms r = rooms_for(n, 2 * n - 1);
    ask_build(s, drawing, 9 * n, r);
    r.scratch--;
    ask_build(s, drawing, 9 * n, r);
    Drawing d = make_tree(n, s);
    ask_all(s, d, points, GAUGE_MAX_DISTANCE);
    ask_write(s, d, exact_size(d) - 1);
    if (n <= GAUGE_MAX_SMALL)
        s.leaf_minimum = s.leaf_minimum > 4096 ? 4096 : s.leaf_minimum;
    Slice image = make_image(s, d);
    ask_image(image, points);
    r = rooms_for(n, d.nodes);
    for (int list = 0; list < 4; list++) {
        Rooms less = r;
        less.triangles -= list == 0;
        less.order -= list == 1;
        less.links -= list == 2;
        less.boxes -= list == 3;
        ask_read(image, less);
    }
    ask_image(with_u16(image, 6, image.bytes[6] == 1 ? 2 : 1), points);
    ask_image(with_u16(image, 10, 0), points);
    for (int i = 0; i < 12; i++)
        ask_image(damage_image(image, n), points);
    for (int i = 0; i < 6; i++)
        ask_all(s, damage(d), points, GAUGE_MAX_DISTANCE);
}

static size_t any_leaf_minimum(void)
{
    static const size_t some[] = {4096, 4097, 65535, 65536};
    return below(4) ? 1 + below(4) : some[below(4)];
}

/* ---- by chance */

static void ask_builds(size_t n)
{
    Settings s = {1 + below(2), any_leaf_minimum(), below(3) ? 64 : below(20)};
    Rooms exact = rooms_for(n, 2 * n - 1), more = rooms_for(n + below(3), 2 * n + below(3)), less = exact;
    ask_build(s, drawing, 9 * n, exact);
    ask_build(s, drawing, 9 * n, more);
    size_t *short_one[6] = {&less.order, &less.links, &less.boxes, &less.bounds, &less.centres, &less.scratch};
    size_t *one = short_one[below(6)];
    *one -= 1 + below((unsigned)*one);
    ask_build(s, drawing, 9 * n, less);
    Settings any = {below(4), below(3) * 32768 + below(3), below(66)};
    ask_build(any, drawing, 9 * n, exact);
    size_t at = below(9 * (unsigned)n);
    float kept = drawing[at];
    drawing[at] = bad_coordinate();
    ask_build(s, drawing, 9 * n, exact);
    drawing[at] = kept;
    ask_build(s, drawing, 9 * n - below(9), exact);
}

static void ask_stls(size_t n)
{
    size_t length = GAUGE_STL_BYTES(n), at = below(9 * (unsigned)n);
    float kept = drawing[at];
    ask_write_stl(drawing, 9 * n, length + below(3));
    ask_write_stl(drawing, 9 * n, below((unsigned)length));
    ask_write_stl(drawing, 9 * n - below(9), length);
    drawing[at] = bad_coordinate();
    ask_write_stl(drawing, 9 * n, length);
    drawing[at] = kept;
    ask_stl(make_stl(n));
    ask_read_stl(make_stl(n), 9 * n + below(20));
    ask_read_stl(make_stl(n), below(9 * (unsigned)n));
    for (int i = 0; i < 4; i++)
        ask_stl(damage_stl(n));
}

static void ask_writes(Drawing d)
{
    Settings s = {1 + below(2), any_leaf_minimum(), below(65)}, any = {below(4), below(3) * 32768 + below(3), below(66)};
    ask_write(s, d, exact_size(d) + below(3));
    ask_write(s, d, below((unsigned)exact_size(d)));
    ask_write(any, d, exact_size(d));
}

/* Room for the nearest few: mostly what they take, else a byte less, some more, less or none. */
static size_t few_room(size_t count, uint32_t most)
{
    size_t exact = room_for(count * (most <= GAUGE_MAX_FEW ? most : GAUGE_MAX_FEW));
    unsigned kind = below(8);
    return kind == 0 ? exact - (exact != 0) : kind == 1 ? exact + 1 + below(60) : kind == 2 ? below((unsigned)exact + 1) : kind == 3 ? 0 : exact;
}

/* The nearest few, at a distance at which one of the triangles may stand exactly. */
static void ask_fews(Drawing d, size_t n, Slice points, float distance)
{
    size_t many = (points.length + 11) / 12;
    if (many > 0 && below(2))
        distance = level_distance(d, drawing + 9 * below((unsigned)n), touched + 3 * below((unsigned)many));
    for (int i = 0; i < 2; i++) {
        uint32_t most = i == 0 ? make_few() : good_few();
        ask_few(d, points, distance, i == 0 ? make_rule() : good_rule(), most, i == 0 ? few_room(many, most) : room_for(many * most));
    }
}

static void ask_questions(Drawing d, size_t n, int times)
{
    for (int i = 0; i < times; i++) {
        size_t many = below(9);
        make_points(many, n);
        Slice points = bytes_of(touched, 12 * many);
        if (many > 0 && below(10) == 0)
            touched[below(3 * (unsigned)many)] = bad_coordinate();
        if (many > 0 && below(10) == 0)
            points.length -= below(12);
        Drawing asked = below(3) ? d : damage(d);
        float distance = many > 0 && below(2) ? level_distance(d, NULL, touched + 3 * below((unsigned)many)) : make_distance();
        size_t spare = below(3) ? 0 : below(60);
        ask_points(SURE, asked, points, distance, make_rule(), room_for(many) + spare);
        ask_points(SURE, asked, points, distance, good_rule(), room_for(many) + spare);
        ask_fews(asked, n, points, distance);
        ask_points(SOURCE, asked, points, distance, 0, room_for(many) + spare);
        ask_points(WINDING, asked, points, distance, 0, 4 * many + spare);
        ask_fast(asked, any_sums(asked), points, make_scale(), 4 * many + spare);
        ask_check(asked);
        ask_sums(asked, below(8) ? sums_length(asked) + spare : below((unsigned)sums_length(asked) + 1));
        if (many > 0) {
            ask_points((int)(SURE + below(3)), asked, points, distance, make_rule(), below((unsigned)room_for(many)));
            ask_fast(asked, make_sums(asked), points, make_scale(), below(5 * (unsigned)many));
        }
        if (below(4) == 0)
            ask_writes(asked);
    }
}

/* A tree with a chain above it, mostly of more than 64 levels: as it is, and with something wrong. */
static void ask_deep(void)
{
    size_t n = 64 + below(160), more = 50 + below((unsigned)n - 50);
    Settings s = {1 + below(2), 1 + below(3), 64};
    make_drawing(n);
    make_points(2, n);
    Drawing d = make_tree(n - more, s);
    d = tree_of(n, plain_raise(more, (int)below(3), drawing, n - more, tree_order, tree_links, tree_boxes, d.nodes));
    ask_all(s, d, bytes_of(touched, 24), GAUGE_MAX_DISTANCE);
    ask_all(s, damage(d), bytes_of(touched, 24), GAUGE_MAX_DISTANCE);
}

static void by_chance(void)
{
    size_t n = below(300) ? 1 + below(below(4) ? 12 : 64) : below(3) ? 1 + below(600) : 4000 + below(1000);
    Settings s = {1 + below(2), 1 + below(3), below(4) ? 64 : below(12)};
    make_drawing(n);
    ask_builds(n);
    ask_stls(n);
    Drawing d = make_tree(n, s);
    ask_questions(d, n, n > 600 ? 4 : 12);
    Slice image = make_image(s, d);
    for (int i = n > 600 ? 3 : 6; i > 0; i--) {
        make_points(1, n);
        ask_image(damage_image(image, n), bytes_of(touched, 12));
    }
}

/* Which parts can be answered. An edge whose foot is kept starts at a or at b, so c is never told of it, nor is the face. */
static const char *const ways[PLAIN_WAYS] = {"sure answers by computed points", "by feet", "source answers"};
static const int can_be[PLAIN_WAYS][PLAIN_PARTS] = {{1, 1, 1, 1, 1, 1, 1}, {0, 1, 1, 0, 1, 1, 1}, {1, 1, 1, 1, 1, 1, 1}};

/* How many ends, and parts, were listed and never met, or met and not listed. */
static int wrong_ends(void)
{
    int wrong = 0;
    for (int call = 0; call < CALLS; call++)
        for (int k = 0; k < ENDS; k++)
            if (listed[call][k] ? calls >= ENOUGH && ended[call][k] == 0 : ended[call][k] != 0) {
                fprintf(stderr, "fuzz: %s: end %u (0 is done, else a refusal) %s\n", names[call], numbers[k],
                        listed[call][k] ? "was never met" : "was met and is not listed");
                wrong++;
            }
    if (plain_level[0] == 0 || plain_level[1] == 0) {
        fprintf(stderr, "fuzz: by one rule no point's nearest was at exactly the distance\n");
        wrong++;
    }
    if (calls >= ENOUGH && (plain_far == 0 || plain_far_not_finite == 0)) {
        fprintf(stderr, "fuzz: no node was far, or every far term was finite\n");
        wrong++;
    }
    if (calls >= ENOUGH && (plain_feet[0] == 0 || plain_feet[1] == 0 || plain_feet[2] == 0)) {
        fprintf(stderr, "fuzz: on one edge no foot was kept\n");
        wrong++;
    }
    for (int way = 0; way < PLAIN_WAYS; way++)
        for (int part = 0; part < PLAIN_PARTS; part++)
            if (can_be[way][part] ? calls >= ENOUGH && plain_parts[way][part] == 0 : plain_parts[way][part] != 0) {
                fprintf(stderr, "fuzz: %s, part %d %s\n", ways[way], part, can_be[way][part] ? "was never answered" : "was answered and cannot be");
                wrong++;
            }
    for (int k = 0; k <= GAUGE_MAX_FEW; k++)
        if (calls >= ENOUGH && plain_told[k] == 0) {
            fprintf(stderr, "fuzz: at no point the nearest few were %d\n", k);
            wrong++;
        }
    if (calls >= ENOUGH && (plain_left_over == 0 || plain_cut_level == 0)) {
        fprintf(stderr, "fuzz: the nearest few were always all that count, or never level with what is left over\n");
        wrong++;
    }
    if (calls >= ENOUGH && plain_moved == 0) {
        fprintf(stderr, "fuzz: no point was moved when it was held into the box\n");
        wrong++;
    }
    return wrong;
}

int main(int argc, char **argv)
{
    if (argc < 2 || argc > 3) {
        fprintf(stderr, "usage: fuzz CALLS [SEED]\n");
        return 2;
    }
    uint64_t wanted = strtoull(argv[1], NULL, 10), seed = argc == 3 ? strtoull(argv[2], NULL, 10) : 1;
    chance_state = seed;
    for (int list = 0; list < LISTS; list++) {
        rooms[list] = make_room();
        copies[list] = make_room();
    }
    in_turn(1);
    in_turn(3);
    if (wanted >= 100000)
        for (size_t n = 2; n <= 32; n *= 2)
            in_turn(n);
    each_level();
    each_part();
    each_foot();
    each_few();
    each_degenerate();
    each_depth();
    each_max();
    ask_limits();
    ask_stl_limits();
    for (size_t n = 4096; n <= 4097; n++) {
        Settings deep = {2, 1, 64}, flat = {1, 65536, 40};
        ask_large(n, deep);
        ask_large(n, flat);
    }
    while (calls < wanted)
        if (below(30))
            by_chance();
        else
            ask_deep();
    printf("%-21s %9s %9s", "call", "calls", "done");
    for (int k = 1; k < ENDS; k++)
        printf(" %7s%2u", "refused", numbers[k]);
    printf("\n");
    for (int call = 0; call < CALLS; call++) {
        printf("%-21s", names[call]);
        printf(" %9llu", (unsigned long long)called[call]);
        for (int k = 0; k < ENDS; k++)
            printf(" %9llu", (unsigned long long)ended[call][k]);
        printf("\n");
    }
    printf("at exactly the distance: %llu points by rule 1, %llu by rule 2; of %llu squared distances that a distance was sought for, %llu have one\n",
           (unsigned long long)plain_level[0], (unsigned long long)plain_level[1], (unsigned long long)roots_sought, (unsigned long long)roots_met);
    printf("triangles measured without a computed point: %llu, %llu and %llu with a foot on ab, ac and bc\n",
           (unsigned long long)plain_feet[0], (unsigned long long)plain_feet[1], (unsigned long long)plain_feet[2]);
    printf("parts, face, corners a, b, c, edges ab, ac, bc:");
    for (int way = 0; way < PLAIN_WAYS; way++) {
        printf(" %s", ways[way]);
        for (int part = 0; part < PLAIN_PARTS; part++)
            printf(" %llu", (unsigned long long)plain_parts[way][part]);
        printf(way + 1 < PLAIN_WAYS ? "," : "; ");
    }
    printf("%llu points were moved when held\n", (unsigned long long)plain_moved);
    printf("nearest few, points by how many were told:");
    for (int k = 0; k <= GAUGE_MAX_FEW; k++)
        printf(" %llu", (unsigned long long)plain_told[k]);
    printf("; at %llu points more count, at %llu of them the next is level\n", (unsigned long long)plain_left_over,
           (unsigned long long)plain_cut_level);
    printf("seed %llu: %llu calls, %llu differences; %llu angles, %llu of them more than 2^-20 off; %llu far terms, %llu of them not finite\n",
           (unsigned long long)seed, (unsigned long long)calls, (unsigned long long)(differences + unknown), (unsigned long long)plain_angles,
           (unsigned long long)plain_angles_off, (unsigned long long)plain_far, (unsigned long long)plain_far_not_finite);
    return wrong_ends() != 0 || differences + unknown + plain_angles_off != 0;
}
