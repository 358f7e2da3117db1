/* Damages trees that were built, and compares what gauge_check says of each with plain.c, number and place; of one damage alone also
 * with what must be said of it (damages.c).
 *
 *     damage TREES [SEED]
 *     damage times
 *
 * So many damaged trees: of 1 to 64 triangles, of some thousand, and, where MANY or more are asked for, of 65,536. Status 0 where
 * nothing differs and, of ENOUGH trees or more, each of 71 to 75 was said. By `times`, how long a check that refuses takes, as a part
 * of the time of the check of the tree before the damage. */
#define _DEFAULT_SOURCE
#include "damages.h"
#include "plain.h"

#include <math.h>
#include <stdio.h>
#include <stdlib.h>
#include <string.h>
#include <time.h>

enum { MOST = GAUGE_MAX_TRIANGLES, ROOM = 4 * MORE, ENOUGH = 1000, MANY = 20000, AT_ONCE = 4 };

static float triangles[9 * MOST];

/* The lists of a tree, and a copy to be damaged. */
typedef struct { uint32_t order[MOST + ROOM], links[6 * MOST + ROOM]; float boxes[12 * MOST + ROOM]; size_t count, nodes; } Lists;
static Lists good, bad;

static float between(float lo, float hi)
{
    return lo + (hi - lo) * (float)(chance() >> 40) / 16777216.0f;
}

/* The numbers of a field of 256 triangles in a row. */
static float field(size_t i)
{
    size_t t = i / 9, corner = i % 9 / 3, axis = i % 3;
    return axis == 2 ? sinf((float)t) : (float)((axis == 0 ? t % 256 : t / 256) + (corner == 1 + axis));
}

/* Anywhere, a field, on few places, and on each axis ever nearer by sixteen, which makes deep trees. */
static void draw(size_t n)
{
    unsigned kind = below(4);
    for (size_t i = 0; i < 9 * n; i++) {
        size_t t = i / 9, k = i % 9;
        if (kind == 0)
            triangles[i] = between(-100, 100);
        else if (kind == 1)
            triangles[i] = field(i);
        else if (kind == 2)
            triangles[i] = (float)below(4);
        else
            triangles[i] = k % 3 == t % 3 ? ldexpf(1.0f + 0.001f * (float)(k / 3), 19 - 4 * (int)(t / 3 % 40)) : 0;
    }
}

static size_t done(uint64_t returned)
{
    if (gauge_refused(returned)) {
        fprintf(stderr, "damage: a tree was refused: %u at %llu\n", gauge_number(returned), (unsigned long long)gauge_place(returned));
        exit(2);
    }
    return returned;
}

static void build(size_t n, size_t strategy, size_t leaf_minimum, size_t maximum_depth)
{
    static float bounds[6 * MOST], centres[3 * MOST];
    static uint32_t scratch[MOST];
    good.count = n;
    good.nodes = done(gauge_build(strategy, leaf_minimum, maximum_depth, triangles, 9 * n, good.order, n, good.links, 6 * n, good.boxes,
                                  12 * n, bounds, 6 * n, centres, 3 * n, scratch, n));
}

/* The tree gets more levels, over as many triangles more. */
static void raise_tree(size_t more, int leaves)
{
    good.nodes = plain_raise(more, leaves, triangles, good.count, good.order, good.links, good.boxes, good.nodes);
    good.count += more;
}

static Tree copied(void)
{
    Tree t = {good.count, bad.order, good.count, bad.links, 3 * good.nodes, bad.boxes, 6 * good.nodes, good.nodes};
    memcpy(bad.order, good.order, 4 * t.order_length);
    memcpy(bad.links, good.links, 4 * t.links_length);
    memcpy(bad.boxes, good.boxes, 4 * t.boxes_length);
    return t;
}

#define LISTS triangles, 9 * t->count, t->order, t->order_length, t->links, t->links_length, t->boxes, t->boxes_length, t->nodes

static uint64_t check(const Tree *t)
{
    return gauge_check(LISTS);
}

static uint64_t plain(const Tree *t)
{
    return plain_check(LISTS);
}

/* ---- compared */

static uint64_t trees, ended[GAUGE_TREE_BOX + 1], differences, told_of;

/* What must be said is 0 where that depends. */
static void compare(const Tree *t, uint64_t must, const char *damage)
{
    uint64_t said = check(t), wanted = plain(t);
    trees++;
    told_of += must != 0;
    if (gauge_number(said) <= GAUGE_TREE_BOX)
        ended[gauge_number(said)]++;
    if ((said != wanted || (must != 0 && said != must)) && differences++ < 10)
        fprintf(stderr, "damage: tree %llu, %zu triangles, %s: said %u at %llu, plain C %u at %llu, must be %u at %llu\n",
                (unsigned long long)trees, t->count, damage, gauge_number(said), (unsigned long long)gauge_place(said), gauge_number(wanted),
                (unsigned long long)gauge_place(wanted), gauge_number(must), (unsigned long long)gauge_place(must));
}

/* One damage, by its number, to the tree as it was built. */
static void damage_once(int damage)
{
    Tree t = copied();
    uint64_t must = damage_tree(&t, damage);
    compare(&t, must, damage_names[damage]);
}

static void damage_often(unsigned times)
{
    Tree t = copied();
    while (times-- > 0)
        damage_tree(&t, (int)below(DAMAGES));
    compare(&t, 0, "several damages");
}

/* A tree with a chain above it: of 64 levels or more, mostly. */
static void build_deep(size_t n)
{
    size_t more = 50 + below(n < 250 ? (unsigned)n - 50 : 200);
    build(n - more, 1 + below(2), 1 + below(3), 64);
    raise_tree(more, (int)below(3));
}

static void by_chance(void)
{
    static const size_t some[] = {1, 1, 1, 2, 3, 8, 64, 65536};
    int deep = below(5) == 0;
    size_t n = (deep ? 64 : 1) + below(below(60) ? below(3) ? 64 : 240 : 4000);
    draw(n);
    if (deep)
        build_deep(n);
    else
        build(n, 1 + below(2), some[below(8)], below(4) ? 64 : below(12));
    Tree t = copied();
    compare(&t, deep ? 0 : n, "as built");
    for (int k = 0; k < 12; k++) {
        if (!deep && below(3))
            damage_once((int)below(DAMAGES));
        else
            damage_often(1 + below(AT_ONCE));
    }
}

/* The largest drawing: each damage alone, some at once, and chains over it. */
static void largest(void)
{
    for (size_t strategy = 1; strategy <= 2; strategy++)
        for (size_t leaf_minimum = 1; leaf_minimum <= 8; leaf_minimum += 7) {
            draw(MOST);
            build(MOST, strategy, leaf_minimum, 64);
            for (int damage = 0; damage < DAMAGES; damage++)
                damage_once(damage);
            for (int k = 0; k < 20; k++)
                damage_often(2 + below(AT_ONCE - 1));
            for (int leaves = PLAIN_LEFT; leaves <= PLAIN_TURNING; leaves++) {
                build(MOST - 60, strategy, leaf_minimum, 64);
                raise_tree(60, leaves);
                damage_often(below(2));
                good.count = MOST;
                good.nodes = plain_chain(MOST - below(MOST - 64), leaves, triangles, MOST, good.order, good.links, good.boxes);
                damage_often(below(2));
            }
        }
}

/* ---- times */

enum { TURNS = 9 };

/* The least of some turns, in nanoseconds. */
static double time_of(const Tree *t, unsigned *number)
{
    double least = INFINITY;
    for (int turn = 0; turn < TURNS; turn++) {
        struct timespec from, to;
        clock_gettime(CLOCK_MONOTONIC, &from);
        *number = gauge_number(check(t));
        clock_gettime(CLOCK_MONOTONIC, &to);
        least = fmin(least, 1e9 * (double)(to.tv_sec - from.tv_sec) + (double)(to.tv_nsec - from.tv_nsec));
    }
    return least;
}

/* Of each damage the longest check that refused, as a part of the undamaged tree's, and what it was refused for. Drawings of two sizes,
 * each with a tree of as many nodes as there can be and with one of larger leaves. */
enum { DEEP = 9, ROWS = DAMAGES + DEEP, COLUMNS = 4 };
static const char *const deep_names[DEEP] = {"a chain of n levels, leaves at the left", "a chain of n levels, leaves at the right",
                                             "a chain of n levels, leaves at either", "a chain of 200, leaves at the left",
                                             "a chain of 200, leaves at the right", "a chain of 200, leaves at either",
                                             "the tree under 60, leaves at the left", "the tree under 60, leaves at the right",
                                             "the tree under 60, leaves at either"};
static const size_t sizes[COLUMNS] = {4096, 4096, 65536, 65536}, leaf_minima[COLUMNS] = {1, 8, 1, 8};
static double longest[ROWS][COLUMNS], undamaged[COLUMNS];
static unsigned char refused_for[ROWS][GAUGE_TREE_BOX + 1];

static void note(int row, int column, const Tree *t)
{
    unsigned number;
    double took = time_of(t, &number);
    if (number == 0)
        return;
    refused_for[row][number] = 1;
    longest[row][column] = fmax(longest[row][column], took / undamaged[column]);
}

static void time_column(int column)
{
    size_t n = sizes[column];
    unsigned number;
    chance_state = n;
    for (size_t i = 0; i < 9 * n; i++)
        triangles[i] = field(i);
    build(n, GAUGE_AREA, leaf_minima[column], 64);
    Tree t = copied();
    undamaged[column] = time_of(&t, &number);
    for (int damage = 0; damage < DAMAGES; damage++)
        for (int k = 0; k < 24; k++) {
            t = copied();
            damage_tree(&t, damage);
            note(damage, column, &t);
        }
    for (int k = 0; k < DEEP && leaf_minima[column] == 1; k++) {
        if (k < 6) {
            good.count = n;
            good.nodes = plain_chain(k < 3 ? n : 200, k % 3, triangles, n, good.order, good.links, good.boxes);
        } else {
            build(n - 60, GAUGE_AREA, 1, 64);
            raise_tree(60, k % 3);
        }
        t = copied();
        note(DAMAGES + k, column, &t);
    }
}

static void times(void)
{
    printf("%-40s", "triangles, leaf minimum");
    for (int column = 0; column < COLUMNS; column++) {
        time_column(column);
        printf(" %7zu, %zu", sizes[column], leaf_minima[column]);
    }
    printf("\n%-40s", "the check of the tree, milliseconds");
    for (int column = 0; column < COLUMNS; column++)
        printf(" %10.3f", undamaged[column] / 1e6);
    printf("\nthe longest check that refused, by it:\n");
    for (int row = 0; row < ROWS; row++) {
        printf("%-40s", row < DAMAGES ? damage_names[row] : deep_names[row - DAMAGES]);
        for (int column = 0; column < COLUMNS; column++)
            if (longest[row][column] == 0)
                printf("%11s", "");
            else
                printf(" %10.3f", longest[row][column]);
        for (int number = GAUGE_TREE_ORDER; number <= GAUGE_TREE_BOX; number++)
            if (refused_for[row][number])
                printf(" %d", number);
        printf("\n");
    }
}

int main(int argc, char **argv)
{
    if (argc == 2 && strcmp(argv[1], "times") == 0) {
        times();
        return 0;
    }
    if (argc < 2 || argc > 3) {
        fprintf(stderr, "usage: damage TREES [SEED]\n       damage times\n");
        return 2;
    }
    uint64_t wanted = strtoull(argv[1], NULL, 10), seed = argc == 3 ? strtoull(argv[2], NULL, 10) : 1, missing = 0;
    chance_state = seed;
    if (wanted >= MANY)
        largest();
    while (trees < wanted)
        by_chance();
    printf("damage: seed %llu: %llu trees, %llu of them with one damage whose end is known; %llu accepted", (unsigned long long)seed,
           (unsigned long long)trees, (unsigned long long)told_of, (unsigned long long)ended[0]);
    for (int number = GAUGE_TREE_ORDER; number <= GAUGE_TREE_BOX; number++) {
        printf(", %d %llu times", number, (unsigned long long)ended[number]);
        missing += ended[number] == 0;
    }
    printf("; %llu differences\n", (unsigned long long)differences);
    return differences != 0 || (trees >= ENOUGH && missing != 0);
}
