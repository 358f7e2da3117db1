/* Large drawings through the calls from C: the trees are those that the Rust builds (the lines of large.txt, which tests/oracle/large.rs
 * makes, as counts and digests). Each tree is then checked, written, read back and asked beside the plain reading, which makes the sums
 * of its nodes too. One triangle more than the limit is refused.
 *
 *     large tests/host/large.txt
 */
#include "gauge.h"
#include "plain.h"

#include <math.h>
#include <stdio.h>
#include <stdlib.h>
#include <string.h>

enum { POINTS = 8 };

static int wrong;

static void expect(int right, const char *what, const char *of)
{
    if (!right) {
        printf("large: %s of %s\n", what, of);
        wrong = 1;
    }
}

/* The same numbers as large.rs: sixteenths, drawn by the seed and shifted by the triangle. */
static void draw(float *numbers, size_t n, uint64_t range)
{
    uint64_t state = 1;
    for (size_t i = 0; i < 9 * n; i++) {
        state = (state * 1103515245 + 12345) % ((uint64_t)1 << 31);
        numbers[i] = (float)(state / 256 % (range + 1) + i / 9 * 37 % 1024) / 16.0f;
    }
}

static uint64_t digest(const void *words, size_t count)
{
    uint64_t d = 7;
    for (size_t i = 0; i < count; i++) {
        uint32_t w;
        memcpy(&w, (const unsigned char *)words + 4 * i, 4);
        d = (d % 4294967291u * 31 + w) % 4294967291u;
    }
    return d;
}

/* The levels from a node down. Children stand in front of their parent, so this ends; no tree here has over 64. */
static size_t levels(const uint32_t *links, size_t node)
{
    if (links[3 * node] != 2)
        return 1;
    size_t left = levels(links, links[3 * node + 1]), right = levels(links, links[3 * node + 2]);
    return 1 + (left > right ? left : right);
}

static void *room(size_t bytes)
{
    void *block = malloc(bytes);
    if (block == NULL) {
        printf("large: no memory\n");
        exit(1);
    }
    return block;
}

static int same(const struct gauge_drawing *a, const struct gauge_drawing *b)
{
    return a->count == b->count && a->nodes == b->nodes && memcmp(a->settings, b->settings, sizeof a->settings) == 0
        && memcmp(a->triangles, b->triangles, 36 * a->count) == 0 && memcmp(a->order, b->order, 4 * a->count) == 0
        && memcmp(a->links, b->links, 12 * a->nodes) == 0 && memcmp(a->boxes, b->boxes, 24 * a->nodes) == 0;
}

/* Written, read back, written again; then the bytes with the other version. */
static void image_of(const struct gauge_drawing *d, const char *line)
{
    size_t n = d->count, version = n <= 4096 ? 1 : 2, size = 32 + (version == 1 ? 38 * n + 30 * d->nodes : 40 * n + 34 * d->nodes);
    uint8_t *image = room(GAUGE_IMAGE_MAX(n)), *again = room(size);
    expect(gauge_drawing_write(d, image, size - 1) == (uint64_t)GAUGE_ROOM << 56, "an image one byte short is no refusal 6", line);
    expect(gauge_drawing_write(d, image, GAUGE_IMAGE_MAX(n)) == size, "the image's size", line);
    expect(image[6] == version && image[7] == 0, "the image's version", line);
    expect(gauge_image_triangles(image, size) == n, "the image's triangles", line);
    struct gauge_drawing back = gauge_lay(room(GAUGE_DRAWING_BYTES(n)), n);
    expect(gauge_drawing_read(&back, image, size) == d->nodes && same(d, &back), "what was read back", line);
    expect(gauge_drawing_write(&back, again, size) == size && memcmp(image, again, size) == 0, "the image written again", line);
    image[6] = (uint8_t)(3 - version);
    expect(gauge_drawing_read(&back, image, size) == ((uint64_t)GAUGE_LAYOUT << 56) + 14, "the other version is no refusal 10 at 14", line);
    free(back.triangles);
    free(again);
    free(image);
}

/* The sums of the tree, and the winding numbers by them. No sum of these drawings is a NaN, whose bits are open. */
static void wound(const struct gauge_drawing *d, const float *points, const char *line)
{
    static const float scales[] = {0, 1, 2, 1000};
    float *sums = room(4 * GAUGE_SUMS(d->count)), *plain_sums = room(64 * d->nodes), ours[POINTS], plain[POINTS];
    expect(gauge_drawing_node_sums(d, sums) == d->nodes, "the count of sums", line);
    plain_node_sums(d->triangles, 9 * d->count, d->order, d->count, d->links, 3 * d->nodes, d->boxes, 6 * d->nodes, d->nodes, plain_sums, 16 * d->nodes);
    expect(memcmp(sums, plain_sums, 64 * d->nodes) == 0, "the sums", line);
    for (size_t i = 0; i < sizeof scales / sizeof *scales; i++) {
        size_t count = i < 3 ? POINTS : 1; /* the last measures every triangle */
        expect(gauge_drawing_fast_winding(d, sums, points, count, scales[i], ours) == count, "the count of fast windings", line);
        plain_fast_winding(d->triangles, 9 * d->count, d->order, d->count, d->links, 3 * d->nodes, d->boxes, 6 * d->nodes, d->nodes, sums,
                           16 * d->nodes, (const uint8_t *)points, 12 * count, scales[i], (uint8_t *)plain, sizeof plain);
        expect(memcmp(ours, plain, 4 * count) == 0, "the fast windings", line);
    }
    free(sums);
    free(plain_sums);
}

/* A distance whose square is this, where there is one. */
static float root_of(float squared)
{
    float near = sqrtf(squared), some[3] = {near, nextafterf(near, INFINITY), nextafterf(near, 0)};
    for (int i = 0; i < 3; i++) {
        float square = some[i] * some[i];
        if (square == squared)
            return some[i];
    }
    return near;
}

/* The nearest few: two within 2.5, which some points do not have, then sixteen as far as can be, by both rules. */
static void few_asked(const struct gauge_drawing *d, const float *points, const char *line)
{
    static struct gauge_answer ours[GAUGE_MAX_FEW * POINTS], plain[GAUGE_MAX_FEW * POINTS];
    for (uint32_t reach = 0; reach < 2; reach++) {
        uint32_t rule = 1 + reach, most = reach == 0 ? 2 : GAUGE_MAX_FEW;
        float distance = reach == 0 ? 2.5f : GAUGE_MAX_DISTANCE;
        expect(gauge_drawing_few(d, points, POINTS, distance, rule, most, ours) == POINTS, "the count of the nearest few", line);
        plain_few(d->triangles, 9 * d->count, d->order, d->count, d->links, 3 * d->nodes, d->boxes, 6 * d->nodes, d->nodes,
                  (const uint8_t *)points, 12 * POINTS, distance, rule, most, (uint8_t *)plain, sizeof plain);
        expect(memcmp(ours, plain, sizeof *ours * most * POINTS) == 0, "the nearest few", line);
    }
}

/* Within 2.5, as far as can be, and as far as the nearest of the last point, by both rules; and by the source query. */
static void asked(const struct gauge_drawing *d, const char *line)
{
    float points[3 * POINTS];
    struct gauge_answer ours[POINTS], plain[POINTS];
    float nearest = 0;
    uint64_t state = 7;
    for (int i = 0; i < 3 * POINTS; i++) {
        state = (state * 1103515245 + 12345) % ((uint64_t)1 << 31);
        points[i] = (float)(state / 256 % 4096) / 16.0f;
    }
    wound(d, points, line);
    few_asked(d, points, line);
    for (uint32_t reach = 0; reach < 6; reach++) {
        float distance = reach < 2 ? 2.5f : reach < 4 ? GAUGE_MAX_DISTANCE : root_of(nearest);
        uint32_t rule = 1 + reach % 2;
        expect(gauge_drawing_sure(d, points, POINTS, distance, rule, ours) == POINTS, "the sure query's count", line);
        plain_sure(d->triangles, 9 * d->count, d->order, d->count, d->links, 3 * d->nodes, d->boxes, 6 * d->nodes, d->nodes,
                   (const uint8_t *)points, sizeof points, distance, rule, (uint8_t *)plain, sizeof plain);
        expect(memcmp(ours, plain, sizeof ours) == 0, "the sure answers", line);
        if (reach < 4)
            nearest = plain[POINTS - 1].squared;
        if (rule == 2)
            continue;
        expect(gauge_drawing_source(d, points, POINTS, distance, ours) == POINTS, "the source query's count", line);
        plain_source(d->triangles, 9 * d->count, d->order, d->count, d->links, 3 * d->nodes, d->boxes, 6 * d->nodes, d->nodes,
                     (const uint8_t *)points, sizeof points, distance, (uint8_t *)plain, sizeof plain);
        expect(memcmp(ours, plain, sizeof ours) == 0, "the source answers", line);
    }
}

static void run(const char *line)
{
    unsigned long n, strategy, leaf, depth, range, nodes, deep;
    unsigned long long order, links, boxes;
    if (sscanf(line, "%lu %lu %lu %lu %lu %lu %lu %llu %llu %llu", &n, &strategy, &leaf, &depth, &range, &nodes, &deep, &order, &links, &boxes) != 10) {
        expect(0, "a line that cannot be read", line);
        return;
    }
    struct gauge_drawing d = gauge_lay(room(GAUGE_DRAWING_BYTES(n)), n);
    draw(d.triangles, n, range);
    expect(gauge_drawing_build(&d, strategy, leaf, depth) == nodes, "the node count", line);
    if (d.nodes == nodes) {
        expect(levels(d.links, nodes - 1) == deep, "the depth", line);
        expect(digest(d.order, n) == order, "the order", line);
        expect(digest(d.links, 3 * nodes) == links, "the links", line);
        expect(digest(d.boxes, 6 * nodes) == boxes, "the boxes", line);
        expect(gauge_drawing_check(&d) == n, "the check", line);
        image_of(&d, line);
        asked(&d, line);
    }
    free(d.triangles);
}

/* 65,537 triangles are a 3 to every call, and 65,536 by a leaf minimum of 65,536 are one leaf whose image stores 0. */
static void limits(void)
{
    size_t n = GAUGE_MAX_TRIANGLES;
    struct gauge_drawing d = gauge_lay(room(GAUGE_DRAWING_BYTES(n)), n);
    draw(d.triangles, n, 1000);
    expect(gauge_drawing_build(&d, GAUGE_MEDIAN, n + 1, 40) == (uint64_t)GAUGE_SETTING << 56, "leaf minimum 65,537 is no refusal 5", "65,536");
    expect(gauge_drawing_build(&d, GAUGE_MEDIAN, n, 40) == 1, "leaf minimum 65,536", "65,536");
    uint8_t *image = room(GAUGE_IMAGE_MAX(n));
    expect(gauge_drawing_write(&d, image, GAUGE_IMAGE_MAX(n)) == 32 + 40 * n + 34 && image[10] == 0 && image[11] == 0, "its image", "65,536");
    image_of(&d, "65,536 in one leaf");
    free(image);

    float *more = room(36 * (n + 1)), *many = room(48 * (n + 1)), sums[16];
    uint32_t *lists = room(24 * (n + 1));
    struct gauge_answer answer = {0, 0, 0, 0, 0, 0, 0};
    draw(more, n + 1, 1000);
    uint64_t three = (uint64_t)GAUGE_TOO_MANY << 56;
    expect(gauge_build(GAUGE_AREA, 1, 40, more, 9 * (n + 1), lists, n + 1, lists + n + 1, 3 * n, many, 6 * n, many + 6 * n, 6 * n, many, 3 * n,
                       lists, n) == three, "a build is no refusal 3", "65,537");
    expect(gauge_check(more, 9 * (n + 1), lists, n + 1, lists, 3, many, 6, 1) == three, "a check is no refusal 3", "65,537");
    expect(gauge_sure(more, 9 * (n + 1), lists, n + 1, lists, 3, many, 6, 1, (uint8_t *)more, 12, 1, 3, (uint8_t *)&answer, sizeof answer) == three,
           "a query by no rule is no refusal 3", "65,537");
    expect(gauge_few(more, 9 * (n + 1), lists, n + 1, lists, 3, many, 6, 1, (uint8_t *)more, 12, 1, 1, 17, (uint8_t *)&answer, sizeof answer) == three,
           "seventeen of the nearest are no refusal 3", "65,537");
    expect(gauge_winding(more, 9 * (n + 1), (uint8_t *)more, 12, (uint8_t *)&answer, 4) == three, "winding is no refusal 3", "65,537");
    expect(gauge_node_sums(more, 9 * (n + 1), lists, n + 1, lists, 3, many, 6, 1, sums, 16) == three, "sums are no refusal 3", "65,537");
    expect(gauge_fast_winding(more, 9 * (n + 1), lists, n + 1, lists, 3, many, 6, 1, many, 16, (uint8_t *)more, 12, 2, (uint8_t *)&answer, 4) == three,
           "fast winding is no refusal 3", "65,537");
    expect(gauge_write(2, 1, 40, more, 9 * (n + 1), lists, n + 1, lists, 3, many, 6, 1, (uint8_t *)many, 48 * n) == three, "writing is no refusal 3", "65,537");
    free(d.triangles);
    free(more);
    free(many);
    free(lists);
}

int main(int argc, char **argv)
{
    char line[256];
    int lines = 0;
    FILE *file = argc == 2 ? fopen(argv[1], "r") : NULL;
    if (file == NULL) {
        printf("large tests/host/large.txt\n");
        return 2;
    }
    while (fgets(line, sizeof line, file) != NULL) {
        line[strcspn(line, "\n")] = 0;
        run(line);
        lines++;
    }
    fclose(file);
    expect(lines > 0, "no line", argv[1]);
    limits();
    expect(plain_level[0] > 0 && plain_level[1] > 0, "no point's nearest was at exactly the distance", argv[1]);
    expect(plain_told[0] > 0 && plain_told[2] > 0 && plain_told[GAUGE_MAX_FEW] > 0, "the nearest few were never none, two or sixteen", argv[1]);
    return wrong;
}
