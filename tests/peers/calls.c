/* How long each call from C takes: separate triangles in a sheet, 256, 4,096 and 65,536 of them, leaf minimum 10, depth 40; processor
 * time, the least of 15 turns of enough calls to be measured.
 *
 *     make                         (in the engine's folder: crates/host/out/libhost.a)
 *     cc -O2 -Iinclude -o calls tests/peers/calls.c crates/host/out/libhost.a -lm && ./calls
 *
 * Beside it, turn about, the library of header version 1, which was handed an image and read it anew at each call: was.a is its
 * libhost.a under other names. The last number of a line is then the ratio, now / version 1.
 *
 *     objcopy --redefine-sym gauge_build=was_build --redefine-sym gauge_check=was_check --redefine-sym gauge_sure=was_sure \
 *         --redefine-sym gauge_source=was_source --redefine-sym gauge_winding=was_winding --redefine-sym gauge_image_most=was_image_most \
 *         old/target/staticlib/libhost.a was.a
 *     cc -O2 -DWAS -Iinclude -o calls tests/peers/calls.c crates/host/out/libhost.a was.a -lm && ./calls
 */
#define _POSIX_C_SOURCE 199309L
#include "gauge.h"

#include <math.h>
#include <stdio.h>
#include <time.h>

enum { MOST = GAUGE_MAX_TRIANGLES, SMALL = GAUGE_MAX_SMALL, POINTS = 1000, TURNS = 15 };
static float block[GAUGE_DRAWING_BYTES(MOST) / 4], other[GAUGE_DRAWING_BYTES(MOST) / 4], points[3 * POINTS], windings[POINTS], sums[GAUGE_SUMS(MOST)];
static uint8_t image[GAUGE_IMAGE_MAX(MOST)], stl[GAUGE_STL_BYTES(MOST)];
static struct gauge_answer answers[POINTS * GAUGE_MAX_FEW];
static struct gauge_drawing d, copy;
static uint64_t size;

static double now(void)
{
    struct timespec t;
    clock_gettime(CLOCK_PROCESS_CPUTIME_ID, &t);
    return (double)t.tv_sec + 1e-9 * (double)t.tv_nsec;
}

static uint64_t median(void) { return gauge_drawing_build(&d, GAUGE_MEDIAN, 10, 40); }
static uint64_t area(void) { return gauge_drawing_build(&d, GAUGE_AREA, 10, 40); }
static uint64_t written(void) { return size = gauge_drawing_write(&d, image, sizeof image); }
static uint64_t read_back(void) { return gauge_drawing_read(&copy, image, size); }
static uint64_t stl_written(void) { return gauge_drawing_write_stl(&d, stl, sizeof stl); }
static uint64_t stl_read(void) { return gauge_drawing_read_stl(&copy, stl, GAUGE_STL_BYTES(d.count)); }
static uint64_t check(void) { return gauge_drawing_check(&d); }
static uint64_t one(void) { return gauge_drawing_sure(&d, points, 1, 100, GAUGE_RULE_BELOW, answers); }
static uint64_t sure(void) { return gauge_drawing_sure(&d, points, POINTS, 100, GAUGE_RULE_BELOW, answers); }
static uint64_t two(void) { return gauge_drawing_few(&d, points, POINTS, 100, GAUGE_RULE_BELOW, 2, answers); }
static uint64_t sixteen(void) { return gauge_drawing_few(&d, points, POINTS, 100, GAUGE_RULE_BELOW, GAUGE_MAX_FEW, answers); }
static uint64_t winding(void) { return gauge_drawing_winding(&d, points, 100, windings); }
static uint64_t dipoles(void) { return gauge_drawing_node_sums(&d, sums); }
static uint64_t fast(void) { return gauge_drawing_fast_winding(&d, sums, points, 100, 2, windings); }
static uint64_t fast_many(void) { return gauge_drawing_fast_winding(&d, sums, points, POINTS, 2, windings); }

#ifdef WAS
uint64_t was_build(size_t, size_t, size_t, const uint8_t *, size_t, uint8_t *, size_t);
uint64_t was_check(const uint8_t *, size_t);
uint64_t was_sure(const uint8_t *, size_t, const uint8_t *, size_t, float, uint8_t *, size_t);
uint64_t was_winding(const uint8_t *, size_t, const uint8_t *, size_t, uint8_t *, size_t);

static uint64_t built_then(size_t strategy)
{
    return size = was_build(strategy, 10, 40, (uint8_t *)d.triangles, 36 * d.count, image, sizeof image);
}

static uint64_t sure_then(size_t count)
{
    return was_sure(image, size, (uint8_t *)points, 12 * count, 100, (uint8_t *)answers, sizeof answers);
}

static uint64_t median_then(void) { return built_then(GAUGE_MEDIAN); }
static uint64_t area_then(void) { return built_then(GAUGE_AREA); }
static uint64_t check_then(void) { return was_check(image, size); }
static uint64_t one_then(void) { return sure_then(1); }
static uint64_t many_then(void) { return sure_then(POINTS); }
static uint64_t winding_then(void) { return was_winding(image, size, (uint8_t *)points, 1200, (uint8_t *)windings, sizeof windings); }
#define THEN(call) (d.count > SMALL ? 0 : call)
#else
#define THEN(call) 0
#endif

typedef uint64_t timed_call(void);

/* The time of so many calls, in microseconds a call, or less than nothing where one is refused. */
static double turn(const char *what, timed_call *call, int calls)
{
    double start = now();
    for (int k = 0; k < calls; k++) {
        uint64_t told = call();
        if (gauge_refused(told)) {
            printf("%s: refused %u at %llu\n", what, gauge_number(told), (unsigned long long)gauge_place(told));
            return -1;
        }
    }
    return (now() - start) * 1e6 / calls;
}

static void least(const char *what, timed_call *call, timed_call *then)
{
    double first = turn(what, call, 1), best = 1e18, before = 1e18;
    int calls = first < 1000 ? (int)(1000 / fmax(first, 1)) + 1 : 1;
    if (first < 0)
        return;
    for (int k = 0; k < TURNS; k++) {
        best = fmin(best, turn(what, call, calls));
        if (then)
            before = fmin(before, turn(what, then, calls));
    }
    printf("%-24s %10.1f us", what, best);
    if (then)
        printf(" %10.1f us %6.2f", before, best / before);
    printf("\n");
}

/* A sheet of side by side separate triangles, and points about it. */
static void draw(int side)
{
    d = gauge_lay(block, (size_t)(side * side));
    copy = gauge_lay(other, d.count);
    for (int t = 0; t < side * side; t++) {
        float x = (float)(t % side), y = (float)(t / side), z = sinf((float)t);
        float corners[9] = {x, y, z, x + 0.75f, y, z, x, y + 0.75f, z};
        for (int i = 0; i < 9; i++)
            d.triangles[9 * t + i] = corners[i];
    }
    for (int k = 0; k < POINTS; k++) {
        points[3 * k] = (float)(k * 37 % (10 * side)) / 10;
        points[3 * k + 1] = (float)(k * 91 % (10 * side)) / 10;
        points[3 * k + 2] = (float)(k % 40 - 20) / 4;
    }
}

int main(void)
{
    for (int side = 16; side <= 256; side *= 4) {
        draw(side);
        printf("%zu triangles\n", d.count);
        least("build, median", median, THEN(median_then));
        least("build, area", area, THEN(area_then));
        least("write", written, 0);
        least("read", read_back, 0);
        least("write STL", stl_written, 0);
        least("read STL", stl_read, 0);
        least("check", check, THEN(check_then));
        least("sure, one point", one, THEN(one_then));
        least("sure, 1,000 points", sure, THEN(many_then));
        least("nearest 2, 1,000 points", two, 0);
        least("nearest 16, 1,000 points", sixteen, 0);
        least("winding, 100 points", winding, THEN(winding_then));
        least("dipoles", dipoles, 0);
        least("by dipoles, 100 points", fast, 0);
        least("by dipoles, 1,000 points", fast_many, 0);
    }
    return 0;
}
