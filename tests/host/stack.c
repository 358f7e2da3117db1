/* Runs every call in a thread whose stack is what include/gauge.h states and no more, on the largest
 * and the deepest input there is, and tells how much of it the call took. Below the stack lie pages
 * that cannot be touched: a call that takes more ends the program with status 1. */
#define _GNU_SOURCE
#include "plain.h"

#include <math.h>
#include <pthread.h>
#include <signal.h>
#include <stdio.h>
#include <stdlib.h>
#include <string.h>
#include <sys/mman.h>
#include <unistd.h>

enum { READ, READ_STL, WRITE_STL, BUILD, WRITE, CHECK, SURE, FEW, SOURCE, WINDING, NODE_SUMS, FAST, CALLS };
enum { N = GAUGE_MAX_TRIANGLES, POINTS = 8, LEVELS = GAUGE_MAX_DEPTH, BELOW = 64 << 20, PAINT = 0xa5 };
static const char *const names[CALLS] = {"gauge_read", "gauge_read_stl", "gauge_write_stl", "gauge_build", "gauge_write", "gauge_check",
                                         "gauge_sure", "gauge_few", "gauge_source", "gauge_winding", "gauge_node_sums",
                                         "gauge_fast_winding"};
static const size_t stated[CALLS] = {GAUGE_STACK_READ, GAUGE_STACK_READ_STL, GAUGE_STACK_WRITE_STL, GAUGE_STACK_BUILD, GAUGE_STACK_WRITE,
                                     GAUGE_STACK_CHECK, GAUGE_STACK_SURE, GAUGE_STACK_FEW, GAUGE_STACK_SOURCE, GAUGE_STACK_WINDING,
                                     GAUGE_STACK_NODE_SUMS, GAUGE_STACK_FAST_WINDING};

/* The drawing that is asked, its image and its STL, and another drawing that these are read into. */
static float block[GAUGE_DRAWING_BYTES(N) / 4], other_block[GAUGE_DRAWING_BYTES(N) / 4];
static struct gauge_drawing d, other;
static uint8_t image[GAUGE_IMAGE_MAX(N)], stl[GAUGE_STL_BYTES(N)];
static size_t image_length, strategy;
static uint32_t rule = GAUGE_RULE_BELOW, few = GAUGE_MAX_FEW;
static float points[3 * POINTS], winding, sums[GAUGE_SUMS(N)], scale;
static struct gauge_answer answers[POINTS * GAUGE_MAX_FEW];
static int failed;

typedef struct { int call; uint64_t returned; const uint8_t *top; } Job;

static void too_small(int signal)
{
    static const char text[] = "stack: a call took more stack than include/gauge.h states\n";
    (void)signal;
    if (write(2, text, sizeof text - 1) < 0)
        _exit(2);
    _exit(1);
}

static void *run(void *given)
{
    static uint8_t alternate_stack[65536];
    stack_t alternate = {.ss_sp = alternate_stack, .ss_size = sizeof alternate_stack};
    Job *job = given;
    uint8_t here;
    job->top = &here;
    if (sigaltstack(&alternate, NULL) != 0)
        return NULL;
    switch (job->call) {
    case READ:
        if (gauge_image_max(d.count) != GAUGE_IMAGE_MAX(d.count) || gauge_image_triangles(image, image_length) != d.count)
            return NULL;
        job->returned = gauge_drawing_read(&other, image, image_length);
        break;
    case READ_STL:
        job->returned = gauge_drawing_read_stl(&other, stl, GAUGE_STL_BYTES(d.count));
        break;
    case WRITE_STL:
        job->returned = gauge_drawing_write_stl(&d, stl, sizeof stl);
        break;
    case BUILD:
        job->returned = gauge_drawing_build(&d, strategy, 1, LEVELS);
        break;
    case WRITE:
        job->returned = gauge_drawing_write(&d, image, sizeof image);
        break;
    case CHECK:
        job->returned = gauge_drawing_check(&d);
        break;
    case SURE:
        job->returned = gauge_drawing_sure(&d, points, POINTS, GAUGE_MAX_DISTANCE, rule, answers);
        break;
    case FEW:
        job->returned = gauge_drawing_few(&d, points, POINTS, GAUGE_MAX_DISTANCE, rule, few, answers);
        break;
    case SOURCE:
        job->returned = gauge_drawing_source(&d, points, POINTS, GAUGE_MAX_DISTANCE, answers);
        break;
    case WINDING:
        job->returned = gauge_drawing_winding(&d, points, 1, &winding);
        break;
    case NODE_SUMS:
        job->returned = gauge_drawing_node_sums(&d, sums);
        break;
    default:
        job->returned = gauge_drawing_fast_winding(&d, sums, points, 1, scale, &winding);
    }
    return NULL;
}

static void need(int good, const char *what)
{
    if (!good) {
        perror(what);
        exit(2);
    }
}

static size_t most[CALLS];

/* What the call returned. How much of its stack it took is noted. */
static uint64_t called(int call)
{
    size_t size = stated[call];
    uint8_t *all = mmap(NULL, BELOW + size, PROT_NONE, MAP_PRIVATE | MAP_ANONYMOUS | MAP_NORESERVE, -1, 0);
    need(all != MAP_FAILED, "mmap");
    uint8_t *stack = all + BELOW;
    need(mprotect(stack, size, PROT_READ | PROT_WRITE) == 0, "mprotect");
    memset(stack, PAINT, size);
    pthread_attr_t attributes;
    pthread_t thread;
    Job job = {call, UINT64_MAX, NULL};
    need(pthread_attr_init(&attributes) == 0 && pthread_attr_setstack(&attributes, stack, size) == 0, "pthread_attr_setstack");
    need(pthread_create(&thread, &attributes, run, &job) == 0, "pthread_create");
    need(pthread_join(thread, NULL) == 0, "pthread_join");
    const uint8_t *lowest = stack;
    while (*lowest == PAINT)
        lowest++;
    size_t took = (size_t)(job.top - lowest);
    if (took > most[call])
        most[call] = took;
    munmap(all, BELOW + size);
    return job.returned;
}

static void expect(int call, uint64_t wanted, const char *input)
{
    uint64_t returned = called(call);
    if (returned == wanted)
        return;
    printf("stack: %s, %s: returned %llx, wanted %llx\n", names[call], input, (unsigned long long)returned, (unsigned long long)wanted);
    failed = 1;
}

/* Every call about the tree but the build. */
static void ask_tree(const char *input)
{
    size_t large = d.count > GAUGE_MAX_SMALL;
    image_length = 32 + (large ? 40 : 38) * d.count + (large ? 34 : 30) * d.nodes;
    other = gauge_lay(other_block, d.count);
    expect(WRITE, image_length, input);
    expect(READ, d.nodes, input);
    expect(WRITE_STL, GAUGE_STL_BYTES(d.count), input);
    expect(READ_STL, d.count, input);
    expect(CHECK, d.count, input);
    for (rule = GAUGE_RULE_BELOW_OR_EQUAL; rule >= GAUGE_RULE_BELOW; rule--) {
        expect(SURE, POINTS, input);
        for (few = GAUGE_MAX_FEW; few > 0; few /= 4) /* 16, 4 and 1 */
            expect(FEW, POINTS, input);
    }
    few = GAUGE_MAX_FEW;
    rule = GAUGE_RULE_BELOW;
    expect(SOURCE, POINTS, input);
    expect(WINDING, 1, input);
    expect(NODE_SUMS, d.nodes, input);
    for (scale = 0; scale <= GAUGE_MAX_SCALE; scale += GAUGE_MAX_SCALE / 2) /* from the root alone to every leaf */
        expect(FAST, 1, input);
}

/* The levels from a node down, and 65 where there are more. */
static unsigned levels_of(size_t node, unsigned at_most)
{
    const uint32_t *link = d.links + 3 * node;
    if (link[0] != 2 || at_most == 0)
        return 1;
    unsigned left = levels_of(link[1], at_most - 1), right = levels_of(link[2], at_most - 1);
    return 1 + (left > right ? left : right);
}

/* Both trees of the drawing, by the area rule of so many levels at least, and every call about them. */
static void ask_built(const char *input, unsigned levels)
{
    for (strategy = 1; strategy <= 2; strategy++) {
        uint64_t nodes = called(BUILD);
        if (gauge_refused(nodes) || (strategy == 2 && levels_of(d.nodes - 1, LEVELS) < levels)) {
            printf("stack: %s: gauge_build returned %llx, or there are fewer than %u levels\n", input, (unsigned long long)nodes, levels);
            failed = 1;
            return;
        }
        ask_tree(input);
    }
}

static void set(size_t t, float x, float y, float z, float size)
{
    float corners[9] = {x, y, z, x + size, y, z, x, y + size, z};
    memcpy(d.triangles + 9 * t, corners, sizeof corners);
}

/* A field of 256 by 256 triangles. */
static void draw_field(void)
{
    d = gauge_lay(block, N);
    for (size_t t = 0; t < N; t++)
        set(t, (float)(t % 256), (float)(t / 256), sinf((float)t), 0.75f);
}

/* On each axis a triangle far out, one at a sixteenth of that, and so on; all the others lie in a heap
 * at the corner. The area rule cuts off one at a time, from axis after axis: a tree of 64 levels. */
static void draw_chain(size_t n)
{
    d = gauge_lay(block, n);
    for (size_t t = 0; t < n; t++) {
        float far = t < 69 ? ldexpf(1.0f, 19 - 4 * (int)(t / 3)) : 0;
        set(t, t % 3 == 0 ? far : 0, t % 3 == 1 ? far : 0, t % 3 == 2 ? far : 0, far / 1024);
    }
}

static void ask_chain(int leaves, const char *input)
{
    d.nodes = plain_chain(LEVELS, leaves, d.triangles, d.count, d.order, d.links, d.boxes);
    ask_tree(input);
}

/* As many levels as triangles, which every call that looks at the tree refuses at the first node below level 64. */
static void ask_too_deep(int leaves, uint64_t place, const char *input)
{
    static const int calls[] = {WRITE, CHECK, SURE, FEW, SOURCE, NODE_SUMS, FAST};
    d.nodes = plain_chain(d.count, leaves, d.triangles, d.count, d.order, d.links, d.boxes);
    for (size_t k = 0; k < sizeof calls / sizeof *calls; k++)
        expect(calls[k], (uint64_t)GAUGE_TREE_DEPTH << 56 | place, input);
}

int main(void)
{
    struct sigaction action = {.sa_handler = too_small, .sa_flags = SA_ONSTACK};
    need(sigaction(SIGSEGV, &action, NULL) == 0, "sigaction");
    for (size_t i = 0; i < POINTS; i++) {
        points[3 * i] = (float)(i * 37 % 256);
        points[3 * i + 1] = (float)(i * 91 % 256);
        points[3 * i + 2] = (float)(5 * i) - 20;
    }
    draw_chain(1);
    ask_built("one triangle", 1);
    draw_field();
    ask_built("a field of 65,536", 16);
    ask_chain(PLAIN_RIGHT, "a field of 65,536 as a chain of 64 levels, leaves at the right");
    ask_chain(PLAIN_LEFT, "a field of 65,536 as a chain of 64 levels, leaves at the left");
    ask_too_deep(PLAIN_RIGHT, 0, "a chain of 65,536 levels, leaves at the right: the leaf at the bottom is listed first");
    ask_too_deep(PLAIN_LEFT, LEVELS - 1, "a chain of 65,536 levels, leaves at the left: each is one level below the one before it");
    draw_chain(100);
    ask_built("a chain of 100", 64);
    draw_chain(N);
    ask_built("a chain of 65,536", 64);
    ask_chain(PLAIN_RIGHT, "a chain of 65,536, leaves at the right");
    ask_chain(PLAIN_LEFT, "a chain of 65,536, leaves at the left");
    for (int call = 0; call < CALLS; call++) {
        printf("%-18s took %7zu bytes of stack at most, %7zu are stated\n", names[call], most[call], stated[call]);
        if (100 * (stated[call] - most[call]) < 12 * stated[call]) {
            printf("stack: %s: fewer than 12 bytes in a hundred are left, and include/gauge.h says that so many are\n", names[call]);
            failed = 1;
        }
    }
    return failed;
}
