// The tree check and the sure query from C beside those of an earlier text's library, in one process, turn about: separate triangles in
// a ball's box, 1 to 65,536 of them, both strategies with leaf minimum 1 and 10. Processor time, the least of TURNS turns. The answers
// of the two are compared byte for byte, but for the part. The earlier library is one of header version 2 or 3, whose sure query has no
// rule and tells no part; this one is asked by rule 1. A line a tree, times in microseconds a call:
//
//     check N TREE NODES check NOW BEFORE RATIO sure 1 NOW BEFORE RATIO sure 1000 NOW BEFORE RATIO
//
//     make                         (in the engine's folder: crates/host/out/libhost.a; was.a is the earlier text's libhost.a)
//     nm -g --defined-only was.a | sed -n 's/.* T \(gauge.*\)/\1 was_\1/p' > names && objcopy --redefine-syms names was.a
//     g++ -O3 -Iinclude -o check tests/peers/check.cpp crates/host/out/libhost.a was.a && ./check
#include "gauge.h"

#include <algorithm>
#include <cstdio>
#include <cstdlib>
#include <cstring>
#include <ctime>
#include <vector>

extern "C" {
decltype(gauge_check) was_gauge_check;
uint64_t was_gauge_sure(const float *, size_t, const uint32_t *, size_t, const uint32_t *, size_t, const float *, size_t, size_t nodes,
                        const uint8_t *, size_t, float distance, uint8_t *, size_t);
}

enum { TURNS = 60, WAS_BYTES = offsetof(gauge_answer, part) };

static double now() {
  timespec t;
  clock_gettime(CLOCK_PROCESS_CPUTIME_ID, &t);
  return t.tv_sec * 1e6 + t.tv_nsec * 1e-3;
}

static uint64_t state = 1;
static float between(float low, float high) {
  state = state * 6364136223846793005u + 1442695040888963407u;
  return low + (high - low) * (float)(state >> 40) * 0x1p-24f;
}

static void expect(bool right) {
  if (!right) fprintf(stderr, "check: the two libraries differ\n"), exit(1);
}

// The least times of two calls, each first in every other turn, each turn of enough calls to be measured.
template <class F> static void race(const char *what, F call) {
  double start = now(), least[2] = {1e18, 1e18};
  call(0), call(1);
  size_t calls = 1 + (size_t)(4e3 / std::max(now() - start, 0.1));
  for (int turn = 0; turn < TURNS; turn++) {
    int was = (turn + turn / 2) % 2;
    start = now();
    for (size_t k = 0; k < calls; k++) call(was);
    least[was] = std::min(least[was], (now() - start) / calls);
  }
  printf(" %s %.3f %.3f %.3f", what, least[0], least[1], least[0] / least[1]);
}

int main() {
  for (size_t n : {1, 2, 4, 6, 8, 10, 16, 40, 64, 256, 1000, 4096, 16384, 65536}) {
    std::vector<float> block(GAUGE_DRAWING_BYTES(n) / 4), points(3000);
    gauge_drawing d = gauge_lay(block.data(), n);
    for (size_t t = 0; t < n; t++) {
      float middle[3];
      for (float &x : middle) x = between(-100, 100);
      for (int k = 0; k < 9; k++) d.triangles[9 * t + k] = middle[k % 3] + between(0, 5);
    }
    for (float &x : points) x = between(-120, 120);
    for (unsigned strategy : {GAUGE_MEDIAN, GAUGE_AREA})
      for (unsigned leaf : {1, 10}) {
        expect(!gauge_refused(gauge_drawing_build(&d, strategy, leaf, 40)));
        printf("check %zu %s-%u %zu", n, strategy == GAUGE_MEDIAN ? "median" : "area", leaf, d.nodes);
        race("check", [&](int was) {
          expect((was ? was_gauge_check : gauge_check)(d.triangles, 9 * n, d.order, n, d.links, 3 * d.nodes, d.boxes, 6 * d.nodes, d.nodes) == n);
        });
        for (size_t asked : {1, 1000}) {
          std::vector<uint8_t> answers[2] = {std::vector<uint8_t>(GAUGE_ANSWER_BYTES * asked), std::vector<uint8_t>(WAS_BYTES * asked)};
          race(asked == 1 ? "sure 1" : "sure 1000", [&](int was) {
            const uint8_t *p = (const uint8_t *)points.data();
            uint8_t *a = answers[was].data();
            expect((was ? was_gauge_sure(d.triangles, 9 * n, d.order, n, d.links, 3 * d.nodes, d.boxes, 6 * d.nodes, d.nodes, p, 12 * asked, 1000, a,
                                         answers[1].size())
                        : gauge_sure(d.triangles, 9 * n, d.order, n, d.links, 3 * d.nodes, d.boxes, 6 * d.nodes, d.nodes, p, 12 * asked, 1000,
                                     GAUGE_RULE_BELOW, a, answers[0].size())) == asked);
          });
          for (size_t i = 0; i < asked; i++) expect(memcmp(&answers[0][GAUGE_ANSWER_BYTES * i], &answers[1][WAS_BYTES * i], WAS_BYTES) == 0);
        }
        printf("\n");
        fflush(stdout);
      }
  }
}
