// How cost grows with the number of triangles: build, tree check and sure query of 16 to 65,536 triangles over a sphere,
// both strategies, leaf minimum 4, depth 40, processor time, least of many turns. A line for each:
//
//     growth STRATEGY TRIANGLES NODES BUILD_US CHECK_US QUERY_NS_A_POINT
//
// With the word `sorted` the triangles stand in the order of the leaves from the first, so that a leaf's lie side by side.
//
//     (cd crates/test_exports && rt lib)          (in the engine's folder)
//     g++ -O3 -o growth tests/peers/growth.cpp crates/test_exports/out/libtest_exports.a && ./growth | tests/peers/growth.py docs/growth.svg
#include "answers.hpp"
#include <algorithm>
#include <cmath>
#include <cstddef>
#include <cstdint>
#include <cstdio>
#include <cstdlib>
#include <ctime>
#include <string>
#include <vector>

// A slice is passed as a pointer and a length.
extern "C" {
size_t timing_build(const float *, size_t, size_t strategy, size_t leaf, size_t depth, uint32_t *, size_t, uint32_t *, size_t, float *, size_t,
                    float *, size_t, float *, size_t, uint32_t *, size_t);
uint32_t timing_sure(const float *, size_t, const uint32_t *, size_t, const uint32_t *, size_t, const float *, size_t, size_t nodes,
                     const float *, size_t, float distance, uint32_t rule, uint32_t *, size_t);
uint32_t timing_check(const float *, size_t, const uint32_t *, size_t, const uint32_t *, size_t, const float *, size_t, size_t nodes);
}

static double now() {
  timespec t;
  clock_gettime(CLOCK_PROCESS_CPUTIME_ID, &t);
  return t.tv_sec + t.tv_nsec * 1e-9;
}

static uint64_t state = 1;
static double unit() {
  state = state * 6364136223846793005u + 1442695040888963407u;
  return (state >> 11) * 0x1p-53;
}

// The least time of one call among 15 turns of enough calls to be measured.
template <class F> static double least(F call) {
  double best = 1e9;
  for (int turn = 0; turn < 15; turn++) {
    size_t calls = 0;
    double start = now(), spent;
    do call(), calls++;
    while ((spent = now() - start) < 2e-3);
    best = std::min(best, spent / calls);
  }
  return best;
}

struct P {
  double x, y, z;
};

// n triangles like shingles on a sphere of radius 1, evenly spread.
static std::vector<float> shingles(size_t n) {
  std::vector<float> out;
  for (size_t k = 0; k < n; k++) {
    double z = 1 - (2 * k + 1.0) / n, r = std::sqrt(1 - z * z), turn = 2.399963229728653 * k;
    P c{r * std::cos(turn), r * std::sin(turn), z}, u{-std::sin(turn), std::cos(turn), 0};
    P v{-c.z * u.y, c.z * u.x, c.x * u.y - c.y * u.x};
    double size = 2.5 / std::sqrt((double)n);
    for (int i = 0; i < 3; i++) {
      double a = 2.0943951023931953 * i + turn, p = size * std::cos(a), q = size * std::sin(a);
      out.insert(out.end(), {(float)(c.x + p * u.x + q * v.x), (float)(c.y + p * u.y + q * v.y), (float)(c.z + p * u.z + q * v.z)});
    }
  }
  return out;
}

int main(int argc, char **argv) {
  bool sorted = argc > 1 && std::string(argv[1]) == "sorted";
  std::vector<float> points;
  for (int k = 0; k < 2000; k++) {
    double z = 2 * unit() - 1, r = std::sqrt(1 - z * z), turn = 6.283185307179586 * unit(), far = 0.98 + 0.04 * unit();
    points.insert(points.end(), {(float)(far * r * std::cos(turn)), (float)(far * r * std::sin(turn)), (float)(far * z)});
  }
  std::vector<uint32_t> words(answer_words * (points.size() / 3));
  for (size_t strategy = 1; strategy <= 2; strategy++)
    for (size_t n = 16; n <= 65536; n *= 2) {
      std::vector<float> t = shingles(n), boxes(6 * (2 * n - 1)), bounds(6 * n), centres(3 * n);
      std::vector<uint32_t> order(n), links(3 * (2 * n - 1)), scratch(n);
      size_t nodes = 0;
      auto made = [&] {
        nodes = timing_build(t.data(), t.size(), strategy, 4, 40, order.data(), n, links.data(), links.size(), boxes.data(), boxes.size(), bounds.data(),
                             bounds.size(), centres.data(), centres.size(), scratch.data(), n);
      };
      if (sorted) {
        std::vector<float> drawn = t;
        made();
        for (size_t k = 0; k < n; k++) std::copy_n(&drawn[9 * order[k]], 9, &t[9 * k]);
      }
      double build = least(made);
      uint32_t good = 1;
      double check = least([&] { good &= timing_check(t.data(), t.size(), order.data(), n, links.data(), links.size(), boxes.data(), boxes.size(), nodes); });
      double query = least([&] {
        good &= timing_sure(t.data(), t.size(), order.data(), n, links.data(), links.size(), boxes.data(), boxes.size(), nodes, points.data(),
                            points.size(), 0.1f, 1, words.data(), words.size());
      });
      if (nodes == 0 || good == 0) return fprintf(stderr, "growth: refused\n"), 2;
      // the query checks the tree once a call
      printf("growth %s %zu %zu %.2f %.2f %.1f\n", strategy == 1 ? "median" : "area", n, nodes, build * 1e6, check * 1e6,
             (query - check) * 1e9 / (points.size() / 3));
      fflush(stdout);
    }
}
