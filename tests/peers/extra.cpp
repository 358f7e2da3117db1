// This engine as a contender beside others that answer closest-point queries: the sure query over trees of both strategies
// with leaf minimum 1, 4 and 10, so that each stands beside the same tree and walk in plain C++. A query's time includes
// the call's own check of the tree. From the folder of the contenders, which has contender.h and the Makefile, with answers.hpp beside it:
//
//     rt lib                       (in crates/test_exports of the engine's folder: out/libtest_exports.a)
//     make EXTRA=extra.cpp EXTRA_LIB=libtest_exports.a
#include "answers.hpp"
#include "contender.h"
#include <cstdio>
#include <cstdlib>
#include <cstring>

// A slice is passed as a pointer and a length.
extern "C" {
size_t timing_build(const float *, size_t, size_t strategy, size_t leaf, size_t depth, uint32_t *, size_t, uint32_t *, size_t, float *, size_t,
                    float *, size_t, float *, size_t, uint32_t *, size_t);
uint32_t timing_sure(const float *, size_t, const uint32_t *, size_t, const uint32_t *, size_t, const float *, size_t, size_t nodes,
                     const float *, size_t, float distance, uint32_t rule, uint32_t *, size_t);
}

namespace {
template <int STRATEGY, int LEAF> struct Engine : Contender {
  std::vector<float> triangles, boxes;
  std::vector<uint32_t> order, links, words;
  size_t nodes = 0;
  void build(const float *t, size_t n) override {
    triangles.assign(t, t + 9 * n);
    order.resize(n), links.resize(3 * (2 * n - 1)), boxes.resize(6 * (2 * n - 1));
    std::vector<float> bounds(6 * n), centres(3 * n);
    std::vector<uint32_t> scratch(n);
    nodes = timing_build(triangles.data(), triangles.size(), STRATEGY, LEAF, 40, order.data(), n, links.data(), links.size(), boxes.data(), boxes.size(),
                         bounds.data(), bounds.size(), centres.data(), centres.size(), scratch.data(), n);
    if (nodes == 0) fprintf(stderr, "the build was refused\n"), exit(2);
  }
  void ask(const float *points, size_t n, float limit, Answer *out) override {
    words.resize(answer_words * n);
    uint32_t answered = timing_sure(triangles.data(), triangles.size(), order.data(), order.size(), links.data(), links.size(), boxes.data(),
                                    boxes.size(), nodes, points, 3 * n, limit, 1, words.data(), words.size());
    if (answered == 0) fprintf(stderr, "the query was refused\n"), exit(2);
    for (size_t k = 0; k < n; k++) {
      const uint32_t *w = &words[answer_words * k];
      out[k].found = w[0] == 1;
      out[k].triangle = w[1];
      memcpy(&out[k].x, w + 2, 16);
    }
  }
};
Enlist m1("boramneuy-median-1", [] { return std::make_unique<Engine<1, 1>>(); });
Enlist m4("boramneuy-median-4", [] { return std::make_unique<Engine<1, 4>>(); });
Enlist m10("boramneuy-median-10", [] { return std::make_unique<Engine<1, 10>>(); });
Enlist a1("boramneuy-area-1", [] { return std::make_unique<Engine<2, 1>>(); });
Enlist a4("boramneuy-area-4", [] { return std::make_unique<Engine<2, 4>>(); });
Enlist a10("boramneuy-area-10", [] { return std::make_unique<Engine<2, 10>>(); });
} // namespace
