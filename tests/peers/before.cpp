// This text's library beside that of an earlier text, in one process, turn about: build, tree check and sure query over both
// strategies with leaf minimum 1, 4 and 10, processor time, the least of TURNS turns, each first in every other turn. Trees and
// answers of the two are compared word for word, as far as both have words: trees must be the same, and of the points the line tells
// how many are answered otherwise, since a text may measure what an earlier one did not. A line a tree, times in microseconds a call:
//
//     before CASE TREE NODES build NOW BEFORE RATIO check NOW BEFORE RATIO sure NOW BEFORE RATIO otherwise POINTS
//
// The earlier library's exports are renamed from timing_ to was_. Where its build is lent no working lists, it passes over those
// arguments. Both sure queries are asked by rule 1; of a text before there was a rule, was_sure is declared and called without it. An
// answer of the earlier text has six words, without the part; where it tells the part, -DWAS_WORDS=7 says so.
//
//     (cd crates/test_exports && rt lib)          (in the engine's folder; was.a is the earlier text's libtest_exports.a)
//     nm -g --defined-only was.a | sed -n 's/.* timing_\(.*\)/timing_\1 was_\1/p' > names && objcopy --redefine-syms names was.a
//     g++ -O3 -o before tests/peers/before.cpp crates/test_exports/out/libtest_exports.a was.a && ./before CASE TURNS < request
//
// A request is what the oracle's gen writes.
#include "answers.hpp"
#include <algorithm>
#include <cstddef>
#include <cstdint>
#include <cstdio>
#include <cstdlib>
#include <cstring>
#include <ctime>
#include <iostream>
#include <iterator>
#include <vector>

// A slice is passed as a pointer and a length.
using Build = size_t(const float *, size_t, size_t strategy, size_t leaf, size_t depth, uint32_t *, size_t, uint32_t *, size_t, float *, size_t,
                     float *, size_t, float *, size_t, uint32_t *, size_t);
using Check = uint32_t(const float *, size_t, const uint32_t *, size_t, const uint32_t *, size_t, const float *, size_t, size_t nodes);
using Sure = uint32_t(const float *, size_t, const uint32_t *, size_t, const uint32_t *, size_t, const float *, size_t, size_t nodes,
                      const float *, size_t, float distance, uint32_t rule, uint32_t *, size_t);
extern "C" {
Build timing_build, was_build;
Check timing_check, was_check;
Sure timing_sure, was_sure;
}

#ifndef WAS_WORDS
#define WAS_WORDS 6
#endif
static constexpr size_t widths[2] = {answer_words, WAS_WORDS}, shared_words = std::min(widths[0], widths[1]);

static double now() {
  timespec t;
  clock_gettime(CLOCK_PROCESS_CPUTIME_ID, &t);
  return t.tv_sec * 1e6 + t.tv_nsec * 1e-3;
}

// The least times of two calls, turn about, each turn of enough calls to be measured.
template <class F> static void race(const char *what, int turns, F call) {
  double start = now(), least[2] = {1e18, 1e18};
  call(0), call(1);
  size_t calls = 1 + (size_t)(4e3 / std::max(now() - start, 0.1));
  for (int turn = 0; turn < 2 * turns; turn++) {
    int which = (turn + turn / 2) % 2;
    start = now();
    for (size_t k = 0; k < calls; k++) call(which);
    least[which] = std::min(least[which], (now() - start) / calls);
  }
  printf(" %s %.2f %.2f %.3f", what, least[0], least[1], least[0] / least[1]);
}

struct Tree {
  std::vector<uint32_t> order, links;
  std::vector<float> boxes;
  size_t nodes = 0;
};

static void refused(const char *what) {
  fprintf(stderr, "before: %s\n", what);
  exit(2);
}

int main(int argc, char **argv) {
  if (argc < 3) refused("before CASE TURNS < request");
  std::vector<unsigned char> in((std::istreambuf_iterator<char>(std::cin)), {});
  std::vector<float> t, points;
  float limit = 4194304.0f;
  for (size_t at = 0; at + 6 <= in.size();) {
    uint32_t length;
    uint16_t kind;
    memcpy(&length, &in[at], 4), memcpy(&kind, &in[at + 4], 2);
    at += 6;
    if (in.size() - at < length) refused("a record is cut short");
    std::vector<float> *to = kind == 2 ? &t : kind == 5 ? &points : nullptr;
    if (to) to->resize(length / 4), memcpy(to->data(), &in[at], length / 4 * 4);
    if (kind == 6) memcpy(&limit, &in[at], 4);
    at += length;
  }
  size_t n = t.size() / 9;
  int turns = atoi(argv[2]);
  std::vector<float> bounds(6 * n), centres(3 * n);
  std::vector<uint32_t> scratch(n), answers[2];
  for (int was = 0; was < 2; was++) answers[was].resize(widths[was] * (points.size() / 3));
  for (size_t strategy = 1; strategy <= 2; strategy++)
    for (size_t leaf : {1, 4, 10}) {
      Tree trees[2];
      for (auto &k : trees) k.order.resize(n), k.links.resize(3 * (2 * n - 1)), k.boxes.resize(6 * (2 * n - 1));
      auto build = [&](int was) {
        Tree &k = trees[was];
        k.nodes = (was ? was_build : timing_build)(t.data(), t.size(), strategy, leaf, 40, k.order.data(), n, k.links.data(), k.links.size(),
                                                   k.boxes.data(), k.boxes.size(), bounds.data(), bounds.size(), centres.data(), centres.size(),
                                                   scratch.data(), n);
      };
      // both ask the one tree, where it lies
      Tree &k = trees[0];
      uint32_t good = 1;
      auto check = [&](int was) {
        good &= (was ? was_check : timing_check)(t.data(), t.size(), k.order.data(), n, k.links.data(), k.links.size(), k.boxes.data(), k.boxes.size(),
                                                 k.nodes);
      };
      auto sure = [&](int was) {
        auto &a = answers[was];
        good &= (was ? was_sure : timing_sure)(t.data(), t.size(), k.order.data(), n, k.links.data(), k.links.size(), k.boxes.data(), k.boxes.size(),
                                               k.nodes, points.data(), points.size(), limit, 1, a.data(), a.size());
      };
      build(0), build(1);
      if (k.nodes == 0 || k.nodes != trees[1].nodes || k.order != trees[1].order || k.links != trees[1].links ||
          memcmp(k.boxes.data(), trees[1].boxes.data(), 4 * k.boxes.size()))
        refused("the trees differ");
      printf("before %s %s-%zu %zu", argv[1], strategy == 1 ? "median" : "area", leaf, k.nodes);
      race("build", turns, build);
      race("check", turns, check);
      race("sure", turns, sure);
      size_t otherwise = 0;
      for (size_t i = 0; i < points.size() / 3; i++)
        otherwise += !std::equal(&answers[0][widths[0] * i], &answers[0][widths[0] * i] + shared_words, &answers[1][widths[1] * i]);
      printf(" otherwise %zu\n", otherwise);
      fflush(stdout);
      if (!good) refused("a call is refused");
    }
}
