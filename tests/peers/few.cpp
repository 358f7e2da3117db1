// What the nearest few cost beside the nearest one: the sure query, and the nearest 1, 2, 4, 8 and 16, turn about, over trees of both
// strategies with leaf minimum 1, 4 and 10; processor time, the least of TURNS turns, each of enough calls to be measured. A call's own
// check of the tree is measured alone and taken off. A line a tree, nanoseconds a point, each of the few with its ratio to the sure
// query, and how many of 16 places a point filled in the mean:
//
//     few CASE TREE NODES sure NS 1 NS RATIO 2 NS RATIO 4 NS RATIO 8 NS RATIO 16 NS RATIO told MEAN
//
// The answers are compared word for word: the nearest 1 are the sure query's, and more of them begin as fewer do.
//
//     (cd crates/test_exports && rt lib)          (in the engine's folder)
//     g++ -O3 -o few tests/peers/few.cpp crates/test_exports/out/libtest_exports.a && ./few CASE TURNS < request
//
// A request is what the oracle's gen writes, or what tools/make_input.py makes of a drawing in text.
#include "answers.hpp"
#include <algorithm>
#include <cstddef>
#include <cstdint>
#include <cstdio>
#include <cstdlib>
#include <cstring>
#include <ctime>
#include <iostream>
#include <iterator>
#include <vector>

// A slice is passed as a pointer and a length.
extern "C" {
size_t timing_build(const float *, size_t, size_t strategy, size_t leaf, size_t depth, uint32_t *, size_t, uint32_t *, size_t, float *, size_t,
                    float *, size_t, float *, size_t, uint32_t *, size_t);
uint32_t timing_check(const float *, size_t, const uint32_t *, size_t, const uint32_t *, size_t, const float *, size_t, size_t nodes);
uint32_t timing_sure(const float *, size_t, const uint32_t *, size_t, const uint32_t *, size_t, const float *, size_t, size_t nodes,
                     const float *, size_t, float distance, uint32_t rule, uint32_t *, size_t);
uint32_t timing_few(const float *, size_t, const uint32_t *, size_t, const uint32_t *, size_t, const float *, size_t, size_t nodes,
                    const float *, size_t, float distance, uint32_t rule, uint32_t most, uint32_t *, size_t);
}

// What is timed: the check, the sure query, then the nearest few.
enum { CHECK, SURE, FIRST, CONTENDERS = 7 };
static const uint32_t mosts[CONTENDERS] = {0, 1, 1, 2, 4, 8, 16};

static double now() {
  timespec t;
  clock_gettime(CLOCK_PROCESS_CPUTIME_ID, &t);
  return t.tv_sec * 1e6 + t.tv_nsec * 1e-3;
}

static void refused(const char *what) {
  fprintf(stderr, "few: %s\n", what);
  exit(2);
}

// The least times of all, in microseconds a call, in turns that begin with another one each time.
template <class F> static std::vector<double> race(int turns, F call) {
  std::vector<double> least(CONTENDERS, 1e18);
  std::vector<size_t> calls;
  for (int which = 0; which < CONTENDERS; which++) {
    call(which);
    double start = now();
    call(which);
    calls.push_back(1 + (size_t)(4e3 / std::max(now() - start, 0.1)));
  }
  for (int turn = 0; turn < turns; turn++)
    for (int k = 0; k < CONTENDERS; k++) {
      int which = (turn + k) % CONTENDERS;
      double start = now();
      for (size_t i = 0; i < calls[which]; i++) call(which);
      least[which] = std::min(least[which], (now() - start) / calls[which]);
    }
  return least;
}

int main(int argc, char **argv) {
  if (argc < 3) refused("few CASE TURNS < request");
  std::vector<unsigned char> in((std::istreambuf_iterator<char>(std::cin)), {});
  std::vector<float> t, points;
  float limit = 4194304.0f;
  for (size_t at = 0; at + 6 <= in.size();) {
    uint32_t length;
    uint16_t kind;
    memcpy(&length, &in[at], 4), memcpy(&kind, &in[at + 4], 2);
    at += 6;
    if (in.size() - at < length) refused("a record is cut short");
    std::vector<float> *to = kind == 2 ? &t : kind == 5 ? &points : nullptr;
    if (to) to->resize(length / 4), memcpy(to->data(), &in[at], length / 4 * 4);
    if (kind == 6) memcpy(&limit, &in[at], 4);
    at += length;
  }
  size_t n = t.size() / 9, asked = points.size() / 3;
  int turns = atoi(argv[2]);
  if (n == 0 || asked == 0) refused("no triangles, or no points");
  std::vector<float> boxes(6 * (2 * n - 1)), bounds(6 * n), centres(3 * n);
  std::vector<uint32_t> order(n), links(3 * (2 * n - 1)), scratch(n), answers[CONTENDERS];
  for (int which = 0; which < CONTENDERS; which++) answers[which].resize(answer_words * mosts[which] * asked);
  for (size_t strategy = 1; strategy <= 2; strategy++)
    for (size_t leaf : {1, 4, 10}) {
      size_t nodes = timing_build(t.data(), t.size(), strategy, leaf, 40, order.data(), n, links.data(), links.size(), boxes.data(), boxes.size(),
                                  bounds.data(), bounds.size(), centres.data(), centres.size(), scratch.data(), n);
      if (nodes == 0) refused("the build is refused");
      uint32_t good = 1;
      std::vector<double> least = race(turns, [&](int which) {
        auto &a = answers[which];
        if (which == CHECK)
          good &= timing_check(t.data(), t.size(), order.data(), n, links.data(), links.size(), boxes.data(), boxes.size(), nodes);
        else if (which == SURE)
          good &= timing_sure(t.data(), t.size(), order.data(), n, links.data(), links.size(), boxes.data(), boxes.size(), nodes, points.data(),
                              points.size(), limit, 1, a.data(), a.size());
        else
          good &= timing_few(t.data(), t.size(), order.data(), n, links.data(), links.size(), boxes.data(), boxes.size(), nodes, points.data(),
                             points.size(), limit, 1, mosts[which], a.data(), a.size());
      });
      if (!good) refused("a call is refused");
      // each list begins as the one before it, and the first of them is the sure query's
      for (int which = FIRST; which < CONTENDERS; which++)
        for (size_t i = 0; i < asked; i++) {
          size_t shorter = answer_words * mosts[which - 1], row = answer_words * mosts[which];
          if (!std::equal(&answers[which - 1][shorter * i], &answers[which - 1][shorter * i] + shorter, &answers[which][row * i]))
            refused("more of the nearest begin otherwise than fewer");
        }
      size_t told = 0;
      for (size_t i = 0; i < mosts[CONTENDERS - 1] * asked; i++) told += answers[CONTENDERS - 1][answer_words * i];
      auto each = [&](int which) { return (least[which] - least[CHECK]) * 1e3 / asked; };
      printf("few %s %s-%zu %zu sure %.1f", argv[1], strategy == 1 ? "median" : "area", leaf, nodes, each(SURE));
      for (int which = FIRST; which < CONTENDERS; which++) printf(" %u %.1f %.3f", mosts[which], each(which), each(which) / each(SURE));
      printf(" told %.2f\n", (double)told / asked);
      fflush(stdout);
    }
}
