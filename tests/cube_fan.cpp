// The cube's planners judged: each fan relay by relay, from the specification's words; each refusal by its number, with the slices untouched.
// The planner of the benchmark is held to the same judge.
#include "../bench/planner.hpp"

#include <algorithm>
#include <cstdio>
#include <cstdlib>
#include <random>
#include <set>
#include <vector>

extern "C" {
uint64_t gustparsley_cube_plan(uint64_t n, uint64_t source, const uint64_t *targets, size_t k, uint64_t *places, size_t room, uint64_t *counts,
                               size_t counted);
uint64_t gustparsley_cube_plan_through(uint64_t n, uint64_t source, uint64_t doors, const uint64_t *targets, size_t k, uint64_t *places,
                                       size_t room, uint64_t *counts, size_t counted);
}

namespace {

using Words = std::vector<uint64_t>;

constexpr uint64_t kFiller = ~uint64_t{0}, kUntouched = 77;

int bits(uint64_t x) { return __builtin_popcountll(x); }

[[noreturn]] void fail(const char *what, uint64_t n, uint64_t source, uint64_t doors, const Words &targets) {
  std::printf("cube_fan: FAILED: %s: n %llu, source %llu, doors %llx, targets", what, (unsigned long long)n, (unsigned long long)source,
              (unsigned long long)doors);
  for (uint64_t t : targets) std::printf(" %llu", (unsigned long long)t);
  std::printf("\n");
  std::exit(1);
}

// What is wrong with a fan through doors, or nothing.
const char *judge(uint64_t n, uint64_t source, uint64_t doors, const Words &targets, const Words &places, const Words &counts) {
  const size_t width = n + 2, k = targets.size();
  std::set<uint64_t> seen{source};
  for (size_t i = 0; i < k; ++i) {
    const uint64_t *path = places.data() + i * width;
    const uint64_t hops = counts[i];
    if (hops > n + 1) return "a path is too long";
    if (path[0] != source) return "a path does not start at the source";
    if (path[hops] != targets[i]) return "a path does not end at its target";
    for (size_t p = 1; p <= hops; ++p) {
      if (path[p] >> n) return "a relay is out of range";
      if (bits(path[p] ^ path[p - 1]) != 1) return "two relays are not linked";
      if (!seen.insert(path[p]).second) return "a relay stands twice";
      const uint64_t link = path[p] ^ source;
      if (bits(link) == 1 && !(link & doors)) {
        if (p == 1) return "a path leaves by a shut door";
        if (p != hops) return "a path runs through a neighbour behind a shut door";
      }
    }
    for (size_t p = hops + 1; p < width; ++p)
      if (path[p] != kFiller) return "an unused place is not filled";
  }
  for (size_t p = k * width; p < places.size(); ++p)
    if (places[p] != kUntouched) return "a place beyond the fan is changed";
  for (size_t i = k; i < counts.size(); ++i)
    if (counts[i] != kUntouched) return "a count beyond the fan is changed";
  return nullptr;
}

long fans = 0;

// A request that is to be granted: by each of the planners.
void grant(uint64_t n, uint64_t source, const Words &targets, const Words &masks) {
  const size_t k = targets.size();
  const uint64_t all = (uint64_t{1} << n) - 1;
  for (int who = 0; who < 2; ++who) {
    Words places(k * (n + 2) + 3, kUntouched), counts(k + 2, kUntouched);
    const auto asked = who ? reference::plan : gustparsley_cube_plan;
    if (asked(n, source, targets.data(), k, places.data(), places.size(), counts.data(), counts.size())) fail("refused", n, source, all, targets);
    if (const char *what = judge(n, source, all, targets, places, counts)) fail(what, n, source, all, targets);
  }
  for (uint64_t doors : masks) {
    Words places(k * (n + 2), kUntouched), counts(k, kUntouched);
    if (gustparsley_cube_plan_through(n, source, doors, targets.data(), k, places.data(), places.size(), counts.data(), k))
      fail("refused through doors", n, source, doors, targets);
    if (const char *what = judge(n, source, doors, targets, places, counts)) fail(what, n, source, doors, targets);
  }
  fans += 1 + static_cast<long>(masks.size());
}

// Every request from relay 0 with k targets, through every set of doors that is large enough.
void every(uint64_t n, size_t k, Words &targets) {
  if (targets.size() == k) {
    Words masks;
    for (uint64_t doors = 0; doors >> n == 0; ++doors)
      if (bits(doors) >= static_cast<int>(k)) masks.push_back(doors);
    return grant(n, 0, targets, masks);
  }
  for (uint64_t t = 1; t >> n == 0; ++t) {
    if (std::find(targets.begin(), targets.end(), t) != targets.end()) continue;
    targets.push_back(t);
    every(n, k, targets);
    targets.pop_back();
  }
}

// Random requests: targets anywhere, or within three hops of the source.
void some(uint64_t n, int rounds, std::mt19937_64 &random) {
  const uint64_t all = (uint64_t{1} << n) - 1;
  for (int round = 0; round < rounds; ++round) {
    const uint64_t source = random() & all;
    const size_t k = round % 4 == 0 ? n : random() % n + 1;
    Words targets;
    while (targets.size() < k) {
      uint64_t t = random() & all;
      if (round % 2)
        for (t = source ^ (uint64_t{1} << random() % n); random() % 3 == 0; t ^= uint64_t{1} << random() % n) {
        }
      if (t != source && std::find(targets.begin(), targets.end(), t) == targets.end()) targets.push_back(t);
    }
    Words masks{all};
    for (int i = 0; i < 3; ++i) {
      uint64_t doors = random() & all;
      while (bits(doors) < static_cast<int>(k)) doors |= uint64_t{1} << random() % n;
      masks.push_back(doors);
    }
    grant(n, source, targets, masks);
  }
}

// A request that is to be refused, with the slices untouched.
void refuse(uint64_t number, uint64_t n, uint64_t source, uint64_t doors, const Words &targets, size_t room, size_t counted) {
  for (int through = number == 11; through < 2; ++through) {
    Words places(room, kUntouched), counts(counted, kUntouched);
    const uint64_t told = through ? gustparsley_cube_plan_through(n, source, doors, targets.data(), targets.size(), places.data(), room,
                                                                  counts.data(), counted)
                                  : gustparsley_cube_plan(n, source, targets.data(), targets.size(), places.data(), room, counts.data(), counted);
    if (told != number) fail("another number", n, source, doors, targets);
    if (places != Words(room, kUntouched) || counts != Words(counted, kUntouched)) fail("a refusal writes", n, source, doors, targets);
  }
}

}  // namespace

int main() {
  for (uint64_t n = 1; n <= 4; ++n)
    for (size_t k = 1; k <= n; ++k) {
      Words targets;
      every(n, k, targets);
    }
  std::mt19937_64 random(5);
  for (uint64_t n = 1; n <= 32; ++n) some(n, n < 3 ? 2 : 400, random);

  // each reason alone, and beside the ones that come after it
  refuse(1, 0, 0, 1, {1}, 99, 9);
  refuse(1, 33, 0, 1, {1}, 99, 9);
  refuse(1, kFiller, kFiller, kFiller, {}, 0, 0);
  refuse(2, 3, 8, 7, {1}, 99, 9);
  refuse(2, 3, 9, 8, {}, 0, 0);
  refuse(3, 3, 0, 7, {}, 99, 9);
  refuse(3, 3, 0, 8, {}, 0, 0);
  refuse(4, 3, 0, 7, {1, 2, 3, 4}, 99, 9);
  refuse(4, 3, 0, 0, {9, 0, 1, 1}, 0, 0);
  refuse(5, 3, 0, 7, {1, 8}, 99, 9);
  refuse(5, 3, 0, 0, {0, 0, 8}, 0, 0);
  refuse(6, 3, 0, 7, {1, 0, 1}, 99, 9);
  refuse(6, 3, 5, 0, {1, 1, 5}, 0, 0);
  refuse(7, 3, 0, 7, {1, 2, 1}, 99, 9);
  refuse(7, 3, 0, 0, {1, 1}, 0, 0);
  refuse(11, 3, 0, 8, {1}, 99, 9);
  refuse(11, 3, 0, 6, {1, 2, 4}, 99, 9);
  refuse(11, 3, 0, 15, {1, 2, 4}, 0, 0);
  refuse(8, 3, 0, 7, {1, 2, 4}, 14, 3);
  refuse(8, 3, 0, 7, {1, 2, 4}, 15, 2);
  refuse(8, 32, 0, kFiller >> 32, {1}, 33, 1);

  // only one fan is possible from 0 to 3 and 1 in the cube of 2 dimensions
  Words places(8, kUntouched), counts(2, kUntouched);
  const Words targets{3, 1};
  gustparsley_cube_plan(2, 0, targets.data(), 2, places.data(), 8, counts.data(), 2);
  if (places != Words{0, 2, 3, kFiller, 0, 1, kFiller, kFiller} || counts != Words{2, 1}) fail("case G", 2, 0, 3, targets);
  std::printf("cube_fan: %ld fans judged\n", fans);
}
