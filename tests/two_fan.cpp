// The two-level planner judged: each fan relay by relay, from the specification's words; each refusal by its number. Slices are lent out of the middle
// of others, and what lies around them and beyond the fan is looked at after each call. The planner of the benchmark is held to the same judge.
#include "../bench/two_planner.hpp"
#include "gustparsley.h"

#include <algorithm>
#include <cstdio>
#include <cstdlib>
#include <random>
#include <vector>

namespace {

using Words = std::vector<uint64_t>;

constexpr uint64_t kFiller = ~uint64_t{0}, kUntouched = 77;

// ---- the mesh

struct Two {
  unsigned m;
  uint64_t slots() const { return uint64_t{1} << m; }
  uint64_t relays() const { return uint64_t{1} << (slots() + m); }
  size_t links() const { return m + 1; }
  size_t longest() const { return m * slots() + slots() + 2 * m + 4; }
  size_t places() const { return longest() + 1; }
  uint64_t block(uint64_t r) const { return r / slots(); }
  uint64_t slot(uint64_t r) const { return r % slots(); }

  bool linked(uint64_t u, uint64_t v) const {
    if (block(u) == block(v)) return __builtin_popcountll(slot(u) ^ slot(v)) == 1;
    return slot(u) == slot(v) && (block(u) ^ block(v)) == uint64_t{1} << slot(u);
  }
  // Link i of a relay: within its block for i below m, else to another block.
  uint64_t link(uint64_t r, size_t i) const { return i < m ? r ^ uint64_t{1} << i : r ^ slots() << slot(r); }
};

// ---- slices lent

// n words, and some around them.
class Lent {
 public:
  explicit Lent(size_t n) : words_(n + 2 * kAround, kUntouched), n_(n) {}
  uint64_t *data() { return words_.data() + kAround; }
  size_t size() const { return n_; }
  bool untouched_from(size_t first) const {
    const auto still = [](uint64_t w) { return w == kUntouched; };
    return std::all_of(words_.begin(), words_.begin() + kAround, still) && std::all_of(words_.begin() + kAround + static_cast<long>(first), words_.end(), still);
  }

 private:
  static constexpr size_t kAround = 5;
  Words words_;
  size_t n_;
};

[[noreturn]] void fail(const char *what, uint64_t kind, uint64_t size, uint64_t source, const Words &targets) {
  std::printf("two_fan: FAILED: %s: kind %llu, size %llu, source %llu, targets", what, (unsigned long long)kind, (unsigned long long)size,
              (unsigned long long)source);
  for (uint64_t t : targets) std::printf(" %llu", (unsigned long long)t);
  std::printf("\n");
  std::exit(1);
}

// What is wrong with a fan, or nothing.
const char *judge(const Two &mesh, uint64_t source, const Words &targets, const uint64_t *places, const uint64_t *counts) {
  static Words met;
  met.assign(1, source);
  for (size_t i = 0; i < targets.size(); ++i) {
    const uint64_t *path = places + i * mesh.places(), hops = counts[i];
    if (hops > mesh.longest()) return "a path is too long";
    if (path[0] != source) return "a path does not start at the source";
    if (path[hops] != targets[i]) return "a path does not end at its target";
    for (size_t p = 1; p <= hops; ++p) {
      if (path[p] >= mesh.relays()) return "a relay is out of range";
      if (!mesh.linked(path[p - 1], path[p])) return "two relays are not linked";
      met.push_back(path[p]);
    }
    for (size_t p = hops + 1; p < mesh.places(); ++p)
      if (path[p] != kFiller) return "an unused place is not filled";
  }
  std::sort(met.begin(), met.end());
  if (std::adjacent_find(met.begin(), met.end()) != met.end()) return "a relay stands twice";
  return nullptr;
}

// ---- requests

long fans = 0, refusals = 0;

// A request that is to be granted, into slices that are longer than need be by so much.
void grant(const Two &mesh, uint64_t source, const Words &targets, size_t more = 0) {
  const size_t k = targets.size();
  for (int who = 0; who < 2; ++who) {
    Lent places(k * mesh.places() + more), counts(k + more);
    const uint64_t told =
        who ? reference::plan_two(mesh.m, source, targets.data(), k, places.data(), places.size(), counts.data(), counts.size())
            : gust_fan(2, mesh.m, source, targets.data(), k, places.data(), places.size(), counts.data(), counts.size()).number;
    if (told) fail(who ? "refused by the benchmark's" : "refused", 2, mesh.m, source, targets);
    if (const char *what = judge(mesh, source, targets, places.data(), counts.data())) fail(what, who ? 99 : 2, mesh.m, source, targets);
    if (!places.untouched_from(k * mesh.places()) || !counts.untouched_from(k)) fail("something beyond the fan is changed", 2, mesh.m, source, targets);
  }
  ++fans;
}

// Every request from a source with k targets, in every order.
void every(const Two &mesh, uint64_t source, size_t k, Words &targets) {
  if (targets.size() == k) return grant(mesh, source, targets);
  for (uint64_t t = 0; t < mesh.relays(); ++t) {
    if (t == source || std::find(targets.begin(), targets.end(), t) != targets.end()) continue;
    targets.push_back(t);
    every(mesh, source, k, targets);
    targets.pop_back();
  }
}

// A relay near others, by what the round crowds: the source's block, one other block, blocks next to them, relays next to the source or to a target.
uint64_t near(const Two &mesh, uint64_t source, uint64_t other, const Words &targets, unsigned crowd, std::mt19937_64 &random) {
  uint64_t r = random() % mesh.relays();
  if (random() % 8 == 0) return r;
  const uint64_t slot = random() % mesh.slots();
  switch (crowd) {
    case 0: return r;
    case 1: return mesh.block(source) * mesh.slots() + slot;
    case 2: return mesh.block(other) * mesh.slots() + slot;
    case 3: return (mesh.block(source) ^ uint64_t{1} << random() % mesh.slots()) * mesh.slots() + slot;
    case 4: return mesh.link(source, random() % mesh.links());
    case 5: return mesh.link(targets.empty() ? other : targets.back(), random() % mesh.links());
    case 6: return (mesh.block(other) ^ uint64_t{1} << random() % mesh.slots()) * mesh.slots() + slot;
    default:
      r = random() % 2 ? source : other;
      for (uint64_t steps = random() % 5; steps; --steps) r = mesh.link(r, random() % mesh.links());
      return r;
  }
}

void some(const Two &mesh, int rounds, std::mt19937_64 &random) {
  for (int round = 0; round < rounds; ++round) {
    const uint64_t source = random() % mesh.relays();
    // the other block: any, or next to the source's
    const uint64_t other = random() % 2 ? random() % mesh.relays() : source ^ mesh.slots() << random() % mesh.slots();
    const size_t k = round % 2 ? mesh.links() : random() % mesh.links() + 1;
    const unsigned one = random() % 8, two = random() % 8;
    Words targets;
    for (int tries = 0; targets.size() < k; ++tries) {
      const uint64_t t = near(mesh, source, other, targets, tries > 40 ? 0 : random() % 2 ? one : two, random);
      if (t != source && std::find(targets.begin(), targets.end(), t) == targets.end()) targets.push_back(t);
    }
    grant(mesh, source, targets, round % 4);
  }
}

// ---- refusals

// A request that is to be refused, with the slices untouched.
void refuse(uint64_t number, uint64_t kind, uint64_t size, uint64_t source, const Words &targets, size_t room, size_t counted) {
  Lent places(room), counts(counted);
  if (gust_fan(kind, size, source, targets.data(), targets.size(), places.data(), room, counts.data(), counted).number != number)
    fail("another number", kind, size, source, targets);
  if (!places.untouched_from(0) || !counts.untouched_from(0)) fail("a refusal writes", kind, size, source, targets);
  ++refusals;
}

// With room for anything, and with none: 8 comes last.
void refuse(uint64_t number, uint64_t kind, uint64_t size, uint64_t source, const Words &targets) {
  refuse(number, kind, size, source, targets, 2000, 40);
  refuse(number, kind, size, source, targets, 0, 0);
}

// Each reason alone, and beside the ones that come after it.
void refuse_all(const Two &mesh) {
  const uint64_t m = mesh.m, out = mesh.relays();
  const size_t links = mesh.links();
  refuse(2, 2, m, out, {1});
  refuse(2, 2, m, kFiller, {});
  refuse(3, 2, m, 0, {});
  Words many(links + 1);
  for (size_t i = 0; i <= links; ++i) many[i] = i + 1;
  refuse(4, 2, m, 0, many);
  many[0] = out, many[1] = 0, many[links] = many[links - 1];
  refuse(4, 2, m, 0, many);
  refuse(5, 2, m, 0, {1, out});
  refuse(5, 2, m, 0, {0, kFiller});
  refuse(6, 2, m, out - 1, {0, out - 1});
  refuse(6, 2, m, 1, {1, 1});
  refuse(7, 2, m, 1, {0, 0});
  if (links > 2) refuse(5, 2, m, 0, {0, 0, out}), refuse(6, 2, m, 5, {1, 1, 5}), refuse(7, 2, m, 0, {1, 2, 1});
  for (size_t k = 1; k <= links; ++k) {
    Words targets;
    for (size_t i = 1; i <= k; ++i) targets.push_back(i);
    refuse(8, 2, m, 0, targets, k * mesh.places() - 1, k);
    refuse(8, 2, m, 0, targets, k * mesh.places(), k - 1);
    refuse(8, 2, m, 0, targets, 0, 0);
    grant(mesh, 0, targets);
  }
}

}  // namespace

int main() {
  const Two one{1}, two{2};
  Words targets;
  for (uint64_t source = 0; source < one.relays(); ++source)
    for (size_t k = 1; k <= one.links(); ++k) every(one, source, k, targets);
  for (size_t k = 1; k <= two.links(); ++k) every(two, 0, k, targets);
  std::mt19937_64 random(11);
  for (unsigned m = 1; m <= 5; ++m) some(Two{m}, m == 1 ? 1000 : 400000, random);

  for (uint64_t kind : {uint64_t{0}, uint64_t{4}, kFiller}) refuse(1, kind, 1, 0, {1}), refuse(1, kind, 1, kFiller, {});
  refuse(1, 3, 0, 0, {1}), refuse(52, 3, 1, 0, {1}), refuse(52, 3, 1, kFiller, {});
  for (uint64_t size : {uint64_t{0}, uint64_t{6}, uint64_t{33}, kFiller}) refuse(1, 2, size, 0, {1}), refuse(1, 2, size, kFiller, {});
  for (unsigned m = 1; m <= 5; ++m) refuse_all(Two{m});
  std::printf("two_fan: %ld fans judged, %ld refusals\n", fans, refusals);
}
