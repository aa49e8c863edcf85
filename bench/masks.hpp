// The cube's planner by masks, for the benchmark: targets are kept as what they differ in from the source, sets of targets and of doors are words, a path is the list of the dimensions that
// it changes, and every place is written forwards. two_masks.hpp has the two-level mesh's, and vectors.hpp both tuned by hand.
#pragma once
#include <cstring>

#include "same.hpp"

namespace masks {

inline unsigned low(uint32_t x) { return static_cast<unsigned>(__builtin_ctz(x)); }
inline uint32_t low_bit(uint32_t x) { return x & (~x + 1); }
inline bool at_most_one(uint32_t x) { return (x & (x - 1)) == 0; }
inline uint32_t ones(size_t n) { return ~uint32_t{0} >> (32 - n); }

// The door, then the turns from the last to the first, the bits of `rest` from the lowest, and `back`, if there is one.
struct Way {
  uint32_t door, rest, back;
  unsigned turns;
  uint32_t turn[32];

  template <class Do>
  void each(Do change) const {
    change(door);
    for (unsigned j = turns; j-- > 0;) change(turn[j]);
    for (uint32_t left = rest; left; left &= left - 1) change(low_bit(left));
    if (back) change(back);
  }
  uint32_t last() const { return back ? back : rest ? uint32_t{1} << (31 - __builtin_clz(rest)) : turns ? turn[0] : door; }
};

// ---- the cube

struct Cube {
  uint32_t apart[32];
  Way way[32];
  uint8_t order[32];
  unsigned done = 0;

  void lay(unsigned i, uint32_t door, uint32_t rest, uint32_t back) {
    way[i].door = door, way[i].rest = rest, way[i].back = back, way[i].turns = 0;
    order[done++] = static_cast<uint8_t>(i);
  }

  // Targets behind an open door of their own; gives those that are left.
  uint32_t neighbours(uint32_t free, uint32_t targets, uint32_t &shut) {
    for (uint32_t todo = targets; todo; todo &= todo - 1) {
      const uint32_t x = apart[low(todo)] & free;
      if (!at_most_one(x) || x & shut) continue;
      lay(low(todo), x, 0, 0);
      shut |= x;
      targets ^= low_bit(todo);
    }
    return targets;
  }

  void alone(uint32_t free, unsigned i, uint32_t shut) {
    const uint32_t open = free & ~shut, x = apart[i] & free, good = x & open, door = low_bit(good ? good : open);
    lay(i, door, x & ~door, good ? 0 : door);
  }

  // Where the door to the far side is shut and its first relay is a target, that target's path comes round by a neighbour; gives the target, or 32.
  unsigned come_round(uint32_t rest, uint32_t far, uint32_t taken) {
    unsigned home = 32;
    for (uint32_t todo = far; todo; todo &= todo - 1) {
      const uint32_t x = apart[low(todo)] & rest;
      if (!x)
        home = low(todo);
      else if (at_most_one(x))
        taken |= x;
    }
    if (home < 32) apart[home] = low_bit(rest & ~taken);
    return home;
  }

  // Paths of the far side, from `from` on in the order, now begin on this side: the first goes by the door between, if it is open. Gives the doors they take here.
  uint32_t cross(unsigned from, uint32_t bit, bool open, unsigned home) {
    uint32_t used = 0;
    for (unsigned e = from; e < done; ++e) {
      Way &w = way[order[e]];
      w.turn[w.turns++] = open ? w.door : bit;
      if (open)
        w.door = bit;
      else
        used |= w.door;
      if (order[e] == home) w.back = w.door;
      open = false;
    }
    return used;
  }

  // A fan by the doors that are not shut, in the cube of the dimensions `free`.
  void fan(uint32_t free, uint32_t targets, uint32_t shut) {
    for (;;) {
      targets = neighbours(free, targets, shut);
      if (!targets) return;
      const uint32_t others = targets & (targets - 1);
      if (!others) return alone(free, low(targets), shut);
      const uint32_t bit = low_bit((apart[low(targets)] ^ apart[low(others)]) & free), rest = free & ~bit;
      uint32_t far = 0;
      for (uint32_t todo = targets; todo; todo &= todo - 1)
        if (apart[low(todo)] & bit) far |= low_bit(todo);
      const bool open = !(shut & bit);
      const unsigned home = open ? 32 : come_round(rest, far, shut | bit), from = done;
      fan(rest, far, shut & ~bit);
      shut = (shut & ~bit) | cross(from, bit, open, home);
      targets ^= far;
      free = rest;
    }
  }
};

inline void plan_cube(unsigned n, uint64_t source, const uint64_t *targets, size_t k, uint64_t *places, uint64_t *counts) {
  Cube cube;
  for (size_t i = 0; i < k; ++i) cube.apart[i] = static_cast<uint32_t>(targets[i] ^ source);
  cube.fan(ones(n), ones(k), 0);
  for (size_t i = 0; i < k; ++i) {
    uint64_t *row = places + i * (n + 2), *at = row, relay = source;
    *at = relay;
    cube.way[i].each([&](uint32_t bit) { *++at = relay ^= bit; });
    counts[i] = static_cast<uint64_t>(at - row);
    while (++at < row + n + 2) *at = same::kNone;
  }
}

}  // namespace masks
