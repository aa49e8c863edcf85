// An independent planner of fans in a cube, for the benchmark: the same problem, written as one writes C++. It checks a request as the library
// does, and gives 0 or the number of the refusal.
#pragma once
#include <cstddef>
#include <cstdint>

namespace reference {

constexpr uint64_t kFiller = ~uint64_t{0};

// Paths are kept target first, and turned round when the whole fan stands.
class Planner {
 public:
  Planner(unsigned n, uint64_t source, const uint64_t *targets, size_t k) : n_(n), source_(source), k_(k) {
    for (size_t i = 0; i < k; ++i) target_[i] = targets[i];
  }

  // By the first links whose bits are not in `shut`.
  void plan(uint64_t shut = 0) { solve((uint64_t{1} << n_) - 1, source_, shut, static_cast<uint32_t>((uint64_t{1} << k_) - 1)); }

  unsigned hops(unsigned i) const { return length_[i]; }
  // The relay at place p of path i, from place 1 on.
  uint64_t relay(unsigned i, unsigned p) const { return path_[i][length_[i] - p]; }

  void write(uint64_t *places, uint64_t *counts) const {
    const size_t width = n_ + 2;
    for (size_t i = 0; i < k_; ++i) {
      uint64_t *out = places + i * width;
      const unsigned hops = length_[i];
      out[0] = source_;
      for (unsigned p = 0; p < hops; ++p) out[1 + p] = path_[i][hops - 1 - p];
      for (size_t p = hops + 1; p < width; ++p) out[p] = kFiller;
      counts[i] = hops;
    }
  }

 private:
  static unsigned low(uint64_t x) { return static_cast<unsigned>(__builtin_ctzll(x)); }
  static uint64_t low_bit(uint64_t x) { return x & (~x + 1); }
  static bool one_bit(uint64_t x) { return x != 0 && (x & (x - 1)) == 0; }

  void start(unsigned i, uint64_t relay) {
    path_[i][0] = relay;
    length_[i] = 1;
  }
  void push(unsigned i, uint64_t relay) { path_[i][length_[i]++] = relay; }
  uint64_t front(unsigned i) const { return path_[i][length_[i] - 1]; }

  // One path left: through an open door, then bit by bit.
  void alone(uint64_t free, uint64_t s, uint64_t shut, unsigned i) {
    const uint64_t open = free & ~shut, goal = target_[i];
    const uint64_t good = (s ^ goal) & open;
    const uint64_t door = low_bit(good ? good : open);
    uint64_t at = goal;
    start(i, at);
    if ((at ^ s ^ door) & door) push(i, at ^= door);
    for (uint64_t left = at ^ s ^ door; left; left &= left - 1) push(i, at ^= low_bit(left));
  }

  void solve(uint64_t free, uint64_t s, uint64_t shut, uint32_t rows) {
    uint32_t left = rows;
    for (uint32_t todo = rows; todo; todo &= todo - 1) {
      const unsigned i = low(todo);
      const uint64_t x = target_[i] ^ s;
      if (one_bit(x) && (x & free & ~shut)) {
        start(i, target_[i]);
        shut |= x;
        left &= ~(1u << i);
      }
    }
    if (!left) return;
    if (!(left & (left - 1))) return alone(free, s, shut, low(left));
    const uint64_t dim = low_bit(target_[low(left)] ^ target_[low(left & (left - 1))]);
    const uint64_t rest = free & ~dim, f = s ^ dim;
    uint32_t far = 0, home = 0;
    for (uint32_t todo = left; todo; todo &= todo - 1) {
      const unsigned i = low(todo);
      if ((target_[i] ^ s) & dim) far |= 1u << i;
      if (target_[i] == f) home = 1u << i;
    }
    if (home) {
      uint64_t taken = shut | dim;
      for (uint32_t todo = far & ~home; todo; todo &= todo - 1) {
        const uint64_t x = target_[low(todo)] ^ f;
        if (one_bit(x)) taken |= x;
      }
      target_[low(home)] = f ^ low_bit(rest & ~taken);
    }
    solve(rest, f, shut & ~dim, far);
    uint64_t used = 0;
    bool straight = !(shut & dim);
    for (uint32_t todo = far; todo; todo &= todo - 1) {
      const unsigned i = low(todo);
      const uint64_t step = front(i);
      if (home == 1u << i) {
        start(i, f);
        push(i, step);
      } else if (straight) {
        push(i, f);
        straight = false;
        continue;
      }
      push(i, step ^ dim);
      used |= step ^ f;
    }
    solve(rest, s, (shut & ~dim) | used, left & ~far);
  }

  unsigned n_;
  uint64_t source_;
  size_t k_;
  uint64_t target_[32];
  unsigned length_[32];
  uint64_t path_[32][34];
};

// 5, 6 or 7, where relays are the numbers of so many bits.
inline uint64_t wrong_target(unsigned bits, uint64_t source, const uint64_t *targets, size_t k) {
  for (size_t i = 0; i < k; ++i)
    if (targets[i] >> bits) return 5;
  for (size_t i = 0; i < k; ++i)
    if (targets[i] == source) return 6;
  for (size_t i = 0; i < k; ++i)
    for (size_t j = 0; j < i; ++j)
      if (targets[i] == targets[j]) return 7;
  return 0;
}

inline uint64_t plan(uint64_t n, uint64_t source, const uint64_t *targets, size_t k, uint64_t *places, size_t room, uint64_t *counts,
                     size_t counted) {
  if (n < 1 || n > 32) return 1;
  if (source >> n) return 2;
  if (k == 0) return 3;
  if (k > n) return 4;
  if (const uint64_t number = wrong_target(static_cast<unsigned>(n), source, targets, k)) return number;
  if (room < k * (n + 2) || counted < k) return 8;
  Planner planner(static_cast<unsigned>(n), source, targets, k);
  planner.plan();
  planner.write(places, counts);
  return 0;
}

}  // namespace reference
