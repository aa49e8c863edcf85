// An independent planner of fans in the two-level mesh, for the benchmark: the same problem, written as one writes C++, over the cube's planner of
// planner.hpp. It checks a request as the library does, and gives 0 or the number of the refusal.
#pragma once
#include <initializer_list>

#include "planner.hpp"

namespace reference {

inline uint64_t two_longest(unsigned m) { return m * (uint64_t{1} << m) + (uint64_t{1} << m) + 2 * m + 4; }

// A path as it is written: relays one after another, the last one's block and slot at hand.
class Pen {
 public:
  Pen(unsigned m, uint64_t block, unsigned slot, uint64_t *out) : m_(m), block_(block), slot_(slot), start_(out), at_(out) { put(); }

  // Along the block to a slot, lowest bit first.
  void walk(unsigned to) {
    while (slot_ != to) step((slot_ ^ to) & ~((slot_ ^ to) - 1));
  }
  void step(unsigned bit) {
    slot_ ^= bit;
    put();
  }
  // Out of this slot into the next block.
  void cross() {
    block_ ^= uint64_t{1} << slot_;
    put();
  }
  // To a block next to this one.
  void enter(uint64_t block) {
    walk(static_cast<unsigned>(__builtin_ctzll(block ^ block_)));
    cross();
  }
  uint64_t finish(uint64_t width) {
    for (uint64_t *end = start_ + width, *p = at_; p != end; ++p) *p = kFiller;
    return static_cast<uint64_t>(at_ - start_) - 1;
  }

 private:
  void put() { *at_++ = block_ << m_ | slot_; }

  unsigned m_;
  uint64_t block_;
  unsigned slot_;
  uint64_t *start_, *at_;
};

class TwoPlanner {
 public:
  TwoPlanner(unsigned m, uint64_t source, const uint64_t *targets, unsigned k, uint64_t *places, uint64_t *counts)
      : m_(m), size_(1u << m), k_(k), width_(two_longest(m) + 1), home_(source >> m), own_(slot(source)), places_(places), counts_(counts) {
    for (unsigned i = 0; i < k; ++i) {
      block_[i] = targets[i] >> m;
      slot_[i] = slot(targets[i]);
      if (block_[i] == home_) inner_ |= 1u << i;
    }
  }

  void plan() {
    if (m_ == 1) return ring();
    if (k_ == m_ + 1 && inner_ == (1u << k_) - 1) return round_trip();
    general();
  }

 private:
  static constexpr unsigned kNobody = 99;

  unsigned slot(uint64_t relay) const { return static_cast<unsigned>(relay) & (size_ - 1); }
  static bool one_bit(uint64_t x) { return x != 0 && (x & (x - 1)) == 0; }
  static unsigned low(uint64_t x) { return static_cast<unsigned>(__builtin_ctzll(x)); }

  Pen pen(unsigned i) const { return Pen(m_, home_, own_, places_ + i * width_); }
  void done(unsigned i, Pen &p) const { counts_[i] = p.finish(width_); }

  // ---- order 1: eight relays in a ring

  void ring() {
    static constexpr unsigned kAt[8] = {0, 1, 7, 6, 3, 2, 4, 5};
    const unsigned here = kAt[home_ << 1 | own_];
    unsigned far[2];
    for (unsigned i = 0; i < k_; ++i) far[i] = (kAt[block_[i] << 1 | slot_[i]] - here) & 7;
    for (unsigned i = 0; i < k_; ++i) {
      const bool right = k_ == 1 || far[i] < far[1 - i];
      Pen p = pen(i);
      // at an even place of the ring the right-hand link is the slot's, at an odd one the block's
      for (unsigned n = right ? far[i] : 8 - far[i], at = here; n; --n, at += right ? 1 : 7) {
        if ((at & 1) == (right ? 0u : 1u))
          p.step(1);
        else
          p.cross();
      }
      done(i, p);
    }
  }

  // ---- m + 1 targets in the source's block

  void round_trip() {
    uint64_t slots[5];
    for (unsigned i = 0; i < m_; ++i) slots[i] = slot_[i];
    Planner heads(m_, own_, slots, m_);
    heads.plan();
    unsigned out = m_, cut = kNobody;
    for (unsigned i = 0; i < m_ && cut == kNobody; ++i)
      for (unsigned p = 1; p < heads.hops(i); ++p)
        if (heads.relay(i, p) == slot_[m_]) {
          cut = i;
          out = i;
          break;
        }
    for (unsigned i = 0; i < k_; ++i) {
      if (i == out) continue;
      const unsigned row = i == m_ ? cut : i;
      Pen p = pen(i);
      for (unsigned h = 1, here = own_; here != slot_[i]; ++h) {
        const unsigned next = static_cast<unsigned>(heads.relay(row, h));
        p.step(here ^ next);
        here = next;
      }
      done(i, p);
    }
    Pen p = pen(out);
    for (unsigned side : {own_, slot_[out], own_, slot_[out]}) {
      p.walk(side);
      p.cross();
    }
    done(out, p);
  }

  // ---- the general plan

  bool behind_kept(uint64_t b) const { return one_bit(b ^ home_) && (b ^ home_) & kept_; }

  void sort() {
    for (unsigned i = 0; i < k_; ++i)
      if (inner_ >> i & 1) kept_ |= uint64_t{1} << slot_[i];
    for (unsigned i = 0; i < k_; ++i) {
      if (inner_ >> i & 1) continue;
      bool crowd = false;
      for (unsigned j = 0; j < k_; ++j) crowd |= j != i && block_[j] == block_[i];
      if (crowd || behind_kept(block_[i])) gated_ |= 1u << i;
    }
  }

  bool serves(unsigned i, unsigned q) const {
    const uint64_t g = block_[i] ^ uint64_t{1} << q;
    if (behind_kept(g) || (g == home_ && inner_)) return false;
    for (unsigned j = 0; j < k_; ++j) {
      if (block_[j] == g) return false;
      if (j < i && gated_ >> j & 1 && gate_block_[j] == g) return false;
      if (j != i && block_[j] == block_[i] && slot_[j] == q) return false;
    }
    return true;
  }

  void find_gates() {
    for (unsigned i = 0; i < k_; ++i) {
      if (!(gated_ >> i & 1)) continue;
      unsigned q = slot_[i];
      for (unsigned h = 0; !serves(i, q); ++h) q = slot_[i] ^ 1u << h;
      gate_[i] = q;
      gate_block_[i] = block_[i] ^ uint64_t{1} << q;
    }
    for (unsigned i = 0; i < k_; ++i)
      if (gated_ >> i & 1 && gate_block_[i] == home_) kept_ |= uint64_t{1} << gate_[i];
  }

  unsigned add_end(uint64_t block) {
    end_[ends_] = block;
    return ends_++;
  }

  // The blocks that block paths lead to: of direct targets, of gates, and of crowds.
  void find_ends() {
    for (unsigned i = 0; i < k_; ++i) {
      if (inner_ >> i & 1) continue;
      if (!(gated_ >> i & 1))
        row_[i] = add_end(block_[i]);
      else if (gate_block_[i] != home_)
        row_[i] = add_end(gate_block_[i]);
    }
    crowds_ = ends_;
    for (unsigned i = 0; i < k_; ++i) {
      if (!(gated_ >> i & 1) || behind_kept(block_[i])) continue;
      bool first = true;
      for (unsigned e = crowds_; e < ends_; ++e) first &= end_[e] != block_[i];
      if (first) add_end(block_[i]);
    }
  }

  uint64_t doors() const {
    uint64_t open = 0;
    unsigned left = ends_;
    const auto take = [&](unsigned a) {
      if (!left || (kept_ | open) >> a & 1) return;
      open |= uint64_t{1} << a;
      --left;
    };
    take(own_);
    for (unsigned e = 0; e < ends_; ++e) take(low(end_[e] ^ home_));
    for (unsigned a = 0; left; ++a) take(a);
    return open;
  }

  // Where the block path through the source's own slot ends in a crowd, a target of the crowd takes it over, with this tail.
  void take_over(const Planner &blocks) {
    unsigned row = crowds_;
    while (row < ends_ && blocks.relay(row, 1) != (home_ ^ uint64_t{1} << own_)) ++row;
    if (row == ends_) return;
    const unsigned hops = blocks.hops(row);
    unsigned here = low(blocks.relay(row, hops) ^ (hops == 1 ? home_ : blocks.relay(row, hops - 1))), to = 0;
    while (block_[to] != end_[row]) ++to;
    for (;; here ^= (here ^ slot_[to]) & ~((here ^ slot_[to]) - 1)) {
      tail_[tails_++] = here;
      for (unsigned i = 0; i < k_ && taken_ == kNobody; ++i)
        if (block_[i] == end_[row] && (slot_[i] == here || gate_[i] == here)) taken_ = i;
      if (taken_ != kNobody) break;
    }
    if (here != slot_[taken_]) tail_[tails_++] = slot_[taken_];
    row_[taken_] = row;
  }

  unsigned leave(unsigned i, const Planner &blocks) const {
    if (inner_ >> i & 1) return slot_[i];
    if (i != taken_ && gated_ >> i & 1 && gate_block_[i] == home_) return gate_[i];
    return low(blocks.relay(row_[i], 1) ^ home_);
  }

  void body(unsigned i, Pen &p, const Planner &blocks) const {
    if (inner_ >> i & 1) return;
    if (i == taken_) {
      for (unsigned h = 1, hops = blocks.hops(row_[i]); h <= hops; ++h) p.enter(blocks.relay(row_[i], h));
      for (unsigned t = 1; t < tails_; ++t) p.walk(tail_[t]);
      return;
    }
    const bool gated = gated_ >> i & 1;
    if (!gated || gate_block_[i] != home_)
      for (unsigned h = 1, hops = blocks.hops(row_[i]); h <= hops; ++h) p.enter(blocks.relay(row_[i], h));
    if (gated) {
      p.walk(gate_[i]);
      p.cross();
    }
    p.walk(slot_[i]);
  }

  void general() {
    sort();
    find_gates();
    find_ends();
    const uint64_t all = (uint64_t{1} << size_) - 1;
    Planner blocks(size_, home_, end_, ends_);
    if (ends_) blocks.plan(all & ~doors());
    take_over(blocks);
    unsigned walkers = 0, head[6];
    uint64_t leaves[6];
    for (unsigned i = 0; i < k_; ++i) {
      const unsigned by = leave(i, blocks);
      if (by == own_) continue;
      head[i] = walkers;
      leaves[walkers++] = by;
      walks_ |= 1u << i;
    }
    Planner heads(m_, own_, leaves, walkers);
    if (walkers) heads.plan();
    for (unsigned i = 0; i < k_; ++i) {
      Pen p = pen(i);
      if (walks_ >> i & 1)
        for (unsigned h = 1, here = own_; h <= heads.hops(head[i]); ++h) {
          const unsigned next = static_cast<unsigned>(heads.relay(head[i], h));
          p.step(here ^ next);
          here = next;
        }
      body(i, p, blocks);
      done(i, p);
    }
  }

  unsigned m_, size_, k_;
  uint64_t width_, home_;
  unsigned own_;
  uint64_t *places_, *counts_;
  uint64_t block_[6];
  unsigned slot_[6];
  unsigned inner_ = 0, gated_ = 0, walks_ = 0;
  uint64_t kept_ = 0;
  unsigned gate_[6] = {kNobody, kNobody, kNobody, kNobody, kNobody, kNobody};
  uint64_t gate_block_[6];
  uint64_t end_[12];
  unsigned ends_ = 0, crowds_ = 0, row_[6];
  unsigned taken_ = kNobody, tails_ = 0, tail_[8];
};

inline uint64_t plan_two(uint64_t m, uint64_t source, const uint64_t *targets, size_t k, uint64_t *places, size_t room, uint64_t *counts,
                         size_t counted) {
  if (m < 1 || m > 5) return 1;
  const unsigned bits = (1u << m) + static_cast<unsigned>(m);
  if (source >> bits) return 2;
  if (k == 0) return 3;
  if (k > m + 1) return 4;
  if (const uint64_t number = wrong_target(bits, source, targets, k)) return number;
  if (room < k * (two_longest(static_cast<unsigned>(m)) + 1) || counted < k) return 8;
  TwoPlanner(static_cast<unsigned>(m), source, targets, static_cast<unsigned>(k), places, counts).plan();
  return 0;
}

}  // namespace reference
