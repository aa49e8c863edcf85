// Disjoint paths with the least hops in all, for the benchmark: from one relay of a two-level mesh to several, by a flow that grows one path at a time. Each relay is two places, where a
// path comes in and where it goes out; a shortest way to a target that is still without a path may go back along the paths so far, and takes back what it goes over. The last of them is least.
#pragma once
#include <cstdint>
#include <cstdlib>
#include <vector>

namespace least {

class Mesh {
 public:
  explicit Mesh(unsigned m) : m_(m), relays_(size_t{1} << ((1u << m) + m)), before_(relays_), far_(2 * relays_), by_(2 * relays_), waits_(2 * relays_) {}

  uint64_t link(uint64_t r, unsigned i) const {
    const uint64_t slots = uint64_t{1} << m_;
    return i < m_ ? r ^ uint64_t{1} << i : r ^ slots << r % slots;
  }

  // The hops of the path to each target.
  const std::vector<uint64_t> &plan(uint64_t source, const std::vector<uint64_t> &targets) {
    std::fill(before_.begin(), before_.end(), kNone);
    std::vector<uint64_t> left = targets;
    while (!left.empty()) {
      search(source);
      size_t nearest = 0;
      for (size_t i = 1; i < left.size(); ++i)
        if (far_[out(left[i])] < far_[out(left[nearest])]) nearest = i;
      if (far_[out(left[nearest])] == kFar) std::abort();
      take(source, left[nearest]);
      left.erase(left.begin() + static_cast<std::ptrdiff_t>(nearest));
    }
    hops_.clear();
    for (uint64_t t : targets) {
      uint64_t n = 0;
      for (uint64_t r = t; r != source; r = before_[r]) ++n;
      hops_.push_back(n);
    }
    return hops_;
  }

 private:
  static constexpr uint64_t kNone = ~uint64_t{0};
  static constexpr int kFar = 1 << 28;
  static uint64_t in(uint64_t r) { return 2 * r; }
  static uint64_t out(uint64_t r) { return 2 * r + 1; }

  void nearer(uint64_t place, int far, uint64_t by) {
    if (far >= far_[place]) return;
    far_[place] = far, by_[place] = by;
    if (!waits_[place]) waits_[place] = 1, queue_.push_back(place);
  }

  // The shortest way to every place, back along a path for a hop less.
  void search(uint64_t source) {
    std::fill(far_.begin(), far_.end(), kFar);
    std::fill(waits_.begin(), waits_.end(), 0);
    queue_.clear();
    nearer(out(source), 0, kNone);
    for (size_t at = 0; at < queue_.size(); ++at) {
      const uint64_t place = queue_[at], r = place / 2;
      waits_[place] = 0;
      const bool goes_out = place % 2, used = before_[r] != kNone;
      if (goes_out) {
        for (unsigned i = 0; i <= m_; ++i) {
          const uint64_t next = link(r, i);
          if (next != source && before_[next] != r) nearer(in(next), far_[place] + 1, place);
        }
        if (used) nearer(in(r), far_[place], place);
      } else if (used) {
        nearer(out(before_[r]), far_[place] - 1, place);
      } else {
        nearer(out(r), far_[place], place);
      }
    }
  }

  // The way to a target becomes a path; a hop that it goes back over is one no more.
  void take(uint64_t source, uint64_t target) {
    std::vector<std::pair<uint64_t, uint64_t>> gone, come;
    for (uint64_t place = out(target); place != out(source); place = by_[place]) {
      const uint64_t from = by_[place];
      if (from / 2 == place / 2) continue;
      if (from % 2)
        come.push_back({from / 2, place / 2});
      else
        gone.push_back({place / 2, from / 2});
    }
    for (const auto &hop : gone) before_[hop.second] = kNone;
    for (const auto &hop : come) before_[hop.second] = hop.first;
  }

  unsigned m_;
  size_t relays_;
  std::vector<uint64_t> before_;
  std::vector<int> far_;
  std::vector<uint64_t> by_;
  std::vector<char> waits_;
  std::vector<uint64_t> queue_, hops_;
};

}  // namespace least
