// Nanoseconds for a way round, in the two-level mesh of orders 1 to 3: the library's call beside a breadth-first search in C++ over the same mesh, with the same refusals
// and a parent for each relay in room that is lent to it. What is asked: pairs at random with a share of the relays stopped; the best of many bursts.
#include "../include/gustparsley.h"

#include <algorithm>
#include <chrono>
#include <cstdio>
#include <cstdlib>
#include <random>
#include <vector>

namespace {

struct Request {
  uint64_t source, target;
  std::vector<uint64_t> stopped;
};

struct Room {
  std::vector<uint32_t> parent, queue;
  std::vector<uint8_t> seen;
};

// The call that the library has: the same refusals in the same order, and a shortest path by relays that run, written to `out`. The search goes from the target, so that parents
// lead on from the source.
__attribute__((noipa)) GustAnswer by_queue(uint64_t kind, uint64_t m, const Request &q, Room &room, size_t room_len, uint64_t *out, size_t out_len) {
  if (!((kind == GUST_CUBE && m >= 1 && m <= 32) || (kind == GUST_TWO_LEVEL && m >= 1 && m <= 5))) return {GUST_UNKNOWN_SIZE, 0, 0, 0};
  if (kind == GUST_CUBE || m > 3) return {GUST_NO_DISTANCE, 0, 0, 0};
  const uint64_t slots = uint64_t{1} << m, relays = slots << slots;
  if (q.source >= relays) return {GUST_SOURCE_OUT, 0, 0, 0};
  if (q.target >= relays) return {GUST_TARGET_OUT, 0, 0, 0};
  if (std::find(q.stopped.begin(), q.stopped.end(), q.source) != q.stopped.end()) return {GUST_SOURCE_STOPPED, 0, 0, 0};
  if (std::find(q.stopped.begin(), q.stopped.end(), q.target) != q.stopped.end()) return {GUST_TARGET_STOPPED, 0, 0, 0};
  if (room_len < relays || out_len < relays) return {GUST_NO_ROOM, 0, 0, 0};
  std::fill(room.seen.begin(), room.seen.end(), 0);
  for (uint64_t x : q.stopped)
    if (x < relays) room.seen[x] = 1;
  uint32_t head = 0, tail = 0;
  room.queue[tail++] = static_cast<uint32_t>(q.target);
  room.seen[q.target] = 1;
  room.parent[q.target] = static_cast<uint32_t>(q.target);
  while (head < tail && !room.seen[q.source]) {
    const uint32_t u = room.queue[head++];
    for (uint64_t i = 0; i <= m; ++i) {
      const uint32_t v = u ^ static_cast<uint32_t>(i < m ? uint64_t{1} << i : uint64_t{1} << (m + (u & (slots - 1))));
      if (room.seen[v]) continue;
      room.seen[v] = 1;
      room.parent[v] = u;
      room.queue[tail++] = v;
    }
  }
  if (!room.seen[q.source]) return {GUST_NO_PATH, 0, 0, 0};
  uint64_t hops = 0;
  out[0] = q.source;
  for (uint64_t at = q.source; at != q.target; out[++hops] = at) at = room.parent[at];
  return {GUST_FINE, 0, 0, hops};
}

double nanoseconds(std::chrono::steady_clock::time_point since, size_t calls) {
  return std::chrono::duration<double, std::nano>(std::chrono::steady_clock::now() - since).count() / static_cast<double>(calls);
}

void row(unsigned m, unsigned share, std::mt19937_64 &random) {
  const uint64_t slots = uint64_t{1} << m, relays = slots << slots;
  std::vector<Request> all(64);
  for (Request &q : all) {
    q = {random() % relays, random() % relays, {}};
    for (uint64_t i = 0; i < relays * share / 100; ++i) {
      const uint64_t x = random() % relays;
      if (x != q.source && x != q.target) q.stopped.push_back(x);
    }
    if (q.stopped.empty()) q.stopped.push_back(relays);
  }
  Room room{std::vector<uint32_t>(relays), std::vector<uint32_t>(relays), std::vector<uint8_t>(relays)};
  std::vector<uint64_t> lent(relays), out(relays), theirs(relays);
  for (const Request &q : all) {
    const GustAnswer a = gust_way_round(GUST_TWO_LEVEL, m, q.source, q.target, q.stopped.data(), q.stopped.size(), lent.data(), relays, out.data(), relays);
    const GustAnswer b = by_queue(GUST_TWO_LEVEL, m, q, room, relays, theirs.data(), relays);
    if (a.number != b.number || a.value != b.value) std::abort();
  }
  double a = 1e99, b = 1e99;
  for (int i = 0; i < (m == 3 ? 60 : 600); ++i) {
    auto start = std::chrono::steady_clock::now();
    for (const Request &q : all)
      gust_way_round(GUST_TWO_LEVEL, m, q.source, q.target, q.stopped.data(), q.stopped.size(), lent.data(), relays, out.data(), relays);
    a = std::min(a, nanoseconds(start, all.size()));
    start = std::chrono::steady_clock::now();
    for (const Request &q : all) by_queue(GUST_TWO_LEVEL, m, q, room, relays, theirs.data(), relays);
    b = std::min(b, nanoseconds(start, all.size()));
  }
  std::printf("way round, order %u, %2u %% stopped: %9.0f ns, C++ %9.0f ns, %.2f times\n", m, share, a, b, a / b);
}

}  // namespace

int main() {
  std::mt19937_64 random(9);
  for (unsigned m = 1; m <= 3; ++m)
    for (unsigned share : {0, 10, 30}) row(m, share, random);
  return 0;
}
