// Ways round what has stopped, by `gust_way_round`, beside a plain breadth-first search written from the request's words: every number with several faults at once,
// the hops, and the path, which is judged by itself; every buffer with guards around it. `around small` runs a part, for a slow machine such as valgrind's.
#include "host_checks.hpp"

#include <algorithm>

namespace {

// How many hops it is from s to t by relays that run; none: -1.
int64_t fewest(const Mesh &mesh, uint64_t s, uint64_t t, const std::vector<bool> &halted) {
  std::vector<int64_t> far(mesh.relays(), -1);
  Words queue{s};
  far[s] = 0;
  for (size_t i = 0; i < queue.size(); ++i)
    for (uint64_t v : mesh.neighbours(queue[i]))
      if (far[v] < 0 && !halted[v]) {
        far[v] = far[queue[i]] + 1;
        queue.push_back(v);
      }
  return far[t];
}

// The number by the request's order: 1, 52, 9, 2, 5, 43, 44, 8.
uint64_t against(const Mesh &mesh, uint64_t s, uint64_t t, const Words &stopped, size_t room, size_t places) {
  if (!mesh.known()) return 1;
  if (mesh.kind == 3) return 52;
  if (mesh.kind != 2 || mesh.size > 3) return 9;
  if (s >= mesh.relays()) return 2;
  if (t >= mesh.relays()) return 5;
  if (std::find(stopped.begin(), stopped.end(), s) != stopped.end()) return 43;
  if (std::find(stopped.begin(), stopped.end(), t) != stopped.end()) return 44;
  return room < mesh.relays() || places < mesh.relays() ? 8 : 0;
}

void once(const Mesh &mesh, uint64_t s, uint64_t t, const Words &stopped, size_t room, size_t places) {
  Lent<uint64_t> list(stopped), working(room), out(places);
  uint64_t number = against(mesh, s, t, stopped, room, places);
  int64_t hops = -1;
  std::vector<bool> halted;
  if (!number) {
    halted.assign(mesh.relays(), false);
    for (uint64_t x : stopped)
      if (x < mesh.relays()) halted[x] = true;
    hops = fewest(mesh, s, t, halted);
    if (hops < 0) number = 45;
  }
  answered("way round", mesh, s,
           gust_way_round(mesh.kind, mesh.size, s, t, list.data(), list.size(), working.data(), working.size(), out.data(), out.size()), {number, 0, 0},
           number ? 0 : static_cast<uint64_t>(hops));
  held("way round: the list", list.untouched(), mesh, s);
  if (number) {
    held("way round: refused", out.untouched(), mesh, s);
    held("way round: the room refused", number == 45 ? working.guarded() : working.untouched(), mesh, s);
    return;
  }
  if (stopped.empty()) same("way round: the distance", mesh, s, gust_distance(mesh.kind, mesh.size, s, t).value, static_cast<uint64_t>(hops));
  const Words way(out.data(), out.data() + hops + 1);
  bool good = way.front() == s && way.back() == t;
  for (size_t i = 0; i < way.size(); ++i) good = good && !halted[way[i]] && (i == 0 || mesh.linked(way[i - 1], way[i]));
  held("way round: the path", good, mesh, s);
  held("way round: what lies behind it", out.holds(way), mesh, s);
  held("way round: the room's guards", working.guarded(), mesh, s);
}

// As many of the relays, and of numbers that are none, as asked; some twice.
Words some(const Mesh &mesh, uint64_t count) {
  Words all;
  while (all.size() < count) {
    all.push_back(below(mesh.relays() + 2));
    if (below(8) == 0) all.push_back(all[below(all.size())]);
  }
  return all;
}

void searches() {
  for (uint64_t m = 1; m <= 3; ++m) {
    const Mesh mesh{2, m};
    const uint64_t n = mesh.relays();
    for (int i = 0; i < (small ? 4 : m == 3 ? 400 : 4000); ++i) {
      const uint64_t shares[] = {0, 1, n / 8, n / 4, n / 3, n / 2};
      const uint64_t s = below(n), t = below(6) ? below(n) : s;
      Words stopped = some(mesh, shares[below(6)]);
      if (below(4)) stopped.erase(std::remove_if(stopped.begin(), stopped.end(), [&](uint64_t x) { return x == s || x == t; }), stopped.end());
      once(mesh, s, t, stopped, n + below(3), n + below(3));
    }
  }
  // every pair of order 1 with every set of relays stopped
  if (!small)
    for (uint64_t s = 0; s < 8; ++s)
      for (uint64_t t = 0; t < 8; ++t)
        for (uint64_t set = 0; set < 256; ++set) {
          Words stopped;
          for (uint64_t x = 0; x < 8; ++x)
            if (set >> x & 1) stopped.push_back(x);
          once({2, 1}, s, t, stopped, 8, 8);
        }
}

// Several faults at once.
void refusals() {
  const Mesh all[] = {{0, 1}, {1, 0}, {1, 3}, {1, 32}, {1, 33}, {2, 0}, {2, 1}, {2, 2}, {2, 3}, {2, 4}, {2, 5}, {2, 6}, {3, 3}, {3, 64}, {3, 65}, {3, 196}, {4, 1}, {~uint64_t{0}, 1}};
  for (const Mesh &mesh : all)
    for (uint64_t s : {uint64_t{0}, uint64_t{7}, uint64_t{8}, uint64_t{64}, uint64_t{2048}, ~uint64_t{0}})
      for (uint64_t t : {uint64_t{0}, uint64_t{5}, uint64_t{9}, uint64_t{65}, uint64_t{2050}, ~uint64_t{0}})
        for (const Words &stopped : {Words{}, Words{0}, Words{5}, Words{5, 0}, Words{s}, Words{t}, Words{t, s}})
          for (size_t room : {size_t{0}, size_t{7}, size_t{8}, size_t{64}})
            for (size_t places : {size_t{0}, size_t{7}, size_t{8}, size_t{63}}) once(mesh, s, t, stopped, room, places);
}

void worked(uint64_t m, uint64_t s, uint64_t t, const Words &stopped, uint64_t number, uint64_t hops, const Words &way) {
  const Mesh mesh{2, m};
  Lent<uint64_t> list(stopped), working(mesh.relays()), out(mesh.relays());
  answered("way round, worked", mesh, s, gust_way_round(2, m, s, t, list.data(), list.size(), working.data(), working.size(), out.data(), out.size()), {number, 0, 0}, hops);
  if (!way.empty()) held("way round, worked: the path", out.holds(way), mesh, s);
}

void cases() {
  worked(1, 0, 5, {}, 0, 2, {0, 1, 5});
  worked(1, 0, 5, {1}, 0, 6, {0, 2, 3, 7, 6, 4, 5});
  worked(1, 0, 5, {1, 3}, 45, 0, {});
  worked(1, 0, 0, {1, 2}, 0, 0, {0});
  worked(1, 0, 0, {0}, 43, 0, {});
  worked(1, 0, 5, {0, 5}, 43, 0, {});
  worked(1, 0, 5, {5}, 44, 0, {});
  worked(1, 8, 9, {8, 9}, 2, 0, {});
  worked(1, 0, 9, {0}, 5, 0, {});
  worked(2, 0, 23, {4}, 0, 6, {});
  worked(2, 0, 23, {4, 2}, 0, 10, {});
  worked(2, 0, 23, {1, 2, 4}, 45, 0, {});
  worked(3, 0, 2040, {}, 0, 16, {});
  worked(3, 0, 2040, {8, 16}, 0, 16, {});
  worked(3, 0, 2040, {1, 2, 4, 8}, 45, 0, {});
}

}  // namespace

int main(int argc, char **) {
  small = argc > 1;
  cases();
  searches();
  refusals();
  if (!small) all_met({{"way round", {0, 1, 2, 5, 8, 9, 43, 44, 45, 52}}});
  std::printf("around: %llu comparisons, all the same\n", compared);
  return 0;
}
