// A handover: in the two-level mesh of order 2, relay 0 hands a region over to relay 63 by every link it has. A relay stops and a cable is cut on the way; it
// prints which copies arrive, and that of each frame one goes on. Built and compared by tests/host.test; by hand
//     ./build && c++ -std=c++17 -Iinclude examples/handover.cpp target/staticlib/libhost.a -o handover && ./handover
#include "gustparsley.h"

#include <cstdio>
#include <vector>

int main() {
  const uint64_t kind = GUST_TWO_LEVEL, size = 2, source = 0, target = 63;
  const GustFacts facts = gust_facts(kind, size);
  const size_t paths = facts.links, width = facts.places + 1;

  // The bundle: a path of `width` places for each link.
  std::vector<uint64_t> places(paths * width), counts(paths);
  const GustAnswer planned = gust_bundle(kind, size, source, target, places.data(), places.size(), counts.data(), counts.size());
  if (planned.number) {
    std::printf("refused %llu %llu\n", (unsigned long long)planned.number, (unsigned long long)planned.place);
    return 1;
  }
  for (size_t i = 0; i < paths; ++i) {
    std::printf("path %zu:", i);
    for (size_t p = 0; p <= counts[i]; ++p) std::printf(" %llu", (unsigned long long)places[i * width + p]);
    std::printf("\n");
  }

  // Before anything fails, a frame comes once for each path: the first copy goes on, the others are dropped. Numbers have 16 bits, and wrap.
  GustRecord record = {};
  for (uint16_t frame : {65534, 65535, 0})
    for (size_t copy = 0; copy < paths; ++copy) {
      const GustArrival arrival = gust_arrive(record, frame);
      record = {arrival.newest, arrival.marks};
      if (arrival.number == GUST_FINE) std::printf("frame %u goes on by copy %zu\n", frame, copy);
    }

  // A relay stops, and a link is cut while both its relays run on: together fewer than there are paths, and the relay is no end, so that a copy arrives whichever
  // they are.
  const std::vector<uint64_t> stopped = {places[1]}, cuts = {places[width + 1], places[width]};
  std::vector<uint64_t> ends(paths), hops(paths), wholes(paths);
  std::vector<uint32_t> zones(paths), served(paths);  // the build zone that each path serves, lent in and given back with its entry
  const GustAnswer left = gust_bundle_survivors(kind, size, source, target, places.data(), places.size(), counts.data(), counts.size(), zones.data(),
                                                zones.size(), stopped.data(), stopped.size(), cuts.data(), cuts.size(), ends.data(), ends.size(), hops.data(), hops.size(), wholes.data(),
                                                wholes.size(), served.data(), served.size());
  for (size_t i = 0; i < paths; ++i)
    std::printf("copy %zu, %llu hops: %s\n", i, (unsigned long long)hops[i], wholes[i] ? "arrives" : "is lost");
  std::printf("%llu of %zu copies arrive\n", (unsigned long long)left.value, paths);
  return left.value ? 0 : 1;
}
