// Plans a fan and prints it: in the two-level mesh of order 1, from relay 0 to relays 5 and 1. Built and compared by tests/host.test; by hand
//     ./build && c++ -std=c++17 -Iinclude examples/plan.cpp target/staticlib/libhost.a -o plan && ./plan
#include "gustparsley.h"

#include <cstdio>
#include <vector>

namespace {

// A number of n bytes, the highest first.
uint64_t number(const uint8_t *at, int n) {
  uint64_t value = 0;
  for (int i = 0; i < n; ++i) value = value * 256 + at[i];
  return value;
}

void put(std::vector<uint8_t> &bytes, uint64_t relay) {
  for (int shift = 56; shift >= 0; shift -= 8) bytes.push_back(static_cast<uint8_t>(relay >> shift));
}

}  // namespace

int main() {
  const uint64_t kind = GUST_TWO_LEVEL, size = 1, source = 0;
  const std::vector<uint64_t> targets = {5, 1};
  std::vector<uint8_t> asked;
  for (uint64_t target : targets) put(asked, target);

  const GustFacts facts = gust_facts(kind, size);
  std::vector<uint8_t> sheet(16 + targets.size() * (2 + 8 * facts.longest));
  const gust::Outcome planned = gust::plan(kind, size, source, asked, sheet);
  if (!planned) {
    std::printf("refused %llu %llu\n", (unsigned long long)planned.reason, (unsigned long long)planned.place);
    return 1;
  }

  std::printf("fan %zu\n", targets.size());
  const uint8_t *at = sheet.data() + 16;
  for (size_t i = 0; i < targets.size(); ++i) {
    const uint64_t hops = number(at, 2);
    std::printf("%llu %llu", (unsigned long long)hops, (unsigned long long)source);
    at += 2;
    for (uint64_t p = 0; p < hops; ++p, at += 8) std::printf(" %llu", (unsigned long long)number(at, 8));
    std::printf("\n");
  }
  return 0;
}
