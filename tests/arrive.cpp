// gust_arrive beside a model whose numbers do not wrap: each frame that is passed has a whole number of its own. What is told and the record afterwards are
// compared after every arrival: at records of every form, at either side of each bound, and along random sequences that wrap many times.
#include "gustparsley.h"

#include <algorithm>
#include <cstdio>
#include <cstdlib>
#include <cstring>
#include <random>
#include <set>
#include <unordered_set>
#include <vector>

namespace {

std::mt19937_64 dice(11);
unsigned long long compared = 0;
std::set<uint64_t> met;

uint64_t below(uint64_t n) { return dice() % n; }

// The receiver of the specification: the newest number and which numbers were passed, as numbers that never come twice.
struct Model {
  bool fresh = true;
  int64_t newest = 0;
  std::unordered_set<int64_t> passed;

  // A receiver that holds this record: bit e is the mark of the number e before the newest.
  static Model of(const GustRecord &record) {
    Model model;
    if (record.marks == 0) return model;
    model.fresh = false;
    model.newest = (int64_t{1} << 20) + record.newest;
    for (int e = 0; e < 64; ++e)
      if (record.marks >> e & 1) model.passed.insert(model.newest - e);
    return model;
  }

  // The least number from `from` on that a frame may carry as x.
  static int64_t from(int64_t from, uint16_t x) {
    const int64_t gap = (x - from) & 0xFFFF;
    return from + gap;
  }

  uint64_t arrive(uint16_t x) {
    if (fresh) {
      fresh = false;
      newest = (int64_t{1} << 20) + x;
      passed = {newest};
      return 0;
    }
    const int64_t next = from(newest + 1, x);
    if (next - newest <= 32767) {
      newest = next;
      passed.insert(next);
      return 0;
    }
    const int64_t late = next - 65536;
    if (newest - late >= 64) return 42;
    return passed.insert(late).second ? 0 : 41;
  }

  uint64_t marks() const {
    uint64_t all = 0;
    for (int e = 0; e < 64; ++e) all |= uint64_t{passed.count(newest - e)} << e;
    return all;
  }
};

[[noreturn]] void fail(const char *what, const GustRecord &record, uint16_t x, uint64_t got, uint64_t want) {
  std::printf("arrive: FAILED: %s: record %u %#llx, number %u: got %#llx, should be %#llx\n", what, record.newest, (unsigned long long)record.marks, x,
              (unsigned long long)got, (unsigned long long)want);
  std::exit(1);
}

// One arrival at both.
uint64_t arrive(GustRecord &record, Model &model, uint16_t x) {
  const GustArrival a = gust_arrive(record, x);
  const uint64_t number = model.arrive(x);
  if (a.number != number) fail("number", record, x, a.number, number);
  const uint16_t newest = model.fresh ? record.newest : static_cast<uint16_t>(model.newest & 0xFFFF);
  if (a.newest != newest) fail("newest", record, x, a.newest, newest);
  if (a.marks != model.marks()) fail("marks", record, x, a.marks, model.marks());
  if (number && (a.newest != record.newest || a.marks != record.marks)) fail("a refusal's record", record, x, a.marks, record.marks);
  record = {a.newest, a.marks};
  met.insert(number);
  compared += 4;
  return number;
}

// A record made of nothing but zero bytes, or of these two numbers over bytes of any kind.
GustRecord zero() {
  GustRecord record;
  std::memset(&record, 0, sizeof record);
  return record;
}

GustRecord record_of(uint16_t newest, uint64_t marks) {
  GustRecord record;
  std::memset(&record, static_cast<int>(below(256)), sizeof record);
  record.newest = newest;
  record.marks = marks;
  return record;
}

void one(const GustRecord &record, uint16_t x) {
  GustRecord now = record;
  Model model = Model::of(record);
  arrive(now, model, x);
}

// ---- the worked cases, each with what is told and the record at the end

struct Case {
  std::vector<uint16_t> numbers;
  std::vector<uint64_t> told;
  uint16_t newest;
  uint64_t marks;
};

void cases() {
  const std::vector<Case> all{
      {{7, 7, 8, 7, 5, 5, 6}, {0, 41, 0, 41, 0, 41, 0}, 8, 0xf},
      {{65535, 0, 65535, 1, 65534, 65535}, {0, 0, 41, 0, 0, 41}, 1, 0xf},
      {{100, 163, 100, 99, 164, 100, 101}, {0, 0, 41, 42, 0, 42, 0}, 164, 0x8000000000000003},
      {{100, 32867, 100}, {0, 0, 42}, 32867, 1},
      {{100, 32868, 99, 37, 36}, {0, 42, 0, 0, 42}, 100, 0x8000000000000003},
      {{0, 64, 0, 1, 1}, {0, 0, 42, 0, 41}, 64, 0x8000000000000001},
  };
  for (const Case &c : all) {
    GustRecord record = zero();
    Model model;
    for (size_t i = 0; i < c.numbers.size(); ++i) {
      const uint64_t number = arrive(record, model, c.numbers[i]);
      if (number != c.told[i]) fail("a worked case", record, c.numbers[i], number, c.told[i]);
    }
    if (record.newest != c.newest || record.marks != c.marks) fail("a worked case's record", record, c.newest, record.marks, c.marks);
    compared += c.numbers.size() + 2;
  }
}

// ---- records of every form

// Every number at records that a history makes and that none makes.
void every_number() {
  std::vector<uint64_t> marks{0, 1, 2, 3, ~uint64_t{0}, uint64_t{1} << 63, uint64_t{1} << 63 | 1, 0x5555555555555555};
  while (marks.size() < 12) marks.push_back(dice() | below(2));
  for (uint64_t m : marks) {
    const GustRecord record = record_of(static_cast<uint16_t>(dice()), m);
    for (uint32_t x = 0; x < 65536; ++x) one(record, static_cast<uint16_t>(x));
  }
}

// The numbers at either side of each bound, from every newest number.
void bounds() {
  for (uint32_t newest = 0; newest < 65536; ++newest)
    for (int apart : {-64, -63, -1, 0, 1, 63, 64, 32767, 32768})
      one(record_of(static_cast<uint16_t>(newest), dice() | 1), static_cast<uint16_t>(newest + apart));
}

// ---- sequences

void sequence(size_t length) {
  GustRecord record = zero();
  Model model;
  uint16_t near = static_cast<uint16_t>(dice());
  const int steps[] = {0, 0, 1, 1, 1, 2, 3, 5, 30, 62, 63, 64, 65, 200, 20000, 32766, 32767, 32768, 32769, -1, -2, -5, -40, -62, -63, -64, -65, -300};
  for (size_t i = 0; i < length; ++i) {
    const uint16_t x = below(50) ? static_cast<uint16_t>(near + steps[below(sizeof steps / sizeof *steps)]) : static_cast<uint16_t>(dice());
    arrive(record, model, x);
    if (below(2)) near = x;
    if (below(4) == 0) near = record.newest;
  }
}

// Frames in several copies, the copies at most 60 frames apart: each comes out once.
void copies(size_t frames) {
  std::vector<std::pair<size_t, size_t>> sent;  // when, and which
  for (size_t i = 0; i < frames; ++i)
    for (uint64_t c = 0; c <= below(6); ++c) sent.push_back({i + below(60), i});
  for (size_t i = 0; i < frames; ++i) sent.push_back({i + below(60), i});
  std::stable_sort(sent.begin(), sent.end(), [](const auto &a, const auto &b) { return a.first < b.first; });
  GustRecord record = zero();
  Model model;
  std::vector<int> out(frames);
  const uint16_t start = static_cast<uint16_t>(dice());
  for (const auto &s : sent)
    if (arrive(record, model, static_cast<uint16_t>(start + s.second)) == 0) ++out[s.second];
  for (size_t i = 0; i < frames; ++i, ++compared)
    if (out[i] != 1) fail("copies of a frame passed", record, static_cast<uint16_t>(i), static_cast<uint64_t>(out[i]), 1);
}

}  // namespace

int main() {
  cases();
  every_number();
  bounds();
  for (int i = 0; i < 250; ++i) sequence(4000);
  for (int i = 0; i < 2; ++i) copies(150000);
  if (met != std::set<uint64_t>{0, 41, 42}) {
    std::printf("arrive: FAILED: a number was never told\n");
    return 1;
  }
  std::printf("arrive: %llu comparisons\n", compared);
}
