// How the benchmark measures: rows of two calls that do the same, the best of many short bursts of each, all rows of a group in turn; and the stack of a call, seen on a
// painted stack of a thread.
#pragma once
#include <pthread.h>
#include <sys/mman.h>

#include <algorithm>
#include <chrono>
#include <cstddef>
#include <cstdint>
#include <cstdio>
#include <cstring>
#include <functional>
#include <string>
#include <vector>

namespace measure {

// The calls of the requests from the first up to the last, which is not called.
using Calls = std::function<void(size_t first, size_t last)>;

template <class One>
Calls calls(One one) {
  return [one](size_t first, size_t last) {
    for (size_t i = first; i < last; ++i) one(i);
  };
}

inline double now() { return std::chrono::duration<double, std::nano>(std::chrono::steady_clock::now().time_since_epoch()).count(); }

// ---- the stack of one call

struct Painted {
  const Calls *calls;
  size_t request;
};

inline void *run(void *at) {
  const Painted *p = static_cast<Painted *>(at);
  (*p->calls)(p->request, p->request + 1);
  return nullptr;
}

inline size_t used(const Calls &calls, size_t request) {
  static const size_t size = 1 << 17;
  static unsigned char *stack = static_cast<unsigned char *>(mmap(nullptr, size, PROT_READ | PROT_WRITE, MAP_PRIVATE | MAP_ANONYMOUS, -1, 0));
  std::memset(stack, 0xA5, size);
  Painted p{&calls, request};
  pthread_attr_t attr;
  pthread_attr_init(&attr);
  pthread_attr_setstack(&attr, stack, size);
  pthread_t thread;
  pthread_create(&thread, &attr, run, &p);
  pthread_join(thread, nullptr);
  size_t i = 0;
  while (i < size && stack[i] == 0xA5) ++i;
  return size - i;
}

// The most that these requests take, with the arguments that are passed, less what a thread takes that calls nothing.
inline size_t stack(const Calls &ours, const std::vector<size_t> &requests) {
  static const size_t none = used(calls([](size_t) {}), 0);
  size_t most = none;
  for (size_t i : requests) most = std::max(most, used(ours, i));
  return most - none;
}

// ---- rows

struct Row {
  std::string call, mesh, beside;
  Calls ours, theirs;
  double bar;  // the ratio is to be at most this; 0 where none is set
  double a = 1e99, b = 1e99;
  size_t stack = 0;
  double ratio() const { return a / b; }
};

inline void head() {
  std::printf("| call | mesh | beside | ns | ns beside | ratio | at most | stack, bytes |\n|---|---|---|---|---|---|---|---|\n");
}

// Times as so many nanoseconds, one place after the point where there are few.
inline std::string nanoseconds(double x) {
  char text[32];
  std::snprintf(text, sizeof text, x < 100 ? "%.1f" : "%.0f", x);
  return text;
}

inline std::string verdict(double ratio, double bar) {
  char text[32] = "";
  if (bar > 0) std::snprintf(text, sizeof text, "%.2f, %s", bar, ratio <= bar ? "met" : "NOT MET");
  return text;
}

inline void print(const Row &r) {
  std::printf("| %s | %s | %s | %s | %s | %.2f | %s | %zu |\n", r.call.c_str(), r.mesh.c_str(), r.beside.c_str(), nanoseconds(r.a).c_str(), nanoseconds(r.b).c_str(),
              r.ratio(), verdict(r.ratio(), r.bar).c_str(), r.stack);
}

// Rows that are measured together: every row has a burst in each round, for so many seconds. `requests` are timed; the stack is that of `looked`.
inline void measure(std::vector<Row> &rows, size_t requests, const std::vector<size_t> &looked, double seconds) {
  for (Row &r : rows) r.stack = stack(r.ours, looked);
  const auto burst = [&](const Calls &some, double &best) {
    const double start = now();
    some(0, requests);
    best = std::min(best, (now() - start) / static_cast<double>(requests));
  };
  for (const double end = now() + seconds * 1e9; now() < end;)
    for (Row &r : rows) {
      burst(r.ours, r.a);
      burst(r.theirs, r.b);
    }
  for (const Row &r : rows) print(r);
  std::fflush(stdout);
}

}  // namespace measure
