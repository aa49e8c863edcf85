// gust_write_graph and gust_read_graph, against the cases of graph_model.py on standard input: `R kind size number line length` and the file, `W kind size room number length` and the text. Each slice
// has exactly its length, so that sanitizers see every byte beyond it.
#include "gustparsley.h"

#include <cstdio>
#include <cstdlib>
#include <map>
#include <vector>

int main() {
  std::map<unsigned long long, unsigned long long> met;
  char what;
  unsigned long long kind, size, a, b, length, compared = 0;
  while (std::scanf(" %c %llu %llu %llu %llu %llu", &what, &kind, &size, &a, &b, &length) == 6) {
    std::getchar();
    std::vector<uint8_t> text(length);
    if (length && std::fread(text.data(), 1, length, stdin) != length) return 1;
    bool fine;
    if (what == 'R') {
      uint8_t none = 0;
      const GustVerdict v = gust_read_graph(kind, size, length ? text.data() : &none, length);
      fine = v.number == a && v.path == 0 && v.place == b;
      ++met[v.number];
    } else {
      std::vector<uint8_t> out(a + 1, 0xaa);
      const GustAnswer w = gust_write_graph(kind, size, out.data(), a);
      fine = w.number == b && w.path == 0 && w.place == 0 && w.value == (b ? 0 : length);
      for (size_t i = 0; i < out.size(); ++i) fine = fine && out[i] == (b || i >= length ? 0xaa : text[i]);
      ++met[w.number];
    }
    if (!fine) {
      std::printf("FAILED: graph: %c, kind %llu, size %llu, %llu, %llu, %llu bytes\n", what, kind, size, a, b, length);
      return 1;
    }
    ++compared;
  }
  for (unsigned long long number : {0, 1, 8, 46, 47, 48, 49, 50, 52})
    if (!met[number]) {
      std::printf("FAILED: graph: number %llu was not met\n", number);
      return 1;
    }
  std::printf("graph: %llu files written and read as the model does\n", compared);
}
