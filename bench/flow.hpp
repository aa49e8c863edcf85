// Disjoint paths in a two-level mesh by Boost Graph: each relay is two vertices with an edge of capacity 1 between them, each target has an edge to a
// sink, and a maximum flow from the source is taken apart into paths. The graph is built once for a mesh; a request changes capacities only. Of Boost's
// algorithms this is the fastest here at order 3: Edmonds and Karp's and push and relabel took more than twice as long.
#pragma once
#include <boost/graph/adjacency_list.hpp>
#include <boost/graph/boykov_kolmogorov_max_flow.hpp>

#include <cstdint>
#include <cstdlib>
#include <vector>

namespace flow {

using Traits = boost::adjacency_list_traits<boost::vecS, boost::vecS, boost::directedS>;
using Graph = boost::adjacency_list<
    boost::vecS, boost::vecS, boost::directedS, boost::no_property,
    boost::property<boost::edge_capacity_t, int,
                    boost::property<boost::edge_residual_capacity_t, int, boost::property<boost::edge_reverse_t, Traits::edge_descriptor>>>>;

class Mesh {
 public:
  explicit Mesh(unsigned m) : m_(m), relays_(size_t{1} << ((1u << m) + m)), graph_(2 * relays_ + 1), ends_(relays_) {
    for (size_t r = 0; r < relays_; ++r) {
      edge(in(r), out(r), 1);
      for (unsigned i = 0; i <= m; ++i) edge(out(r), in(link(r, i)), 1);
      ends_[r] = edge(out(r), sink(), 0);
    }
  }

  // The hops of the path to each target.
  const std::vector<size_t> &plan(uint64_t source, const std::vector<uint64_t> &targets) {
    auto capacity = get(boost::edge_capacity, graph_);
    for (uint64_t t : targets) capacity[ends_[t]] = 1;
    const int found = boost::boykov_kolmogorov_max_flow(graph_, capacity, get(boost::edge_residual_capacity, graph_), get(boost::edge_reverse, graph_),
                                                        get(boost::vertex_index, graph_), out(source), sink());
    if (found != static_cast<int>(targets.size())) std::abort();
    read(source, targets);
    for (uint64_t t : targets) capacity[ends_[t]] = 0;
    return hops_;
  }

  // The distance of each target.
  std::vector<size_t> distances(uint64_t source, const std::vector<uint64_t> &targets) const {
    std::vector<size_t> far(relays_, relays_), todo{source}, told;
    far[source] = 0;
    for (size_t at = 0; at < todo.size(); ++at)
      for (unsigned i = 0; i <= m_; ++i) {
        const size_t next = link(todo[at], i);
        if (far[next] != relays_) continue;
        far[next] = far[todo[at]] + 1;
        todo.push_back(next);
      }
    for (uint64_t t : targets) told.push_back(far[t]);
    return told;
  }

 private:
  size_t in(size_t r) const { return 2 * r; }
  size_t out(size_t r) const { return 2 * r + 1; }
  size_t sink() const { return 2 * relays_; }

  size_t link(size_t r, unsigned i) const {
    const size_t slots = size_t{1} << m_;
    return i < m_ ? r ^ size_t{1} << i : r ^ slots << r % slots;
  }

  Traits::edge_descriptor edge(size_t from, size_t to, int amount) {
    const auto there = add_edge(from, to, graph_).first, back = add_edge(to, from, graph_).first;
    put(boost::edge_capacity, graph_, there, amount);
    put(boost::edge_capacity, graph_, back, 0);
    put(boost::edge_reverse, graph_, there, back);
    put(boost::edge_reverse, graph_, back, there);
    return there;
  }

  // The flow taken apart: from the source along each edge that is used up, to the targets.
  void read(uint64_t source, const std::vector<uint64_t> &targets) {
    const auto capacity = get(boost::edge_capacity, graph_);
    const auto residual = get(boost::edge_residual_capacity, graph_);
    hops_.assign(targets.size(), 0);
    paths_.assign(targets.size(), {});
    const auto flows = [&](const Traits::edge_descriptor &e) { return capacity[e] == 1 && residual[e] == 0; };
    std::vector<uint64_t> path;
    for (auto [first, last] = out_edges(out(source), graph_); first != last; ++first) {
      if (!flows(*first) || target(*first, graph_) == sink()) continue;
      path.assign(1, source);
      for (size_t v = target(*first, graph_); v != sink();) {
        path.push_back(v / 2);
        const size_t from = out(v / 2);
        for (auto [e, end] = out_edges(from, graph_); e != end; ++e)
          if (flows(*e)) {
            v = target(*e, graph_);
            break;
          }
      }
      for (size_t i = 0; i < targets.size(); ++i)
        if (targets[i] == path.back()) {
          hops_[i] = path.size() - 1;
          paths_[i] = path;
        }
    }
  }

  unsigned m_;
  size_t relays_;
  Graph graph_;
  std::vector<Traits::edge_descriptor> ends_;
  std::vector<size_t> hops_;
  std::vector<std::vector<uint64_t>> paths_;
};

}  // namespace flow
