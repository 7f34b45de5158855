// A plain podcheck in C++ over LEMON's maximum flow, to measure the proved
// one against.

#include <lemon/preflow.h>
#include <lemon/smart_graph.h>

#include <algorithm>
#include <bit>
#include <cstdint>
#include <cstdio>
#include <iostream>
#include <iterator>
#include <memory>
#include <optional>
#include <queue>
#include <string>
#include <vector>

namespace {

// A set of states.
__extension__ using Set = unsigned __int128;
using Bytes = std::vector<unsigned char>;

constexpr int max_codes = 1024;
constexpr int max_states = 128;
constexpr int max_transitions = 256;
constexpr int max_entries = 512;
constexpr long max_total = 65535;
constexpr std::uint32_t longest = 65535;

struct Entry {
  int target;
  long weight;
};

struct Step {
  int code;
  long total = 0;
  std::vector<Entry> entries;
  // Whether the second table does not list the code of this step of the first.
  bool added = false;
};

struct Table {
  std::vector<int> codes;
  std::vector<std::vector<Step>> states;
  std::vector<Set> successors;
};

struct Refusal {
  int number;
};

std::uint64_t low(Set set) { return std::uint64_t(set); }
std::uint64_t high(Set set) { return std::uint64_t(set >> 64); }

bool has(Set set, int member) {
  return (member < 64 ? low(set) : high(set)) >> (member % 64) & 1;
}
int size(Set set) { return std::popcount(low(set)) + std::popcount(high(set)); }

template <typename Work>
void each(Set set, Work work) {
  for (int start = 0; set != 0; start += 64, set >>= 64) {
    for (auto word = low(set); word != 0; word &= word - 1) {
      work(start + std::countr_zero(word));
    }
  }
}

class Reader {
 public:
  explicit Reader(const Bytes& bytes) : bytes_(bytes) {}

  void need(std::size_t count) const {
    if (bytes_.size() - at_ < count) throw Refusal{1};
  }
  int byte() {
    need(1);
    return bytes_[at_++];
  }
  int two() {
    need(2);
    int low = byte();
    return low + 256 * byte();
  }
  bool done() const { return at_ == bytes_.size(); }

 private:
  const Bytes& bytes_;
  std::size_t at_ = 0;
};

void rule(bool holds, int number) {
  if (!holds) throw Refusal{number};
}

Table parse(const Bytes& bytes) {
  Reader reader(bytes);
  int count = reader.two();
  rule(count <= max_codes, 3);
  reader.need(2 * count);
  std::vector<int> codes(count);
  for (int& code : codes) code = reader.two();
  auto falls = std::adjacent_find(codes.begin(), codes.end(),
                                  [](int a, int b) { return a >= b; });
  rule(falls == codes.end(), 3);

  count = reader.byte();
  rule(count >= 1 && count <= max_states, 4);
  reader.need(count);
  Table table;
  int sum = 0;
  for (int s = 0; s < count; ++s) {
    table.states.emplace_back(reader.byte());
    sum += table.states.back().size();
  }

  count = reader.two();
  rule(count <= max_transitions && count == sum, 5);
  reader.need(3 * count);
  sum = 0;
  for (auto& steps : table.states) {
    for (Step& step : steps) {
      step.code = reader.two();
      rule(std::binary_search(codes.begin(), codes.end(), step.code), 6);
      step.entries.resize(reader.byte());
      rule(!step.entries.empty(), 8);
      sum += step.entries.size();
    }
  }

  count = reader.two();
  rule(count <= max_entries && count == sum, 7);
  reader.need(3 * count);
  for (auto& steps : table.states) {
    Set successors = 0;
    for (Step& step : steps) {
      int last = -1;
      for (Entry& entry : step.entries) {
        entry.target = reader.byte();
        rule(entry.target < int(table.states.size()) && entry.target > last, 9);
        last = entry.target;
        entry.weight = reader.two();
        step.total += entry.weight;
        rule(step.total <= max_total, 10);
        successors |= Set(entry.weight > 0) << entry.target;
      }
      rule(step.total > 0, 10);
      std::erase_if(step.entries, [](const Entry& e) { return e.weight == 0; });
    }
    table.successors.push_back(successors);
  }
  rule(reader.done(), 2);
  table.codes = std::move(codes);
  return table;
}

// Marks the steps of the first table whose codes the second does not list.
// States of the second answer these by a step to themselves.
void complete(Table& first, Table& second) {
  bool some = false;
  for (auto& steps : first.states) {
    for (Step& step : steps) {
      step.added = !std::binary_search(second.codes.begin(), second.codes.end(),
                                       step.code);
      some |= step.added;
    }
  }
  for (std::size_t t = 0; t < second.states.size(); ++t) {
    second.successors[t] |= Set(some) << t;
  }
}

using Relation = std::vector<Set>;

// The network of two steps: a source, the first step's entries, the
// second's, a sink.
class Network {
 public:
  Network(const Relation& relation, const Step& m, const Step& n)
      : m_(m), n_(n), room_(graph_) {
    int rows = m.entries.size();
    int columns = n.entries.size();
    graph_.reserveNode(rows + columns + 2);
    for (int k = 0; k < rows + columns + 2; ++k) graph_.addNode();
    source_ = graph_.nodeFromId(rows + columns);
    sink_ = graph_.nodeFromId(rows + columns + 1);
    for (int i = 0; i < rows; ++i) {
      join(source_, row(i), m.entries[i].weight * n.total);
      for (int j = 0; j < columns; ++j) {
        if (has(relation[m.entries[i].target], n.entries[j].target)) {
          join(row(i), column(j), m.total * n.total);
        }
      }
    }
    for (int j = 0; j < columns; ++j) {
      join(column(j), sink_, n.entries[j].weight * m.total);
    }
  }

  bool fits() {
    Flow flow(graph_, room_, source_, sink_);
    flow.runMinCut();
    return flow.flowValue() == m_.total * n_.total;
  }

  // The entries of the first step that the residual network has a way to.
  std::vector<bool> cut() {
    Flow flow(graph_, room_, source_, sink_);
    flow.run();
    std::vector<bool> reached(graph_.nodeNum());
    std::queue<Graph::Node> waiting;
    auto reach = [&](Graph::Node node) {
      if (!reached[graph_.id(node)]) {
        reached[graph_.id(node)] = true;
        waiting.push(node);
      }
    };
    for (reach(source_); !waiting.empty(); waiting.pop()) {
      Graph::Node node = waiting.front();
      for (Graph::OutArcIt arc(graph_, node); arc != lemon::INVALID; ++arc) {
        if (flow.flow(arc) < room_[arc]) reach(graph_.target(arc));
      }
      for (Graph::InArcIt arc(graph_, node); arc != lemon::INVALID; ++arc) {
        if (flow.flow(arc) > 0) reach(graph_.source(arc));
      }
    }
    reached.resize(m_.entries.size());
    return reached;
  }

 private:
  using Graph = lemon::SmartDigraph;
  using Flow = lemon::Preflow<Graph, Graph::ArcMap<long>>;

  Graph::Node row(int i) const { return graph_.nodeFromId(i); }
  Graph::Node column(int j) const {
    return graph_.nodeFromId(m_.entries.size() + j);
  }
  void join(Graph::Node from, Graph::Node to, long room) {
    room_[graph_.addArc(from, to)] = room;
  }

  const Step& m_;
  const Step& n_;
  Graph graph_;
  Graph::ArcMap<long> room_;
  Graph::Node source_, sink_;
};

// Whether m fits a step of state t, whose own steps are ns.
bool fits_some(const Relation& relation, const Step& m, int t,
               const std::vector<Step>& ns) {
  if (m.added) {
    return std::all_of(m.entries.begin(), m.entries.end(), [&](const Entry& e) {
      return has(relation[e.target], t);
    });
  }
  return std::any_of(ns.begin(), ns.end(), [&](const Step& n) {
    return n.code == m.code && Network(relation, m, n).fits();
  });
}

struct Ranking {
  std::vector<std::vector<int>> ranks;
  int rounds = 0;
  int kept = 0;
};

// A pair is looked at again only if its successors lost a pair in the round
// before.
Ranking rank(const Table& first, const Table& second) {
  int height = first.states.size();
  int width = second.states.size();
  Relation relation(height, ~Set(0) >> (max_states - width));
  // The rows that lost a pair in the round before, and what they lost.
  Set fell = 0;
  Relation lost(height), losing(height);
  Ranking ranking;
  ranking.ranks.assign(height, std::vector<int>(width));
  for (;;) {
    Set falling = 0;
    for (int s = 0; s < height; ++s) {
      Set gone = 0;
      each(first.successors[s] & fell, [&](int next) { gone |= lost[next]; });
      if (ranking.rounds > 0 && gone == 0) continue;
      Set row = 0;
      each(relation[s], [&](int t) {
        if (ranking.rounds > 0 && (gone & second.successors[t]) == 0) return;
        const auto& ms = first.states[s];
        bool kept = std::all_of(ms.begin(), ms.end(), [&](const Step& m) {
          return fits_some(relation, m, t, second.states[t]);
        });
        if (!kept) {
          row |= Set(1) << t;
          ranking.ranks[s][t] = ranking.rounds + 1;
        }
      });
      losing[s] = row;
      if (row != 0) falling |= Set(1) << s;
    }
    if (falling == 0) break;
    each(falling, [&](int s) {
      relation[s] &= ~losing[s];
      lost[s] = losing[s];
    });
    fell = falling;
    ++ranking.rounds;
  }
  for (Set row : relation) ranking.kept += size(row);
  return ranking;
}

// The trees of pairs that are not kept.
class Trees {
 public:
  Trees(const Table& first, const Table& second, const Ranking& ranking)
      : first_(first), second_(second), ranks_(ranking.ranks) {
    chosen_.resize(first.states.size() * second.states.size());
  }

  // The length of a pair's transition, cut off above the longest.
  std::uint32_t length(int s, int t) {
    std::optional<Chosen>& chosen = chosen_[at(s, t)];
    if (!chosen) {
      Chosen found = choose(s, t);
      std::uint32_t sum = 3;
      for (std::size_t i = 0; i < found.sets.size(); ++i) {
        sum += 4;
        each(found.sets[i], [&](int other) {
          sum = std::min(sum + length(found.m->entries[i].target, other),
                         2 * longest);
        });
      }
      found.length = sum;
      chosen = std::move(found);
    }
    return chosen->length;
  }

  // Appends the node of a state and a set.
  void write(int s, Set set, Bytes& bytes) const {
    bytes.push_back(size(set));
    each(set, [&](int t) {
      const Chosen& chosen = *chosen_[at(s, t)];
      bytes.push_back(chosen.m->code % 256);
      bytes.push_back(chosen.m->code / 256);
      bytes.push_back(chosen.m->entries.size());
      for (std::size_t i = 0; i < chosen.sets.size(); ++i) {
        const Entry& entry = chosen.m->entries[i];
        bytes.push_back(entry.target);
        bytes.push_back(entry.weight % 256);
        bytes.push_back(entry.weight / 256);
        write(entry.target, chosen.sets[i], bytes);
      }
    });
  }

 private:
  struct Chosen {
    const Step* m;
    std::vector<Set> sets;
    std::uint32_t length;
  };

  std::size_t at(int s, int t) const { return s * second_.states.size() + t; }

  // Not inlined: the recursion of length is as deep as there are ranks, so
  // its frames must be small.
  [[gnu::noinline]] Chosen choose(int s, int t) const {
    Relation relation(first_.states.size());
    each(first_.successors[s], [&](int i) {
      each(second_.successors[t], [&](int j) {
        bool related = ranks_[i][j] == 0 || ranks_[i][j] >= ranks_[s][t];
        relation[i] |= Set(related) << j;
      });
    });
    const auto& ns = second_.states[t];
    const Step& m = *std::find_if(
        first_.states[s].begin(), first_.states[s].end(),
        [&](const Step& m) { return !fits_some(relation, m, t, ns); });
    Chosen chosen{&m, std::vector<Set>(m.entries.size()), 0};
    for (std::size_t i = 0; m.added && i < m.entries.size(); ++i) {
      chosen.sets[i] = Set(1) << t & ~relation[m.entries[i].target];
    }
    for (const Step& n : ns) {
      if (n.code != m.code) continue;
      std::vector<bool> cut = Network(relation, m, n).cut();
      Set related = 0;
      for (std::size_t i = 0; i < cut.size(); ++i) {
        if (cut[i]) related |= relation[m.entries[i].target];
      }
      Set apart = 0;
      for (const Entry& entry : n.entries) apart |= Set(1) << entry.target;
      apart &= ~related;
      for (std::size_t i = 0; i < cut.size(); ++i) {
        if (cut[i]) chosen.sets[i] |= apart;
      }
    }
    return chosen;
  }

  const Table& first_;
  const Table& second_;
  const std::vector<std::vector<int>>& ranks_;
  std::vector<std::optional<Chosen>> chosen_;
};

// Takes a length and a table from the input.
Bytes take(const Bytes& input, std::size_t& at) {
  if (input.size() - at < 2) {
    at = input.size();
    return {};
  }
  std::size_t length = input[at] + 256 * input[at + 1];
  auto start = input.begin() + at + 2;
  length = std::min<std::size_t>(length, input.end() - start);
  at += 2 + length;
  return Bytes(start, start + length);
}

std::string answer(const Table& first, const Table& second) {
  Ranking ranking = rank(first, second);
  std::string text = "tables " + std::to_string(first.states.size()) + " " +
                     std::to_string(second.states.size()) + "\n";
  for (std::size_t s = 0; s < ranking.ranks.size(); ++s) {
    text += "row " + std::to_string(s);
    for (int rank : ranking.ranks[s]) text += " " + std::to_string(rank);
    text += "\n";
  }
  bool yes = ranking.ranks[0][0] == 0;
  text += "rounds " + std::to_string(ranking.rounds) + " kept " +
          std::to_string(ranking.kept) + " verdict " + (yes ? "yes" : "no") +
          "\n";
  if (yes) return text;
  Trees trees(first, second, ranking);
  if (trees.length(0, 0) >= longest) return text + "tree refused 23\n";
  Bytes bytes;
  trees.write(0, 1, bytes);
  text += "tree";
  for (int byte : bytes) {
    const char* digits = "0123456789abcdef";
    text += {' ', digits[byte / 16], digits[byte % 16]};
  }
  return text + "\n";
}

}  // namespace

int main() {
  Bytes input(std::istreambuf_iterator<char>(std::cin), {});
  std::size_t at = 0;
  std::vector<Bytes> bytes = {take(input, at), take(input, at)};
  std::vector<Table> tables;
  for (const Bytes& table : bytes) {
    try {
      tables.push_back(parse(table));
    } catch (const Refusal& refusal) {
      std::printf("refused %d %d\n", int(tables.size()) + 1, refusal.number);
      return 0;
    }
  }
  complete(tables[0], tables[1]);
  std::string text = answer(tables[0], tables[1]);
  std::fwrite(text.data(), 1, text.size(), stdout);
}
