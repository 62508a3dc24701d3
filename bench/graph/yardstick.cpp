// The yardstick of the graph bench: the same calls in plain C++.
// `yardstick make SHAPE` prints a graph; `yardstick run` reads one and times the calls, in microseconds.
#include <chrono>
#include <cstdint>
#include <cstdio>
#include <cstring>
#include <utility>
#include <vector>

using Edges = std::vector<std::pair<size_t, size_t>>;
using Clock = std::chrono::steady_clock;

struct Graph {
    size_t nodes;
    Edges edges;
    std::vector<std::vector<size_t>> before, after;
};

static long long micros(Clock::time_point start) {
    return std::chrono::duration_cast<std::chrono::microseconds>(Clock::now() - start).count();
}

static Graph build(size_t nodes, const Edges& edges) {
    Graph g{nodes, edges, std::vector<std::vector<size_t>>(nodes), std::vector<std::vector<size_t>>(nodes)};
    for (auto [a, b] : edges) {
        g.before[b].push_back(a);
        g.after[a].push_back(b);
    }
    return g;
}

static std::vector<bool> strip(const Graph& g) {
    std::vector<bool> left(g.nodes, true);
    std::vector<size_t> remaining(g.nodes), free;
    for (size_t n = 0; n < g.nodes; n++) {
        remaining[n] = g.before[n].size();
        if (remaining[n] == 0) free.push_back(n);
    }
    while (!free.empty()) {
        size_t n = free.back();
        free.pop_back();
        left[n] = false;
        for (size_t s : g.after[n])
            if (--remaining[s] == 0) free.push_back(s);
    }
    return left;
}

// The nodes in the order in which a walk in depth leaves them.
static std::vector<size_t> finishing_order(const Graph& g) {
    std::vector<char> seen(g.nodes, 0);
    std::vector<size_t> place(g.nodes, 0), path, order;
    for (size_t root = 0; root < g.nodes; root++) {
        if (!seen[root]) seen[root] = 1, path.push_back(root);
        while (!path.empty()) {
            size_t n = path.back();
            if (place[n] < g.after[n].size()) {
                size_t s = g.after[n][place[n]++];
                if (!seen[s]) seen[s] = 1, path.push_back(s);
            } else {
                order.push_back(n);
                path.pop_back();
            }
        }
    }
    return order;
}

struct Set {
    std::vector<uint64_t> words;
    explicit Set(size_t n) : words(n / 64 + 1, 0) {}
    bool has(size_t n) const { return words[n / 64] >> (n % 64) & 1; }
    void add(size_t n) { words[n / 64] |= uint64_t(1) << (n % 64); }
    void add(const Set& o) {
        for (size_t i = 0; i < words.size(); i++) words[i] |= o.words[i];
    }
};

static std::vector<Set> closure(const Graph& g) {
    std::vector<Set> rows(g.nodes, Set(g.nodes));
    std::vector<char> known(g.nodes, 0);
    for (size_t start : finishing_order(g)) {
        Set row(g.nodes), settled(g.nodes);
        std::vector<size_t> pending{start};
        while (!pending.empty()) {
            size_t n = pending.back();
            pending.pop_back();
            if (settled.has(n)) continue;
            for (size_t s : g.after[n]) {
                if (settled.has(s)) continue;
                if (known[s]) {
                    row.add(s), row.add(rows[s]);
                    settled.add(s), settled.add(rows[s]);
                } else if (!row.has(s)) {
                    row.add(s);
                    pending.push_back(s);
                }
            }
        }
        rows[start] = row;
        known[start] = 1;
    }
    return rows;
}

static void run() {
    size_t nodes = 0, a = 0, b = 0;
    if (scanf("%zu", &nodes) != 1) return;
    Edges edges;
    while (scanf("%zu %zu", &a, &b) == 2) edges.push_back({a, b});
    auto start = Clock::now();
    Graph g = build(nodes, edges);
    printf("new %lld %zu\n", micros(start), g.edges.size());
    start = Clock::now();
    uint64_t sum = 0;
    for (size_t n = 0; n < nodes; n++) {
        for (size_t k : g.before[n]) sum += k;
        for (size_t k : g.after[n]) sum += k;
    }
    long long took = micros(start);
    printf("neighbours %lld %llu\n", took, (unsigned long long)sum);
    start = Clock::now();
    std::vector<bool> left = strip(g);
    took = micros(start);
    size_t count = 0;
    for (bool x : left) count += x;
    printf("strip %lld %zu\n", took, count);
    start = Clock::now();
    std::vector<Set> rows = closure(g);
    took = micros(start);
    uint64_t pairs = 0;
    for (const Set& row : rows)
        for (size_t n = 0; n < nodes; n++) pairs += row.has(n);
    printf("closure %lld %llu\n", took, (unsigned long long)pairs);
}

static uint64_t seed = 1;
static size_t below(size_t n) {
    seed = seed * 6364136223846793005u + 1442695040888963407u;
    return (seed >> 33) % n;
}

// Names in another order, so that no program gains by the order of the edges.
static std::vector<size_t> shuffled(size_t n) {
    std::vector<size_t> names(n);
    for (size_t i = 0; i < n; i++) names[i] = i;
    for (size_t i = n; i > 1; i--) std::swap(names[i - 1], names[below(i)]);
    return names;
}

static void make(const char* shape) {
    bool big = !strcmp(shape, "chain") || !strcmp(shape, "star") || !strcmp(shape, "ring");
    size_t nodes = big ? 8000 : 2000;
    std::vector<size_t> name = shuffled(nodes);
    printf("%zu\n", nodes);
    auto edge = [&](size_t a, size_t b) { printf("%zu %zu\n", name[a], name[b]); };
    if (!strcmp(shape, "chain"))
        for (size_t i = 0; i + 1 < nodes; i++) edge(i, i + 1);
    if (!strcmp(shape, "ring"))
        for (size_t i = 0; i < nodes; i++) edge(i, (i + 1) % nodes);
    if (!strcmp(shape, "star"))
        for (size_t i = 1; i < nodes; i++) edge(0, i);
    if (!strcmp(shape, "layered"))
        for (size_t i = 0; i + 100 < nodes; i++)
            for (size_t k = 0; k < 100; k++) edge(i, (i / 100 + 1) * 100 + k);
    if (!strcmp(shape, "dense"))
        for (size_t i = 0; i < 200000; i++) edge(below(nodes), below(nodes));
}

int main(int argc, char** argv) {
    if (argc == 3 && !strcmp(argv[1], "make")) make(argv[2]);
    else run();
}
