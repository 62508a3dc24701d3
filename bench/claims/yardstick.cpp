// The yardstick of the claims bench: the same claims in plain C++, over std::atomic.
// `yardstick make SHAPE` prints a graph; `yardstick run THREADS [LAYOUT]` reads one, walks it and prints the nanoseconds of
// the slowest thread and the steps. The layouts: `spaced`, the default, has the word and the count of an action on 64 bytes of
// their own, `paired` has them side by side, and `apart` has all words and then all counts.
#include <atomic>
#include <chrono>
#include <cstdint>
#include <cstdio>
#include <cstdlib>
#include <cstring>
#include <memory>
#include <string>
#include <thread>
#include <utility>
#include <vector>

using Clock = std::chrono::steady_clock;
enum : uint64_t { FREE, TAKEN, DONE };

struct Claims {
    size_t nodes, stage_step, count_step, count_start;
    std::vector<std::vector<size_t>> after;
    std::unique_ptr<std::atomic<uint64_t>[]> words;

    std::atomic<uint64_t>& stage(size_t n) { return words[n * stage_step]; }
    std::atomic<uint64_t>& count(size_t n) { return words[n * count_step + count_start]; }

    bool claim(size_t n) {
        if (count(n).load() != 0) return false;
        uint64_t expected = FREE;
        return stage(n).compare_exchange_strong(expected, TAKEN);
    }

    // Claims, finishes and lets go of the edges.
    bool perform(size_t n, uint64_t& steps) {
        if (!claim(n)) return false;
        steps++;
        stage(n).store(DONE);
        steps++;
        for (size_t next : after[n]) {
            count(next).fetch_sub(1);
            steps++;
        }
        return true;
    }
};

static Claims make_claims(size_t nodes, const std::vector<std::pair<size_t, size_t>>& edges, const std::string& layout) {
    Claims c;
    c.nodes = nodes;
    c.stage_step = c.count_step = layout == "spaced" ? 8 : layout == "paired" ? 2 : 1;
    c.count_start = layout == "apart" ? nodes : 1;
    size_t length = nodes * c.stage_step + nodes + 1;
    c.after.resize(nodes);
    c.words.reset(new std::atomic<uint64_t>[length]);
    for (size_t i = 0; i < length; i++) c.words[i] = 0;
    for (auto [a, b] : edges) {
        c.after[a].push_back(b);
        c.count(b)++;
    }
    return c;
}

struct Done {
    uint64_t nanos = 0, steps = 0;
};

// Each thread takes each so-manieth action, and waits until it can be claimed; where all are to be tried by all, it
// tries each once.
static Done work(Claims& claims, std::atomic<uint64_t>& gate, size_t threads, size_t number, bool all) {
    gate.fetch_add(1);
    while (gate.load() < threads) {}
    Done done;
    auto start = Clock::now();
    if (all) {
        for (size_t n = 0; n < claims.nodes; n++) claims.perform(n, done.steps);
    } else {
        for (size_t n = number; n < claims.nodes; n += threads)
            while (!claims.perform(n, done.steps)) std::this_thread::yield();
    }
    done.nanos = std::chrono::duration_cast<std::chrono::nanoseconds>(Clock::now() - start).count();
    return done;
}

static void run(size_t threads, bool all, const std::string& layout) {
    size_t nodes = 0, a = 0, b = 0;
    if (scanf("%zu", &nodes) != 1) return;
    std::vector<std::pair<size_t, size_t>> edges;
    while (scanf("%zu %zu", &a, &b) == 2) edges.push_back({a, b});
    for (int turn = 0; turn < 15; turn++) {
        Claims claims = make_claims(nodes, edges, layout);
        std::atomic<uint64_t> gate{0};
        std::vector<Done> done(threads);
        std::vector<std::thread> workers;
        for (size_t i = 0; i < threads; i++)
            workers.emplace_back([&, i] { done[i] = work(claims, gate, threads, i, all); });
        Done sum;
        for (size_t i = 0; i < threads; i++) {
            workers[i].join();
            if (done[i].nanos > sum.nanos) sum.nanos = done[i].nanos;
            sum.steps += done[i].steps;
        }
        printf("%llu %llu\n", (unsigned long long)sum.nanos, (unsigned long long)sum.steps);
    }
}

static uint64_t seed = 1;
static size_t below(size_t n) {
    seed = seed * 6364136223846793005u + 1442695040888963407u;
    return (seed >> 33) % n;
}

static void make(const char* shape) {
    bool layered = !strcmp(shape, "layered"), dense = !strcmp(shape, "dense");
    size_t nodes = layered || dense ? 2000 : 8000;
    printf("%zu\n", nodes);
    if (layered)
        for (size_t i = 0; i + 100 < nodes; i++)
            for (size_t k = 0; k < 100; k++) printf("%zu %zu\n", i, (i / 100 + 1) * 100 + k);
    if (dense)
        for (size_t i = 0; i < 200000; i++) {
            size_t a = below(nodes), b = below(nodes);
            if (a != b) printf("%zu %zu\n", a < b ? a : b, a < b ? b : a);
        }
}

int main(int argc, char** argv) {
    if (argc == 3 && !strcmp(argv[1], "make")) make(argv[2]);
    if (argc >= 4 && !strcmp(argv[1], "run")) run(atoi(argv[2]), !strcmp(argv[3], "all"), argc > 4 ? argv[4] : "spaced");
}
