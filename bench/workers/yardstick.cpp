// The yardstick of the workers' bench: a plain loop of threads that steal work from one another, over std::thread and
// std::atomic. `yardstick THREADS LOOKS` reads a graph, the number of its nodes and then its edges, and prints how long each
// of some walks takes, in nanoseconds: each node is done once, after all that stand before it, and looks at a word so often.
// Without words it prints how many looks take a microsecond.
#include <algorithm>
#include <atomic>
#include <chrono>
#include <cstdint>
#include <cstdio>
#include <cstdlib>
#include <memory>
#include <thread>
#include <vector>

using Clock = std::chrono::steady_clock;

static std::atomic<uint64_t> word{0};

// Not inlined, so that a look takes as long in a walk as where it is timed.
__attribute__((noinline)) static uint64_t look(uint64_t looks)
{
    uint64_t seen = 0;
    for (uint64_t i = 0; i < looks; i++)
        seen |= word.load(std::memory_order_seq_cst);
    return seen;
}

// A deque of numbers with room for all, after Chase and Lev: its owner pushes and pops at one end, others steal at the other.
struct Deque {
    std::vector<std::atomic<int>> items;
    std::atomic<long> top{0}, bottom{0};
    explicit Deque(int room) : items(room) {}
    void push(int item)
    {
        long b = bottom.load(std::memory_order_relaxed);
        items[b].store(item, std::memory_order_relaxed);
        bottom.store(b + 1, std::memory_order_seq_cst);
    }
    int pop()
    {
        long b = bottom.load(std::memory_order_relaxed) - 1;
        bottom.store(b, std::memory_order_seq_cst);
        long t = top.load(std::memory_order_seq_cst);
        if (t > b) {
            bottom.store(b + 1, std::memory_order_seq_cst);
            return -1;
        }
        int item = items[b].load(std::memory_order_relaxed);
        if (t == b) {
            bool won = top.compare_exchange_strong(t, t + 1);
            bottom.store(b + 1, std::memory_order_seq_cst);
            return won ? item : -1;
        }
        return item;
    }
    int steal()
    {
        long t = top.load(std::memory_order_seq_cst);
        if (t >= bottom.load(std::memory_order_seq_cst))
            return -1;
        int item = items[t].load(std::memory_order_relaxed);
        return top.compare_exchange_strong(t, t + 1) ? item : -1;
    }
};

static uint64_t looks_each()
{
    uint64_t most = 1;
    for (int round = 0; round < 20; round++) {
        auto start = Clock::now();
        look(1000000);
        uint64_t taken = std::chrono::duration_cast<std::chrono::nanoseconds>(Clock::now() - start).count();
        most = std::max<uint64_t>(most, 1000000000 / (taken ? taken : 1));
    }
    return most;
}

int main(int words, char **argv)
{
    if (words < 3) {
        printf("%llu\n", (unsigned long long)looks_each());
        return 0;
    }
    int threads = atoi(argv[1]);
    uint64_t looks = strtoull(argv[2], nullptr, 10);
    int nodes, from, to;
    if (scanf("%d", &nodes) != 1)
        return 1;
    std::vector<std::vector<int>> after(nodes);
    std::vector<int> before(nodes);
    while (scanf("%d %d", &from, &to) == 2) {
        after[from].push_back(to);
        before[to]++;
    }
    for (int turn = 0; turn < 20; turn++) {
        auto start = Clock::now();
        std::vector<std::atomic<int>> left(nodes);
        std::vector<std::unique_ptr<Deque>> deques;
        for (int i = 0; i < threads; i++)
            deques.push_back(std::make_unique<Deque>(nodes + 1));
        for (int n = 0; n < nodes; n++) {
            left[n].store(before[n]);
            if (!before[n])
                deques[0]->push(n);
        }
        std::atomic<int> done{0};
        auto work = [&](int own) {
            while (done.load() < nodes) {
                int n = deques[own]->pop();
                for (int i = 1; n < 0 && i < threads; i++)
                    n = deques[(own + i) % threads]->steal();
                if (n < 0)
                    continue;
                look(looks);
                for (int next : after[n])
                    if (left[next].fetch_sub(1) == 1)
                        deques[own]->push(next);
                done.fetch_add(1);
            }
        };
        std::vector<std::thread> others;
        for (int i = 1; i < threads; i++)
            others.emplace_back(work, i);
        work(0);
        for (auto &other : others)
            other.join();
        printf("%lld\n", (long long)std::chrono::duration_cast<std::chrono::nanoseconds>(Clock::now() - start).count());
    }
    return 0;
}
