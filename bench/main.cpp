// Runs one case by every side and prints rows of a table: times, their ratios, and each result.
//   bench head                 the table's head
//   bench rows CASE REPEATS    the rows of a case, by its number from 0; each time is the best of so many
//   bench once SIDE CASE OP    one operation by one side (ours, cgal or manifold), for a trace
//   bench profile CASE OP      the library's operation two thousand times: where it stood whenever a timer rang, as addresses
//   bench results              a sum over the bits of each result of the library, one a line: two processors' can be compared
//   bench names                the cases, one a line
#include "sides.h"
#include <algorithm>
#include <cstdio>
#include <cstdlib>
#include <cstring>
#include <signal.h>
#include <sys/time.h>
#include <time.h>
#include <ucontext.h>

using Side = void (*)(uint32_t, const Body &, const Body &, Out &);

struct Peer {
    const char *name;
    const char *shown;
    Side side;
};

// Those that are in the program.
static std::vector<Peer> peers() {
    std::vector<Peer> all = {{"cgal", "CGAL", measured_cgal}, {"manifold", "Manifold", measured_manifold}};
    all.erase(std::remove_if(all.begin(), all.end(), [](const Peer &p) { return p.side == nullptr; }), all.end());
    return all;
}

static Out room() {
    Out out;
    out.points.resize(3 * 65536);
    out.corners.resize(3 * 131072);
    out.origins.resize(131072);
    return out;
}

// As many half-edges P->Q as Q->P, for all P and Q.
static bool closed(const Out &out) {
    std::map<std::pair<uint32_t, uint32_t>, long> count;
    for (size_t t = 0; t < out.triangles; t++) {
        for (size_t k = 0; k < 3; k++) {
            const uint32_t p = out.corners[3 * t + k], q = out.corners[3 * t + (k + 1) % 3];
            count[{std::min(p, q), std::max(p, q)}] += p < q ? 1 : -1;
        }
    }
    return std::all_of(count.begin(), count.end(), [](const auto &c) { return c.second == 0; });
}

// The processor's time so far, in microseconds: the machine may have other work, and no side has threads.
static double now() {
    timespec t;
    clock_gettime(CLOCK_PROCESS_CPUTIME_ID, &t);
    return 1e6 * double(t.tv_sec) + 1e-3 * double(t.tv_nsec);
}

// The best of so many times.
static double best(Side side, uint32_t code, const Case &c, Out &out, int repeats) {
    double found = 1e300;
    for (int i = 0; i < repeats; i++) {
        const double start = now();
        side(code, c.a, c.b, out);
        found = std::min(found, now() - start);
    }
    return found;
}

static void say(const Out &out) {
    if (out.made) {
        std::printf(" %zu, %zu%s |", out.vertices, out.triangles, closed(out) ? "" : ", NOT CLOSED");
    } else {
        std::printf(" no result |");
    }
}

static std::array<unsigned long long, 1 << 20> stood;
static volatile size_t samples = 0;

static unsigned long long place(const mcontext_t &m) {
#if defined(__x86_64__)
    return static_cast<unsigned long long>(m.gregs[REG_RIP]);
#else
    return m.pc;
#endif
}

static void sample(int, siginfo_t *, void *context) {
    if (samples < stood.size()) {
        stood[samples] = place(static_cast<ucontext_t *>(context)->uc_mcontext);
        samples = samples + 1;
    }
}

static void profile(const Case &c, uint32_t code) {
    Out out = room();
    struct sigaction action = {};
    action.sa_sigaction = sample;
    action.sa_flags = SA_SIGINFO | SA_RESTART;
    sigaction(SIGPROF, &action, nullptr);
    const itimerval every = {{0, 1000}, {0, 1000}}, never = {};
    setitimer(ITIMER_PROF, &every, nullptr);
    for (int i = 0; i < 2000; i++) {
        measured_ours(code, c.a, c.b, out);
    }
    setitimer(ITIMER_PROF, &never, nullptr);
    for (size_t i = 0; i < samples; i++) {
        std::printf("%016llx\n", stood[i]);
    }
}

static void head() {
    std::printf("| Case | Operation | Ours, us |");
    for (const Peer &p : peers()) {
        std::printf(" %s, us | Ours / %s |", p.shown, p.shown);
    }
    std::printf(" Vertices and triangles of ours |");
    for (const Peer &p : peers()) {
        std::printf(" of %s |", p.shown);
    }
    std::printf("\n|---|---|--:|");
    for (size_t i = 0; i < peers().size(); i++) {
        std::printf("--:|--:|");
    }
    std::printf("---|");
    for (size_t i = 0; i < peers().size(); i++) {
        std::printf("---|");
    }
    std::printf("\n");
}

static void rows(const Case &c, int repeats) {
    static const char *names[3] = {"union", "intersection", "difference"};
    Out ours = room();
    std::vector<Out> theirs(peers().size(), room());
    for (uint32_t code = 0; code < 3; code++) {
        const double t = best(measured_ours, code, c, ours, repeats);
        std::printf("| %s | %s | %.0f |", c.name.c_str(), names[code], t);
        for (size_t i = 0; i < theirs.size(); i++) {
            const double u = best(peers()[i].side, code, c, theirs[i], repeats);
            if (ours.made && theirs[i].made) {
                std::printf(" %.0f | %.2f |", u, t / u);
            } else {
                std::printf(" %.0f | |", u);
            }
        }
        say(ours);
        for (const Out &out : theirs) {
            say(out);
        }
        std::printf("\n");
        std::fflush(stdout);
    }
}

// One operation by the side of that name, if it is in the program.
static bool once(const char *name, const Case &c, uint32_t code) {
    std::vector<Peer> sides = peers();
    sides.push_back({"ours", "", measured_ours});
    for (const Peer &p : sides) {
        if (std::strcmp(name, p.name) == 0) {
            Out out = room();
            p.side(code, c.a, c.b, out);
            std::printf("%d %zu %zu\n", out.made, out.vertices, out.triangles);
            return true;
        }
    }
    return false;
}

// FNV-1a, over whole numbers.
static uint64_t sum(uint64_t s, uint64_t n) {
    return (s ^ n) * 1099511628211u;
}

static uint64_t result(const Case &c, uint32_t code, Out &out) {
    measured_ours(code, c.a, c.b, out);
    uint64_t s = sum(14695981039346656037u, out.made);
    for (size_t i = 0; i < 3 * out.vertices; i++) {
        uint64_t bits;
        std::memcpy(&bits, &out.points[i], sizeof bits);
        s = sum(s, bits);
    }
    for (size_t i = 0; i < 3 * out.triangles; i++) {
        s = sum(s, out.corners[i]);
    }
    for (size_t i = 0; i < out.triangles; i++) {
        s = sum(s, out.origins[i]);
    }
    return s;
}

static Case by_number(const char *text) {
    return cases().at(std::strtoul(text, nullptr, 10));
}

static uint32_t number(const char *text) {
    return static_cast<uint32_t>(std::strtoul(text, nullptr, 10));
}

int main(int argc, char **argv) {
    const std::string what = argc < 2 ? "" : argv[1];
    if (what == "head" && argc == 2) {
        head();
    } else if (what == "rows" && argc == 4) {
        rows(by_number(argv[2]), std::max(1, std::atoi(argv[3])));
    } else if (what == "once" && argc == 5) {
        return once(argv[2], by_number(argv[3]), number(argv[4])) ? 0 : 1;
    } else if (what == "profile" && argc == 4) {
        profile(by_number(argv[2]), number(argv[3]));
    } else if (what == "results" && argc == 2) {
        Out out = room();
        for (const Case &c : cases()) {
            for (uint32_t code = 0; code < 3; code++) {
                std::printf("%s %u %016llx\n", c.name.c_str(), code, static_cast<unsigned long long>(result(c, code, out)));
            }
        }
    } else if (what == "names" && argc == 2) {
        for (const Case &c : cases()) {
            std::printf("%s\n", c.name.c_str());
        }
    } else {
        return 1;
    }
    return 0;
}
