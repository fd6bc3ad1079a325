// The plain planner as a program that plans a sheet file, and times it.

#include "planner.hpp"

#include <cstring>
#include <ctime>
#include <fstream>
#include <iterator>

namespace {

using namespace plain;

std::vector<uint8_t> read_file(const char *path) {
    std::ifstream file(path, std::ios::binary);
    if (!file) fail(std::string("cannot read ") + path);
    return {std::istreambuf_iterator<char>(file), {}};
}

struct Settings {
    int filter = 0, choice = 0;
    uint64_t limit = 0;
    std::vector<uint8_t> classes;  // for choice 2
};

struct Outcome {
    Verdict verdict = none;
    uint64_t nodes = 0;
    std::vector<uint32_t> plan;  // kHz in link order, where found
};

// Seconds spent on the parts of a call.
struct Parts {
    bool on = false;
    double graph = 0, partition = 0, search = 0;
};

// The processor time of this program: other programs on the machine do not count.
double processor_time() {
    timespec t{};
    clock_gettime(CLOCK_PROCESS_CPUTIME_ID, &t);
    return double(t.tv_sec) + 1e-9 * double(t.tv_nsec);
}

// Graph, partition and search with sets of so many words.
template <int words> Outcome plan_sheet(const Sheet &sheet, const Settings &set, Parts &parts) {
    auto now = [&] { return parts.on ? processor_time() : 0; };
    double t0 = now();
    Graph<words> graph = build_graph<words>(sheet);
    double t1 = now();
    std::vector<int> cls = set.choice == 1 ? greedy(sheet, graph) : graph.layer;
    if (set.choice == 2) {
        if (set.classes.size() != size_t(sheet.n)) fail("choice 2 needs a file of one class byte a vertex");
        cls.assign(set.classes.begin(), set.classes.end());
        for (int c : cls)
            if (c >= sheet.k) fail("a class is not below the number of links");
    }
    double t2 = now();
    Search<words> search(sheet, graph, cls, set.filter, set.limit);
    Outcome outcome;
    outcome.verdict = search.run();
    outcome.nodes = search.nodes;
    if (outcome.verdict == found) {
        outcome.plan.resize(size_t(sheet.k));
        for (int v : search.chosen) outcome.plan[graph.layer[v]] = sheet.khz[v];
    }
    double t3 = now();
    parts.graph += t1 - t0;
    parts.partition += t2 - t1;
    parts.search += t3 - t2;
    return outcome;
}

// The whole planning call.
Outcome plan(const std::vector<uint8_t> &bytes, const Settings &set, Parts &parts) {
    Sheet sheet = read_sheet(bytes);
    return sheet.fits(few_words) ? plan_sheet<few_words>(sheet, set, parts) : plan_sheet<many_words>(sheet, set, parts);
}

const char *usage =
    "usage: plain SHEET FILTER CHOICE LIMIT [SECONDS [CLASSES]]\n"
    "Plans SHEET with filter 0 to 7, choice 0 to 2 and a node limit. Prints the answer (found, none, stopped), the nodes,\n"
    "and the plan in kHz in link order. With SECONDS above 0 the call is repeated for that long, and a second line gives\n"
    "the processor time of one call, the calls timed, and the seconds of its graph rows, partition and search.\n"
    "CLASSES is a file of one byte a vertex, for choice 2.\n";

}  // namespace

int main(int argc, char **argv) {
    if (argc == 2 && !std::strcmp(argv[1], "--help")) {
        std::fputs(usage, stdout);
        return 0;
    }
    if (argc < 5 || argc > 7) {
        std::fputs(usage, stderr);
        return 2;
    }
    std::vector<uint8_t> bytes = read_file(argv[1]);
    Settings set;
    set.filter = std::atoi(argv[2]);
    set.choice = std::atoi(argv[3]);
    long long limit = std::atoll(argv[4]);
    if (set.filter < 0 || set.filter > 7 || set.choice < 0 || set.choice > 2 || limit < 1 || limit > 1000000000)
        fail("filter is 0 to 7, choice 0 to 2, limit 1 to 1,000,000,000");
    set.limit = uint64_t(limit);
    double seconds = argc > 5 ? std::atof(argv[5]) : 0;
    if (argc == 7) set.classes = read_file(argv[6]);

    // Batches of calls, each twice as long as the one before; the last one counts. The parts are timed apart from it.
    Outcome outcome;
    Parts parts;
    long calls = 1;
    double took = 0;
    for (;; calls *= 2) {
        double start = processor_time();
        for (long i = 0; i < calls; i++) outcome = plan(bytes, set, parts);
        took = processor_time() - start;
        if (took >= seconds) break;
    }
    parts.on = seconds > 0;
    long timed = (calls + 3) / 4;
    for (long i = 0; parts.on && i < timed; i++) plan(bytes, set, parts);

    std::printf("%s %llu", outcome.verdict == found ? "found" : outcome.verdict == none ? "none" : "stopped",
                static_cast<unsigned long long>(outcome.nodes));
    for (uint32_t khz : outcome.plan) std::printf(" %u", khz);
    std::printf("\n");
    if (seconds > 0)
        std::printf("%.9f %ld %.9f %.9f %.9f\n", took / double(calls), calls, parts.graph / double(timed),
                    parts.partition / double(timed), parts.search / double(timed));
    return 0;
}
