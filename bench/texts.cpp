// Times export and import of a sheet's two texts through the desk library and by the plain side, and compares what they write.

#include "guvtemi_desk.h"
#include "texts.hpp"

#include <cstring>
#include <ctime>
#include <fstream>
#include <iterator>

namespace {

using namespace plain;
using Bytes = std::vector<uint8_t>;

Bytes read_file(const char *path) {
    std::ifstream file(path, std::ios::binary);
    if (!file) fail(std::string("cannot read ") + path);
    return {std::istreambuf_iterator<char>(file), {}};
}

// The processor time of this program: other programs on the machine do not count.
double processor_time() {
    timespec t{};
    clock_gettime(CLOCK_PROCESS_CPUTIME_ID, &t);
    return double(t.tv_sec) + 1e-9 * double(t.tv_nsec);
}

// The seconds of a job, if they are less than before.
template <class Job> void keep_best(double &best, Job job) {
    double start = processor_time();
    job();
    best = std::min(best, processor_time() - start);
}

// The two take turns; the best run of each counts.
template <class Plain, class Proved> void time_both(const char *name, int runs, Plain plain_job, Proved proved_job) {
    double plain = 1e9, proved = 1e9;
    for (int i = 0; i < runs; i++) {
        keep_best(plain, plain_job);
        keep_best(proved, proved_job);
    }
    std::printf("%s %.9f %.9f\n", name, plain, proved);
}

void compare(const char *what, const Bytes &plain, const Bytes &proved) {
    if (plain == proved) return;
    auto at = std::mismatch(plain.begin(), plain.end(), proved.begin()).first - plain.begin();
    std::printf("DIFFERENCE %s: byte %ld is %d, the library writes %d\n", what, long(at), plain[size_t(at)], proved[size_t(at)]);
    std::exit(1);
}

void compare_number(const char *what, uint64_t plain, uint64_t proved) {
    if (plain == proved) return;
    std::printf("DIFFERENCE %s: %#llx, the library returns %#llx\n", what, static_cast<unsigned long long>(plain),
                static_cast<unsigned long long>(proved));
    std::exit(1);
}

// Outputs of the largest size, full of ones before the first call: what has to be zero must be written.
struct Outputs {
    Bytes graph = Bytes(most_graph_bytes, 255), counts = Bytes(most_count_bytes, 255), sheet = Bytes(most_sheet_bytes, 255);
};

Lengths time_export(const Bytes &sheet, int runs, Outputs &ours, Outputs &theirs) {
    Lengths lengths;
    uint64_t returned = 0;
    time_both("export", runs, [&] { lengths = export_sheet(sheet, ours.graph, ours.counts); },
              [&] {
                  returned = guvtemi_export(sheet.data(), sheet.size(), theirs.graph.data(), theirs.graph.size(),
                                            theirs.counts.data(), theirs.counts.size());
              });
    compare_number("export", uint64_t(lengths.graph) | uint64_t(lengths.counts) << 32, returned);
    compare("graph text", ours.graph, theirs.graph);
    compare("count text", ours.counts, theirs.counts);
    return lengths;
}

void time_import(const Lengths &lengths, int runs, Outputs &ours, Outputs &theirs) {
    Input graph(ours.graph.data(), lengths.graph), counts(ours.counts.data(), lengths.counts);
    size_t length = 0;
    uint64_t returned = 0;
    time_both("import", runs, [&] { length = import_sheet(graph, counts, ours.sheet); },
              [&] {
                  returned = guvtemi_import(graph.data(), graph.size(), counts.data(), counts.size(), theirs.sheet.data(),
                                            theirs.sheet.size());
              });
    compare_number("import", length, returned);
    compare("sheet", ours.sheet, theirs.sheet);
}

const char *usage =
    "usage: texts SHEET RUNS\n"
    "Exports SHEET and imports its two texts, so many times each by the plain program and through the desk library in turns.\n"
    "Prints a line for each of the two jobs: its name and the best processor times in seconds, plain and library; then the\n"
    "bytes of the graph text and its edges. Ends with status 1 and a line DIFFERENCE where the two write different bytes.\n";

}  // namespace

int main(int argc, char **argv) {
    if (argc == 2 && !std::strcmp(argv[1], "--help")) {
        std::fputs(usage, stdout);
        return 0;
    }
    int runs = argc == 3 ? std::atoi(argv[2]) : 0;
    if (runs < 1) {
        std::fputs(usage, stderr);
        return 2;
    }
    Bytes sheet = read_file(argv[1]);
    Outputs ours, theirs;
    Lengths lengths = time_export(sheet, runs, ours, theirs);
    time_import(lengths, runs, ours, theirs);
    auto lines = std::count(ours.graph.begin(), ours.graph.begin() + long(lengths.graph), '\n');
    std::printf("text %zu %ld\n", lengths.graph, long(lines) - 1);
    return 0;
}
