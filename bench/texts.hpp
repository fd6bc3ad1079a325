// The plain side of the two texts: a sheet's graph and counts written, and a sheet made of them, each in the straightforward way.
// Outputs hold the largest of their kind; texts are good ones: it does not tell one refusal from another.

#ifndef GUVTEMI_PLAIN_TEXTS
#define GUVTEMI_PLAIN_TEXTS

#include "planner.hpp"

#include <span>

namespace plain {

using Input = std::span<const uint8_t>;
using Output = std::span<uint8_t>;

constexpr size_t most_graph_bytes = 1235834, most_count_bytes = 177, most_sheet_bytes = 59304;
constexpr uint32_t most_pairs = 8192, most_khz = 9999999;
constexpr int words = few_words;  // 64 links and 512 vertices at most

// Bytes put one after another into an output.
struct Writer {
    uint8_t *at;

    void byte(uint8_t b) { *at++ = b; }
    void word(const char *letters) {
        while (*letters) byte(uint8_t(*letters++));
    }
    void decimal(uint32_t number) {
        uint8_t digits[10];
        int count = 0;
        do {
            digits[count++] = uint8_t('0' + number % 10);
            number /= 10;
        } while (number);
        while (count) byte(digits[--count]);
    }
    void u16(uint32_t number) {
        byte(uint8_t(number));
        byte(uint8_t(number >> 8));
    }
    void u32(uint32_t number) {
        u16(number);
        u16(number >> 16);
    }
    // Zeros to the output's end; the length of what stands before them.
    size_t close(Output out) const {
        std::fill(at, out.data() + out.size(), uint8_t{0});
        return size_t(at - out.data());
    }
};

inline size_t write_counts(const Sheet &s, Output out) {
    Writer text{out.data()};
    for (int count : s.count) {
        text.decimal(uint32_t(count));
        text.byte('\n');
    }
    return text.close(out);
}

inline size_t write_graph(const Sheet &s, const Graph<words> &g, Output out) {
    int ends = 0;
    for (const Set<words> &row : g.row) ends += row.count();
    Writer text{out.data()};
    text.word("p edge ");
    text.decimal(uint32_t(s.n));
    text.byte(' ');
    text.decimal(uint32_t(ends / 2));
    text.byte('\n');
    for (int u = 0; u < s.n; u++)
        for (int v = u + 1; v < s.n; v++)
            if (g.row[u].has(v)) {
                text.byte('e');
                text.byte(' ');
                text.decimal(uint32_t(u + 1));
                text.byte(' ');
                text.decimal(uint32_t(v + 1));
                text.byte('\n');
            }
    return text.close(out);
}

struct Lengths {
    size_t graph = 0, counts = 0;
};

// Export: the sheet's two texts.
inline Lengths export_sheet(const std::vector<uint8_t> &sheet, Output graph, Output counts) {
    if (graph.size() < most_graph_bytes || counts.size() < most_count_bytes) fail("an output is too short");
    Sheet s = read_sheet(sheet);
    if (!s.fits(words)) fail("the sheet is too large");
    return {write_graph(s, build_graph<words>(s), graph), write_counts(s, counts)};
}

// A text read byte after byte.
struct Reader {
    const uint8_t *at, *end;

    explicit Reader(Input text) : at(text.data()), end(text.data() + text.size()) {}
    bool done() const { return at == end; }
    void byte(uint8_t wanted) {
        if (at == end || *at++ != wanted) fail("a text is malformed");
    }
    void word(const char *letters) {
        while (*letters) byte(uint8_t(*letters++));
    }
    uint32_t decimal() {
        const uint8_t *first = at;
        uint32_t number = 0;
        while (at != end && *at >= '0' && *at <= '9') {
            number = 10 * number + (*at++ - '0');
            if (number > 999999) fail("a number is too large");
        }
        if (at == first || (*first == '0' && at - first > 1)) fail("a number is malformed");
        return number;
    }
};

// What the two texts hold: the links, and the edges as a table of 512 × 512 bits, each marked at its lower vertex.
struct Edges {
    int n = 0;
    std::vector<int> first, count, layer;
    std::array<Set<words>, most_vertices(words)> row{};
};

inline void read_counts(Input text, Edges &edges) {
    for (Reader in(text); !in.done();) {
        uint32_t count = in.decimal();
        in.byte('\n');
        if (count == 0 || edges.n + count > most_vertices(words) || edges.count.size() == most_links(words)) fail("a count is out of range");
        edges.layer.insert(edges.layer.end(), count, int(edges.count.size()));
        edges.first.push_back(edges.n);
        edges.count.push_back(int(count));
        edges.n += int(count);
    }
    if (edges.n == 0) fail("there is no count");
}

inline void read_graph(Input text, Edges &edges) {
    Reader in(text);
    in.word("p edge ");
    uint32_t n = in.decimal();
    in.byte(' ');
    uint32_t m = in.decimal(), lines = 0;
    in.byte('\n');
    if (n != uint32_t(edges.n)) fail("the counts do not sum to the number of vertices");
    bool clash = false;
    for (; !in.done(); lines++) {
        in.byte('e');
        in.byte(' ');
        uint32_t u = in.decimal() - 1;
        in.byte(' ');
        uint32_t v = in.decimal() - 1;
        in.byte('\n');
        if (u >= n || v >= n) fail("a vertex is out of range");
        if (u > v) std::swap(u, v);
        clash |= edges.layer[u] == edges.layer[v] || edges.row[u].has(int(v));
        edges.row[u].add(int(v));
    }
    if (lines != m) fail("the number of edges is wrong");
    if (clash) fail("an edge is inside a link or repeated");
}

// A rule as a sheet's rule row has it.
struct RuleRow {
    uint32_t a, b, kind, count, value;
};

struct Rules {
    std::vector<RuleRow> rows;
    std::vector<std::array<uint32_t, 2>> pairs;
};

// All pairs joined: no rule, as all frequencies differ; none: kind 1 with the largest value; some: these pairs.
inline void add_rule(const Edges &edges, int a, int b, Rules &rules) {
    size_t before = rules.pairs.size();
    for (int p = 0; p < edges.count[a]; p++)
        for (int q = 0; q < edges.count[b]; q++)
            if (edges.row[edges.first[a] + p].has(edges.first[b] + q)) rules.pairs.push_back({uint32_t(p), uint32_t(q)});
    size_t joined = rules.pairs.size() - before;
    if (joined == 0) rules.rows.push_back({uint32_t(a), uint32_t(b), 1, 0, most_khz});
    else if (joined == size_t(edges.count[a] * edges.count[b])) rules.pairs.resize(before);
    else rules.rows.push_back({uint32_t(a), uint32_t(b), 3, uint32_t(joined), uint32_t(before)});
}

inline Rules rules_of(const Edges &edges) {
    Rules rules;
    int k = int(edges.count.size());
    for (int a = 0; a < k; a++)
        for (int b = a + 1; b < k; b++) add_rule(edges, a, b, rules);
    if (rules.pairs.size() > most_pairs) fail("there are too many pairs");
    return rules;
}

inline size_t write_sheet(const Edges &edges, const Rules &rules, Output out) {
    Writer sheet{out.data()};
    uint32_t k = uint32_t(edges.count.size()), n = uint32_t(edges.n), q = uint32_t(rules.rows.size()), t = uint32_t(rules.pairs.size());
    for (uint32_t number : {uint32_t{1}, k, n, q, t, uint32_t{40}, 40 + 4 * k, 40 + 4 * (k + n), 40 + 4 * (k + n) + 12 * q,
                            40 + 4 * (k + n) + 12 * q + 4 * t})
        sheet.u32(number);
    for (uint32_t link = 0; link < k; link++) {
        sheet.u16(uint32_t(edges.first[link]));
        sheet.u16(uint32_t(edges.count[link]));
    }
    for (uint32_t v = 1; v <= n; v++) sheet.u32(v);
    for (const RuleRow &row : rules.rows) {
        for (uint32_t number : {row.a, row.b, row.kind, row.count}) sheet.u16(number);
        sheet.u32(row.value);
    }
    for (const auto &[p, q] : rules.pairs) {
        sheet.u16(p);
        sheet.u16(q);
    }
    return sheet.close(out);
}

// Import: the sheet of two texts; its length.
inline size_t import_sheet(Input graph, Input counts, Output sheet) {
    if (sheet.size() < most_sheet_bytes) fail("the output is too short");
    Edges edges;
    read_counts(counts, edges);
    read_graph(graph, edges);
    return write_sheet(edges, rules_of(edges), sheet);
}

}  // namespace plain

#endif
