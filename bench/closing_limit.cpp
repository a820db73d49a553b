// Closes the chain of `vk_plan_rows` with facts of numbers, in C++ and with nothing checked: how long a
// closing takes at least over a catalogue of the same texts, which lie in their handles. It reads
// the rows `load` of that program, so `closings.py` runs it as well. It makes no plan: what it tells
// of one is the closing's time.
//
//   g++ -O3 -std=c++20 closing_limit.cpp -o /tmp/closing_limit
#include <algorithm>
#include <array>
#include <chrono>
#include <compare>
#include <cstdint>
#include <cstdio>
#include <cstdlib>
#include <cstring>
#include <iostream>
#include <string>
#include <tuple>
#include <vector>

// A text of at most 15 bytes, with 0 behind it.
struct Text {
    uint8_t length = 0;
    std::array<char, 15> bytes{};

    explicit Text(const std::string &text = "") : length(text.size()) {
        std::memcpy(bytes.data(), text.data(), text.size());
    }
    uint64_t hash() const {
        uint64_t all = 0x243f6a8885a308d3;
        for (size_t at = 0; at < length; ++at) {
            all = (all ^ uint8_t(bytes[at])) * 0x9e3779b97f4a7c15;
            all ^= all >> 29;
        }
        return all;
    }
    auto operator<=>(const Text &other) const { return bytes <=> other.bytes; }
    bool operator==(const Text &) const = default;
};

// Places by hash: open addressing, at most half full.
class Index {
    std::vector<uint32_t> slots = std::vector<uint32_t>(16);
    size_t count = 0;

public:
    // The slot of a place that `is` says yes to, or the free one for it.
    template <class Is> uint32_t &slot(uint64_t hash, Is is) {
        size_t at = hash & (slots.size() - 1);
        while (slots[at] && !is(slots[at] - 1))
            at = (at + 1) & (slots.size() - 1);
        return slots[at];
    }
    // Counts one more place, and makes room where half of the slots are taken.
    template <class HashOf> void grow(HashOf hash_of) {
        count += 1;
        if (2 * count <= slots.size())
            return;
        std::vector<uint32_t> wider(2 * slots.size());
        std::swap(slots, wider);
        for (uint32_t place = 0; place < count; ++place)
            slot(hash_of(place), [](uint32_t) { return false; }) = place + 1;
    }
};

struct Version {
    Text text;
    std::array<uint64_t, 9> rest{};
};

struct Dependency {
    Text name;
    const Version *minimum;
    std::array<uint64_t, 9> rest{};
};

struct Manifest {
    Text name;
    Version version;
    std::vector<Dependency> dependencies;
    std::array<uint64_t, 12> rest{};
};

struct Row {
    Version version;
    const Manifest *manifest;
};

struct Page {
    Text port;
    Text given;
    std::array<Row, 2> rows;

    const Row &row(const Text &text) const {
        return rows[0].version.text == text ? rows[0] : rows[1];
    }
};

class Catalogue {
    std::vector<Page> pages;
    Index index;

    static Text name(int number) {
        char text[16];
        std::snprintf(text, sizeof text, "p%04d", number);
        return Text(text);
    }
    static Row row(int number, const char *version, std::vector<Dependency> asked) {
        Version own{Text(version)};
        return {own, new Manifest{name(number), own, std::move(asked)}};
    }

public:
    static Dependency on(int number, const char *minimum) {
        return {name(number), minimum ? new Version{Text(minimum)} : nullptr};
    }
    explicit Catalogue(int size) {
        for (int number = 0; number < size; ++number) {
            std::vector<Dependency> lower, higher;
            if (number + 1 < size)
                lower.push_back(on(number + 1, nullptr));
            if (number > 0 && 2 * number + 1 < size)
                lower.push_back(on(2 * number + 1, nullptr));
            if (number + 1 < size)
                higher.push_back(on(number + 1, "1.1"));
            Row first = row(number, "1.0", std::move(lower)),
                second = row(number, "1.1", std::move(higher));
            pages.push_back({name(number), Text("1.0"), {first, second}});
            index.slot(pages.back().port.hash(), [](uint32_t) { return false; }) = pages.size();
            index.grow([&](uint32_t place) { return pages[place].port.hash(); });
        }
    }
    const Page &page(const Text &port) {
        return pages[index.slot(port.hash(), [&](uint32_t place) {
            return pages[place].port == port;
        }) - 1];
    }
};

enum Kind : uint32_t { ROOT, NEED, FLOOR, VISIT };

struct Fact {
    Kind kind;
    uint32_t port;
    uint16_t feature, ask;

    bool operator==(const Fact &) const = default;
    uint64_t hash() const {
        uint64_t all = (uint64_t(port) << 32 | uint64_t(kind) << 30 | uint64_t(feature) << 16 | ask)
                       * 0x9e3779b97f4a7c15;
        return all ^ all >> 29;
    }
};

struct Cause {
    uint32_t first, second;
};

struct Reason {
    Kind kind;
    Text port, triplet, version;
    uint64_t feature;
    Cause cause;
};

class Closing {
    struct Port {
        Text name;
        const Page *page;
        std::vector<Text> asks;
        std::vector<uint32_t> needs, floors;
    };
    Catalogue &catalogue;
    Dependency root;
    std::vector<Port> ports;
    Index ports_index;
    std::vector<Fact> facts;
    std::vector<Cause> causes;
    Index facts_index;

    uint32_t place(const Text &name) {
        uint32_t &slot =
            ports_index.slot(name.hash(), [&](uint32_t at) { return ports[at].name == name; });
        if (slot)
            return slot - 1;
        const Page &page = catalogue.page(name);
        ports.push_back({name, &page, {page.given}, {}, {}});
        slot = ports.size();
        ports_index.grow([&](uint32_t at) { return ports[at].name.hash(); });
        return ports.size() - 1;
    }
    static uint16_t ask(Port &port, const Text &text) {
        auto found = std::find(port.asks.begin(), port.asks.end(), text);
        if (found == port.asks.end())
            found = port.asks.insert(found, text);
        return found - port.asks.begin();
    }
    void note(Fact fact, Cause cause) {
        uint32_t &slot =
            facts_index.slot(fact.hash(), [&](uint32_t at) { return facts[at] == fact; });
        if (slot)
            return;
        facts.push_back(fact);
        causes.push_back(cause);
        slot = facts.size();
        facts_index.grow([&](uint32_t at) { return facts[at].hash(); });
    }
    void bring(const Dependency &dependency, uint32_t line) {
        uint32_t port = place(dependency.name);
        note({NEED, port, 0, 0}, {line, 0});
        note({NEED, port, 1, 0}, {line, 0});
        if (dependency.minimum)
            note({FLOOR, port, 0, ask(ports[port], dependency.minimum->text)}, {line, 0});
    }
    bool is_before(const Fact &one, const Fact &other) const {
        if (one.kind != other.kind)
            return one.kind < other.kind;
        if (one.kind == ROOT)
            return one.feature < other.feature;
        if (one.port != other.port)
            return ports[one.port].name < ports[other.port].name;
        if (one.feature != other.feature)
            return one.feature < other.feature;
        const auto &asks = ports[one.port].asks;
        return one.ask != other.ask && asks[one.ask] < asks[other.ask];
    }
    void order(size_t from) {
        std::vector<std::pair<Fact, Cause>> level;
        for (size_t at = from; at < facts.size(); ++at)
            level.push_back({facts[at], causes[at]});
        std::sort(level.begin(), level.end(),
                  [&](auto &one, auto &other) { return is_before(one.first, other.first); });
        std::vector<uint32_t *> slots;
        for (const auto &line : level)
            slots.push_back(&facts_index.slot(
                line.first.hash(), [&](uint32_t at) { return facts[at] == line.first; }));
        for (size_t at = 0; at < level.size(); ++at) {
            std::tie(facts[from + at], causes[from + at]) = level[at];
            *slots[at] = from + at + 1;
        }
    }
    void take_up(Fact fact, uint32_t line) {
        if (fact.kind == ROOT) {
            if (fact.feature == 0)
                bring(root, line);
            return;
        }
        Port &port = ports[fact.port];
        if (fact.kind == NEED) {
            note({FLOOR, fact.port, 0, 0}, {line, 0});
            for (uint32_t floor : port.floors)
                note({VISIT, fact.port, fact.feature, facts[floor - 1].ask}, {line, floor});
            port.needs.push_back(line);
            return;
        }
        const Row &row = port.page->row(port.asks[fact.ask]);
        if (fact.kind == FLOOR) {
            for (uint32_t need : port.needs)
                note({VISIT, fact.port, facts[need - 1].feature, fact.ask}, {need, line});
            port.floors.push_back(line);
        } else if (fact.feature == 0) {
            for (const Dependency &dependency : row.manifest->dependencies)
                bring(dependency, line);
        }
    }

public:
    explicit Closing(Catalogue &catalogue) : catalogue(catalogue), root(Catalogue::on(0, "1.1")) {}

    std::vector<Reason> reasons(const Text &triplet) {
        note({ROOT, 0, 0, 0}, {0, 0});
        note({ROOT, 0, 1, 0}, {0, 0});
        for (size_t taken = 0; taken < facts.size();) {
            size_t end = facts.size();
            order(taken);
            for (; taken < end; ++taken)
                take_up(facts[taken], taken + 1);
        }
        Text none;
        std::vector<Reason> reasons;
        reasons.reserve(facts.size());
        for (size_t at = 0; at < facts.size(); ++at) {
            const Fact &fact = facts[at];
            const Port &port = ports[fact.port];
            reasons.push_back({fact.kind, fact.kind == ROOT ? none : port.name, triplet,
                               fact.kind < FLOOR ? none : port.asks[fact.ask], fact.feature,
                               causes[at]});
        }
        return reasons;
    }
};

int main() {
    std::string word, shape;
    int size;
    while (std::cin >> word >> shape >> size) {
        Catalogue catalogue(size);
        Text triplet("x64-linux");
        Closing closing(catalogue);
        auto start = std::chrono::steady_clock::now();
        std::vector<Reason> reasons = closing.reasons(triplet);
        long micros = std::chrono::duration_cast<std::chrono::microseconds>(
                          std::chrono::steady_clock::now() - start)
                          .count();
        std::fprintf(stderr, "%s %d: closed %ld us, planned %ld us\n", shape.c_str(), size, micros,
                     micros);
        std::printf("%s %d: %zu facts\n", shape.c_str(), size, reasons.size());
    }
}
