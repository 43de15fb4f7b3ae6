// The work of `read_bench` for the kinds `tape` and `print`, done with simdjson's DOM:
//     g++ -O3 -march=native bench/read_simdjson.cpp -lsimdjson -o read_simdjson && ./read_simdjson tape FILE 1000
//
// `tape` parses each document into the DOM by one parser, from a copy with padding, which is made before the clock of the
// pass starts. `print` prints documents that were parsed before, by simdjson's own printer, into one buffer. Words, output
// and statuses are those of `read_bench`. The environment variable SIMDJSON_FORCE_IMPLEMENTATION chooses the kernel.
#include <simdjson.h>

#include <algorithm>
#include <charconv>
#include <chrono>
#include <cstdint>
#include <cstdio>
#include <cstring>
#include <fstream>
#include <iterator>
#include <memory>
#include <string>
#include <string_view>
#include <vector>

using namespace simdjson;
using Clock = std::chrono::steady_clock;

// The documents of a file: the whole file if its name ends in .json, and else one a line. As many bytes as simdjson wants
// stand behind the last one.
class Documents {
public:
    Documents(std::string_view name, const std::string &bytes) : copy(bytes.size() + SIMDJSON_PADDING), source(bytes) {
        constexpr std::string_view ending = ".json";
        if (name.size() >= ending.size() && name.substr(name.size() - ending.size()) == ending) {
            parts.push_back({0, source.size()});
            return;
        }
        size_t start = 0;
        while (start < source.size()) {
            size_t end = std::min(source.find('\n', start), source.size());
            parts.push_back({start, end - start});
            start = end + 1;
        }
    }

    // Makes a new copy of the bytes.
    void refresh() { std::memcpy(copy.data(), source.data(), source.size()); }

    size_t count() const { return parts.size(); }
    const char *start(size_t index) const { return copy.data() + parts[index].start; }
    size_t len(size_t index) const { return parts[index].len; }

private:
    struct Part {
        size_t start;
        size_t len;
    };
    std::vector<char> copy;
    const std::string &source;
    std::vector<Part> parts;
};

class TapePass {
public:
    explicit TapePass(Documents &documents) : documents(documents) {}

    void prepare() { documents.refresh(); }

    size_t run() {
        size_t refused = 0;
        for (size_t index = 0; index < documents.count(); index++) {
            dom::element document;
            if (parser.parse(documents.start(index), documents.len(index), false).get(document)) {
                refused++;
            }
        }
        return refused;
    }

private:
    Documents &documents;
    dom::parser parser;
};

class PrintPass {
public:
    explicit PrintPass(Documents &documents) {
        documents.refresh();
        for (size_t index = 0; index < documents.count(); index++) {
            auto parser = std::make_unique<dom::parser>();
            dom::element document;
            if (parser->parse(documents.start(index), documents.len(index), false).get(document)) {
                refused++;
            } else {
                // The document is that of its parser.
                parsers.push_back(std::move(parser));
                roots.push_back(document);
            }
        }
    }

    void prepare() { printer.clear(); }

    size_t run() {
        for (dom::element root : roots) {
            printer.append(root);
        }
        return refused;
    }

private:
    std::vector<std::unique_ptr<dom::parser>> parsers;
    std::vector<dom::element> roots;
    internal::string_builder<> printer;
    size_t refused = 0;
};

// Makes the pass until the time has gone by, at least once, and prints the line of its figures.
template <class Pass> void measure(Pass pass, std::chrono::milliseconds duration) {
    std::vector<int64_t> times;
    size_t refused;
    auto start = Clock::now();
    do {
        pass.prepare();
        auto begin = Clock::now();
        refused = pass.run();
        auto end = Clock::now();
        times.push_back(std::chrono::duration_cast<std::chrono::nanoseconds>(end - begin).count());
    } while (Clock::now() - start < duration);
    std::sort(times.begin(), times.end());
    std::printf("%lld %lld %zu\n", static_cast<long long>(times[times.size() / 2]), static_cast<long long>(times[0]), refused);
}

int main(int count, char **words) {
    std::string_view kind = count == 4 ? words[1] : "";
    std::string_view number = count == 4 ? words[3] : "";
    uint32_t milliseconds = 0;
    auto [end, error] = std::from_chars(number.data(), number.data() + number.size(), milliseconds);
    if ((kind != "tape" && kind != "print") || error != std::errc() || end != number.data() + number.size()) {
        std::fprintf(stderr, "usage: read_simdjson tape|print FILE MILLISECONDS\n");
        return 2;
    }
    std::ifstream file(words[2], std::ios::binary);
    if (!file) {
        std::fprintf(stderr, "cannot read %s\n", words[2]);
        return 1;
    }
    std::string bytes((std::istreambuf_iterator<char>(file)), std::istreambuf_iterator<char>());
    Documents documents(words[2], bytes);
    std::chrono::milliseconds duration(milliseconds);
    if (kind == "tape") {
        measure(TapePass(documents), duration);
    } else {
        measure(PrintPass(documents), duration);
    }
    return 0;
}
