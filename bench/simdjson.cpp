// The work of `records` on the script [] or, for a path of keys, [["get",[KEY,..]]], done with simdjson's DOM:
//     g++ -O3 -march=native bench/simdjson.cpp -lsimdjson -o simdjson && ./simdjson KEY < big.jsonl > expected.jsonl
//
// Lines are parsed where they were read, and all that is made is kept from line to line: the input, the parser, the
// printer and the output. A line that is no document gives {"error":true}, since simdjson says no place of a fault.
#include <simdjson.h>

#include <cstring>
#include <string>
#include <string_view>
#include <vector>

#include <unistd.h>

using namespace simdjson;

// Bytes that wait for one write.
class Output {
public:
    void put(std::string_view text) { bytes.append(text); }

    bool is_full() const { return bytes.size() >= FULL; }

    bool write_out() {
        size_t done = 0;
        while (done < bytes.size()) {
            ssize_t taken = write(STDOUT_FILENO, bytes.data() + done, bytes.size() - done);
            if (taken <= 0) {
                return false;
            }
            done += taken;
        }
        bytes.clear();
        return true;
    }

private:
    static constexpr size_t FULL = 65536;
    std::string bytes;
};

class Records {
public:
    // With no keys the script has no command.
    explicit Records(std::vector<std::string_view> path) : path(std::move(path)) {}

    // Appends the record of a line. SIMDJSON_PADDING bytes behind the line have to be readable.
    void put(const char *line, size_t len, Output &out) {
        dom::element document;
        if (parser.parse(line, len, false).get(document)) {
            out.put("{\"error\":true}\n");
            return;
        }
        out.put("{\"replies\":[");
        if (!path.empty()) {
            put_reply(document, out);
        }
        out.put("],\"document\":");
        put_value(document, out);
        out.put("}\n");
    }

private:
    std::vector<std::string_view> path;
    dom::parser parser;
    internal::string_builder<> printer;

    void put_value(dom::element value, Output &out) {
        printer.clear();
        printer.append(value);
        out.put(printer.str());
    }

    void put_reply(dom::element document, Output &out) {
        simdjson_result<dom::element> found(std::move(document));
        for (std::string_view key : path) {
            found = found.at_key(key);
        }
        out.put("[");
        dom::element value;
        if (!found.get(value)) {
            put_value(value, out);
        }
        out.put("]");
    }
};

int main(int argc, char **argv) {
    constexpr size_t PIECE = 65536;
    std::vector<char> input(PIECE + SIMDJSON_PADDING);
    size_t kept = 0; // the bytes of a line whose end wasn't read yet
    Records records({argv + 1, argv + argc});
    Output out;
    for (;;) {
        size_t room = input.size() - SIMDJSON_PADDING;
        if (kept == room) {
            room *= 2;
            input.resize(room + SIMDJSON_PADDING);
        }
        ssize_t taken = read(STDIN_FILENO, input.data() + kept, room - kept);
        if (taken < 0) {
            return 1;
        }
        if (taken == 0) {
            break;
        }
        const char *line = input.data();
        const char *rest = line + kept;
        const char *end = rest + taken;
        while (const void *feed = std::memchr(rest, '\n', end - rest)) {
            rest = static_cast<const char *>(feed);
            records.put(line, rest - line, out);
            if (out.is_full() && !out.write_out()) {
                return 1;
            }
            line = ++rest;
        }
        kept = end - line;
        std::memmove(input.data(), line, kept);
    }
    if (kept > 0) {
        records.put(input.data(), kept, out);
    }
    return out.write_out() ? 0 : 1;
}
