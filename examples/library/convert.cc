// convert++ ACTION FORMAT FILE [BASE [PREFIXES [ASCII [WORD]]]]: what convert.c does, in C++.
#include "rdfconv.h"
#include <cstdlib>
#include <fstream>
#include <iostream>
#include <iterator>
#include <new>
#include <string>
#include <vector>

namespace {

using Bytes = std::vector<uint8_t>;

const std::vector<std::string> formats = { "nt", "nq", "ttl", "trig" };
const char *const reasons[] = RDFCONV_REASONS;

int ended(const std::string &message, int status) {
    std::cerr << "rdfconv: " << message << '\n';
    return status;
}

// The characters of an argument, or none where it is missing.
Bytes argument(const std::vector<std::string> &words, std::size_t n) {
    return n < words.size() ? Bytes(words[n].begin(), words[n].end()) : Bytes();
}

int read_file(const std::string &name, Bytes &into) {
    std::ifstream file(name, std::ios::binary);
    if (!file) return ended("cannot open file", 3);
    file.exceptions(std::ios::badbit);
    try {
        into.assign(std::istreambuf_iterator<char>(file), std::istreambuf_iterator<char>());
    } catch (const std::ios::failure &) {
        return ended("read failed", 3);
    }
    return 0;
}

// The lines with the outcome. The vectors of no bytes give NULL and 0, as does the first output, by which the library says how many bytes
// the lines have.
Bytes convert(const rdfconv_request &request, const Bytes &base, const Bytes &prefixes, const Bytes &word, const Bytes &input,
              rdfconv_outcome &outcome) {
    Bytes lines;
    do {
        lines.resize(outcome.needed);
        rdfconv_convert(&request, base.data(), base.size(), prefixes.data(), prefixes.size(), word.data(), word.size(), input.data(),
                        input.size(), lines.data(), lines.size(), &outcome);
    } while (outcome.needed > lines.size());
    return lines;
}

int tell(const rdfconv_outcome &outcome, bool is_check) {
    switch (outcome.status) {
    case RDFCONV_ACCEPTED:
        if (is_check) std::cout << "accepted, " << outcome.quads << " quads, " << outcome.bytes << " bytes\n";
        return std::cout.flush() ? 0 : ended("write failed", 3);
    case RDFCONV_REFUSED:
        return ended(reasons[outcome.reason] + (" at byte " + std::to_string(outcome.offset)) + ", line " + std::to_string(outcome.line), 1);
    case RDFCONV_PREFIXES:
        return ended("bad prefixes at line " + std::to_string(outcome.line), 2);
    case RDFCONV_MEMORY:
        return ended("out of memory", 4);
    default:
        return ended("no such format, base or word", 2);
    }
}

int run(const std::vector<std::string> &words) {
    if (words.size() < 4) return ended("convert or check, a format, and a file", 2);
    uint64_t format = 0;
    while (format < formats.size() && words[2] != formats[format]) ++format; // 4 is the number of no format
    rdfconv_request request = RDFCONV_REQUEST(format);
    request.ascii = words.size() > 6 ? std::strtoull(words[6].c_str(), nullptr, 10) : 0;
    const Bytes base = argument(words, 4), word = argument(words, 7);
    Bytes prefixes, input;
    int status = words.size() > 5 && words[5] != "-" ? read_file(words[5], prefixes) : 0;
    if (!status) status = read_file(words[3], input);
    if (status) return status;
    rdfconv_outcome outcome = {};
    const bool is_check = words[1] == "check";
    if (is_check) {
        rdfconv_check(&request, base.data(), base.size(), prefixes.data(), prefixes.size(), input.data(), input.size(), &outcome);
    } else {
        const Bytes lines = convert(request, base, prefixes, word, input, outcome);
        std::cout.write(reinterpret_cast<const char *>(lines.data()), static_cast<std::streamsize>(outcome.written));
        if (!std::cout.flush()) return ended("write failed", 3);
    }
    return tell(outcome, is_check);
}

} // namespace

int main(int argc, char **argv) {
    try {
        return run(std::vector<std::string>(argv, argv + argc));
    } catch (const std::bad_alloc &) {
        return ended("out of memory", 4);
    }
}
