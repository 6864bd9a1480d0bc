// Reads a JSON text from standard input as a simdjson document and writes it to standard output by `minify`.
#include <cstdio>
#include <string>

#include "simdjson.h"

int main() {
    std::string text;
    char buffer[65536];
    for (size_t got; (got = fread(buffer, 1, sizeof buffer, stdin)) > 0;) {
        text.append(buffer, got);
    }
    simdjson::dom::parser parser;
    simdjson::dom::element document;
    if (parser.parse(text).get(document)) {
        return 1;
    }
    std::string out = simdjson::minify(document);
    fwrite(out.data(), 1, out.size(), stdout);
    return 0;
}
