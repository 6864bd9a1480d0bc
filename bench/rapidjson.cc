// Reads a JSON text from standard input as a RapidJSON document and writes it to standard output.
#include <cstdio>
#include <iterator>
#include <string>

#include "rapidjson/document.h"
#include "rapidjson/stringbuffer.h"
#include "rapidjson/writer.h"

int main() {
    std::string text;
    char buffer[65536];
    for (size_t got; (got = fread(buffer, 1, sizeof buffer, stdin)) > 0;) {
        text.append(buffer, got);
    }
    rapidjson::Document document;
    if (document.Parse(text.data(), text.size()).HasParseError()) {
        return 1;
    }
    rapidjson::StringBuffer out;
    rapidjson::Writer<rapidjson::StringBuffer> writer(out);
    document.Accept(writer);
    fwrite(out.GetString(), 1, out.GetSize(), stdout);
    return 0;
}
