// Parses the documents of the standard input by simdjson, whose second thread reads ahead, and prints each without blanks.
#include <iostream>
#include <iterator>

#include "simdjson.h"

int main() {
    std::string text(std::istreambuf_iterator<char>(std::cin), {});
    simdjson::dom::parser parser;
    simdjson::dom::document_stream documents;
    if (parser.parse_many(text, 1024).get(documents)) return 1;
    for (auto document : documents) std::cout << simdjson::minify(document.value()) << "\n";
}
