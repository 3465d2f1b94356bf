// Compresses the parts of the standard input by snappy, a thread for each, and prints what is uncompressed from them again.
#include <iostream>
#include <iterator>
#include <string>
#include <thread>
#include <vector>

#include "snappy.h"

int main() {
    const size_t part = 32768;
    std::string text(std::istreambuf_iterator<char>(std::cin), {});
    std::vector<std::string> compressed((text.size() + part - 1) / part);
    std::vector<std::thread> threads;
    for (size_t t = 0; t < compressed.size(); t++)
        threads.emplace_back([&, t] {
            std::string own = text.substr(t * part, part);
            snappy::Compress(own.data(), own.size(), &compressed[t]);
        });
    for (auto &thread : threads) thread.join();
    for (auto &own : compressed) {
        std::string whole;
        if (!snappy::Uncompress(own.data(), own.size(), &whole)) return 1;
        std::cout << whole;
    }
}
