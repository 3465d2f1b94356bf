// Parses each line of the standard input as JSON, by nlohmann's library in tasks of their own, and prints it without blanks and
// with its keys in order.
#include <future>
#include <iostream>
#include <nlohmann/json.hpp>
#include <string>
#include <vector>

int main() {
    std::vector<std::future<std::string>> tasks;
    for (std::string line; std::getline(std::cin, line);)
        tasks.push_back(std::async(std::launch::async, [line] { return nlohmann::json::parse(line).dump(); }));
    for (auto &task : tasks) std::cout << task.get() << "\n";
}
