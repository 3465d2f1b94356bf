// Threads, futures and locks of C++, with exceptions that pass from thread to thread and through C.
#include <algorithm>
#include <cstdlib>
#include <future>
#include <iostream>
#include <map>
#include <mutex>
#include <stdexcept>
#include <string>
#include <thread>
#include <vector>

static int compare(const void *left, const void *right) {
    int l = *static_cast<const int *>(left), r = *static_cast<const int *>(right);
    if (l == 13 || r == 13) throw std::runtime_error("13 passes through qsort");
    return l - r;
}

// Tasks in turn, more than there are harts. Each seventh throws.
static long tasks(int count) {
    long sum = 0;
    for (int i = 0; i < count; i++) {
        auto task = std::async(std::launch::async, [i] {
            if (i % 7 == 0) throw i;
            return 2L * i;
        });
        try {
            sum += task.get();
        } catch (int number) {
            sum -= number;
        }
    }
    return sum;
}

int main() {
    std::mutex lock;
    std::map<std::string, long> seen;
    std::vector<std::thread> threads;
    for (int t = 0; t < 4; t++)
        threads.emplace_back([&, t] {
            for (int i = 0; i < 20; i++) {
                std::lock_guard<std::mutex> held(lock);
                seen["item " + std::to_string(i)] += t * i;
            }
        });
    for (auto &thread : threads) thread.join();
    int numbers[] = {5, 3, 13, 1, 9};
    try {
        std::qsort(numbers, 5, sizeof *numbers, compare);
    } catch (const std::exception &error) {
        std::cout << error.what() << "\n";
    }
    std::cout << tasks(300) << " " << seen.size() << " " << seen["item 19"] << "\n";
}
