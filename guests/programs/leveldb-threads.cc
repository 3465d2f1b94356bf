// Puts the lines of the standard input into a LevelDB database in memory, by three threads, while a fourth looks them up. It
// prints what stands in the database, which is in the order of the keys: the lines, sorted.
#include <atomic>
#include <cstdio>
#include <iostream>
#include <memory>
#include <string>
#include <thread>
#include <vector>

#include "helpers/memenv/memenv.h"
#include "leveldb/db.h"
#include "leveldb/env.h"

int main() {
    std::unique_ptr<leveldb::Env> env(leveldb::NewMemEnv(leveldb::Env::Default()));
    leveldb::Options options;
    options.create_if_missing = true;
    options.env = env.get();
    options.write_buffer_size = 64 << 10;
    options.compression = leveldb::kNoCompression;
    leveldb::DB *opened;
    if (!leveldb::DB::Open(options, "/database", &opened).ok()) return 1;
    std::unique_ptr<leveldb::DB> database(opened);

    std::vector<std::string> lines;
    for (std::string line; std::getline(std::cin, line);) lines.push_back(line);
    std::vector<std::thread> threads;
    std::atomic<bool> wrong{false};
    for (size_t t = 0; t < 3; t++)
        threads.emplace_back([&, t] {
            for (size_t i = t; i < lines.size(); i += 3)
                if (!database->Put(leveldb::WriteOptions(), lines[i], std::to_string(i)).ok()) wrong = true;
        });
    threads.emplace_back([&] {
        std::string value;
        for (size_t i = 0; i < lines.size(); i += 7) {
            auto status = database->Get(leveldb::ReadOptions(), lines[i], &value);
            if (!status.IsNotFound() && (!status.ok() || value != std::to_string(i))) wrong = true;
        }
    });
    for (auto &thread : threads) thread.join();

    std::unique_ptr<leveldb::Iterator> at(database->NewIterator(leveldb::ReadOptions()));
    for (at->SeekToFirst(); at->Valid(); at->Next()) std::printf("%s\n", at->key().ToString().c_str());
    return wrong;
}
