// Three threads put words into a queue that owns them, a fourth one takes them and keeps in a set which lengths it saw.
#include <mooringakee.hpp>

#include <cstdio>
#include <string>
#include <thread>
#include <vector>

int main() {
    constexpr std::size_t putters = 3, words = 1000, kept = 10;
    mooringakee::queue<std::string> queue(128, putters + 1);
    mooringakee::set lengths(64, 4, 2);

    auto taker = queue.take_pass();
    std::vector<std::thread> threads;
    for (std::size_t putter = 0; putter < putters; putter++) {
        threads.emplace_back([putter, pass = queue.take_pass()]() mutable {
            for (std::size_t i = 0; i < words; i++) {
                auto word = std::make_unique<std::string>(putter + 1 + i % 10, 'x');
                while (!pass.enqueue(word)) std::this_thread::yield();
            }
        });
    }
    // each agent has its pass now
    try {
        queue.take_pass();
        return 1;
    } catch (const std::out_of_range &) {
    }

    auto seen = lengths.take_pass();
    std::size_t taken = 0;
    while (taken < putters * words - kept) {
        if (auto word = taker.dequeue()) {
            seen.insert(word->size());
            taken++;
        } else {
            std::this_thread::yield();
        }
    }
    for (auto &thread : threads) thread.join();

    auto other = lengths.take_pass();
    std::size_t different = 0;
    for (std::uint64_t length = 0; length < 64; length++) different += other.contains(length);
    std::printf("%zu words of %zu lengths were taken, %zu are left to the queue\n", taken, different, kept);

    // a split-ordered set has more buckets once it has many keys
    auto numbers = mooringakee::set::split_ordered(256, 16, 1).take_pass();
    for (std::uint64_t number = 0; number < 64; number++) numbers.insert(number);
    auto buckets = numbers.buckets();
    if (seen.buckets() || !buckets || *buckets < 2 || !numbers.contains(63) || numbers.contains(64)) return 1;

    // the last pass is told of the set's rows
    auto none = other.close();
    auto rows = seen.close();
    if (none || !rows || rows->linked != different || rows->given != rows->reused + rows->linked) return 1;

    // numbers out of range are refused
    try {
        mooringakee::queue<int> none(1, 2);
        return 1;
    } catch (const mooringakee::refused &why) {
        return why.code() == MOORINGAKEE_SHAPE && different == 12 ? 0 : 1;
    }
}
