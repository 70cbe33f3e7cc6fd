// The queue and the sets of mooringakee.h for C++17.
//
// A container hands out its passes, one for each agent; each thread calls with a pass of its own. A pass is moved and not
// copied, may go from thread to thread, and gives its place up when it ends. The container lives until its last pass
// has ended, and may end before them.
//
// Calls are made again for as long as others come in between, so none of them answers AGAIN.
#ifndef MOORINGAKEE_HPP
#define MOORINGAKEE_HPP

#include "mooringakee.h"

#include <atomic>
#include <cstddef>
#include <cstdint>
#include <memory>
#include <new>
#include <optional>
#include <stdexcept>
#include <string>
#include <utility>
#include <vector>

namespace mooringakee {

// A refusal, with its code of mooringakee.h.
class refused : public std::runtime_error {
public:
    explicit refused(std::int32_t code) : std::runtime_error(std::string("mooringakee: ") + mooringakee_code_name(code)), code_(code) {}

    std::int32_t code() const noexcept { return code_; }

private:
    std::int32_t code_;
};

// What a container tells of its rows at its end.
using counts = mooringakee_counts;

namespace detail {

inline void check_made(std::int32_t code) {
    if (code == MOORINGAKEE_NO_MEMORY) throw std::bad_alloc();
    if (code != MOORINGAKEE_OK) throw refused(code);
}

// Makes a call until others no longer come in between.
template <class Call> std::int32_t until_answered(Call call) {
    std::int32_t code = MOORINGAKEE_AGAIN;
    while (code == MOORINGAKEE_AGAIN) code = call();
    return code;
}

// A pass that is dropped where it ends.
class raw_pass {
public:
    raw_pass() noexcept = default;
    raw_pass(raw_pass &&other) noexcept : pass_(std::exchange(other.pass_, mooringakee_pass{})) {}
    raw_pass &operator=(raw_pass &&other) noexcept {
        std::swap(pass_, other.pass_);
        return *this;
    }
    ~raw_pass() { mooringakee_drop(&pass_); }

    bool is_live() const noexcept { return pass_.live; }
    mooringakee_pass *at() noexcept { return &pass_; }

    // Ends the pass. The last one of its container is told of the rows.
    std::optional<counts> close() {
        counts told{};
        std::int32_t code = mooringakee_close(&pass_, &told);
        if (code == MOORINGAKEE_OTHERS) return std::nullopt;
        check_made(code);
        return told;
    }

    // Passes that a make fills, in order of agent.
    template <class Make> static std::vector<raw_pass> made(std::size_t agents, Make make) {
        mooringakee_pass passes[MOORINGAKEE_MOST_AGENTS] = {};
        if (agents > MOORINGAKEE_MOST_AGENTS) throw refused(MOORINGAKEE_SHAPE);
        std::vector<raw_pass> all(agents);
        check_made(make(passes));
        for (std::size_t i = 0; i < agents; i++) all[i].pass_ = passes[i];
        return all;
    }

private:
    mooringakee_pass pass_{};
};

// The next of these passes, in order of agent.
inline raw_pass next_of(std::vector<raw_pass> &passes) {
    if (passes.empty()) throw std::out_of_range("mooringakee: each agent has its pass");
    raw_pass pass = std::move(passes.front());
    passes.erase(passes.begin());
    return pass;
}

} // namespace detail

// A queue of values that it owns. What is left in it is deleted with its last pass.
template <class T> class queue {
    static_assert(sizeof(T *) == sizeof(std::uint64_t), "a pointer is a value of 64 bits");

public:
    // One agent's pass.
    class pass {
    public:
        pass(pass &&) noexcept = default;
        pass &operator=(pass &&other) noexcept {
            std::swap(raw_, other.raw_);
            std::swap(passes_, other.passes_);
            return *this;
        }
        ~pass() { delete_left(); }

        // Ends the pass. The queue's last one is told of its rows, once the values that were left are deleted; the others get
        // nothing. Throws `refused` where the pass has ended before, and std::bad_alloc where nothing can be told.
        std::optional<counts> close() {
            delete_left();
            return raw_.close();
        }

        // Puts a value, which is not null, at the back, and takes it over. False where no row is free: then it stays.
        bool enqueue(std::unique_ptr<T> &value) {
            if (!value) throw std::invalid_argument("mooringakee: a null pointer");
            auto number = static_cast<std::uint64_t>(reinterpret_cast<std::uintptr_t>(value.get()));
            std::int32_t code = detail::until_answered([&] { return mooringakee_enqueue(raw_.at(), number); });
            if (code == MOORINGAKEE_OK) value.release();
            else if (code != MOORINGAKEE_FULL) throw refused(code);
            return code == MOORINGAKEE_OK;
        }

        // Takes the value at the front; null where the queue is empty.
        std::unique_ptr<T> dequeue() {
            std::uint64_t number = 0;
            std::int32_t code = detail::until_answered([&] { return mooringakee_dequeue(raw_.at(), &number); });
            if (code != MOORINGAKEE_OK && code != MOORINGAKEE_EMPTY) throw refused(code);
            return std::unique_ptr<T>(reinterpret_cast<T *>(static_cast<std::uintptr_t>(number)));
        }

    private:
        friend class queue;
        pass(detail::raw_pass raw, std::shared_ptr<std::atomic<std::size_t>> passes) noexcept
            : raw_(std::move(raw)), passes_(std::move(passes)) {}

        // Called once for each live pass, before it ends.
        void delete_left() {
            if (raw_.is_live() && passes_->fetch_sub(1) == 1)
                while (dequeue()) {}
        }

        detail::raw_pass raw_;
        std::shared_ptr<std::atomic<std::size_t>> passes_; // how many have not ended
    };

    // A queue over 2 to 65,535 rows for 1 to 16 agents. Throws `refused` where a number is out of range, and
    // std::bad_alloc.
    queue(std::uint32_t rows, std::size_t agents, std::uint64_t turns = MOORINGAKEE_TURNS)
        : passes_(std::make_shared<std::atomic<std::size_t>>(agents)),
          left_(detail::raw_pass::made(
              agents, [=](mooringakee_pass *all) { return mooringakee_queue_make(rows, turns, all, agents); })) {}

    queue(queue &&) noexcept = default;
    queue &operator=(queue &&) = delete;
    ~queue() {
        while (!left_.empty()) take_pass();
    }

    // The next agent's pass. Throws std::out_of_range where each has its own.
    pass take_pass() { return pass(detail::next_of(left_), passes_); }

private:
    std::shared_ptr<std::atomic<std::size_t>> passes_;
    std::vector<detail::raw_pass> left_;
};

// A set of numbers, bucketed or split-ordered.
class set {
public:
    // One agent's pass.
    class pass {
    public:
        // Adds a key. False where it was there. Throws `refused` where no row is free, or one is used up.
        bool insert(std::uint64_t key) { return answer(mooringakee_insert, key); }

        // Takes a key out. False where it was not there.
        bool remove(std::uint64_t key) { return answer(mooringakee_remove, key); }

        // Whether a key is there.
        bool contains(std::uint64_t key) { return answer(mooringakee_contains, key); }

        // How many buckets a split-ordered set has; nothing where they are fixed.
        std::optional<std::uint32_t> buckets() {
            std::uint32_t count = 0;
            std::int32_t code = detail::until_answered([&] { return mooringakee_buckets(raw_.at(), &count); });
            if (code == MOORINGAKEE_KIND) return std::nullopt;
            if (code != MOORINGAKEE_OK) throw refused(code);
            return count;
        }

        // Ends the pass. The set's last one is told of its rows; the others get nothing. Throws as a queue's does.
        std::optional<counts> close() { return raw_.close(); }

    private:
        friend class set;
        explicit pass(detail::raw_pass raw) noexcept : raw_(std::move(raw)) {}

        template <class Call> bool answer(Call call, std::uint64_t key) {
            bool is_so = false;
            std::int32_t code = detail::until_answered([&] { return call(raw_.at(), key, &is_so); });
            if (code != MOORINGAKEE_OK) throw refused(code);
            return is_so;
        }

        detail::raw_pass raw_;
    };

    // A set over 2 to 65,535 rows with 1 to 257 buckets for 1 to 16 agents. Throws as a queue does.
    set(std::uint32_t rows, std::uint32_t buckets, std::size_t agents, std::uint64_t turns = MOORINGAKEE_TURNS)
        : left_(detail::raw_pass::made(
              agents, [=](mooringakee_pass *all) { return mooringakee_set_make(rows, buckets, turns, all, agents); })) {}

    // A split-ordered set, which doubles its one bucket as keys come, up to so many, a power of two up to 256.
    static set split_ordered(std::uint32_t rows, std::uint32_t buckets, std::size_t agents,
                             std::uint64_t turns = MOORINGAKEE_TURNS) {
        return set(detail::raw_pass::made(
            agents, [=](mooringakee_pass *all) { return mooringakee_split_set_make(rows, buckets, turns, all, agents); }));
    }

    // The next agent's pass. Throws std::out_of_range where each has its own.
    pass take_pass() { return pass(detail::next_of(left_)); }

private:
    explicit set(std::vector<detail::raw_pass> passes) noexcept : left_(std::move(passes)) {}

    std::vector<detail::raw_pass> left_;
};

} // namespace mooringakee

#endif
