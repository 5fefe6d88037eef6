// The workloads, over any store that has
//
//     Store(folder, keys, buffer)          opens it for so many keys, with a write buffer of so many bytes, or where
//                                          they are 0 of as many as it takes by itself
//     set_synced(synced)                   whether what is put from here on is synced
//     put(key, value)                      puts one
//     begin(), add(key, value), commit()   puts many at once
//     get(key, look)                       has `look` see the value, and tells whether there is one
//     rows(from, most, look)               has `look` see so many keys and values, and answers the key behind them, or
//                                          none
//
// and TAKES_THREADS, whether several threads may put and get at the same time.
#pragma once

#include "keys.hpp"
#include "waits.hpp"

#include <filesystem>
#include <limits>
#include <memory>
#include <optional>
#include <stdexcept>
#include <string>

namespace peers {

constexpr std::uint32_t SYNCED = 1'000;
constexpr std::uint32_t BATCH = 100;
constexpr std::size_t PAGE = 64;
constexpr std::uint32_t SCANS = 5;
constexpr std::uint32_t THREADS = 4;

template <class Store>
class Workloads {
public:
    Workloads(std::string folder, std::uint32_t keys, std::size_t buffer)
        : folder_(std::move(folder)), keys_(keys), buffer_(buffer) {
        if (keys_ < BATCH || keys_ % BATCH != 0) {
            throw std::runtime_error("the keys are no whole batches");
        }
    }

    // Does a row, and answers nothing where the engine doesn't have it.
    std::optional<Figures> run(const std::string& row) {
        if (row == "fill") {
            renew();
            return put_singly(key_of);
        }
        if (row == "load") {
            renew();
            return put_batches();
        }
        if (row == "keys in order") {
            return put_in_order();
        }
        if (row == "4 readers" || row == "4 clients") {
            return run_threads(row);
        }
        ensure_filled();
        return run_filled(row);
    }

private:
    static void check(bool is_right) {
        if (!is_right) {
            throw std::runtime_error("wrong answers");
        }
    }

    Figures run_filled(const std::string& row) {
        if (row == "overwrite") {
            return put_singly(key_of);
        }
        if (row == "batches of 100") {
            return put_batches();
        }
        if (row == "synced puts") {
            return put_synced();
        }
        if (row == "get hit") {
            open_again();
            return with_waits([this](bool each) { return each ? find_each(key_of) : find_all(key_of); });
        }
        if (row == "get miss") {
            return with_waits([this](bool each) { return miss_all(each); });
        }
        if (row == "pages of 64") {
            return read_pages();
        }
        if (row == "whole scan") {
            return read_whole();
        }
        throw std::runtime_error("no such row: " + row);
    }

    std::optional<Figures> run_threads([[maybe_unused]] const std::string& row) {
        if constexpr (Store::TAKES_THREADS) {
            ensure_filled();
            if (row == "4 clients") {
                return put_by_threads();
            }
            open_again();
            return with_waits([this](bool each) { return find_by_threads(each); });
        }
        return std::nullopt;
    }

    // Closes the store and opens it again, so that nothing is in its own caches.
    void open_again() {
        store_.reset();
        store_ = std::make_unique<Store>(folder_, keys_, buffer_);
        rest();
    }

    // Makes an empty store.
    void renew() {
        store_.reset();
        std::filesystem::remove_all(folder_);
        std::filesystem::create_directories(folder_);
        store_ = std::make_unique<Store>(folder_, keys_, buffer_);
    }

    // Loads the store where no row before has filled it.
    void ensure_filled() {
        if (round_ == 0) {
            renew();
            put_batches();
            rest();
        }
    }

    template <class KeyOf>
    Figures put_singly(KeyOf key_of_number) {
        std::uint8_t round = ++round_;
        return timed_each(keys_, [&](std::uint32_t number) {
            Key key = key_of_number(number);
            store_->put(view(key), view(value_of(key, round)));
        });
    }

    Figures put_in_order() {
        renew();
        Figures figures = put_singly(ordered_key_of);
        check(find_all(ordered_key_of).operations == keys_);
        round_ = 0;
        return figures;
    }

    // Puts all keys again, every fourth one by the same thread.
    Figures put_by_threads() {
        static_assert(BATCH % THREADS == 0, "each thread has as many keys");
        std::uint8_t round = ++round_;
        Figures figures = timed_threads(THREADS, [this, round](std::uint32_t thread) {
            return pass_of_each(keys_ / THREADS, [this, round, thread](std::uint32_t place) {
                Key key = key_of(THREADS * place + thread);
                store_->put(view(key), view(value_of(key, round)));
            });
        });
        check(find_all(key_of).operations == keys_);
        return figures;
    }

    // An operation is a put. A wait is that of a batch.
    Figures put_batches() {
        std::uint8_t round = ++round_;
        Figures figures = timed_each(keys_ / BATCH, [&](std::uint32_t batch) {
            store_->begin();
            for (std::uint32_t number = batch * BATCH; number < (batch + 1) * BATCH; number++) {
                Key key = key_of(number);
                store_->add(view(key), view(value_of(key, round)));
            }
            store_->commit();
        });
        figures.operations = keys_;
        return figures;
    }

    // Puts again what the round before has put, each one synced. One before them, which is not counted, takes along
    // what is not yet synced.
    Figures put_synced() {
        store_->set_synced(true);
        Key first = key_of(0);
        store_->put(view(first), view(value_of(first, round_)));
        Figures figures = timed_each(std::min(SYNCED, keys_), [&](std::uint32_t number) {
            Key key = key_of(number);
            store_->put(view(key), view(value_of(key, round_)));
        });
        store_->set_synced(false);
        return figures;
    }

    // Gets a key of each number, in another order than that in which they were put.
    template <class KeyOf>
    void find(std::uint32_t place, KeyOf key_of_number) {
        Key key = key_of_number(static_cast<std::uint32_t>(std::uint64_t{place} * 7'919 % keys_));
        Value wanted = value_of(key, round_);
        bool is_same = false;
        store_->get(view(key), [&](std::string_view value) { is_same = value == view(wanted); });
        check(is_same);
    }

    template <class KeyOf>
    Figures find_all(KeyOf key_of_number) {
        return timed(keys_, [&](std::uint32_t place) { find(place, key_of_number); });
    }

    template <class KeyOf>
    Figures find_each(KeyOf key_of_number) {
        return timed_each(keys_, [&](std::uint32_t place) { find(place, key_of_number); });
    }

    // Each thread gets all keys, in the order of one thread alone, and begins a quarter further on than the one before.
    Figures find_by_threads(bool each) {
        return timed_threads(THREADS, [this, each](std::uint32_t thread) {
            std::uint32_t first = keys_ / THREADS * thread;
            auto find_one = [this, first](std::uint32_t place) { find((first + place) % keys_, key_of); };
            return each ? pass_of_each(keys_, find_one) : pass_of_all(keys_, find_one);
        });
    }

    Figures miss_all(bool each) {
        auto miss = [&](std::uint32_t place) {
            Key key = key_of(keys_ + place);
            check(!store_->get(view(key), [](std::string_view) {}));
        };
        return each ? timed_each(keys_, miss) : timed(keys_, miss);
    }

    // The rate of one pass without a reading of the clock at each operation, and the waits of another one behind it.
    template <class Pass>
    static Figures with_waits(Pass pass) {
        Figures figures = pass(false);
        figures.waits = pass(true).waits;
        return figures;
    }

    // Each page is a call of its own, which begins with the key that the one before told.
    Figures read_pages() {
        std::uint64_t right = 0;
        std::string from;
        auto look = [&](std::string_view key, std::string_view value) { right += is_value(value, key, round_); };
        auto pages = static_cast<std::uint32_t>((keys_ + PAGE - 1) / PAGE);
        Figures figures = timed_each(pages * SCANS, [&](std::uint32_t) { from = store_->rows(from, PAGE, look); });
        check(right == std::uint64_t{keys_} * SCANS && from.empty());
        return figures;
    }

    // An operation is a row. No wait of a single one is taken.
    Figures read_whole() {
        std::uint64_t right = 0;
        auto look = [&](std::string_view key, std::string_view value) { right += is_value(value, key, round_); };
        std::size_t all = std::numeric_limits<std::size_t>::max();
        Figures figures = timed(SCANS, [&](std::uint32_t) { store_->rows("", all, look); });
        figures.operations = std::uint64_t{keys_} * SCANS;
        check(right == figures.operations);
        return figures;
    }

    std::string folder_;
    std::uint32_t keys_;
    std::size_t buffer_;
    std::unique_ptr<Store> store_;
    // The round of the values that all keys have, or 0 where the store has not all of them.
    std::uint8_t round_ = 0;
};

} // namespace peers
