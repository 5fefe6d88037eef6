// Corwaphi from C: by the library of clients/c, in a store with room for the keys. The compiler is told CORWAPHI_VERSION.

#include "program.hpp"

#include <algorithm>
#include <corwaphi.h>

namespace {

using peers::Key;
using peers::Value;

void check(std::uint32_t code) {
    if (code != CORWAPHI_OK) {
        throw std::runtime_error(std::string(corwaphi_name(code)) + ": " + corwaphi_remedy(code));
    }
}

// Whether there is what was asked for.
bool found(std::uint32_t code) {
    if (code != CORWAPHI_NO_VALUE) {
        check(code);
    }
    return code == CORWAPHI_OK;
}

std::string_view view(const std::uint8_t* bytes, std::size_t length) {
    return {reinterpret_cast<const char*>(bytes), length};
}

// A store of 32 MiB at least, which is what the library makes by itself, and a larger one where twice as many keys want
// it by the formula of docs/operating.md: rows put each key again. No store is larger than 512 MiB.
corwaphi_options options_for(std::uint32_t keys) {
    constexpr std::uint64_t entries = 4'094 / (sizeof(Key) + sizeof(Value) + 12);
    constexpr std::uint16_t log = 2'042;
    constexpr std::uint32_t cache = 4'096;
    std::uint64_t blocks = 23 * std::uint64_t{2} * keys / (10 * entries);
    std::uint64_t sectors = std::clamp<std::uint64_t>(8 * blocks + 3 * log + 130, 65'536, 1'048'576);
    return {cache, static_cast<std::uint32_t>(sectors), log};
}

// All rows of one moment from a key on, which the library reads by pages.
class Cursor {
public:
    Cursor(corwaphi store, std::string_view from) {
        check(corwaphi_cursor_begin(store, from.data(), from.size(), nullptr, 0, &cursor_));
    }
    ~Cursor() { corwaphi_cursor_end(cursor_); }
    Cursor(const Cursor&) = delete;
    Cursor& operator=(const Cursor&) = delete;

    bool next(corwaphi_row& row) { return found(corwaphi_cursor_next(cursor_, &row)); }

private:
    corwaphi_cursor* cursor_ = nullptr;
};

class Store {
public:
    static constexpr bool TAKES_THREADS = true;

    Store(const std::string& folder, std::uint32_t keys, std::size_t) {
        corwaphi_options options = options_for(keys);
        check(corwaphi_open_or_create((folder + "/store.img").c_str(), &options, &store_));
    }

    ~Store() {
        corwaphi_batch_free(&batch_);
        corwaphi_close(store_);
    }

    Store(const Store&) = delete;
    Store& operator=(const Store&) = delete;

    static std::string version() { return CORWAPHI_VERSION; }

    void set_synced(bool synced) { synced_ = synced; }

    void put(std::string_view key, std::string_view value) {
        check(corwaphi_put(store_, key.data(), key.size(), value.data(), value.size(), nullptr));
        sync();
    }

    void begin() { corwaphi_batch_clear(&batch_); }

    void add(std::string_view key, std::string_view value) {
        check(corwaphi_batch_put(&batch_, key.data(), key.size(), value.data(), value.size()));
    }

    void commit() {
        check(corwaphi_write(store_, batch_.text, batch_.length, nullptr));
        sync();
    }

    template <class Look>
    bool get(std::string_view key, Look look) {
        static thread_local std::array<std::uint8_t, CORWAPHI_MOST_VALUE> value;
        std::size_t length = 0;
        std::uint32_t code =
            corwaphi_get(store_, CORWAPHI_NOW, key.data(), key.size(), value.data(), value.size(), &length);
        if (!found(code)) {
            return false;
        }
        look(view(value.data(), length));
        return true;
    }

    template <class Look>
    std::string rows(std::string_view from, std::size_t most, Look look) {
        return most <= CORWAPHI_MOST_ROWS ? rows_of_page(from, most, look) : rows_of_cursor(from, most, look);
    }

private:
    void sync() {
        if (synced_) {
            check(corwaphi_sync(store_));
        }
    }

    template <class Look>
    std::string rows_of_page(std::string_view from, std::size_t most, Look look) {
        corwaphi_page page;
        check(corwaphi_rows(store_, CORWAPHI_NOW, from.data(), from.size(), nullptr, 0, most, page_.data(),
                            page_.size(), &page));
        corwaphi_row row;
        while (corwaphi_page_row(&page, &row)) {
            look(view(row.key, row.key_length), view(row.value, row.value_length));
        }
        return page.has_next ? std::string(view(page.next.key, page.next.key_length)) : "";
    }

    template <class Look>
    std::string rows_of_cursor(std::string_view from, std::size_t most, Look look) {
        Cursor cursor(store_, from);
        corwaphi_row row;
        bool has_one = cursor.next(row);
        for (std::size_t count = 0; count < most && has_one; count++) {
            look(view(row.key, row.key_length), view(row.value, row.value_length));
            has_one = cursor.next(row);
        }
        return has_one ? std::string(view(row.key, row.key_length)) : "";
    }

    corwaphi store_{};
    corwaphi_batch batch_ = CORWAPHI_BATCH;
    bool synced_ = false;
    std::array<std::uint8_t, CORWAPHI_PAGE_BYTES> page_{};
};

} // namespace

int main(int count, char** words) { return peers::main_of<Store>(count, words); }
