// LMDB, with room for all keys. What is not synced is put under MDB_NOSYNC, since by default each commit is synced.

#include "program.hpp"

#include <lmdb.h>
#include <optional>
#include <utility>

namespace {

// More bytes than a row comes to. The file has as many as are used.
constexpr std::size_t ROOM = std::size_t{4} << 30;

void check(int status) {
    if (status != MDB_SUCCESS) {
        throw std::runtime_error(mdb_strerror(status));
    }
}

MDB_val val(std::string_view bytes) { return {bytes.size(), const_cast<char*>(bytes.data())}; }

std::string_view view(const MDB_val& bytes) { return {static_cast<const char*>(bytes.mv_data), bytes.mv_size}; }

// The transaction that a thread reads with, again for each read, until the thread or the store ends. A program has one
// store at a time.
class Reader {
public:
    Reader() = default;
    ~Reader() { end(); }
    Reader(const Reader&) = delete;
    Reader& operator=(const Reader&) = delete;

    MDB_txn* of(MDB_env* env) {
        if (txn_ == nullptr) {
            check(mdb_txn_begin(env, nullptr, MDB_RDONLY, &txn_));
            mdb_txn_reset(txn_);
        }
        return txn_;
    }

    void end() {
        if (txn_ != nullptr) {
            mdb_txn_abort(std::exchange(txn_, nullptr));
        }
    }

private:
    MDB_txn* txn_ = nullptr;
};

thread_local Reader reader_of_thread;

// A transaction that only reads, for as long as this lives.
class Reading {
public:
    explicit Reading(MDB_env* env) : txn_(reader_of_thread.of(env)) { check(mdb_txn_renew(txn_)); }
    ~Reading() { mdb_txn_reset(txn_); }
    Reading(const Reading&) = delete;
    Reading& operator=(const Reading&) = delete;

    MDB_txn* txn() const { return txn_; }

private:
    MDB_txn* txn_;
};

// A transaction that writes. If it is not committed it is aborted, so that no other thread waits for it.
class Writing {
public:
    explicit Writing(MDB_env* env) { check(mdb_txn_begin(env, nullptr, 0, &txn_)); }
    ~Writing() {
        if (txn_ != nullptr) {
            mdb_txn_abort(txn_);
        }
    }
    Writing(const Writing&) = delete;
    Writing& operator=(const Writing&) = delete;

    MDB_txn* txn() const { return txn_; }

    void put(MDB_dbi dbi, std::string_view key, std::string_view value) {
        MDB_val at = val(key), put = val(value);
        check(mdb_put(txn_, dbi, &at, &put, 0));
    }

    void commit() { check(mdb_txn_commit(std::exchange(txn_, nullptr))); }

private:
    MDB_txn* txn_ = nullptr;
};

class Cursor {
public:
    Cursor(MDB_txn* txn, MDB_dbi dbi) { check(mdb_cursor_open(txn, dbi, &cursor_)); }
    ~Cursor() { mdb_cursor_close(cursor_); }
    Cursor(const Cursor&) = delete;
    Cursor& operator=(const Cursor&) = delete;

    // Moves to a key, and tells whether there is one.
    bool move(MDB_val& key, MDB_val& value, MDB_cursor_op way) {
        int status = mdb_cursor_get(cursor_, &key, &value, way);
        if (status != MDB_NOTFOUND) {
            check(status);
        }
        return status != MDB_NOTFOUND;
    }

private:
    MDB_cursor* cursor_ = nullptr;
};

class Store {
public:
    static constexpr bool TAKES_THREADS = true;

    Store(const std::string& folder, std::uint32_t, std::size_t) {
        check(mdb_env_create(&env_));
        check(mdb_env_set_mapsize(env_, ROOM));
        check(mdb_env_open(env_, folder.c_str(), MDB_NOSYNC, 0644));
        Writing writing(env_);
        check(mdb_dbi_open(writing.txn(), nullptr, 0, &dbi_));
        writing.commit();
    }

    ~Store() {
        reader_of_thread.end();
        batch_.reset();
        mdb_env_close(env_);
    }

    Store(const Store&) = delete;
    Store& operator=(const Store&) = delete;

    static std::string version() {
        int major = 0, minor = 0, patch = 0;
        mdb_version(&major, &minor, &patch);
        return std::to_string(major) + "." + std::to_string(minor) + "." + std::to_string(patch);
    }

    void set_synced(bool synced) { check(mdb_env_set_flags(env_, MDB_NOSYNC, synced ? 0 : 1)); }

    void put(std::string_view key, std::string_view value) {
        Writing writing(env_);
        writing.put(dbi_, key, value);
        writing.commit();
    }

    void begin() { batch_.emplace(env_); }

    void add(std::string_view key, std::string_view value) { batch_->put(dbi_, key, value); }

    void commit() {
        batch_->commit();
        batch_.reset();
    }

    template <class Look>
    bool get(std::string_view key, Look look) {
        Reading reading(env_);
        MDB_val at = val(key), value;
        int status = mdb_get(reading.txn(), dbi_, &at, &value);
        if (status == MDB_NOTFOUND) {
            return false;
        }
        check(status);
        look(view(value));
        return true;
    }

    template <class Look>
    std::string rows(std::string_view from, std::size_t most, Look look) {
        Reading reading(env_);
        Cursor cursor(reading.txn(), dbi_);
        MDB_val key = val(from), value;
        bool has_one = cursor.move(key, value, from.empty() ? MDB_FIRST : MDB_SET_RANGE);
        for (std::size_t count = 0; count < most && has_one; count++) {
            look(view(key), view(value));
            has_one = cursor.move(key, value, MDB_NEXT);
        }
        return has_one ? std::string(view(key)) : "";
    }

private:
    MDB_env* env_ = nullptr;
    MDB_dbi dbi_ = 0;
    std::optional<Writing> batch_;
};

} // namespace

int main(int count, char** words) { return peers::main_of<Store>(count, words); }
