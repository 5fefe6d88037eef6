// SQLite, a table of keys and values with a write-ahead log. What is not synced is put under `synchronous=NORMAL`,
// which syncs at checkpoints alone, and what is under `synchronous=FULL`.

#include "program.hpp"

#include <sqlite3.h>

namespace {

class Store {
public:
    // A statement is used by one thread at a time.
    static constexpr bool TAKES_THREADS = false;

    Store(const std::string& folder, std::uint32_t, std::size_t) {
        check(sqlite3_open((folder + "/map.db").c_str(), &db_));
        execute("PRAGMA journal_mode=WAL");
        execute("PRAGMA synchronous=NORMAL");
        execute("CREATE TABLE IF NOT EXISTS map(key BLOB PRIMARY KEY, value BLOB NOT NULL) WITHOUT ROWID");
        putting_ = prepared("INSERT OR REPLACE INTO map VALUES(?1, ?2)");
        getting_ = prepared("SELECT value FROM map WHERE key = ?1");
        scanning_ = prepared("SELECT key, value FROM map WHERE key >= ?1 ORDER BY key");
        beginning_ = prepared("BEGIN");
        committing_ = prepared("COMMIT");
    }

    ~Store() {
        for (sqlite3_stmt* statement : {putting_, getting_, scanning_, beginning_, committing_}) {
            sqlite3_finalize(statement);
        }
        sqlite3_close(db_);
    }

    Store(const Store&) = delete;
    Store& operator=(const Store&) = delete;

    static std::string version() { return sqlite3_libversion(); }

    void set_synced(bool synced) { execute(synced ? "PRAGMA synchronous=FULL" : "PRAGMA synchronous=NORMAL"); }

    void put(std::string_view key, std::string_view value) { add(key, value); }

    void begin() { run(beginning_); }

    void add(std::string_view key, std::string_view value) {
        bind(putting_, 1, key);
        bind(putting_, 2, value);
        run(putting_);
    }

    void commit() { run(committing_); }

    template <class Look>
    bool get(std::string_view key, Look look) {
        bind(getting_, 1, key);
        bool has_one = step(getting_);
        if (has_one) {
            look(column(getting_, 0));
        }
        check(sqlite3_reset(getting_));
        return has_one;
    }

    template <class Look>
    std::string rows(std::string_view from, std::size_t most, Look look) {
        bind(scanning_, 1, from);
        bool has_one = step(scanning_);
        for (std::size_t count = 0; count < most && has_one; count++) {
            look(column(scanning_, 0), column(scanning_, 1));
            has_one = step(scanning_);
        }
        std::string next(has_one ? column(scanning_, 0) : "");
        check(sqlite3_reset(scanning_));
        return next;
    }

private:
    void check(int status) {
        if (status != SQLITE_OK) {
            throw std::runtime_error(db_ == nullptr ? sqlite3_errstr(status) : sqlite3_errmsg(db_));
        }
    }

    void execute(const char* text) { check(sqlite3_exec(db_, text, nullptr, nullptr, nullptr)); }

    sqlite3_stmt* prepared(const char* text) {
        sqlite3_stmt* statement = nullptr;
        check(sqlite3_prepare_v2(db_, text, -1, &statement, nullptr));
        return statement;
    }

    // The bytes have to live until the statement is reset. An empty key is no NULL.
    void bind(sqlite3_stmt* statement, int place, std::string_view bytes) {
        const char* data = bytes.empty() ? "" : bytes.data();
        check(sqlite3_bind_blob(statement, place, data, static_cast<int>(bytes.size()), SQLITE_STATIC));
    }

    // Whether there is a further row.
    bool step(sqlite3_stmt* statement) {
        int status = sqlite3_step(statement);
        if (status != SQLITE_ROW && status != SQLITE_DONE) {
            check(status);
        }
        return status == SQLITE_ROW;
    }

    void run(sqlite3_stmt* statement) {
        step(statement);
        check(sqlite3_reset(statement));
    }

    static std::string_view column(sqlite3_stmt* statement, int place) {
        const void* bytes = sqlite3_column_blob(statement, place);
        return {static_cast<const char*>(bytes), static_cast<std::size_t>(sqlite3_column_bytes(statement, place))};
    }

    sqlite3* db_ = nullptr;
    sqlite3_stmt* putting_ = nullptr;
    sqlite3_stmt* getting_ = nullptr;
    sqlite3_stmt* scanning_ = nullptr;
    sqlite3_stmt* beginning_ = nullptr;
    sqlite3_stmt* committing_ = nullptr;
};

} // namespace

int main(int count, char** words) { return peers::main_of<Store>(count, words); }
