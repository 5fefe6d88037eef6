// LevelDB, as its options are by default.

#include "program.hpp"

#include <leveldb/db.h>
#include <leveldb/write_batch.h>
#include <memory>

namespace {

leveldb::Slice slice(std::string_view bytes) { return {bytes.data(), bytes.size()}; }

std::string_view view(const leveldb::Slice& bytes) { return {bytes.data(), bytes.size()}; }

void check(const leveldb::Status& status) {
    if (!status.ok()) {
        throw std::runtime_error(status.ToString());
    }
}

class Store {
public:
    static constexpr bool TAKES_THREADS = true;

    Store(const std::string& folder, std::uint32_t, std::size_t buffer) {
        leveldb::Options options;
        options.create_if_missing = true;
        if (buffer != 0) {
            options.write_buffer_size = buffer;
        }
        leveldb::DB* opened = nullptr;
        check(leveldb::DB::Open(options, folder, &opened));
        db_.reset(opened);
    }

    static std::string version() {
        return std::to_string(leveldb::kMajorVersion) + "." + std::to_string(leveldb::kMinorVersion);
    }

    void set_synced(bool synced) { writing_.sync = synced; }

    void put(std::string_view key, std::string_view value) { check(db_->Put(writing_, slice(key), slice(value))); }

    void begin() { batch_.Clear(); }

    void add(std::string_view key, std::string_view value) { batch_.Put(slice(key), slice(value)); }

    void commit() { check(db_->Write(writing_, &batch_)); }

    template <class Look>
    bool get(std::string_view key, Look look) {
        static thread_local std::string value;
        leveldb::Status status = db_->Get({}, slice(key), &value);
        if (status.IsNotFound()) {
            return false;
        }
        check(status);
        look(value);
        return true;
    }

    template <class Look>
    std::string rows(std::string_view from, std::size_t most, Look look) {
        std::unique_ptr<leveldb::Iterator> place(db_->NewIterator({}));
        place->Seek(slice(from));
        for (std::size_t count = 0; count < most && place->Valid(); count++, place->Next()) {
            look(view(place->key()), view(place->value()));
        }
        check(place->status());
        return place->Valid() ? place->key().ToString() : "";
    }

private:
    std::unique_ptr<leveldb::DB> db_;
    leveldb::WriteOptions writing_;
    leveldb::WriteBatch batch_;
};

} // namespace

int main(int count, char** words) { return peers::main_of<Store>(count, words); }
