// RocksDB, as its options are by default.

#include "program.hpp"

#include <memory>
#include <rocksdb/db.h>
#include <rocksdb/version.h>
#include <rocksdb/write_batch.h>

namespace {

rocksdb::Slice slice(std::string_view bytes) { return {bytes.data(), bytes.size()}; }

std::string_view view(const rocksdb::Slice& bytes) { return {bytes.data(), bytes.size()}; }

void check(const rocksdb::Status& status) {
    if (!status.ok()) {
        throw std::runtime_error(status.ToString());
    }
}

class Store {
public:
    static constexpr bool TAKES_THREADS = true;

    Store(const std::string& folder, std::uint32_t, std::size_t buffer) {
        rocksdb::Options options;
        options.create_if_missing = true;
        if (buffer != 0) {
            options.write_buffer_size = buffer;
        }
        rocksdb::DB* opened = nullptr;
        check(rocksdb::DB::Open(options, folder, &opened));
        db_.reset(opened);
    }

    static std::string version() {
        return std::to_string(ROCKSDB_MAJOR) + "." + std::to_string(ROCKSDB_MINOR) + "." +
               std::to_string(ROCKSDB_PATCH);
    }

    void set_synced(bool synced) { writing_.sync = synced; }

    void put(std::string_view key, std::string_view value) { check(db_->Put(writing_, slice(key), slice(value))); }

    void begin() { batch_.Clear(); }

    void add(std::string_view key, std::string_view value) { check(batch_.Put(slice(key), slice(value))); }

    void commit() { check(db_->Write(writing_, &batch_)); }

    template <class Look>
    bool get(std::string_view key, Look look) {
        rocksdb::PinnableSlice value;
        rocksdb::Status status = db_->Get({}, db_->DefaultColumnFamily(), slice(key), &value);
        if (status.IsNotFound()) {
            return false;
        }
        check(status);
        look(view(value));
        return true;
    }

    template <class Look>
    std::string rows(std::string_view from, std::size_t most, Look look) {
        std::unique_ptr<rocksdb::Iterator> place(db_->NewIterator({}));
        place->Seek(slice(from));
        for (std::size_t count = 0; count < most && place->Valid(); count++, place->Next()) {
            look(view(place->key()), view(place->value()));
        }
        check(place->status());
        return place->Valid() ? place->key().ToString() : "";
    }

private:
    std::unique_ptr<rocksdb::DB> db_;
    rocksdb::WriteOptions writing_;
    rocksdb::WriteBatch batch_;
};

} // namespace

int main(int count, char** words) { return peers::main_of<Store>(count, words); }
