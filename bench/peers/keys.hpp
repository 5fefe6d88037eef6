// Keys and values: those of crates/bench_store, and keys in order.
#pragma once

#include <array>
#include <cstdint>
#include <cstring>
#include <string_view>

namespace peers {

using Key = std::array<char, 16>;
using Value = std::array<char, 100>;

template <class Bytes>
std::string_view view(const Bytes& bytes) {
    return {bytes.data(), bytes.size()};
}

// The key that ends with a number. The keys of numbers in order are in order.
inline Key ordered_key_of(std::uint32_t number) {
    Key key;
    std::memcpy(key.data(), "bench:key:00", 12);
    for (int place = 0; place < 4; place++) {
        key[12 + place] = static_cast<char>(number >> (24 - 8 * place));
    }
    return key;
}

// Other numbers have other keys, and the keys of numbers in order are in an order that looks random.
inline Key key_of(std::uint32_t number) { return ordered_key_of(number * 2654435761U); }

// The value of a key that is put in a round: the key, and then the number of the round in each byte.
inline Value value_of(const Key& key, std::uint8_t round) {
    Value value;
    value.fill(static_cast<char>(round));
    std::memcpy(value.data(), key.data(), key.size());
    return value;
}

// Whether a value is that of a key in a round, by its beginning and its end.
inline bool is_value(std::string_view value, std::string_view key, std::uint8_t round) {
    return value.size() == std::tuple_size<Value>::value && value.substr(0, key.size()) == key &&
           value.back() == static_cast<char>(round);
}

} // namespace peers
