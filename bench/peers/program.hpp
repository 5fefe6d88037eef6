// What the program of an engine does: it tells its version, or does workloads as lines of its input name them.
#pragma once

#include "workloads.hpp"

#include <exception>
#include <iostream>

namespace peers {

// Prints a line: operations, nanoseconds of all, the median wait, the 99th percentile, the longest, and for how many
// nanoseconds threads of the engine were busy after the last operation. Where no waits were taken a sign stands in
// their places.
inline void print(const Figures& figures, Nanos rested) {
    std::cout << figures.operations << '\t' << figures.nanos << '\t';
    if (figures.waits) {
        std::cout << figures.waits->median << '\t' << figures.waits->most << '\t' << figures.waits->longest;
    } else {
        std::cout << "-\t-\t-";
    }
    std::cout << '\t' << rested << std::endl;
}

template <class Store>
void serve(const std::string& folder, std::uint32_t keys, std::size_t buffer) {
    Workloads<Store> workloads(folder, keys, buffer);
    std::string row;
    while (std::getline(std::cin, row)) {
        std::optional<Figures> figures = workloads.run(row);
        if (figures) {
            print(*figures, rest());
        } else {
            std::cout << '-' << std::endl;
        }
    }
}

//     PROGRAM version                  its version, and the nanoseconds of a reading of the clock
//     PROGRAM FOLDER KEYS [BUFFER]     a row for each line, or a sign alone where the engine doesn't have it
template <class Store>
int main_of(int count, char** words) {
    try {
        if (count == 2 && std::string(words[1]) == "version") {
            std::cout << Store::version() << '\t' << clock_cost() << std::endl;
            return 0;
        }
        if (count != 3 && count != 4) {
            std::cerr << "usage: " << words[0] << " FOLDER KEYS [BUFFER]" << std::endl;
            return 2;
        }
        auto keys = static_cast<std::uint32_t>(std::stoul(words[2]));
        serve<Store>(words[1], keys, count == 4 ? std::stoul(words[3]) : 0);
        return 0;
    } catch (const std::exception& error) {
        std::cerr << words[0] << ": " << error.what() << std::endl;
        return 1;
    }
}

} // namespace peers
