// The aisle of ../c/aisle_floor.c in C++: entries in a vector, a refusal as an exception, a copy as
// undo.
//
//     g++ -I bindings bindings/cpp/aisle.cpp target/staticlib/libruncedau.a
#include <cstdint>
#include <iostream>
#include <stdexcept>
#include <vector>

#include <runcedau_floor.h>

namespace {

void check(std::uint8_t refusal) {
    if (refusal != 0)
        throw std::runtime_error(runcedau_why(refusal));
}

void apply(runcedau_floor &hall, const std::vector<runcedau_entry> &entries) {
    check(runcedau_floor_apply(&hall, entries.data(), entries.size(), nullptr));
}

std::vector<runcedau_cell> seen_from(const runcedau_floor &hall, runcedau_cell cell) {
    std::vector<std::uint64_t> keys(RUNCEDAU_POINTS);
    const runcedau_count seen = runcedau_floor_visibility(&hall, cell, keys.data(), keys.size());
    check(seen.refusal);
    keys.resize(seen.count);
    std::vector<runcedau_cell> cells;
    for (const std::uint64_t key : keys)
        cells.push_back(runcedau_cell_of_key(key));
    return cells;
}

void tell(const char *what, const runcedau_floor &hall) {
    std::cout << what << ": " << hall.map.cells << " cells, seen from the mouth:";
    for (const runcedau_cell &cell : seen_from(hall, {2, -1}))
        std::cout << ' ' << cell.x << ',' << cell.y;
    std::cout << '\n';
}

void run() {
    runcedau_floor hall{};
    check(runcedau_floor_begin(&hall, 256.0, 128.0));
    std::vector<runcedau_entry> racks;
    for (const std::int64_t x : {0, 4})
        for (std::int64_t y = 0; y < 8; y++)
            racks.push_back({x, y, 1});
    apply(hall, racks);
    tell("two racks", hall);
    const runcedau_floor open_aisle = hall;
    apply(hall, {{1, 3, 1}, {2, 3, 1}, {3, 3, 1}});
    tell("with a gate", hall);
    try {
        apply(hall, {{9, 9, 1}, {9, 9, 0}});
    } catch (const std::runtime_error &refused) {
        std::cout << "refused: " << refused.what() << '\n';
    }
    tell("after the refusal", hall);
    apply(hall, {});
    hall = open_aisle;
    tell("without the gate", hall);
}

} // namespace

int main() {
    try {
        run();
    } catch (const std::exception &error) {
        std::cout << error.what() << '\n';
        return 1;
    }
}
