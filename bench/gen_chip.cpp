// Writes a layout of the size of a chip as GDSII, the same one at each run.
//   c++ -O2 -std=c++20 -o gen_chip gen_chip.cpp
//   gen_chip wires N OUT.gds     N boxes on layer 1 and half as many on layer 2, anywhere
//   gen_chip array2 M OUT.gds    M by M cells of four shapes in one array; each has violations
//   gen_chip array4 M OUT.gds    the same cells in arrays of arrays of arrays
//   gen_chip orient N OUT.gds    N cells in all eight orientations, placed one at a time, and arrays of such cells
//   gen_chip routed N OUT.gds    N standard cells in rows, wires on two more layers over them, and four memories of 65,536 bits
// A database unit is 1 nm. The top is TOP. bench/chips.py has the decks.
#include <array>
#include <cmath>
#include <cstdint>
#include <cstdio>
#include <cstdlib>
#include <string>
#include <vector>

namespace {

FILE *out;

// Marsaglia's xorshift with 64 bits.
uint64_t next_random() {
    static uint64_t state = 88172645463325252ULL;
    state ^= state << 13;
    state ^= state >> 7;
    state ^= state << 17;
    return state;
}

int between(int least, int bound) { return least + static_cast<int>(next_random() % static_cast<uint64_t>(bound - least)); }

void byte(int value) { fputc(value & 255, out); }

void word(int value) {
    byte(value >> 8);
    byte(value);
}

void number(int value) {
    word(value >> 16);
    word(value);
}

// A record's head: its type and data type in one number, and the length of its data.
void record(int kind, int length) {
    word(length + 4);
    word(kind);
}

void text(int kind, const std::string &value) {
    record(kind, static_cast<int>(value.size() + value.size() % 2));
    fwrite(value.data(), 1, value.size(), out);
    if (value.size() % 2) byte(0);
}

void dates(int kind) {
    record(kind, 24);
    for (int i = 0; i < 12; i++) word(0);
}

void begin_library() {
    record(0x0002, 2);
    word(600);
    dates(0x0102);
    text(0x0206, "LB");
    record(0x0305, 16);
    for (int it : {0x3E, 0x41, 0x89, 0x37, 0x4B, 0xC6, 0xA7, 0xF0, 0x39, 0x44, 0xB8, 0x2F, 0xA0, 0x9B, 0x5A, 0x54}) byte(it);
}

void begin(const std::string &name) {
    dates(0x0502);
    text(0x0606, name);
}

void end() { record(0x0700, 0); }

void box(int layer, int x0, int y0, int x1, int y1) {
    record(0x0800, 0);
    record(0x0D02, 2);
    word(layer);
    record(0x0E02, 2);
    word(0);
    record(0x1003, 40);
    for (int it : {x0, y0, x1, y0, x1, y1, x0, y1, x0, y0}) number(it);
    record(0x1100, 0);
}

// 0 to 3: so many quarter turns. 4 to 7: mirrored at the x axis before these.
void orientation(int orient) {
    static const std::array<std::array<int, 3>, 4> ANGLES{{{}, {0x42, 0x5A, 0}, {0x42, 0xB4, 0}, {0x43, 0x10, 0xE0}}};
    if (!orient) return;
    record(0x1A01, 2);
    word(orient >= 4 ? 0x8000 : 0);
    if (orient % 4) {
        record(0x1C05, 8);
        for (int it : ANGLES[orient % 4]) byte(it);
        for (int i = 0; i < 5; i++) byte(0);
    }
}

void reference(const std::string &name, int orient, int x, int y) {
    record(0x0A00, 0);
    text(0x1206, name);
    orientation(orient);
    record(0x1003, 8);
    number(x);
    number(y);
    record(0x1100, 0);
}

// SIDE by SIDE instances, the first at (X, Y).
void array(const std::string &name, int orient, int side, int x, int y, int pitch) {
    record(0x0B00, 0);
    text(0x1206, name);
    orientation(orient);
    record(0x1302, 4);
    word(side);
    word(side);
    record(0x1003, 24);
    for (int it : {x, y, x + side * pitch, y, x, y + side * pitch}) number(it);
    record(0x1100, 0);
}

void unit() {
    begin("E");
    box(1, 0, 0, 100, 250);
    box(1, 0, 100, 250, 150);
    box(1, 200, 0, 250, 90);
    box(2, 20, 20, 60, 60);
    end();
}

void wires(int64_t n) {
    const int side = static_cast<int>(250 * std::sqrt(static_cast<double>(n)));
    begin("TOP");
    for (int64_t i = 0; i < n; i++) {
        const int x = between(0, side), y = between(0, side), length = between(200, 2000), width = between(50, 70);
        if (next_random() & 64)
            box(1, x, y, x + length, y + width);
        else
            box(1, x, y, x + width, y + length);
    }
    for (int64_t i = 0; i < n / 2; i++) {
        const int x = between(0, side), y = between(0, side);
        box(2, x, y, x + 40, y + 40);
    }
    end();
}

void array2(int64_t m) {
    begin("TOP");
    array("E", 0, static_cast<int>(m), 0, 0, 300);
    end();
    unit();
}

void array4(int64_t m) {
    const int inner = m >= 2048 ? 16 : 8, middle = 8, outer = static_cast<int>(m) / inner / middle;
    begin("TOP");
    array("G", 0, outer, 0, 0, 300 * inner * middle);
    end();
    begin("G");
    array("F", 0, middle, 0, 0, 300 * inner);
    end();
    begin("F");
    array("E", 0, inner, 0, 0, 300);
    end();
    unit();
}

void orient(int64_t n) {
    const int side = static_cast<int>(std::sqrt(static_cast<double>(n)));
    begin("TOP");
    for (int j = 0; j < side; j++)
        for (int i = 0; i < side; i++) reference("E", static_cast<int>(next_random() % 8), i * 300, j * 300);
    for (int q = 0; q < 8; q++) array("G", q, 8, side * 300 + 20000 + q % 4 * 40000, 20000 + q / 4 * 40000, 1200);
    end();
    begin("G");
    for (int q = 0; q < 8; q++) reference("E", q, q % 3 * 300 - 300, q / 3 * 300 - 300);
    end();
    begin("E");
    box(1, -125, -125, -25, 125);
    box(1, -125, -25, 125, 25);
    box(1, 75, -125, 125, -35);
    box(2, -105, -105, -65, -65);
    box(2, 85, 0, 125, 20);
    end();
}

constexpr int HEIGHT = 1400, KINDS = 12;

int width_of(int kind) { return 200 * (3 + kind % 6); }

std::string cell_name(int kind) { return "SC" + std::to_string(kind); }

// Rows of standard cells, every second one mirrored. It returns the width of the longest.
int rows_of_cells(int64_t n, int rows, int64_t in_row) {
    int64_t placed = 0;
    int longest = 0;
    for (int row = 0; row < rows; row++) {
        int x = 0;
        for (int64_t i = 0; i < in_row && placed < n; i++, placed++) {
            const int kind = between(0, KINDS), width = width_of(kind);
            const bool is_turned = next_random() & 32;
            if (row % 2)
                reference(cell_name(kind), is_turned ? 2 : 4, is_turned ? x + width : x, (row + 1) * HEIGHT);
            else
                reference(cell_name(kind), is_turned ? 6 : 0, is_turned ? x + width : x, row * HEIGHT);
            x += width;
        }
        longest = std::max(longest, x);
    }
    return longest;
}

// Straps on layer 1, and wires on tracks: along x on layer 3, along y on layer 4.
void routing(int64_t n, int width, int height) {
    for (int64_t i = 0; i < n * 3 / 100; i++) {
        const int x = between(0, width / 20) * 20, y = between(0, height / 20) * 20;
        box(1, x, y, x + 60, y + between(10, 60) * 10);
    }
    for (int64_t i = 0; i < n; i++) {
        const int x = between(0, width / 10) * 10, y = between(0, height / 140) * 140, length = between(40, 600) * 10;
        box(3, x, y, x + length, y + (next_random() % 50 ? 70 : 50));
    }
    for (int64_t i = 0; i < n; i++) {
        const int x = between(0, width / 140) * 140, y = between(0, height / 10) * 10, length = between(40, 600) * 10;
        box(4, x, y, x + (next_random() % 50 ? 70 : 50), y + length);
    }
}

// Two rails, gates between them with contacts, and shapes on layers that no rule has.
void standard_cell(int kind) {
    const int width = width_of(kind);
    begin(cell_name(kind));
    box(1, 0, -50, width, 50);
    box(1, 0, HEIGHT - 50, width, HEIGHT + 50);
    for (int x = 100; x + 100 <= width; x += 200) {
        const int shift = between(0, 4), wide = next_random() % 16 ? 70 : 50;
        box(1, x, 120 + shift * 20, x + wide, 600);
        box(1, x, 760, x + wide, HEIGHT - 140 - shift * 10);
        if (x + 300 <= width && next_random() % 2) box(1, x, 560, x + 200 + wide, 620);
        box(2, x + 15, 160 + shift * 20, x + 55, 200 + shift * 20);
        const int right = next_random() % 8 ? 55 : 45, left = next_random() % 8 ? 15 : 5;
        box(2, x + left, 1000, x + right, 1040);
        box(5, x + 20, 60, x + 50, HEIGHT - 60);
    }
    box(2, width / 2 - 20, -20, width / 2 + 20, 20);
    box(2, width / 2 - 20, HEIGHT - 20, width / 2 + 20, HEIGHT + 20);
    box(6, 60, 100, width - 60, 620);
    box(6, 60, 740, width - 60, HEIGHT - 100);
    end();
}

void memory() {
    begin("RAM");
    array("BIT", 0, 16, 0, 0, 500);
    end();
    begin("BIT");
    box(1, 0, -35, 500, 35);
    box(1, 60, 100, 130, 420);
    box(1, 190, 100, 250, 420);
    box(1, 370, 100, 440, 420);
    box(1, 190, 220, 440, 280);
    box(2, 75, 120, 115, 160);
    box(2, 200, 380, 240, 420);
    box(2, 385, 200, 425, 240);
    box(3, 215, 0, 285, 500);
    end();
}

void routed(int64_t n) {
    double mean = 0;
    for (int kind = 0; kind < KINDS; kind++) mean += width_of(kind);
    mean /= KINDS;
    const int rows = std::max(1, static_cast<int>(std::sqrt(static_cast<double>(n) * mean / HEIGHT)));
    begin("TOP");
    const int width = rows_of_cells(n, rows, (n + rows - 1) / rows);
    routing(n, width, rows * HEIGHT);
    for (int q = 0; q < 4; q++) array("RAM", q, 16, width + 20000 + (q == 1 || q == 2 ? 128000 : 0), (q >= 2 ? 128000 : 0) + q * 150000, 8000);
    end();
    for (int kind = 0; kind < KINDS; kind++) standard_cell(kind);
    memory();
}

}  // namespace

int main(int count, char **words) {
    const std::string kind = count == 4 ? words[1] : "";
    const std::array<std::pair<std::string, void (*)(int64_t)>, 5> makers{
        {{"wires", wires}, {"array2", array2}, {"array4", array4}, {"orient", orient}, {"routed", routed}}};
    for (const auto &[name, make] : makers) {
        if (name != kind) continue;
        out = fopen(words[3], "wb");
        if (!out) break;
        begin_library();
        make(atoll(words[2]));
        record(0x0400, 0);
        return fclose(out) ? 1 : 0;
    }
    fputs("gen_chip wires|array2|array4|orient|routed N OUT.gds\n", stderr);
    return 2;
}
