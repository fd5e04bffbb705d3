// What the loops of bench/peers keep of the hits of a search: how many, how many of each value of a column, or the first ten by a column.
// A hit comes as a document, as one of several, as a bit of a word of 64 documents, or as one of all.
#pragma once
#include <algorithm>
#include <bit>
#include <cstdint>
#include <ostream>
#include <string>
#include <utility>
#include <vector>

using u8 = uint8_t;
using u16 = uint16_t;
using u32 = uint32_t;
using u64 = uint64_t;
using i64 = int64_t;

struct Count {
    static constexpr bool is_count = true;
    u64 count = 0;
    void doc(u32) { count++; }
    void docs(const u32*, size_t n) { count += n; }
    void word(u32, u64 bits) { count += std::popcount(bits); }
    void all(u32 n) { count += n; }
    void tell(std::ostream& out) { out << count; }
};

template <class Keep> struct Each : Keep {
    static constexpr bool is_count = false;
    void doc(u32 d) { this->count++, this->keep(d); }
    void docs(const u32* d, size_t n) { for (size_t i = 0; i < n; i++) doc(d[i]); }
    void word(u32 base, u64 bits) { for (; bits; bits &= bits - 1) doc(base + std::countr_zero(bits)); }
    void all(u32 n) { for (u32 d = 0; d < n; d++) doc(d); }
};

// How many hits have each value, counted in two rows by turns, since hits beside one another often share a value. A value is told by its name.
template <class T, class Name> struct Tally {
    u64 count = 0;
    const T* column;
    Name name;
    std::vector<u32> even, odd;
    Tally(const T* column, size_t values, Name name) : column(column), name(name), even(values), odd(values) {}
    void keep(u32 d) { (d & 1 ? odd : even)[column[d]]++; }
    void tell(std::ostream& out) {
        out << count;
        for (size_t i = 0; i < even.size(); i++) if (u32 n = even[i] + odd[i]) out << ' ' << name(i) << ':' << n;
    }
};

// The ten hits whose values rank first. Twenty are held; then the first ten stay, and the last of them is a bound from there on.
template <class T> struct Ranks {
    u64 count = 0;
    const T* column;
    i64 least;
    bool is_falling;
    i64 bound = INT64_MAX;
    std::vector<std::pair<i64, u32>> held;
    Ranks(const T* column, i64 least, bool is_falling) : column(column), least(least), is_falling(is_falling) {}
    void keep(u32 d) {
        i64 value = column[d], rank = is_falling ? -value : value;
        if (rank > bound) return;
        held.push_back({rank, d});
        if (held.size() == 20) cut(), bound = held.back().first;
    }
    void cut() { std::sort(held.begin(), held.end()), held.resize(std::min<size_t>(held.size(), 10)); }
    void tell(std::ostream& out) {
        cut(), out << count;
        for (auto [rank, d] : held) out << ' ' << (is_falling ? -rank : rank) + least << '@' << d;
    }
};

// One bit per document, set while it is live, and a byte per document with the same.
struct Live {
    std::vector<u64> bits;
    std::vector<u8> bytes;
    void add() {
        if (bytes.size() % 64 == 0) bits.push_back(0);
        bits.back() |= 1ull << bytes.size() % 64, bytes.push_back(1);
    }
    void remove(u32 d) { bits[d / 64] &= ~(1ull << d % 64), bytes[d] = 0; }
    bool has(u32 d) const { return bits[d / 64] >> d % 64 & 1; }
};

// Keeps live hits alone. Of several documents at once, the live ones are gathered without a branch.
template <class Take> struct Alive {
    static constexpr bool is_count = Take::is_count;
    Take& take;
    const Live& live;
    void doc(u32 d) {
        if constexpr (is_count) take.count += live.has(d);
        else if (live.has(d)) take.doc(d);
    }
    void docs(const u32* d, size_t n) {
        u32 kept[128];
        for (size_t from = 0; from < n; from += 128) {
            u32 m = 0;
            for (size_t i = from; i < std::min(n, from + 128); i++) kept[m] = d[i], m += live.has(d[i]);
            take.docs(kept, m);
        }
    }
    void word(u32 base, u64 bits) { if (bits) take.word(base, bits & live.bits[base / 64]); }
    void all(u32 n) { for (u32 base = 0; base < n; base += 64) take.word(base, live.bits[base / 64]); }
};
