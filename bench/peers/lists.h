// Lists of documents and positions as fts_pack lays them out: blocks of 128 gaps in four lanes, with a skip each; and the opening of a block.
#pragma once
#include <array>
#include <bit>
#include <cstring>
#include <smmintrin.h>
#include "documents.h"

namespace packed {
template <int W> void unpack(const u32* in, u32* out) {
    const __m128i mask = _mm_set1_epi32(W == 32 ? -1 : (1u << (W & 31)) - 1);
#pragma GCC unroll 32
    for (int place = 0; place < 32; place++) {
        constexpr auto load = [](const u32* at) { return _mm_loadu_si128((const __m128i*)at); };
        int word = place * W / 32, shift = place * W % 32;
        __m128i row = _mm_srli_epi32(load(in + 4 * word), shift);
        if (shift + W > 32) row = _mm_or_si128(row, _mm_slli_epi32(load(in + 4 * word + 4), 32 - shift));
        _mm_storeu_si128((__m128i*)(out + 4 * place), _mm_and_si128(row, mask));
    }
}
template <> void unpack<0>(const u32*, u32* out) { memset(out, 0, 512); }
template <size_t... W> constexpr auto unpack_table(std::index_sequence<W...>) { return std::array{unpack<W>...}; }
constexpr auto UNPACK = unpack_table(std::make_index_sequence<33>());

inline u32 width_of(const u32* numbers, int n) {
    u32 bits = 0;
    for (int i = 0; i < n; i++) bits |= numbers[i];
    return 32 - std::countl_zero(bits);
}

inline void pack(std::vector<u32>& out, u32 width, const u32* numbers, int n) {
    size_t base = out.size();
    out.resize(base + 4 * width);
    for (int i = 0; i < n; i++) {
        u64 bit = u64(i / 4) * width, word = base + bit / 32 * 4 + i % 4, value = u64(numbers[i]) << bit % 32;
        if (value) out[word] |= value;
        if (value >> 32) out[word + 4] |= value >> 32;
    }
}

// Gaps to documents: each is one above the sum of the gaps before it.
inline void add_up(u32 before, u32* out) {
    __m128i last = _mm_set1_epi32(before), steps = _mm_setr_epi32(1, 2, 3, 4);
    for (int row = 0; row < 128; row += 4) {
        __m128i x = _mm_loadu_si128((__m128i*)(out + row));
        x = _mm_add_epi32(x, _mm_slli_si128(x, 4)), x = _mm_add_epi32(x, _mm_slli_si128(x, 8));
        x = _mm_add_epi32(last, _mm_add_epi32(x, steps)), last = _mm_shuffle_epi32(x, 0xff);
        _mm_storeu_si128((__m128i*)(out + row), x);
    }
}

struct Numbers {
    std::vector<u32> packed;
    std::vector<std::pair<u32, u32>> blocks;
    void build(const std::vector<u32>& numbers) {
        for (size_t i = 0; i < numbers.size(); i += 128) {
            int n = std::min<size_t>(128, numbers.size() - i);
            u32 width = width_of(&numbers[i], n);
            blocks.push_back({packed.size(), width}), pack(packed, width, &numbers[i], n);
        }
        packed.resize(packed.size() + 8);
    }
    void open(size_t block, u32* out) const { UNPACK[blocks[block].second](&packed[blocks[block].first], out); }
};

// The gaps of a list with the last document of each block; how many positions each document has, and the gaps of these.
struct List {
    u32 count = 0;
    Numbers gaps, spans, position_gaps;
    std::vector<u32> last, first_position;
    size_t blocks() const { return last.size(); }
    int open(size_t block, u32* out) const {
        gaps.open(block, out), add_up(block ? last[block - 1] : ~0u, out);
        return std::min<size_t>(128, count - block * 128);
    }
};

inline List packed(const Postings& from) {
    List to;
    std::vector<u32> gaps, spans, position_gaps;
    for (size_t i = 0; i < from.docs.size(); i++) {
        if (i % 128 == 0) to.first_position.push_back(from.start[i]);
        if (i % 128 == 127 || i + 1 == from.docs.size()) to.last.push_back(from.docs[i]);
        gaps.push_back(i ? from.docs[i] - from.docs[i - 1] - 1 : from.docs[i]), spans.push_back(from.end_of(i) - from.start[i]);
        u32 next = 0;
        for (u32 p = from.start[i]; p < from.end_of(i); p++) position_gaps.push_back(from.positions[p] - next), next = from.positions[p] + 1;
    }
    to.count = from.docs.size(), to.gaps.build(gaps), to.spans.build(spans), to.position_gaps.build(position_gaps);
    return to;
}

// A list without positions.
inline List packed(const std::vector<u32>& docs) {
    Postings postings;
    postings.docs = docs, postings.start.assign(docs.size(), 0);
    return packed(postings);
}
}
