// The loops of bench/pack in C++, over the same numbers: four lanes by SSE2 at a constant width, and one number after the
// other. A line a loop: name, width, picoseconds a number of both ways, and the sum of what was read.
#include <algorithm>
#include <cstdint>
#include <cstdio>
#include <cstring>
#include <ctime>
#include <emmintrin.h>
#include <utility>
#include <vector>

using u32 = uint32_t;
using u64 = uint64_t;
constexpr int BLOCKS = 64, NUMBERS = 8192;

static u32 mask_of(u32 width) { return u32((1ull << width) - 1); }

static std::vector<u32> mixed(u32 width) {
    std::vector<u32> numbers(NUMBERS, mask_of(width));
    u32 seed = width;
    for (int i = 0; i < NUMBERS; i++) {
        seed = seed * 1664525u + 1013904223u;
        if (i % 128) numbers[i] = (seed ^ seed >> 15) & mask_of(width);
    }
    return numbers;
}

static u32 width_of(const u32* numbers) {
    u32 all = 0;
    for (int i = 0; i < 128; i++) all |= numbers[i];
    return all ? 32 - __builtin_clz(all) : 0;
}

struct Block {
    u32 width;
    std::vector<u32> words;
};

static Block pack(const u32* numbers) {
    Block block{width_of(numbers), {}};
    block.words.assign(4 * block.width + 4, 0);
    for (int i = 0; i < 128; i++) {
        u32 bit = i / 4 * block.width, word = 4 * (bit / 32) + i % 4;
        u64 field = u64(numbers[i]) << bit % 32;
        block.words[word] |= u32(field);
        if (field >> 32) block.words[word + 4] |= u32(field >> 32);
    }
    return block;
}

template <u32 W, int P> static inline __attribute__((always_inline)) void step(const u32* words, u32* out) {
    constexpr u32 bit = P * W, word = bit / 32, shift = bit % 32;
    __m128i field = _mm_srli_epi32(_mm_loadu_si128((const __m128i*)(words + 4 * word)), shift);
    if constexpr (shift + W > 32)
        field = _mm_or_si128(field, _mm_slli_epi32(_mm_loadu_si128((const __m128i*)(words + 4 * word + 4)), 32 - shift));
    _mm_storeu_si128((__m128i*)(out + 4 * P), _mm_and_si128(field, _mm_set1_epi32(mask_of(W))));
}

template <u32 W, int... P> __attribute__((noinline)) static void at_width(const u32* words, u32* out, std::integer_sequence<int, P...>) {
    if constexpr (W == 0) std::memset(out, 0, 512);
    else (step<W, P>(words, out), ...);
}

template <u32 W> static void entry(const u32* words, u32* out) { at_width<W>(words, out, std::make_integer_sequence<int, 32>()); }

using Unpack = void (*)(const u32*, u32*);
template <u32... W> static Unpack pick(u32 width, std::integer_sequence<u32, W...>) {
    static const Unpack table[] = {entry<W>...};
    return table[width];
}

static void unpack(const u32* words, u32 width, u32* out) { pick(width, std::make_integer_sequence<u32, 33>())(words, out); }

static void unpack_plain(const u32* words, u32 width, u32* out) {
    for (u32 i = 0; i < 128; i++) {
        u32 bit = i / 4 * width, word = 4 * (bit / 32) + i % 4;
        u64 pair = u64(words[word + 4]) << 32 | words[word];
        out[i] = u32(pair >> bit % 32) & mask_of(width);
    }
}

static void add_up(u32 next, u32* out) {
    __m128i last = _mm_set1_epi32(next - 1);
    for (int row = 0; row < 32; row++) {
        __m128i sums = _mm_loadu_si128((__m128i*)(out + 4 * row));
        sums = _mm_add_epi32(sums, _mm_slli_si128(sums, 4));
        sums = _mm_add_epi32(sums, _mm_slli_si128(sums, 8));
        sums = _mm_add_epi32(last, _mm_add_epi32(sums, _mm_set_epi32(4, 3, 2, 1)));
        _mm_storeu_si128((__m128i*)(out + 4 * row), sums);
        last = _mm_shuffle_epi32(sums, 0xff);
    }
}

static void add_up_plain(u32 next, u32* out) {
    for (int i = 0; i < 128; i++) {
        out[i] += next;
        next = out[i] + 1;
    }
}

struct Column {
    u64 least;
    u32 width;
    std::vector<u64> words, present;
};

static Column column_of(u32 width) {
    auto numbers = mixed(width);
    Column column{~0ull, 0, {}, std::vector<u64>(NUMBERS / 64 + 2, 0)};
    u64 greatest = 0;
    for (int i = 0; i < NUMBERS; i++)
        if (i % 5 != 3) {
            column.least = std::min(column.least, u64(numbers[i]) + 1000);
            greatest = std::max(greatest, u64(numbers[i]) + 1000);
            column.present[i / 64] |= 1ull << i % 64;
        }
    column.width = greatest > column.least ? 64 - __builtin_clzll(greatest - column.least) : 0;
    column.words.assign(NUMBERS * column.width / 64 + 2, 0);
    for (int i = 0; i < NUMBERS; i++) {
        u64 bit = u64(i) * column.width, offset = i % 5 != 3 ? numbers[i] + 1000ull - column.least : 0;
        column.words[bit / 64] |= offset << bit % 64;
        if (bit % 64 + column.width > 64) column.words[bit / 64 + 1] |= offset >> (64 - bit % 64);
    }
    return column;
}

template <u32 W, int... P> __attribute__((noinline)) static void sixty_four(const u64* words, u64 least, u64* out, std::integer_sequence<int, P...>) {
    constexpr u64 mask = W == 64 ? ~0ull : (1ull << W % 64) - 1;
    auto field = [&](u64 bit) {
        u64 word = bit / 64, shift = bit % 64, low = words[word] >> shift;
        return (shift + W > 64 ? low | words[word + 1] << (64 - shift) % 64 : low) & mask;
    };
    if constexpr (W == 0) std::fill(out, out + 64, least);
    else ((out[P] = least + field(P * W)), ...);
}

template <u32 W> static void values_entry(const u64* words, u64 least, u64* out) {
    sixty_four<W>(words, least, out, std::make_integer_sequence<int, 64>());
    sixty_four<W>(words + W, least, out + 64, std::make_integer_sequence<int, 64>());
}

using Values = void (*)(const u64*, u64, u64*);
template <u32... W> static Values pick_values(u32 width, std::integer_sequence<u32, W...>) {
    static const Values table[] = {values_entry<W>...};
    return table[width];
}

static void values(const Column& column, u64 from, u64* out) {
    pick_values(column.width, std::make_integer_sequence<u32, 65>())(&column.words[from / 64 * column.width], column.least, out);
}

__attribute__((noinline)) static void values_plain(const Column& column, u64 from, u64* out) {
    u64 mask = column.width == 64 ? ~0ull : (1ull << column.width) - 1;
    const u64* words = column.words.data();
    for (u64 i = 0; i < 128; i++) {
        u64 bit = (from + i) * column.width;
        unsigned __int128 pair = (unsigned __int128)words[bit / 64 + 1] << 64 | words[bit / 64];
        out[i] = column.least + (u64(pair >> bit % 64) & mask);
    }
}

// The fastest of many runs of 50 rounds, in picoseconds a number.
template <class Round> static u64 time_of(u64& sum, Round round) {
    u64 best = ~0ull;
    for (int t = 0; t < 200; t++) {
        timespec a, b;
        clock_gettime(CLOCK_THREAD_CPUTIME_ID, &a);
        for (int r = 0; r < 50; r++) {
            sum = round();
            asm volatile("" ::: "memory");
        }
        clock_gettime(CLOCK_THREAD_CPUTIME_ID, &b);
        best = std::min(best, u64((b.tv_sec - a.tv_sec) * 1000000000ll + b.tv_nsec - a.tv_nsec));
    }
    return best / 50 * 1000 / NUMBERS;
}

template <class Each> static u64 over_blocks(Each each) {
    u32 out[128];
    u64 sum = 0;
    for (int block = 0; block < BLOCKS; block++) {
        each(block, out);
        sum += u64(out[5]) + out[127] + 128;
    }
    return sum;
}

template <class A, class B> static void report(const char* name, u32 width, A kernel, B plain) {
    u64 sum = 0, other = 0, fast = time_of(sum, kernel), slow = time_of(other, plain);
    if (sum != other) printf("%s %u differs\n", name, width);
    printf("%s %u %llu %llu %llu\n", name, width, (unsigned long long)fast, (unsigned long long)slow, (unsigned long long)sum);
}

static void times(u32 width) {
    auto numbers = mixed(width);
    std::vector<Block> blocks;
    for (int b = 0; b < BLOCKS; b++) blocks.push_back(pack(&numbers[b * 128]));
    report("unpack", width,
        [&] { return over_blocks([&](int b, u32* out) { unpack(blocks[b].words.data(), blocks[b].width, out); }); },
        [&] { return over_blocks([&](int b, u32* out) { unpack_plain(blocks[b].words.data(), blocks[b].width, out); }); });
    if (width <= 13) {
        std::vector<Block> list;
        std::vector<u32> bases;
        u32 base = 0;
        for (int b = 0; b < BLOCKS; b++) {
            list.push_back(pack(&numbers[b * 128]));
            bases.push_back(base);
            for (int i = 0; i < 128; i++) base += numbers[b * 128 + i] + 1;
        }
        report("open", width,
            [&] { return over_blocks([&](int b, u32* out) { unpack(list[b].words.data(), list[b].width, out); add_up(bases[b], out); }); },
            [&] { return over_blocks([&](int b, u32* out) { unpack_plain(list[b].words.data(), list[b].width, out); add_up_plain(bases[b], out); }); });
    }
    Column column = column_of(width);
    auto read = [&](auto each) {
        u64 out[128], sum = 0;
        for (int block = 0; block < BLOCKS; block++) {
            each(column, u64(block) * 128, out);
            for (int i = 0; i < 128; i++)
                if (column.present[2 * block + i / 64] >> i % 64 & 1) sum += out[i];
        }
        return sum;
    };
    report("values", width, [&] { return read(values); }, [&] { return read(values_plain); });
}

int main() {
    for (u32 width : {1, 7, 13, 32}) times(width);
    auto numbers = mixed(32);
    std::vector<u64> words(NUMBERS / 64, ~0ull);
    for (int i = 0; i < NUMBERS; i++)
        if (numbers[i] % 3 == 0) words[i / 64] &= ~(1ull << i % 64);
    auto count = [&] {
        u64 sum = 0;
        for (u64 word : words) sum += __builtin_popcountll(word);
        return sum;
    };
    auto plain = [&] {
        u64 sum = 0;
        for (int i = 0; i < NUMBERS; i++) sum += words[i / 64] >> i % 64 & 1;
        return sum;
    };
    report("count", 1, count, plain);
}
