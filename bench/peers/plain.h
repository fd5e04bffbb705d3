// Loops over plain arrays: about the least that a search costs if nothing is packed and no list has a bitmap.
#pragma once
#include <type_traits>
#include "documents.h"

namespace plain {
struct Index {
    const Documents& of;
    static constexpr bool strikes = false;
    explicit Index(const Documents& of) : of(of) {}

    static const u32* seek(const u32* at, const u32* end, u32 doc) {
        size_t step = 1;
        while (at + step < end && at[step] < doc) step *= 2;
        return std::lower_bound(at, std::min(at + step + 1, end), doc);
    }

    template <class Take> static void each(const std::vector<u32>& docs, Take& take) { take.docs(docs.data(), docs.size()); }

    template <class Take> void any(const requests::Search& search, Take& take) const {
        if (search.words.size() == 1) return each(of.postings(search.words[0]).docs, take);
        if (search.words.size() == 2) return either(of.postings(search.words[0]).docs, of.postings(search.words[1]).docs, take);
        static std::vector<u64> bits;
        bits.assign(of.live.bits.size(), 0);
        for (auto& word : search.words) for (u32 d : of.postings(word).docs) bits[d / 64] |= 1ull << d % 64;
        for (size_t i = 0; i < bits.size(); i++) take.word(i * 64, bits[i]);
    }

    template <class Take> static void either(const std::vector<u32>& a, const std::vector<u32>& b, Take& take) {
        for (size_t i = 0, j = 0; i < a.size() || j < b.size();) {
            u32 x = i < a.size() ? a[i] : ~0u, y = j < b.size() ? b[j] : ~0u, d = std::min(x, y);
            i += x == d, j += y == d, take.doc(d);
        }
    }

    template <class Take> void all(const requests::Search& search, Take& take) const {
        std::vector<const std::vector<u32>*> lists;
        for (auto& word : search.words) lists.push_back(&of.postings(word).docs);
        std::sort(lists.begin(), lists.end(), [](auto a, auto b) { return a->size() < b->size(); });
        size_t wanted = lists.size();
        for (auto& word : search.without) lists.push_back(&of.postings(word).docs);
        std::vector<const u32*> at, end;
        for (auto list : lists) at.push_back(list->data()), end.push_back(list->data() + list->size());
        for (u32 d : *lists[0]) {
            bool is_hit = true;
            for (size_t k = 1; k < lists.size() && is_hit; k++) {
                if (at[k] < end[k]) at[k] = seek(at[k], end[k], d);
                is_hit = (at[k] < end[k] && *at[k] == d) == (k < wanted);
            }
            if (is_hit) take.doc(d);
        }
    }

    template <class Take> void phrase(const requests::Search& search, Take& take) const {
        const Postings &a = of.postings(search.words[0]), &b = of.postings(search.words[1]);
        for (size_t i = 0, j = 0; i < a.docs.size() && j < b.docs.size();) {
            if (a.docs[i] != b.docs[j]) { a.docs[i] < b.docs[j] ? i++ : j++; continue; }
            u32 x = a.start[i], y = b.start[j], x_end = a.end_of(i), y_end = b.end_of(j);
            while (x < x_end && y < y_end && a.positions[x] + 1 != b.positions[y]) a.positions[x] + 1 < b.positions[y] ? x++ : y++;
            if (x < x_end && y < y_end) take.doc(a.docs[i]);
            i++, j++;
        }
    }

    // A count goes without a branch for each document, so that the compiler compares several at once.
    [[gnu::optimize("O3")]] static u64 count(const u32* column, size_t n, u32 low, u32 span) {
        u32 count = 0;
        for (size_t d = 0; d < n; d++) count += column[d] - low <= span;
        return count;
    }
    [[gnu::optimize("O3")]] static u64 count_live(const u32* column, const u8* live, size_t n, u32 low, u32 span) {
        u32 count = 0;
        for (size_t d = 0; d < n; d++) count += u32(column[d] - low <= span) & live[d];
        return count;
    }

    template <class Take> void within(const std::vector<u32>& column, u32 low, u32 span, Take& take) const {
        if constexpr (std::is_same_v<Take, Count>) take.count += count(column.data(), column.size(), low, span);
        else if constexpr (Take::is_count) take.take.count += count_live(column.data(), of.live.bytes.data(), column.size(), low, span);
        else for (u32 d = 0; d < column.size(); d++) if (column[d] - low <= span) take.doc(d);
    }

    template <class Take> void find(const requests::Search& search, Take& take) const {
        switch (search.form) {
        case requests::Form::Any: return any(search, take);
        case requests::Form::All: return all(search, take);
        case requests::Form::Phrase: return phrase(search, take);
        case requests::Form::Range: return within(of.price, search.low, search.high - search.low, take);
        case requests::Form::Tag: return each(of.tagged(search.words[0]), take);
        case requests::Form::Tags: {
            auto [low, count] = of.places(search.words);
            if (count) within(of.tag, low, count - 1, take);
            return;
        }
        case requests::Form::Every: return take.all(of.price.size());
        }
    }

    const u32* prices() const { return of.price.data(); }
    const u32* temps() const { return of.temp.data(); }
    const u32* tags() const { return of.tag.data(); }
};
}
