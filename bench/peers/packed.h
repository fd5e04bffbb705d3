// Loops over packed lists, to tell what a hand-written kernel over the layout of fts_pack costs, without bitmaps and without proofs.
#pragma once
#include "lists.h"

namespace packed {
// The block of a list in which rising documents are looked for: a gallop over the skips, then a halving without branches.
struct Seeker {
    const List* list;
    size_t block = ~0ull;
    int len = 0, at = 0;
    u32 docs[128];
    bool has(u32 doc) {
        if (block == ~0ull || docs[len - 1] < doc) {
            size_t low = block + 1, step = 1;
            while (low + step <= list->blocks() && list->last[low + step - 1] < doc) low += step, step *= 2;
            auto at_most = [this](size_t place) { return list->last.begin() + std::min(place, list->blocks()); };
            low = std::lower_bound(at_most(low), at_most(low + step), doc) - list->last.begin();
            if (low >= list->blocks()) return false;
            block = low, len = list->open(block, docs), at = 0;
        }
        int near = std::min(at + 4, len);
        while (at < near && docs[at] < doc) at++;
        if (at == near && at < len) {
            for (int left = len - at; left > 1;) { int half = left / 2; at += docs[at + half - 1] < doc ? half : 0, left -= half; }
            at += docs[at] < doc;
        }
        return at < len && docs[at] == doc;
    }
};

// The positions of a block's 128 documents, unpacked at once; those of a document as a mask, for texts of up to 64 words.
struct Positions {
    const List* list;
    size_t block = ~0ull;
    u32 begins[129];
    std::vector<u32> gaps;
    void enter(size_t b) {
        if (b == block) return;
        u32 spans[128], first = list->first_position[b];
        block = b, list->spans.open(b, spans), begins[0] = first % 128;
        for (int i = 0; i < 128; i++) begins[i + 1] = begins[i] + spans[i];
        gaps.resize((begins[128] / 128 + 1) * 128);
        for (size_t k = 0; k * 128 < begins[128]; k++) list->position_gaps.open(first / 128 + k, &gaps[k * 128]);
    }
    u64 mask(int i) const {
        u64 mask = 0;
        for (u32 g = begins[i], next = 0; g < begins[i + 1]; g++) next += gaps[g], mask |= 1ull << next++;
        return mask;
    }
};

// 64 numbers are compared four at a time: what is below the lower bound wraps, so one comparison tells of both.
inline u64 within(const u32* numbers, u32 low, u32 span) {
    const __m128i l = _mm_set1_epi32(low), s = _mm_set1_epi32(span);
    u64 bits = 0;
    for (int part = 0; part < 4; part++) {
        __m128i is[4];
        for (int k = 0; k < 4; k++) {
            __m128i x = _mm_sub_epi32(_mm_loadu_si128((const __m128i*)(numbers + part * 16 + k * 4)), l);
            is[k] = _mm_cmpeq_epi32(_mm_min_epu32(x, s), x);
        }
        u64 sixteen = _mm_movemask_epi8(_mm_packs_epi16(_mm_packs_epi32(is[0], is[1]), _mm_packs_epi32(is[2], is[3])));
        bits |= sixteen << 16 * part;
    }
    return bits;
}

struct Index {
    const Documents& of;
    std::unordered_map<std::string, List> words, tagged;
    std::vector<u32> prices_, tags_;
    std::vector<u8> temps_;
    static constexpr bool strikes = false;

    explicit Index(const Documents& of) : of(of), prices_(of.price), tags_(of.tag), temps_(of.temp.begin(), of.temp.end()) {
        for (auto& [word, from] : of.words) words[word] = packed(from);
        for (auto& [name, docs] : of.tags) tagged[name] = packed(docs);
        prices_.resize(of.live.bits.size() * 64), tags_.resize(of.live.bits.size() * 64);
    }

    const u32* prices() const { return prices_.data(); }
    const u8* temps() const { return temps_.data(); }
    const u32* tags() const { return tags_.data(); }

    static const List& named(const std::unordered_map<std::string, List>& lists, const std::string& name) {
        static const List none;
        auto it = lists.find(name);
        return it == lists.end() ? none : it->second;
    }
    const List& list(const std::string& word) const { return named(words, word); }

    template <class Take> static void each(const List& list, Take& take) {
        u32 out[128];
        for (size_t b = 0; b < list.blocks(); b++) { int n = list.open(b, out); take.docs(out, n); }
    }

    // Windows of 4,096 documents: each list marks its documents there, and the words are emptied in order.
    template <class Take> void any(const requests::Search& search, Take& take) const {
        struct Part { const List* list; size_t block; int at, len; u32 docs[128]; };
        std::vector<Part> parts;
        if (search.words.size() == 1) return each(list(search.words[0]), take);
        for (auto& word : search.words) if (list(word).count) {
            Part& part = parts.emplace_back();
            part.list = &list(word), part.block = 0, part.at = 0, part.len = part.list->open(0, part.docs);
        }
        for (u32 base = 0; base < of.price.size(); base += 4096) {
            u64 bits[64] = {};
            for (Part& part : parts) while (part.len) {
                bool whole = part.docs[part.len - 1] < base + 4096;
                int end = whole ? part.len : std::lower_bound(part.docs + part.at, part.docs + part.len, base + 4096) - part.docs;
                for (; part.at < end; part.at++) { u32 d = part.docs[part.at] - base; bits[d / 64] |= 1ull << d % 64; }
                if (!whole) break;
                part.at = 0, part.len = ++part.block < part.list->blocks() ? part.list->open(part.block, part.docs) : 0;
            }
            for (int i = 0; i < 64; i++) take.word(base + i * 64, bits[i]);
        }
    }

    // The 128 documents of the shortest list's block at once, filtered through each other list.
    template <class Take> void all(const requests::Search& search, Take& take) const {
        std::vector<Seeker> others;
        std::vector<const List*> ordered;
        for (auto& word : search.words) ordered.push_back(&list(word));
        std::sort(ordered.begin(), ordered.end(), [](auto a, auto b) { return a->count < b->count; });
        for (size_t k = 1; k < ordered.size(); k++) others.push_back({ordered[k]});
        size_t wanted = others.size();
        for (auto& word : search.without) others.push_back({&list(word)});
        u32 docs[128];
        for (size_t b = 0; b < ordered[0]->blocks(); b++) {
            int n = ordered[0]->open(b, docs);
            for (size_t k = 0; k < others.size(); k++) {
                int kept = 0;
                for (int i = 0; i < n; i++) { u32 d = docs[i]; docs[kept] = d, kept += others[k].has(d) == (k < wanted); }
                n = kept;
            }
            take.docs(docs, n);
        }
    }

    template <class Take> void phrase(const requests::Search& search, Take& take) const {
        const List &a = list(search.words[0]), &b = list(search.words[1]);
        bool is_first = a.count <= b.count;
        const List &lead = is_first ? a : b, &other = is_first ? b : a;
        Seeker seeker{&other};
        Positions of_lead{&lead}, of_other{&other};
        u32 docs[128];
        for (size_t x = 0; x < lead.blocks(); x++) {
            int n = lead.open(x, docs), kept = 0;
            for (int i = 0; i < n; i++) {
                u32 d = docs[i];
                if (!seeker.has(d)) continue;
                of_lead.enter(x), of_other.enter(seeker.block);
                u64 here = of_lead.mask(i), there = of_other.mask(seeker.at);
                docs[kept] = d, kept += (is_first ? here & there >> 1 : there & here >> 1) != 0;
            }
            take.docs(docs, kept);
        }
    }

    // The words of 64 documents, of which the last is cut at the last document.
    u64 cut(u32 base, u64 bits) const { return base + 64 > of.price.size() ? bits & ((1ull << (of.price.size() - base)) - 1) : bits; }

    template <class Take> void range(const std::vector<u32>& column, u32 low, u32 span, Take& take) const {
        for (u32 d = 0; d < of.price.size(); d += 64) take.word(d, cut(d, within(&column[d], low, span)));
    }

    template <class Take> void find(const requests::Search& search, Take& take) const {
        switch (search.form) {
        case requests::Form::Any: return any(search, take);
        case requests::Form::All: return all(search, take);
        case requests::Form::Phrase: return phrase(search, take);
        case requests::Form::Range: return range(prices_, search.low, search.high - search.low, take);
        case requests::Form::Tag: return each(named(tagged, search.words[0]), take);
        case requests::Form::Tags: {
            auto [low, count] = of.places(search.words);
            if (count) range(tags_, low, count - 1, take);
            return;
        }
        case requests::Form::Every: return take.all(of.price.size());
        }
    }
};
}
