// Searches by CRoaring's bitmaps, one for each word and each tag. Deleted documents are a bitmap too, and cost one AND NOT more. It has no
// columns and no positions, so it isn't asked for ranges of numbers or for phrases; groups and top lists are made of its hits as an array.
#pragma once
#include <memory>
#include <roaring/roaring.h>
#include "documents.h"

namespace bitmaps {
struct Free {
    void operator()(roaring_bitmap_t* bitmap) const { roaring_bitmap_free(bitmap); }
};
using Bitmap = std::unique_ptr<roaring_bitmap_t, Free>;

inline Bitmap bitmap_of(const std::vector<u32>& docs) {
    Bitmap bitmap(roaring_bitmap_of_ptr(docs.size(), docs.data()));
    roaring_bitmap_run_optimize(bitmap.get()), roaring_bitmap_shrink_to_fit(bitmap.get());
    return bitmap;
}

// Hits that are two bitmaps with an operation between them, which a count needn't carry out, or one alone.
struct Hits {
    const roaring_bitmap_t *left, *right = nullptr;
    enum { One, And, Or, AndNot } op = One;
    Bitmap owned = nullptr;  // what `left` is, if it was made for this search

    u64 count() const {
        switch (op) {
        case And: return roaring_bitmap_and_cardinality(left, right);
        case Or: return roaring_bitmap_or_cardinality(left, right);
        case AndNot: return roaring_bitmap_andnot_cardinality(left, right);
        default: return roaring_bitmap_get_cardinality(left);
        }
    }
    // One bitmap, then.
    Hits carried_out() && {
        if (op == One) return std::move(*this);
        Bitmap found(op == And ? roaring_bitmap_and(left, right) : op == Or ? roaring_bitmap_or(left, right) : roaring_bitmap_andnot(left, right));
        const roaring_bitmap_t* hits = found.get();
        return {hits, nullptr, One, std::move(found)};
    }
    Hits with(decltype(op) next, const roaring_bitmap_t* other) && {
        Hits hits = std::move(*this).carried_out();
        hits.right = other, hits.op = next;
        return hits;
    }
};

struct Index {
    const Documents& of;
    std::unordered_map<std::string, Bitmap> words;
    std::map<std::string, Bitmap> tagged;
    Bitmap every, dead, none{roaring_bitmap_create()};
    static constexpr bool strikes = true;

    explicit Index(const Documents& of) : of(of), every(roaring_bitmap_from_range(0, of.price.size(), 1)) {
        for (auto& [word, from] : of.words) words[word] = bitmap_of(from.docs);
        for (auto& [name, docs] : of.tags) tagged[name] = bitmap_of(docs);
    }
    void strike() {
        std::vector<u32> docs;
        for (u32 d = 0; d < of.price.size(); d++) if (!of.live.has(d)) docs.push_back(d);
        dead = bitmap_of(docs);
    }

    const u32* prices() const { return of.price.data(); }
    const u32* temps() const { return of.temp.data(); }
    const u32* tags() const { return of.tag.data(); }

    template <class Map> const roaring_bitmap_t* named(const Map& map, const std::string& name) const {
        auto it = map.find(name);
        return it == map.end() ? none.get() : it->second.get();
    }

    static Hits united(std::vector<const roaring_bitmap_t*>& lists) {
        if (lists.size() == 1) return {lists[0]};
        if (lists.size() == 2) return {lists[0], lists[1], Hits::Or};
        Bitmap found(roaring_bitmap_or_many(lists.size(), lists.data()));
        const roaring_bitmap_t* hits = found.get();
        return {hits, nullptr, Hits::One, std::move(found)};
    }

    Hits any(const requests::Search& search) const {
        std::vector<const roaring_bitmap_t*> lists;
        for (auto& word : search.words) lists.push_back(named(words, word));
        return united(lists);
    }

    Hits all(const requests::Search& search) const {
        std::vector<const roaring_bitmap_t*> lists;
        for (auto& word : search.words) lists.push_back(named(words, word));
        auto size = [](auto list) { return roaring_bitmap_get_cardinality(list); };
        std::sort(lists.begin(), lists.end(), [&](auto a, auto b) { return size(a) < size(b); });
        Hits hits{lists[0]};
        for (size_t i = 1; i < lists.size(); i++) hits = std::move(hits).with(Hits::And, lists[i]);
        for (auto& word : search.without) hits = std::move(hits).with(Hits::AndNot, named(words, word));
        return hits;
    }

    Hits between(const requests::Search& search) const {
        std::vector<const roaring_bitmap_t*> lists;
        const auto end = tagged.upper_bound(search.words[1]);
        for (auto it = tagged.lower_bound(search.words[0]); it != end; ++it) lists.push_back(it->second.get());
        return united(lists);
    }

    Hits hits(const requests::Search& search) const {
        switch (search.form) {
        case requests::Form::Any: return any(search);
        case requests::Form::All: return all(search);
        case requests::Form::Tag: return {named(tagged, search.words[0])};
        case requests::Form::Tags: return between(search);
        default: return {every.get()};
        }
    }

    template <class Take> void find(const requests::Search& search, Take& take) const {
        Hits found = hits(search);
        if (dead) found = std::move(found).with(Hits::AndNot, dead.get());
        if constexpr (Take::is_count) {
            take.count += found.count();
            return;
        }
        found = std::move(found).carried_out();
        static std::vector<u32> docs;
        docs.resize(found.count());
        roaring_bitmap_to_uint32_array(found.left, docs.data());
        take.docs(docs.data(), docs.size());
    }
};
}
