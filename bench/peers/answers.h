// The answer to a search by one of the indexes of bench/peers: what is asked for decides what is kept of its hits. An index has `of`, the
// documents; `find(search, take)`, which gives its hits to what keeps them; its columns; and `strikes`, whether it leaves out deleted
// documents itself.
#pragma once
#include "documents.h"

template <class Index, class Take> void tell(const Index& index, const requests::Search& search, Take take, std::ostream& out) {
    bool is_found = false;
    if constexpr (!Index::strikes) if (index.of.has_deletes) {
        Alive<Take> alive{take, index.of.live};
        index.find(search, alive), is_found = true;
    }
    if (!is_found) index.find(search, take);
    take.tell(out);
}

template <class T, class Name> Each<Tally<T, Name>> groups(const T* column, size_t values, Name name) { return {{column, values, name}}; }

template <class T> Each<Ranks<T>> top(const T* column, i64 least, bool is_falling) { return {{column, least, is_falling}}; }

template <class Index> void answer(const Index& index, const std::string& line, std::ostream& out) {
    const auto search = requests::search_of(line);
    auto temp = [](size_t i) { return i64(i) + LEAST_TEMP; };
    auto name = [&](size_t i) -> const std::string& { return index.of.names[i]; };
    if (search.groups == "temp") tell(index, search, groups(index.temps(), TEMPS, temp), out);
    else if (search.groups == "tag") tell(index, search, groups(index.tags(), index.of.names.size(), name), out);
    else if (search.by == "price") tell(index, search, top(index.prices(), 0, search.is_falling), out);
    else if (search.by == "temp") tell(index, search, top(index.temps(), LEAST_TEMP, search.is_falling), out);
    else tell(index, search, Count{}, out);
}
