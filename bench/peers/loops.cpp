// Searches at about their least cost, to compare `fts run` with: by loops over plain arrays, by loops over packed lists, or by CRoaring's
// bitmaps. One segment, no JSON but the line of a search, no proof. requests.h says what it is given, and bench/indexes.py builds and runs it.
//
//     g++ -O2 -march=x86-64-v2 -std=c++20 loops.cpp -o loops [-DBITMAPS -lroaring]
//     loops plain|packed|bitmaps < LINES
#include <optional>
#include "answers.h"
#include "packed.h"
#include "plain.h"
#ifdef BITMAPS
#include "bitmaps.h"
#endif

// An index over documents that are added before it is asked first, and some of which are deleted later.
template <class Index> struct Served {
    Documents documents;
    std::optional<Index> index;

    void add(const requests::Document& document) { documents.add(document); }
    void remove(u32 doc) { documents.remove(doc); }
    void commit() {
        if (!index) documents.number_tags(), index.emplace(documents);
        if constexpr (Index::strikes) if (documents.has_deletes) index->strike();
    }
    void answer(const std::string& line, std::ostream& out) { ::answer(*index, line, out); }
};

template <class Index> static int serve() {
    Served<Index> served;
    requests::serve(served);
    return 0;
}

int main(int count, char** arguments) {
    const std::string form = count == 2 ? arguments[1] : "";
    if (form == "plain") return serve<plain::Index>();
    if (form == "packed") return serve<packed::Index>();
#ifdef BITMAPS
    if (form == "bitmaps") return serve<bitmaps::Index>();
#endif
    return 2;
}
