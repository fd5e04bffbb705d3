// Xapian over a database in shared memory. requests.h says what it is given, and bench/indexes.py builds and runs it.
//
//     g++ -O2 -std=c++20 xapian.cpp -o xapian $(xapian-config --cxxflags --libs)
//     xapian FOLDER < LINES
#include <xapian.h>
#include "requests.h"

using std::string;
using requests::Form, requests::Search;

// Slots of values; numbers are kept in order by `sortable_serialise`, and every number here is exact in a double. A tag is a term after its
// prefix, too.
constexpr Xapian::valueno PRICE = 0, TEMP = 1, TAG = 2;
const string TAGGED = "K";

struct Index {
    Xapian::WritableDatabase writable;
    Xapian::Database base;
    string folder;

    explicit Index(const string& folder) : writable(folder, Xapian::DB_CREATE_OR_OVERWRITE | Xapian::DB_NO_SYNC), folder(folder) {}

    void add(const requests::Document& from) {
        Xapian::Document document;
        std::istringstream words(from.body);
        string word;
        for (Xapian::termpos at = 1; words >> word; at++) document.add_posting(word, at);
        document.add_boolean_term(TAGGED + from.tag);
        document.add_value(PRICE, Xapian::sortable_serialise(from.price));
        document.add_value(TEMP, Xapian::sortable_serialise(from.temp));
        document.add_value(TAG, from.tag);
        writable.add_document(document);
    }
    void remove(uint32_t doc) { writable.delete_document(doc + 1); }
    void commit() { writable.commit(), base = Xapian::Database(folder); }

    static Xapian::Query query(const Search& search) {
        using Q = Xapian::Query;
        auto joined = [](Q::op op, const std::vector<string>& words) { return Q(op, words.begin(), words.end()); };
        switch (search.form) {
        case Form::Range: return Q(Q::OP_VALUE_RANGE, PRICE, Xapian::sortable_serialise(search.low), Xapian::sortable_serialise(search.high));
        case Form::Phrase: return Q(Q::OP_PHRASE, search.words.begin(), search.words.end(), search.words.size());
        case Form::Tag: return Q(TAGGED + search.words[0]);
        case Form::Tags: return Q(Q::OP_VALUE_RANGE, TAG, search.words[0], search.words[1]);
        case Form::Every: return Q::MatchAll;
        default: break;
        }
        Q found = joined(search.form == Form::All ? Q::OP_AND : Q::OP_OR, search.words);
        return search.without.empty() ? found : Q(Q::OP_AND_NOT, found, joined(Q::OP_OR, search.without));
    }

    static string number(const string& value) { return std::to_string(int64_t(Xapian::sortable_unserialise(value))); }

    void answer(const string& line, std::ostream& out) {
        const Search search = requests::search_of(line);
        const auto every = base.get_doccount();
        Xapian::Enquire enquire(base);
        enquire.set_weighting_scheme(Xapian::BoolWeight());
        enquire.set_query(query(search));
        const bool is_tag = search.groups == "tag";
        const auto slot = search.by == "price" ? PRICE : TEMP;
        Xapian::ValueCountMatchSpy spy(is_tag ? TAG : TEMP);
        if (!search.groups.empty()) enquire.add_matchspy(&spy);
        if (!search.by.empty()) enquire.set_sort_by_value(slot, search.is_falling);
        const auto found = enquire.get_mset(0, search.by.empty() ? 0 : 10, every);
        out << found.get_matches_estimated();
        for (auto value = spy.values_begin(); !search.groups.empty() && value != spy.values_end(); ++value)
            out << ' ' << (is_tag ? *value : number(*value)) << ':' << value.get_termfreq();
        for (auto hit = found.begin(); hit != found.end(); ++hit)
            out << ' ' << number(hit.get_document().get_value(slot)) << '@' << *hit - 1;
    }
};

int main(int count, char** arguments) {
    if (count != 2) return 2;
    Index index(arguments[1]);
    requests::serve(index);
}
