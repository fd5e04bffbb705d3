// What Xapian takes to build, strike, compact and commit over a database in shared memory: bench/commits.py gives it documents, a line each, as
// body, keyword and number between tabs. Nanoseconds by the clock come out, as of bench/peers/LuceneWriting.java; it has no segments, so a build is
// one commit, and in place of a merge is a compacted copy.
//
//     g++ -O2 -std=c++20 bench/peers/xapian_writing.cpp -o writing $(xapian-config --cxxflags --libs)
//     ./writing FOLDER COMMITS DOCUMENTS
#include <xapian.h>
#include <chrono>
#include <cstdint>
#include <iostream>
#include <sstream>
#include <string>
#include <vector>

using std::string;
using Clock = std::chrono::steady_clock;

static int64_t since(Clock::time_point from) {
    return std::chrono::duration_cast<std::chrono::nanoseconds>(Clock::now() - from).count();
}

static void add(Xapian::WritableDatabase& base, const string& line) {
    std::istringstream parts(line);
    string body, tag, number, word;
    getline(parts, body, '\t'), getline(parts, tag, '\t'), getline(parts, number, '\t');
    Xapian::Document document;
    std::istringstream words(body);
    for (Xapian::termpos at = 1; words >> word; at++) document.add_posting(word, at);
    document.add_boolean_term("K" + tag);
    document.add_value(0, Xapian::sortable_serialise(std::stod(number)));
    document.set_data(line);
    base.add_document(document);
}

static void merges(const string& folder, const std::vector<string>& lines, bool strikes) {
    auto from = Clock::now();
    Xapian::WritableDatabase base(folder, Xapian::DB_CREATE_OR_OVERWRITE);
    for (const string& line : lines) add(base, line);
    base.commit();
    std::cout << since(from) << '\n';
    from = Clock::now();
    if (strikes) {
        base.delete_document("Kt3");
        base.commit();
    }
    std::cout << since(from) << '\n';
    from = Clock::now();
    base.compact(folder + "-compacted");
    std::cout << since(from) << '\n';
}

int main(int count, char** arguments) {
    if (count < 4) return 2;
    const string folder = arguments[1];
    const size_t commits = std::stoul(arguments[2]), documents = std::stoul(arguments[3]);
    std::vector<string> lines;
    for (string line; getline(std::cin, line);) lines.push_back(line);
    {
        Xapian::WritableDatabase base(folder + "-commits", Xapian::DB_CREATE_OR_OVERWRITE);
        for (size_t at = 0; at < commits; at++) {
            const auto from = Clock::now();
            add(base, lines[at]);
            base.commit();
            std::cout << since(from) << '\n';
        }
    }
    lines.resize(documents);
    merges(folder + "-whole", lines, false);
    merges(folder + "-struck", lines, true);
}
