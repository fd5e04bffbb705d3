// What the programs that bench/floor.py compares `fts run` with have in common: the lines that they are given.
//
// 'add', a text, a keyword, a price and a temperature, with tabs between, is the next document; documents are numbered from 0. 'delete', a
// tab and a number deletes a document. A line that begins with '{' is a search, written as a script of `fts run` has it, and gets a line in
// reply: the number of hits, then each group as value:count, or each hit of a top list as value@document. An empty line is answered by an
// empty one when everything before it is done.
#pragma once
#include <algorithm>
#include <cstdint>
#include <iostream>
#include <sstream>
#include <string>
#include <string_view>
#include <utility>
#include <vector>

namespace requests {
using std::string, std::string_view, std::vector;

struct Document {
    string body, tag;
    uint32_t price;
    int32_t temp;
};

// The forms of a query: words of which any or all are wanted, a phrase, a range of prices, a tag, a range of tags, all documents.
enum class Form { Any, All, Phrase, Range, Tag, Tags, Every };

struct Search {
    Form form = Form::Any;
    vector<string> words, without;  // a tag, or the first and the last of a range of tags, too
    uint32_t low = 0, high = 0;     // a range of prices, both ends included
    string groups, by;              // a field's name, or nothing
    bool is_falling = false;
};

inline Document document_of(const string& line) {
    vector<string> parts;
    std::istringstream rest(line);
    for (string part; getline(rest, part, '\t');) parts.push_back(part);
    return {parts[1], parts[2], uint32_t(std::stoul(parts[3])), std::stoi(parts[4])};
}

// The value of a member that is a string without quotes in it, or nothing.
inline string member(const string& line, string_view name) {
    size_t at = line.find(name);
    if (at == string::npos) return {};
    at += name.size();
    return line.substr(at, line.find('"', at) - at);
}

inline string query_of(const string& line) {
    string query;
    for (size_t at = line.find("\"query\":\"") + 9; line[at] != '"'; at++) query += line[at] == '\\' ? line[++at] : line[at];
    return query;
}

// The two bounds of a range that begins at a place of a query.
inline vector<string> bounds(const string& query, size_t at) {
    size_t middle = query.find(" TO ", at);
    return {query.substr(at, middle - at), query.substr(middle + 4, query.find(']') - middle - 4)};
}

inline void read_words(Search& search, string_view query) {
    while (!query.empty()) {
        string_view word = query.substr(0, query.find(' '));
        query.remove_prefix(std::min(word.size() + 1, query.size()));
        if (word[0] == '+') search.form = Form::All, word.remove_prefix(1);
        if (word[0] == '-') search.without.emplace_back(word.substr(1));
        else search.words.emplace_back(word);
    }
}

inline Search search_of(const string& line) {
    Search search;
    const string query = query_of(line);
    search.groups = member(line, "\"groups\":\""), search.by = member(line, "\"by\":\"");
    search.is_falling = !search.by.empty() && line.find("falling") != string::npos;
    if (query == "*") search.form = Form::Every;
    else if (query.starts_with("price:[")) {
        auto ends = bounds(query, 7);
        search.form = Form::Range, search.low = std::stoul(ends[0]), search.high = std::stoul(ends[1]);
    } else if (query.starts_with("tag:[")) search.form = Form::Tags, search.words = bounds(query, 5);
    else if (query.starts_with("tag:")) search.form = Form::Tag, search.words = {query.substr(4)};
    else if (query[0] == '"') read_words(search, string_view(query).substr(1, query.size() - 2)), search.form = Form::Phrase;
    else read_words(search, query);
    return search;
}

// Answers all lines of standard input. An index has `add(Document)`, `remove(document)`, `commit()` and `answer(line, out)`.
template <class Index> void serve(Index& index) {
    std::ios::sync_with_stdio(false), std::cin.tie(nullptr);
    bool is_changed = false;
    for (string line; getline(std::cin, line);) {
        if (line.starts_with("add\t")) { index.add(document_of(line)), is_changed = true; continue; }
        if (line.starts_with("delete\t")) { index.remove(std::stoul(line.substr(7))), is_changed = true; continue; }
        if (std::exchange(is_changed, false)) index.commit();
        if (line.empty()) std::cout << std::endl;
        else index.answer(line, std::cout), std::cout << '\n';
    }
}
}
