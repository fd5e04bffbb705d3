// The comparison for bench/segment.py: a plain inverted index of the same documents, as a C++ programmer would write it on a
// free afternoon. Documents come as lines of JSON from standard input, in the form that the script writes them; the time of
// the building, tokens and lower case included, goes to standard output.
#include <algorithm>
#include <chrono>
#include <cstdint>
#include <cstdlib>
#include <iostream>
#include <string>
#include <string_view>
#include <unordered_map>
#include <vector>

struct Document {
    std::string body, tag;
    uint64_t price;
    int64_t temp;
};

struct Postings {
    std::vector<uint32_t> documents, ends, positions;
};

using Terms = std::unordered_map<std::string, Postings>;
template <typename Number> using Numbers = std::unordered_map<Number, std::vector<uint32_t>>;

static std::string text_behind(const std::string& line, const char* name) {
    size_t from = line.find(name) + std::string_view(name).size();
    return line.substr(from, line.find('"', from) - from);
}

static long long number_behind(const std::string& line, const char* name) {
    return std::strtoll(line.c_str() + line.find(name) + std::string_view(name).size(), nullptr, 10);
}

static void add(Terms& terms, const std::string& term, uint32_t document, uint32_t position) {
    Postings& postings = terms[term];
    if (postings.documents.empty() || postings.documents.back() != document) {
        postings.documents.push_back(document);
        postings.ends.push_back(postings.positions.size());
    }
    postings.positions.push_back(position);
    postings.ends.back() = postings.positions.size();
}

static void add_tokens(Terms& terms, const std::string& text, uint32_t document) {
    std::string token;
    uint32_t position = 0;
    for (size_t at = 0; at <= text.size(); at++) {
        unsigned char c = at < text.size() ? text[at] : ' ';
        if (std::isalnum(c)) {
            token.push_back(std::tolower(c));
        } else if (!token.empty()) {
            add(terms, token, document, position++);
            token.clear();
        }
    }
}

template <typename Map> static auto in_order(const Map& map) {
    std::vector<typename Map::const_iterator> entries;
    for (auto entry = map.begin(); entry != map.end(); ++entry) entries.push_back(entry);
    std::sort(entries.begin(), entries.end(), [](auto a, auto b) { return a->first < b->first; });
    return entries.size();
}

int main() {
    std::ios::sync_with_stdio(false);
    std::vector<Document> documents;
    for (std::string line; std::getline(std::cin, line);) {
        documents.push_back({text_behind(line, "\"body\":\""), text_behind(line, "\"tag\":\""),
                             uint64_t(number_behind(line, "\"price\":")), number_behind(line, "\"temp\":")});
    }
    auto start = std::chrono::steady_clock::now();
    Terms bodies, tags;
    Numbers<uint64_t> prices;
    Numbers<int64_t> temps;
    for (uint32_t document = 0; document < documents.size(); document++) {
        const Document& d = documents[document];
        add_tokens(bodies, d.body, document);
        add(tags, d.tag, document, 0);
        prices[d.price].push_back(document);
        temps[d.temp].push_back(document);
    }
    size_t terms = in_order(bodies) + in_order(tags) + in_order(prices) + in_order(temps);
    auto time = std::chrono::duration_cast<std::chrono::microseconds>(std::chrono::steady_clock::now() - start);
    std::cout << documents.size() << " documents built in " << time.count() << " us by C++, " << terms << " terms\n";
}
