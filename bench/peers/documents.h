// The documents that the loops of bench/peers search, as plain arrays: an index that nothing packs.
#pragma once
#include <iterator>
#include <map>
#include <sstream>
#include <string>
#include <unordered_map>
#include <utility>
#include <vector>
#include "keep.h"
#include "requests.h"

// A word's documents, rising, and the positions of document i from start[i] to start[i + 1].
struct Postings {
    std::vector<u32> docs, start, positions;
    u32 end_of(size_t i) const { return i + 1 < start.size() ? start[i + 1] : positions.size(); }
};

constexpr i64 LEAST_TEMP = -50;
constexpr size_t TEMPS = 100;

struct Documents {
    std::unordered_map<std::string, Postings> words;
    std::map<std::string, std::vector<u32>> tags;
    std::vector<std::string> names;          // of the tags, in order
    std::vector<u32> price, temp, tag;       // of each document: its price, how far its temperature is above the least, its tag's place in `names`
    Live live;
    bool has_deletes = false;

    void add(const requests::Document& document) {
        u32 doc = price.size(), position = 0;
        std::istringstream tokens(document.body);
        for (std::string word; tokens >> word;) {
            Postings& of = words[word];
            if (of.docs.empty() || of.docs.back() != doc) of.docs.push_back(doc), of.start.push_back(of.positions.size());
            of.positions.push_back(position++);
        }
        tags[document.tag].push_back(doc);
        price.push_back(document.price), temp.push_back(document.temp - LEAST_TEMP), live.add();
    }
    void remove(u32 doc) { live.remove(doc), has_deletes = true; }
    // Once, when all documents are there.
    void number_tags() {
        tag.resize(price.size());
        for (auto& [name, docs] : tags) {
            for (u32 d : docs) tag[d] = names.size();
            names.push_back(name);
        }
    }
    const Postings& postings(const std::string& word) const {
        static const Postings none;
        auto it = words.find(word);
        return it == words.end() ? none : it->second;
    }
    const std::vector<u32>& tagged(const std::string& name) const {
        static const std::vector<u32> none;
        auto it = tags.find(name);
        return it == tags.end() ? none : it->second;
    }
    // The first place of the tags between two, and how many they are.
    std::pair<u32, u32> places(const std::vector<std::string>& ends) const {
        auto low = std::lower_bound(names.begin(), names.end(), ends[0]), high = std::upper_bound(low, names.end(), ends[1]);
        return {low - names.begin(), high - low};
    }
};
