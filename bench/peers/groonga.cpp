// Groonga over a database in shared memory, by its own commands within the process, and so with its JSON. requests.h says what it is given,
// but the answers are Groonga's own; bench/indexes.py builds and runs it, and reads them.
//
//     g++ -O2 -std=c++20 groonga.cpp -o groonga $(pkg-config --cflags --libs groonga)
//     groonga FILE < LINES
#include <cstdio>
#include <cstdlib>
#include <utility>
#include <groonga.h>
#include "requests.h"

using std::string;
using requests::Form, requests::Search;

struct Index {
    grn_ctx* context;
    grn_obj *documents = nullptr, *body = nullptr, *tag = nullptr, *price = nullptr, *temp = nullptr;
    bool is_indexed = false;

    explicit Index(const string& file) : context(grn_ctx_open(0)) {
        grn_db_create(context, file.c_str(), nullptr);
        for (auto command : {
            "table_create Tags TABLE_PAT_KEY ShortText", "table_create Documents TABLE_NO_KEY", "column_create Documents body COLUMN_SCALAR Text",
            "column_create Documents tag COLUMN_SCALAR Tags", "column_create Documents price COLUMN_SCALAR UInt32",
            "column_create Documents temp COLUMN_SCALAR Int32"}) ask(command);
        auto named = [this](const char* name) { return grn_ctx_get(context, name, -1); };
        documents = named("Documents"), body = named("Documents.body"), tag = named("Documents.tag");
        price = named("Documents.price"), temp = named("Documents.temp");
    }

    string ask(const string& command) {
        char* told = nullptr;
        unsigned size = 0;
        int flags = 0;
        grn_ctx_send(context, command.data(), command.size(), 0);
        grn_ctx_recv(context, &told, &size, &flags);
        if (context->rc) std::fprintf(stderr, "%s: %s\n", command.c_str(), context->errbuf), std::exit(1);
        return {told, size};
    }

    void set(grn_obj* column, grn_id id, grn_obj& value) {
        grn_obj_set_value(context, column, id, &value, GRN_OBJ_SET);
        GRN_OBJ_FIN(context, &value);
    }
    void set(grn_obj* column, grn_id id, const string& text) {
        grn_obj value;
        GRN_TEXT_INIT(&value, 0);
        GRN_TEXT_SET(context, &value, text.data(), text.size());
        set(column, id, value);
    }

    void add(const requests::Document& from) {
        const grn_id id = grn_table_add(context, documents, nullptr, 0, nullptr);
        grn_obj value;
        set(body, id, from.body), set(tag, id, from.tag);
        GRN_UINT32_INIT(&value, 0);
        GRN_UINT32_SET(context, &value, from.price);
        set(price, id, value);
        GRN_INT32_INIT(&value, 0);
        GRN_INT32_SET(context, &value, from.temp);
        set(temp, id, value);
    }
    void remove(uint32_t doc) { grn_table_delete_by_id(context, documents, doc + 1); }

    // Indexes are made when all documents are there, which is the fastest way.
    void commit() {
        if (std::exchange(is_indexed, true)) return;
        for (auto command : {
            "table_create Words TABLE_PAT_KEY ShortText --default_tokenizer TokenDelimit",
            "column_create Words index COLUMN_INDEX|WITH_POSITION Documents body",
            "column_create Tags index COLUMN_INDEX Documents tag", "table_create Prices TABLE_PAT_KEY UInt32",
            "column_create Prices index COLUMN_INDEX Documents price"}) ask(command);
    }

    static string joined(const std::vector<string>& words, const char* before) {
        string all;
        for (auto& word : words) all += (all.empty() ? "" : before) + word;
        return all;
    }

    static string matching(const Search& search) {
        auto between = [](const string& what, const string& low, const string& high) {
            return " --filter 'between(" + what + ", " + low + ", \"include\", " + high + ", \"include\")'";
        };
        const string query = " --match_columns body --query '";
        switch (search.form) {
        case Form::Any: return query + joined(search.words, " OR ") + "'";
        case Form::All: return query + joined(search.words, " + ") + (search.without.empty() ? "" : " - " + joined(search.without, " - ")) + "'";
        case Form::Phrase: return query + "\"" + joined(search.words, " ") + "\"'";
        case Form::Range: return between("price", std::to_string(search.low), std::to_string(search.high));
        case Form::Tag: return " --filter 'tag == \"" + search.words[0] + "\"'";
        case Form::Tags: return between("tag._key", "\"" + search.words[0] + "\"", "\"" + search.words[1] + "\"");
        case Form::Every: return "";
        }
        return "";
    }

    void answer(const string& line, std::ostream& out) {
        const Search search = requests::search_of(line);
        string command = "select Documents --cache no" + matching(search);
        if (search.by.empty()) command += " --limit 0 --output_columns _id";
        else command += " --limit 10 --output_columns " + search.by + ",_id --sort_keys " + (search.is_falling ? "-" : "") + search.by + ",_id";
        if (!search.groups.empty()) command += " --drilldown " + search.groups + " --drilldown_sort_keys _key --drilldown_limit -1";
        out << ask(command);
    }
};

int main(int count, char** arguments) {
    if (count != 2) return 2;
    grn_init();
    {
        Index index(arguments[1]);
        requests::serve(index);
    }
    return 0;
}
