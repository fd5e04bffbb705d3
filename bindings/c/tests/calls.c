/* Blocks of lines, blocks that are done whole or not, two lines as one, searches with chosen fields or the most frequent
 * groups, and merges: what they reply, and what refused growths leave.
 *
 * Each call is made with its first growth refused, then with its second, and so on until it takes place; a block goes
 * on after the lines that were done. Documents are counted at the end.
 */
#include <stdio.h>
#include <stdlib.h>
#include <string.h>

#include "dilforec.h"

long refuse_growth(long n, const char *file);

enum { DOCUMENTS = 200 };

static const char *SCHEMA = "{\"schema\":[{\"name\":\"title\",\"kind\":\"text\",\"default\":true},"
                            "{\"name\":\"isbn\",\"kind\":\"u64\"},{\"name\":\"note\",\"kind\":\"text\"}]}";
static const char *TOP = "{\"search\":{\"query\":\"rust\",\"top\":{\"by\":\"isbn\",\"k\":2,\"order\":\"rising\"}}}";
static int passed, failed;
static long refusals;

static void expect(int holds, const char *sentence) {
    if (holds) passed++;
    else {
        failed++;
        printf("calls: not so: %s\n", sentence);
    }
}

static const uint8_t *bytes(const char *text) { return (const uint8_t *)text; }

/* Repeats a call until it isn't refused: each time one growth more is granted first. */
#define AGAIN(code, call)                 \
    for (long n = 1;; n++) {              \
        refuse_growth(n, NULL);           \
        code = call;                      \
        refuse_growth(0, NULL);           \
        if (code != DILFOREC_MEMORY) break; \
        refusals++;                       \
    }

static int32_t execute(dilforec_t *index, const char *line) {
    int32_t code;
    AGAIN(code, dilforec_execute(index, bytes(line), strlen(line)));
    return code;
}

static int32_t replace(dilforec_t *index, const char *delete_line, const char *add_line) {
    int32_t code;
    AGAIN(code, dilforec_replace(index, bytes(delete_line), strlen(delete_line), bytes(add_line), strlen(add_line)));
    return code;
}

static int32_t fields(dilforec_t *index, const char *line, const char *names) {
    int32_t code;
    AGAIN(code, dilforec_execute_fields(index, bytes(line), strlen(line), bytes(names), strlen(names)));
    return code;
}

static int32_t groups(dilforec_t *index, const char *line, size_t limit) {
    int32_t code;
    AGAIN(code, dilforec_execute_groups(index, bytes(line), strlen(line), limit));
    return code;
}

static int replies(dilforec_t *index, const char *wanted) {
    static uint8_t reply[65536];
    size_t length = dilforec_reply(index, reply, sizeof reply);
    if (length == strlen(wanted) && memcmp(reply, wanted, length) == 0) return 1;
    printf("calls: wanted %s", wanted);
    printf("calls: got    %.*s", length < sizeof reply ? (int)length : 0, (const char *)reply);
    return 0;
}

/* The place in a block after some of its lines. */
static const char *after(const char *block, size_t lines) {
    while (lines--) block = strchr(block, '\n') + 1;
    return block;
}

static void blocks(void) {
    static char block[64 * DOCUMENTS], wanted[64 * DOCUMENTS], told[64 * DOCUMENTS];
    dilforec_t index = {0};
    size_t done = 0, lines = 0, room = 0;
    const char *rest = block;
    expect(dilforec_open(&index) == DILFOREC_OK && execute(&index, SCHEMA) == DILFOREC_OK, "an index is opened");
    for (int i = 1, in = 0, out = 0; i <= DOCUMENTS; i++) {
        in += sprintf(block + in, "{\"add\":{\"title\":\"rust %d\",\"isbn\":%d}}\n", i, i);
        out += sprintf(wanted + out, "{\"stamp\":%d}\n", i);
    }
    for (long n = 1; *rest; n = done ? 1 : n + 1) {
        refuse_growth(n, NULL);
        int32_t code = dilforec_execute_lines(&index, bytes(rest), strlen(rest), &done);
        refuse_growth(0, NULL);
        refusals += code == DILFOREC_MEMORY;
        expect(code == DILFOREC_OK || code == DILFOREC_MEMORY, "a block has the code of a line");
        room += dilforec_reply(&index, (uint8_t *)told + room, sizeof told - room);
        rest = after(rest, done);
        lines += done;
    }
    expect(lines == DOCUMENTS && room == strlen(wanted) && memcmp(told, wanted, room) == 0, "the replies of all lines");
    execute(&index, "{\"commit\":true}");
    execute(&index, "{\"search\":{\"query\":\"rust\"}}");
    expect(replies(&index, "{\"count\":200}\n"), "each document is there once");
    const char *mixed = "{\"add\":{}}\n\n{\"add\":1}\nnonsense\n{\"add\":{}}";
    expect(dilforec_execute_lines(&index, bytes(mixed), strlen(mixed), &done) == DILFOREC_OK && done == 5
               && replies(&index, "{\"stamp\":202}\n{\"error\":\"NotAnObject\",\"line\":206}\n"
                                  "{\"error\":\"BadJson\",\"line\":207}\n{\"stamp\":203}\n"),
           "blank and refused lines are done, and an end without an LF ends a line");
    expect(dilforec_execute_lines(&index, bytes(""), 0, &done) == DILFOREC_OK && done == 0 && replies(&index, ""),
           "an empty block has no line");
    char *longest = malloc(DILFOREC_LONGEST_LINE + 16);
    if (!longest) abort();
    memset(longest, ' ', DILFOREC_LONGEST_LINE + 16);
    memcpy(longest, "{\"add\":{}}\n", 11);
    expect(dilforec_execute_lines(&index, bytes(longest), DILFOREC_LONGEST_LINE + 16, &done) == DILFOREC_LINE_TOO_LONG
               && done == 1 && replies(&index, "{\"stamp\":204}\n"), "a line over the limit ends a block");
    free(longest);
    dilforec_close(&index);
}

static void pairs(void) {
    dilforec_t index = {0};
    char delete_line[64], add_line[64], wanted[64];
    dilforec_open(&index);
    execute(&index, SCHEMA);
    execute(&index, "{\"add\":{\"title\":\"rust\",\"isbn\":1}}");
    for (int i = 1; i <= DOCUMENTS; i++) {
        sprintf(delete_line, "{\"delete\":{\"isbn\":%d}}", i);
        sprintf(add_line, "{\"add\":{\"title\":\"rust\",\"isbn\":%d}}", i + 1);
        sprintf(wanted, "{\"stamp\":%d}\n", 2 * i + 1);
        if (replace(&index, delete_line, add_line) != DILFOREC_OK || !replies(&index, wanted)) break;
    }
    expect(replies(&index, "{\"stamp\":401}\n"), "a replacement answers the stamp of its add");
    const char *bad[][3] = {
        {"{\"delete\":{\"isbn\":201}}", "{\"add\":{\"isbn\":\"late\"}}", "{\"error\":\"WrongKind\",\"line\":403}\n"},
        {"{\"delete\":{\"none\":201}}", "{\"add\":{\"isbn\":1}}", "{\"error\":\"UnknownField\",\"line\":403}\n"},
        {"{\"add\":{\"isbn\":1}}", "{\"add\":{\"isbn\":1}}", "{\"error\":\"BadCommand\",\"line\":403}\n"},
        {"{\"delete\":{\"isbn\":201}}", "{\"commit\":true}", "{\"error\":\"BadCommand\",\"line\":403}\n"},
        {"{\"delete\":{\"isbn\":201}}", "", "{\"error\":\"BadJson\",\"line\":403}\n"},
    };
    for (size_t i = 0; i < sizeof bad / sizeof *bad; i++)
        expect(replace(&index, bad[i][0], bad[i][1]) == DILFOREC_OK && replies(&index, bad[i][2]),
               "a refused replacement does nothing");
    execute(&index, "{\"commit\":true}");
    expect(replies(&index, "{\"commit\":402}\n"), "and draws no stamp");
    execute(&index, "{\"search\":{\"query\":\"isbn:201\"}}");
    expect(replies(&index, "{\"count\":1}\n"), "the last one is there");
    execute(&index, "{\"search\":{\"query\":\"*\"}}");
    expect(replies(&index, "{\"count\":1}\n"), "and alone");
    dilforec_close(&index);
}

static int32_t transaction(dilforec_t *index, const char *block, size_t *done) {
    int32_t code;
    AGAIN(code, dilforec_transaction(index, bytes(block), strlen(block), done));
    return code;
}

static void whole(void) {
    static char block[64 * DOCUMENTS], wanted[64 * DOCUMENTS];
    dilforec_t index = {0};
    size_t done = 7;
    int in = 0, out = 0;
    dilforec_open(&index);
    expect(transaction(&index, "{\"add\":{}}", &done) == DILFOREC_OK && done == 0
               && replies(&index, "{\"error\":\"NoSchema\",\"line\":1}\n"), "there is no schema");
    execute(&index, SCHEMA);
    for (int i = 1; i <= DOCUMENTS; i++) {
        in += sprintf(block + in, "{\"add\":{\"title\":\"rust %d\",\"isbn\":%d}}\n", i, i);
        out += sprintf(wanted + out, "{\"stamp\":%d}\n", i);
    }
    expect(transaction(&index, block, &done) == DILFOREC_OK && done == DOCUMENTS && replies(&index, wanted),
           "a block is done whole, and each line has its stamp");
    expect(transaction(&index, "{\"delete\":{\"isbn\":7}}\n{\"delete_all\":true}\n{\"add\":{}}", &done) == DILFOREC_OK
               && done == 3 && replies(&index, "{\"stamp\":201}\n{\"stamp\":202}\n{\"stamp\":203}\n"), "deletes are, too");
    expect(transaction(&index, "", &done) == DILFOREC_OK && done == 0 && replies(&index, ""), "an empty one has no line");
    const char *bad[][2] = {
        {"{\"add\":{\"isbn\":\"late\"}}", "{\"error\":\"WrongKind\",\"line\":205}\n"},
        {"{\"delete\":{\"none\":1}}", "{\"error\":\"UnknownField\",\"line\":205}\n"},
        {"{\"commit\":true}", "{\"error\":\"BadCommand\",\"line\":205}\n"},
        {"{\"rollback\":true}", "{\"error\":\"BadCommand\",\"line\":205}\n"},
        {"{\"search\":{\"query\":\"rust\"}}", "{\"error\":\"BadCommand\",\"line\":205}\n"},
        {"{\"schema\":[]}", "{\"error\":\"BadCommand\",\"line\":205}\n"},
        {" ", "{\"error\":\"BadJson\",\"line\":205}\n"},
        {"nonsense", "{\"error\":\"BadJson\",\"line\":205}\n"},
    };
    for (size_t i = 0; i < sizeof bad / sizeof *bad; i++) {
        snprintf(block, sizeof block, "{\"add\":{}}\n{\"delete_all\":true}\n%s\n{\"add\":1}\n", bad[i][0]);
        expect(transaction(&index, block, &done) == DILFOREC_OK && done == 2 && replies(&index, bad[i][1]),
               "the first refused line is told, and nothing is done");
    }
    char *longest = malloc(DILFOREC_LONGEST_LINE + 16);
    if (!longest) abort();
    memset(longest, ' ', DILFOREC_LONGEST_LINE + 16);
    memcpy(longest, "{\"add\":{}}\n", 11);
    expect(dilforec_transaction(&index, bytes(longest), DILFOREC_LONGEST_LINE + 16, &done) == DILFOREC_LINE_TOO_LONG
               && done == 1 && replies(&index, ""), "a line over the limit has no reply");
    free(longest);
    execute(&index, "{\"commit\":true}");
    expect(replies(&index, "{\"commit\":204}\n"), "what wasn't done drew no stamp");
    execute(&index, "{\"search\":{\"query\":\"*\"}}");
    expect(replies(&index, "{\"count\":1}\n"), "and the last document is there");
    execute(&index, "nonsense");
    expect(replies(&index, "{\"error\":\"BadJson\",\"line\":207}\n"), "and only lines that were done are counted");
    dilforec_close(&index);
}

static void chosen(void) {
    dilforec_t index = {0};
    dilforec_searcher_t searcher = {0};
    uint8_t reply[4096];
    int32_t code;
    const char *cut = "{\"count\":2,\"top\":[{\"doc\":{\"title\":\"rust\"},\"stamp\":1,\"value\":1},"
                      "{\"doc\":{\"title\":\"more rust\"},\"stamp\":2,\"value\":2}]}\n";
    dilforec_open(&index);
    expect(fields(&index, TOP, "[]") == DILFOREC_OK && replies(&index, "{\"error\":\"NoSchema\",\"line\":1}\n"),
           "there is no schema");
    execute(&index, SCHEMA);
    execute(&index, "{\"add\":{\"title\":\"rust\",\"isbn\":1,\"note\":\"red\"}}");
    execute(&index, "{\"add\":{\"title\":\"more rust\",\"isbn\":2}}");
    execute(&index, "{\"commit\":true}");
    expect(fields(&index, TOP, "[\"title\"]") == DILFOREC_OK && replies(&index, cut), "the chosen field alone");
    expect(fields(&index, TOP, "[\"note\",\"title\",\"note\"]") == DILFOREC_OK
               && replies(&index, "{\"count\":2,\"top\":[{\"doc\":{\"note\":\"red\",\"title\":\"rust\"},\"stamp\":1,"
                                  "\"value\":1},{\"doc\":{\"title\":\"more rust\"},\"stamp\":2,\"value\":2}]}\n"),
           "fields that have a value, each once");
    expect(fields(&index, TOP, "[\"titel\"]") == DILFOREC_OK
               && replies(&index, "{\"error\":\"UnknownField\",\"line\":5}\n"), "an unknown name is refused");
    expect(fields(&index, TOP, "7") == DILFOREC_OK && replies(&index, "{\"error\":\"BadCommand\",\"line\":5}\n"),
           "and what is no list");
    expect(fields(&index, "{\"commit\":true}", "[]") == DILFOREC_OK
               && replies(&index, "{\"error\":\"BadCommand\",\"line\":5}\n"), "and another command");
    expect(fields(&index, " ", "[]") == DILFOREC_OK && replies(&index, ""), "a blank line has an empty reply");
    expect(dilforec_searcher(&index, &searcher) == DILFOREC_OK, "a searcher");
    AGAIN(code, dilforec_search_fields(&searcher, bytes(TOP), strlen(TOP), bytes("[\"title\"]"), 9));
    expect(code == DILFOREC_OK && dilforec_searcher_reply(&searcher, reply, sizeof reply) == strlen(cut)
               && memcmp(reply, cut, strlen(cut)) == 0, "replies the same");
    dilforec_searcher_close(&searcher);
    dilforec_close(&index);
}

/* The groups that most hits have. */
static void frequent(void) {
    static const char *FIND = "{\"search\":{\"query\":\"*\",\"groups\":\"isbn\"}}";
    const char *numbers = "5 3 3 9 5 1 3 7 9";
    dilforec_t index = {0};
    dilforec_searcher_t searcher = {0};
    uint8_t reply[256];
    char line[64];
    int32_t code;
    dilforec_open(&index);
    expect(groups(&index, FIND, 1) == DILFOREC_OK && replies(&index, "{\"error\":\"NoSchema\",\"line\":1}\n"),
           "there is no schema");
    execute(&index, SCHEMA);
    for (const char *number = numbers; *number; number += number[1] ? 2 : 1) {
        sprintf(line, "{\"add\":{\"isbn\":%c}}", *number);
        execute(&index, line);
    }
    execute(&index, "{\"commit\":true}");
    expect(groups(&index, FIND, 0) == DILFOREC_OK && replies(&index, "{\"count\":9,\"groups\":[]}\n"), "no group");
    expect(groups(&index, FIND, 2) == DILFOREC_OK && replies(&index, "{\"count\":9,\"groups\":[[3,3],[5,2]]}\n"),
           "the most frequent first, those as frequent by their values");
    const char *all = "{\"count\":9,\"groups\":[[3,3],[5,2],[9,2],[1,1],[7,1]]}\n";
    expect(groups(&index, FIND, SIZE_MAX) == DILFOREC_OK && replies(&index, all), "all of them");
    expect(groups(&index, "{\"search\":{\"query\":\"*\"}}", 2) == DILFOREC_OK && replies(&index, "{\"count\":9}\n"),
           "a search without groups");
    expect(groups(&index, "{\"search\":{\"query\":\"*\",\"groups\":\"title\"}}", 2) == DILFOREC_OK
               && replies(&index, "{\"error\":\"NotANumberField\",\"line\":12}\n"), "groups of a text field are refused");
    expect(groups(&index, "{\"commit\":true}", 2) == DILFOREC_OK
               && replies(&index, "{\"error\":\"BadCommand\",\"line\":12}\n"), "and another command");
    expect(groups(&index, " ", 2) == DILFOREC_OK && replies(&index, ""), "a blank line has an empty reply");
    expect(dilforec_searcher(&index, &searcher) == DILFOREC_OK, "a searcher");
    AGAIN(code, dilforec_search_groups(&searcher, bytes(FIND), strlen(FIND), 5));
    expect(code == DILFOREC_OK && dilforec_searcher_reply(&searcher, reply, sizeof reply) == strlen(all)
               && memcmp(reply, all, strlen(all)) == 0, "replies the same");
    dilforec_searcher_close(&searcher);
    dilforec_close(&index);
}

static int syntax(const char *query, size_t wanted) {
    int32_t code;
    size_t at = 7777;
    AGAIN(code, dilforec_syntax_at(bytes(query), strlen(query), &at));
    if (code == DILFOREC_OK && at == wanted) return 1;
    printf("calls: %s can't be read from %zu on, not %zu\n", query, at, wanted);
    return 0;
}

/* The byte of a query that isn't in the grammar. */
static void syntaxes(void) {
    static char deep[64], open_quote[4096];
    size_t at = 7;
    const char *none[] = {"", " ", "rust", "titel:a", "-rust", "title:[a TO b]", "\xff", "rust \xff OR", deep};
    memset(deep, '(', 33);
    for (size_t i = 0; i < sizeof none / sizeof *none; i++)
        expect(syntax(none[i], DILFOREC_NO_BYTE), "a query in the grammar, and what isn't refused as Syntax, has no byte");
    const struct { const char *query; size_t at; } some[] = {
        {"rust OR", 5}, {"(rust", 5}, {"rust )", 5}, {"--a", 1}, {"\xd1\x8f\xd1\x8f \"a", 7}, {"title:", 6},
        {"year:[1 TO", 7}, {"year:[1 TO 2", 12}, {"a NOT(b)", 5}, {" AND", 1},
    };
    for (size_t i = 0; i < sizeof some / sizeof *some; i++)
        expect(syntax(some[i].query, some[i].at), "a query that isn't has the byte from which on it can't be read");
    memset(open_quote, 'a', sizeof open_quote);
    open_quote[0] = '"';
    expect(dilforec_syntax_at(bytes(open_quote), sizeof open_quote, &at) == DILFOREC_OK && at == sizeof open_quote,
           "which may be the end of the longest query");
}

static uint64_t segments(dilforec_t *index) {
    dilforec_stats_t stats = {0};
    return dilforec_stats(index, &stats) == DILFOREC_OK ? stats.segments : UINT64_MAX;
}

/* Adds documents with the numbers from `first` on, each in a commit of its own. */
static void commit_each(dilforec_t *index, int first, int number) {
    char line[64];
    for (int i = first; i < first + number; i++) {
        sprintf(line, "{\"add\":{\"title\":\"rust\",\"isbn\":%d}}", i);
        execute(index, line);
        execute(index, "{\"commit\":true}");
    }
}

static int32_t begin(dilforec_t *index, dilforec_merge_t *merge) {
    int32_t code;
    AGAIN(code, dilforec_merge_begin(index, merge));
    return code;
}

static int32_t run(dilforec_merge_t *merge) {
    int32_t code;
    AGAIN(code, dilforec_merge_run(merge));
    return code;
}

static int32_t end(dilforec_t *index) {
    int32_t code;
    AGAIN(code, dilforec_merge_end(index));
    return code;
}

/* Merges that are begun, run and ended beside commits. */
static void merges(void) {
    dilforec_t index = {0};
    dilforec_merge_t merge = {0}, other = {0};
    dilforec_stats_t stats = {0};
    expect(dilforec_limit_merges(&index, 0) == DILFOREC_CLOSED && begin(&index, &merge) == DILFOREC_CLOSED
               && run(&merge) == DILFOREC_CLOSED && end(&index) == DILFOREC_CLOSED
               && dilforec_merge_close(&merge) == DILFOREC_CLOSED, "closed handles are told so");
    dilforec_open(&index);
    expect(dilforec_limit_merges(&index, 0) == DILFOREC_NOTHING && begin(&index, &merge) == DILFOREC_NOTHING
               && end(&index) == DILFOREC_NOTHING && merge.at == NULL, "without a schema there is nothing to merge");
    execute(&index, SCHEMA);
    expect(dilforec_limit_merges(&index, 0) == DILFOREC_OK && begin(&index, &merge) == DILFOREC_NOTHING,
           "nor without a commit");
    commit_each(&index, 0, 8);
    expect(segments(&index) == 8, "commits under a limit merge nothing above it");
    expect(begin(&index, &merge) == DILFOREC_OK && end(&index) == DILFOREC_NOTHING, "a merge is begun, and isn't run yet");
    execute(&index, "{\"delete\":{\"isbn\":0}}");
    commit_each(&index, 8, 1);
    expect(run(&merge) == DILFOREC_OK && dilforec_merge_run(&merge) == DILFOREC_OK && segments(&index) > 7,
           "it is run while the index goes on");
    execute(&index, "{\"search\":{\"query\":\"rust\"}}");
    expect(replies(&index, "{\"count\":8}\n") && end(&index) == DILFOREC_OK && replies(&index, "{\"count\":8}\n"),
           "it is ended, and the last reply stays");
    expect(dilforec_stats(&index, &stats) == DILFOREC_OK && stats.segments == 2 && stats.documents == 9 && stats.live == 8,
           "what it made is in the place of what it joined, without what was deleted meanwhile");
    execute(&index, "{\"search\":{\"query\":\"rust\"}}");
    expect(replies(&index, "{\"count\":8}\n") && end(&index) == DILFOREC_NOTHING, "nothing is found differently by it");
    expect(dilforec_merge_close(&merge) == DILFOREC_OK && dilforec_merge_close(&merge) == DILFOREC_CLOSED, "it is closed");

    commit_each(&index, 9, 8);
    expect(begin(&index, &merge) == DILFOREC_OK && begin(&index, &other) == DILFOREC_OK && run(&merge) == DILFOREC_OK
               && end(&index) == DILFOREC_NOTHING, "a merge is forgotten when the next is begun");
    execute(&index, "{\"merge\":true}");
    expect(run(&other) == DILFOREC_OK && end(&index) == DILFOREC_GONE && end(&index) == DILFOREC_NOTHING,
           "a merge is given up whose segments another took");
    dilforec_merge_close(&merge);
    dilforec_merge_close(&other);

    expect(dilforec_limit_merges(&index, DILFOREC_NO_LIMIT) == DILFOREC_OK, "the limit is taken away");
    commit_each(&index, 17, 8);
    expect(segments(&index) < 8, "and commits merge again");
    dilforec_limit_merges(&index, 0);
    commit_each(&index, 25, 8);
    expect(begin(&index, &merge) == DILFOREC_OK && dilforec_close(&index) == DILFOREC_OK && run(&merge) == DILFOREC_OK
               && dilforec_merge_close(&merge) == DILFOREC_OK, "a merge lives on when its index is closed");
}

int main(void) {
    syntaxes();
    blocks();
    whole();
    pairs();
    chosen();
    frequent();
    merges();
    printf("%d passed, %d failed\n", passed, failed);
    printf("%ld refusals\n", refusals);
    return failed != 0;
}
