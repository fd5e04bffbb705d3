/* What the functions answer at closed handles, small buffers, long lines and any bytes. */
#include <stdio.h>
#include <stdlib.h>
#include <string.h>

#include "dilforec.h"

static int passed, failed;

static void expect(int holds, const char *sentence) {
    if (holds) passed++;
    else {
        failed++;
        printf("handles: not so: %s\n", sentence);
    }
}

static const uint8_t *bytes(const char *text) { return (const uint8_t *)text; }

static int32_t execute(dilforec_t *index, const char *line) {
    return dilforec_execute(index, bytes(line), strlen(line));
}

static int replies(dilforec_t *index, const char *wanted) {
    uint8_t reply[4096];
    size_t length = dilforec_reply(index, reply, sizeof reply);
    return length == strlen(wanted) && memcmp(reply, wanted, length) == 0;
}

static const char *SCHEMA = "{\"schema\":[{\"name\":\"title\",\"kind\":\"text\",\"default\":true}]}";
static const char *ADD = "{\"add\":{\"title\":\"rust\"}}";

static dilforec_t opened(void) {
    dilforec_t index = {0};
    if (dilforec_open(&index) != DILFOREC_OK || execute(&index, SCHEMA) != DILFOREC_OK) abort();
    return index;
}

static int are(dilforec_stats_t stats, uint64_t segments, uint64_t documents, uint64_t live) {
    return stats.segments == segments && stats.documents == documents && stats.live == live;
}

static void closed(void) {
    dilforec_t index = {0};
    uint8_t byte = 7;
    size_t done = 7;
    dilforec_stats_t stats = {7, 7, 7};
    expect(execute(&index, ADD) == DILFOREC_CLOSED, "a closed index takes no line");
    expect(dilforec_execute_lines(&index, bytes(ADD), strlen(ADD), &done) == DILFOREC_CLOSED && done == 0,
           "nor a block");
    done = 7;
    expect(dilforec_transaction(&index, bytes(ADD), strlen(ADD), &done) == DILFOREC_CLOSED && done == 0, "nor a whole one");
    expect(dilforec_replace(&index, bytes(ADD), strlen(ADD), bytes(ADD), strlen(ADD)) == DILFOREC_CLOSED, "nor two");
    expect(dilforec_execute_fields(&index, bytes(ADD), strlen(ADD), bytes("[]"), 2) == DILFOREC_CLOSED, "nor a search");
    expect(dilforec_execute_groups(&index, bytes(ADD), strlen(ADD), 1) == DILFOREC_CLOSED, "nor one with few groups");
    expect(dilforec_reply(&index, &byte, 1) == DILFOREC_NO_REPLY && byte == 7, "a closed index has no reply");
    expect(dilforec_stats(&index, &stats) == DILFOREC_CLOSED && are(stats, 7, 7, 7), "nor a size");
    expect(dilforec_close(&index) == DILFOREC_CLOSED && !index.at, "a closed index isn't closed again");
    index = opened();
    expect(dilforec_close(&index) == DILFOREC_OK && !index.at, "a close leaves the handle closed");
    expect(dilforec_close(&index) == DILFOREC_CLOSED && execute(&index, ADD) == DILFOREC_CLOSED, "and it says so");
    expect(dilforec_open(&index) == DILFOREC_OK && index.at, "a closed handle is opened again");
    expect(dilforec_close(&index) == DILFOREC_OK, "and closed");
}

static int32_t search(dilforec_searcher_t *searcher, const char *line) {
    return dilforec_search(searcher, bytes(line), strlen(line));
}

static int finds(dilforec_searcher_t *searcher, const char *wanted) {
    uint8_t reply[4096];
    size_t length = dilforec_searcher_reply(searcher, reply, sizeof reply);
    return length == strlen(wanted) && memcmp(reply, wanted, length) == 0;
}

/* A searcher finds its own commit, whatever becomes of its index, and takes searches alone. */
static void searchers(void) {
    static const char *FIND = "{\"search\":{\"query\":\"rust\"}}";
    dilforec_searcher_t searcher = {0}, again = {0};
    dilforec_t index = {0};
    dilforec_stats_t stats = {7, 7, 7};
    uint8_t byte = 7;
    expect(dilforec_searcher(&index, &searcher) == DILFOREC_CLOSED && !searcher.at, "a closed index has no searcher");
    expect(dilforec_searcher_again(&searcher, &again) == DILFOREC_CLOSED && !again.at, "nor has a closed searcher");
    expect(search(&searcher, FIND) == DILFOREC_CLOSED, "a closed searcher takes no search");
    expect(dilforec_search_fields(&searcher, bytes(FIND), strlen(FIND), bytes("[]"), 2) == DILFOREC_CLOSED,
           "nor one with chosen fields");
    expect(dilforec_search_groups(&searcher, bytes(FIND), strlen(FIND), 1) == DILFOREC_CLOSED, "nor with few groups");
    expect(dilforec_searcher_reply(&searcher, &byte, 1) == DILFOREC_NO_REPLY && byte == 7, "and has no reply");
    expect(dilforec_searcher_stats(&searcher, &stats) == DILFOREC_CLOSED && are(stats, 7, 7, 7), "and no size");
    expect(dilforec_searcher_close(&searcher) == DILFOREC_CLOSED, "a closed searcher isn't closed again");
    index = opened();
    execute(&index, ADD);
    execute(&index, "{\"commit\":true}");
    execute(&index, ADD);
    expect(dilforec_searcher(&index, &searcher) == DILFOREC_OK, "an index has a searcher");
    expect(replies(&index, "{\"stamp\":3}\n"), "which leaves its reply");
    expect(search(&searcher, FIND) == DILFOREC_OK && finds(&searcher, "{\"count\":1}\n"),
           "it finds what was committed");
    execute(&index, "{\"delete_all\":true}");
    execute(&index, "{\"commit\":true}");
    expect(search(&searcher, FIND) == DILFOREC_OK && finds(&searcher, "{\"count\":1}\n"), "and goes on to find it");
    expect(search(&searcher, ADD) == DILFOREC_OK && finds(&searcher, "{\"error\":\"BadCommand\",\"line\":1}\n"),
           "a searcher takes searches alone");
    expect(search(&searcher, "{\"search\":{\"query\":\"rust OR\"}}") == DILFOREC_OK
               && finds(&searcher, "{\"error\":\"Syntax\",\"line\":1}\n"), "and refuses them as line 1");
    expect(dilforec_searcher_again(&searcher, &again) == DILFOREC_OK, "a searcher has another");
    expect(search(&searcher, " \t\r") == DILFOREC_OK && finds(&searcher, ""), "a blank line has an empty reply");
    expect(dilforec_close(&index) == DILFOREC_OK && dilforec_searcher_close(&searcher) == DILFOREC_OK,
           "an index is closed before its searchers");
    expect(dilforec_searcher_close(&searcher) == DILFOREC_CLOSED && !searcher.at, "a close leaves a searcher closed");
    expect(search(&again, FIND) == DILFOREC_OK && finds(&again, "{\"count\":1}\n"), "a searcher lives on");
    expect(dilforec_searcher_close(&again) == DILFOREC_OK, "and is closed");
    expect(dilforec_open(&index) == DILFOREC_OK && dilforec_searcher(&index, &searcher) == DILFOREC_OK,
           "there is one without a schema");
    expect(search(&searcher, FIND) == DILFOREC_OK && finds(&searcher, "{\"error\":\"NoSchema\",\"line\":1}\n"),
           "which finds none");
    dilforec_searcher_close(&searcher);
    dilforec_close(&index);
}

static void small_buffers(void) {
    dilforec_t index = opened();
    uint8_t room[12] = "x";
    size_t length = dilforec_reply(&index, room, 0);
    expect(length == strlen("{\"fields\":1}\n"), "no room tells the length of the reply");
    expect(dilforec_reply(&index, room, length - 1) == length && room[0] == 'x', "a small buffer stays as it was");
    expect(replies(&index, "{\"fields\":1}\n"), "a reply stays until the next line");
    expect(execute(&index, " \t\r") == DILFOREC_OK && replies(&index, ""), "a blank line has an empty reply");
    dilforec_close(&index);
}

static void long_lines(void) {
    dilforec_t index = opened();
    uint8_t *line = malloc(DILFOREC_LONGEST_LINE + 1);
    if (!line) abort();
    memset(line, ' ', DILFOREC_LONGEST_LINE + 1);
    expect(dilforec_execute(&index, line, DILFOREC_LONGEST_LINE + 1) == DILFOREC_LINE_TOO_LONG,
           "a line over the limit has a code");
    expect(replies(&index, ""), "and no reply");
    memset(line, '[', DILFOREC_LONGEST_LINE);
    expect(dilforec_execute(&index, line, DILFOREC_LONGEST_LINE) == DILFOREC_OK, "a line at the limit is taken");
    expect(replies(&index, "{\"error\":\"BadJson\",\"line\":2}\n"), "as the second: the long one didn't count");
    expect(execute(&index, ADD) == DILFOREC_OK && replies(&index, "{\"stamp\":1}\n"), "and the index goes on");
    free(line);
    dilforec_close(&index);
}

static void any_bytes(void) {
    dilforec_t index = opened();
    expect(execute(&index, "{\"add\":{\"title\":\"\xff\"}}") == DILFOREC_OK, "bytes that aren't UTF-8 are taken");
    expect(replies(&index, "{\"error\":\"BadJson\",\"line\":2}\n"), "and refused as BadJson");
    expect(dilforec_execute(&index, bytes("{\0}"), 3) == DILFOREC_OK, "a line may have a byte 0");
    expect(replies(&index, "{\"error\":\"BadJson\",\"line\":3}\n"), "which is no JSON");
    dilforec_close(&index);
}

/* How many segments and documents a commit has, what is uncommitted left out. */
static void sizes(void) {
    dilforec_searcher_t searcher = {0};
    dilforec_stats_t stats = {7, 7, 7};
    dilforec_t index = {0};
    expect(dilforec_open(&index) == DILFOREC_OK && dilforec_stats(&index, &stats) == DILFOREC_OK && are(stats, 0, 0, 0),
           "an index without a schema has no segment");
    execute(&index, SCHEMA);
    for (int i = 0; i < 4; i++) execute(&index, ADD);
    execute(&index, "{\"add\":{\"title\":\"other\"}}");
    expect(dilforec_stats(&index, &stats) == DILFOREC_OK && are(stats, 0, 0, 0), "nor has one without a commit");
    execute(&index, "{\"commit\":true}");
    dilforec_searcher(&index, &searcher);
    expect(dilforec_stats(&index, &stats) == DILFOREC_OK && are(stats, 1, 5, 5), "a commit has its documents");
    execute(&index, "{\"delete\":{\"title\":\"other\"}}");
    execute(&index, ADD);
    execute(&index, "{\"commit\":true}");
    expect(dilforec_stats(&index, &stats) == DILFOREC_OK && are(stats, 2, 6, 5), "a deleted one isn't live");
    expect(replies(&index, "{\"commit\":9}\n"), "and the last reply stays");
    execute(&index, "{\"merge\":true}");
    expect(dilforec_stats(&index, &stats) == DILFOREC_OK && are(stats, 1, 5, 5), "and is gone after a merge");
    expect(dilforec_searcher_stats(&searcher, &stats) == DILFOREC_OK && are(stats, 1, 5, 5), "a searcher tells its commit's");
    execute(&index, "{\"delete_all\":true}");
    execute(&index, "{\"commit\":true}");
    expect(dilforec_stats(&index, &stats) == DILFOREC_OK && are(stats, 0, 0, 0), "a segment without a live document is gone");
    dilforec_searcher_close(&searcher);
    dilforec_close(&index);
}

int main(void) {
    closed();
    sizes();
    small_buffers();
    long_lines();
    any_bytes();
    searchers();
    printf("%d passed, %d failed\n", passed, failed);
    return failed != 0;
}
