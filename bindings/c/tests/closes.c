/* Closing frees: once an index, its searchers and its merges are closed, whichever first, no block is left of all that
 * the library asked for. Linked so that the library's calls for memory are counted here.
 */
#include <stdio.h>
#include <stdlib.h>
#include <string.h>

#include "dilforec.h"

void *__real_malloc(size_t size);
void *__real_realloc(void *old, size_t size);
void __real_free(void *block);

static long asked, left;
static int passed, failed;

void *__wrap_malloc(size_t size) {
    void *block = __real_malloc(size);
    asked += block != NULL;
    left += block != NULL;
    return block;
}

void *__wrap_realloc(void *old, size_t size) {
    void *block = __real_realloc(old, size);
    asked += old == NULL && block != NULL;
    left += old == NULL && block != NULL;
    return block;
}

void __wrap_free(void *block) {
    left -= block != NULL;
    __real_free(block);
}

static void expect(int holds, const char *sentence) {
    if (holds) passed++;
    else {
        failed++;
        printf("closes: not so: %s\n", sentence);
    }
}

static const uint8_t *bytes(const char *text) { return (const uint8_t *)text; }

/* An index of two commits, with operations that are in none. */
static void fill(dilforec_t *index) {
    static const char *const LINES[] = {
        "{\"schema\":[{\"name\":\"title\",\"kind\":\"text\",\"default\":true},{\"name\":\"year\",\"kind\":\"u64\"}]}",
        "{\"add\":{\"title\":[\"Programming Pearls\",\"Second Edition\"],\"year\":1986}}",
        "{\"add\":{\"title\":\"Managing Gigabytes\",\"year\":1994}}",
        "{\"commit\":true}",
        "{\"delete\":{\"year\":1986}}",
        "{\"add\":{\"title\":\"Pearls Again\",\"year\":1999}}",
        "{\"commit\":true}",
        "{\"search\":{\"query\":\"pearls OR year:>=1990\",\"groups\":\"year\","
        "\"top\":{\"by\":\"year\",\"k\":2,\"order\":\"falling\"}}}",
        "{\"search\":{\"query\":\"\\\"managing",
        "{\"add\":{\"title\":\"In no commit\"}}",
    };
    expect(dilforec_open(index) == DILFOREC_OK, "an index is opened");
    for (size_t n = 0; n < sizeof LINES / sizeof *LINES; n++)
        expect(dilforec_execute(index, bytes(LINES[n]), strlen(LINES[n])) == DILFOREC_OK, LINES[n]);
}

static void search(dilforec_searcher_t *searcher) {
    const char *line = "{\"search\":{\"query\":\"\\\"pearls again\\\"\",\"groups\":\"year\"}}";
    uint8_t reply[64] = {0};
    expect(dilforec_search(searcher, bytes(line), strlen(line)) == DILFOREC_OK, "a searcher answers");
    size_t size = dilforec_searcher_reply(searcher, reply, sizeof reply);
    expect(size == 32 && memcmp(reply, "{\"count\":1,\"groups\":[[1999,1]]}\n", 32) == 0, "it finds the last commit");
}

int main(void) {
    dilforec_t index = {0};
    fill(&index);
    expect(asked > 100 && left > 10, "blocks are counted");
    expect(dilforec_close(&index) == DILFOREC_OK && left == 0, "closing an index frees it");
    expect(dilforec_close(&index) == DILFOREC_CLOSED && left == 0, "closing it again does nothing");

    for (int first = 0; first < 2; first++) {
        dilforec_searcher_t searcher = {0}, other = {0};
        fill(&index);
        expect(dilforec_searcher(&index, &searcher) == DILFOREC_OK, "a searcher is opened");
        expect(dilforec_searcher_again(&searcher, &other) == DILFOREC_OK, "another is opened");
        if (first) expect(dilforec_close(&index) == DILFOREC_OK && left > 0, "searchers keep their commit");
        search(&searcher);
        search(&other);
        expect(dilforec_searcher_close(&searcher) == DILFOREC_OK, "a searcher is closed");
        expect(dilforec_searcher_close(&other) == DILFOREC_OK, "the other is closed");
        if (!first) expect(dilforec_close(&index) == DILFOREC_OK, "the index is closed last");
        expect(left == 0, "closing all frees all");
    }
    /* A merge that wasn't run, one that was, and one that was ended; the index first, and last. */
    for (int way = 0; way < 6; way++) {
        dilforec_merge_t merge = {0};
        fill(&index);
        expect(dilforec_limit_merges(&index, 0) == DILFOREC_OK, "merges wait");
        for (int n = 0; n < 8; n++) {
            dilforec_execute(&index, bytes("{\"add\":{\"year\":2000}}"), 21);
            dilforec_execute(&index, bytes("{\"commit\":true}"), 15);
        }
        expect(dilforec_merge_begin(&index, &merge) == DILFOREC_OK, "a merge is begun");
        if (way / 2 > 0) expect(dilforec_merge_run(&merge) == DILFOREC_OK, "and run");
        if (way / 2 > 1) expect(dilforec_merge_end(&index) == DILFOREC_OK, "and ended");
        if (way % 2) expect(dilforec_close(&index) == DILFOREC_OK && left > 0, "the index is closed first");
        expect(dilforec_merge_close(&merge) == DILFOREC_OK, "the merge is closed");
        if (!(way % 2)) expect(dilforec_close(&index) == DILFOREC_OK, "the index is closed last");
        expect(left == 0, "closing all frees all");
    }
    printf("%d passed, %d failed\n", passed, failed);
    return failed != 0;
}
