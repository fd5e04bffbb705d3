/* Four threads with an index each: none sees anything of another. Then four with a searcher each, while a writer adds
 * and commits: each finds its own commit and nothing else. Then merges in a thread, while commits go on.
 */
#include <pthread.h>
#include <stdio.h>
#include <string.h>

#include "dilforec.h"

enum { THREADS = 4, BOOKS = 200, SEARCHES = 2000 };

static const char *SCHEMA = "{\"schema\":[{\"name\":\"title\",\"kind\":\"text\",\"default\":true}]}";

typedef struct {
    int number;
    int wrong;
    dilforec_searcher_t searcher;
} task_t;

/* Whether an index replies to a line as it is wanted. */
static int replies(dilforec_t *index, const char *line, const char *wanted) {
    char reply[256];
    if (dilforec_execute(index, (const uint8_t *)line, strlen(line)) != DILFOREC_OK) return 0;
    size_t length = dilforec_reply(index, (uint8_t *)reply, sizeof reply);
    return length == strlen(wanted) && memcmp(reply, wanted, length) == 0;
}

static void add_and_find(dilforec_t *index, task_t *task) {
    char line[128], wanted[128];
    for (int book = 1; book <= BOOKS; book++) {
        snprintf(line, sizeof line, "{\"add\":{\"title\":\"thread %d\"}}", task->number);
        snprintf(wanted, sizeof wanted, "{\"stamp\":%d}\n", 2 * book - 1);
        task->wrong += !replies(index, line, wanted);
        snprintf(wanted, sizeof wanted, "{\"commit\":%d}\n", 2 * book);
        task->wrong += !replies(index, "{\"commit\":true}", wanted);
        snprintf(line, sizeof line, "{\"search\":{\"query\":\"%d\"}}", task->number);
        snprintf(wanted, sizeof wanted, "{\"count\":%d}\n", book);
        task->wrong += !replies(index, line, wanted);
    }
    task->wrong += !replies(index, "{\"search\":{\"query\":\"*\"}}", wanted);
}

static void *write_one(void *given) {
    task_t *task = given;
    dilforec_t index = {0};
    task->wrong += dilforec_open(&index) != DILFOREC_OK;
    task->wrong += !replies(&index, SCHEMA, "{\"fields\":1}\n");
    add_and_find(&index, task);
    task->wrong += dilforec_close(&index) != DILFOREC_OK;
    return NULL;
}

static void *search_one(void *given) {
    static const char *LINE = "{\"search\":{\"query\":\"thread\"}}";
    task_t *task = given;
    char reply[256], wanted[128];
    snprintf(wanted, sizeof wanted, "{\"count\":%d}\n", task->number);
    for (int search = 0; search < SEARCHES; search++) {
        task->wrong += dilforec_search(&task->searcher, (const uint8_t *)LINE, strlen(LINE)) != DILFOREC_OK;
        size_t length = dilforec_searcher_reply(&task->searcher, (uint8_t *)reply, sizeof reply);
        task->wrong += length != strlen(wanted) || memcmp(reply, wanted, length) != 0;
    }
    task->wrong += dilforec_searcher_close(&task->searcher) != DILFOREC_OK;
    return NULL;
}

/* Adds a book and commits. */
static int commits(dilforec_t *index, int book) {
    char wanted[128];
    snprintf(wanted, sizeof wanted, "{\"stamp\":%d}\n", 2 * book - 1);
    if (!replies(index, "{\"add\":{\"title\":\"thread\"}}", wanted)) return 0;
    snprintf(wanted, sizeof wanted, "{\"commit\":%d}\n", 2 * book);
    return replies(index, "{\"commit\":true}", wanted);
}

static void *run_one(void *given) {
    return dilforec_merge_run(given) == DILFOREC_OK ? given : NULL;
}

/* Merges the segments of commits in a thread, while others are made. */
static int merges(dilforec_t *index) {
    int wrong = dilforec_limit_merges(index, 0) != DILFOREC_OK;
    for (int first = BOOKS + 1; first < 2 * BOOKS; first += 20) {
        dilforec_merge_t merge = {0};
        dilforec_stats_t before = {0}, after = {0};
        pthread_t thread;
        void *ran = NULL;
        for (int book = first; book < first + 10; book++) wrong += !commits(index, book);
        wrong += dilforec_merge_begin(index, &merge) != DILFOREC_OK;
        if (pthread_create(&thread, NULL, run_one, &merge)) return 1;
        for (int book = first + 10; book < first + 20; book++) wrong += !commits(index, book);
        pthread_join(thread, &ran);
        wrong += dilforec_stats(index, &before) != DILFOREC_OK;
        wrong += ran != &merge || dilforec_merge_end(index) != DILFOREC_OK || dilforec_merge_close(&merge) != DILFOREC_OK;
        wrong += dilforec_stats(index, &after) != DILFOREC_OK;
        wrong += after.live != (uint64_t)first + 19 || after.segments + 5 > before.segments;
    }
    return wrong;
}

int main(void) {
    task_t writers[THREADS] = {0}, searchers[THREADS] = {0};
    pthread_t threads[2 * THREADS];
    dilforec_t index = {0};
    int wrong = dilforec_open(&index) != DILFOREC_OK || !replies(&index, SCHEMA, "{\"fields\":1}\n");
    for (int i = 0; i < THREADS; i++) {
        writers[i].number = searchers[i].number = i + 1;
        wrong += !commits(&index, i + 1) || dilforec_searcher(&index, &searchers[i].searcher) != DILFOREC_OK;
        if (pthread_create(&threads[i], NULL, write_one, &writers[i])) return 1;
        if (pthread_create(&threads[THREADS + i], NULL, search_one, &searchers[i])) return 1;
    }
    for (int book = THREADS + 1; book <= BOOKS; book++) wrong += !commits(&index, book);
    for (int i = 0; i < THREADS; i++) {
        pthread_join(threads[i], NULL);
        pthread_join(threads[THREADS + i], NULL);
        wrong += writers[i].wrong + searchers[i].wrong;
    }
    wrong += merges(&index);
    wrong += dilforec_close(&index) != DILFOREC_OK;
    printf("%d threads, %d wrong\n", 2 * THREADS, wrong);
    return wrong != 0;
}
