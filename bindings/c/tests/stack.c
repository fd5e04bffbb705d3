/* The deepest queries and the deepest JSON in a thread with a stack of 512 KiB: they need no more. */
#include <pthread.h>
#include <stdio.h>
#include <stdlib.h>
#include <string.h>

#include "dilforec.h"

enum { STACK = 512 * 1024, DEEP = 32, DEEPEST_JSON = 127, ROOM = 1 << 16 };

/* What comes before a nested part, within the deepest, and after it. */
static const char *FORMS[][3] = {
    {"(", "a", ")"},
    {"(a b AND c OR (", "a", "))"},
    {"(a OR ", "b", ")"},
    {"(a AND ", "b", ")"},
    {"(+a -b +", "c", ")"},
    {"(a AND NOT ", "b", ")"},
    {"(\"a b\" OR n:[1 TO 2] AND ", "c", ")"},
};
static int passed, failed;

static void expect(int holds, const char *sentence) {
    if (holds) passed++;
    else {
        failed++;
        printf("stack: not so: %s\n", sentence);
    }
}

static int begins(dilforec_t *index, const char *line, const char *wanted) {
    char reply[256] = "";
    if (dilforec_execute(index, (const uint8_t *)line, strlen(line)) != DILFOREC_OK) return 0;
    dilforec_reply(index, (uint8_t *)reply, sizeof reply);
    return strncmp(reply, wanted, strlen(wanted)) == 0;
}

/* A query of a form, so deep that its parentheses nest 32 deep. */
static void query(char *to, size_t form) {
    const char *before = FORMS[form][0];
    int each = 0;
    for (const char *at = before; *at; at++) each += *at == '(';
    strcpy(to, "{\"search\":{\"query\":\"");
    for (int depth = 0; depth < DEEP; depth += each)
        for (const char *at = before; *at; at++) strncat(to, *at == '"' ? "\\\"" : (char[]){*at, 0}, 2);
    strcat(to, FORMS[form][1]);
    for (int depth = 0; depth < DEEP; depth += each) strcat(to, FORMS[form][2]);
    strcat(to, "\"}}");
}

static void *deep(void *nothing) {
    char *line = malloc(ROOM);
    dilforec_t index = {0};
    if (!line || dilforec_open(&index) != DILFOREC_OK) abort();
    expect(begins(&index, "{\"schema\":[{\"name\":\"title\",\"kind\":\"text\",\"default\":true},"
                          "{\"name\":\"n\",\"kind\":\"u64\"}]}", "{\"fields\":2}"), "a schema is taken");
    for (int i = 0; i < 300; i++)
        expect(begins(&index, "{\"add\":{\"title\":\"a b c\",\"n\":1}}", "{\"stamp\":"), "documents are taken");
    expect(begins(&index, "{\"commit\":true}", "{\"commit\":301}"), "and committed");
    for (size_t form = 0; form < sizeof FORMS / sizeof *FORMS; form++) {
        query(line, form);
        expect(begins(&index, line, "{\"count\":"), line);
    }
    for (int form = 0; form < 2; form++) {
        memset(line, 0, ROOM);
        for (int depth = 0; depth < DEEPEST_JSON; depth++) strcat(line, form ? "{\"a\":" : "[");
        strcat(line, "1");
        for (int depth = 0; depth < DEEPEST_JSON; depth++) strcat(line, form ? "}" : "]");
        expect(begins(&index, line, "{\"error\":\"BadCommand\""), "JSON 127 deep is read");
    }
    dilforec_close(&index);
    free(line);
    return nothing;
}

int main(void) {
    pthread_attr_t attributes;
    pthread_t thread;
    if (pthread_attr_init(&attributes) || pthread_attr_setstacksize(&attributes, STACK)) return 1;
    if (pthread_create(&thread, &attributes, deep, NULL) || pthread_join(thread, NULL)) return 1;
    printf("%d passed, %d failed\n", passed, failed);
    return failed != 0;
}
