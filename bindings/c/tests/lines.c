/* Runs a script from standard input through the library: its replies go to standard output, as those of `fts run`.
 *
 * With an argument, in each call the first growth is refused, then in the same call once more the second, and so on
 * until the call takes place; and the number of refusals goes to standard error. The replies stay the same.
 */
#define _GNU_SOURCE
#include <stdio.h>
#include <stdlib.h>
#include <string.h>

#include "dilforec.h"

long refuse_growth(long n, const char *file);

static long refusals;
static int is_refusing;

/* Repeats a call until it isn't refused: each time one growth more is granted first. */
#define AGAIN(code, call)                              \
    for (long n = 1;; n++) {                           \
        if (is_refusing) refuse_growth(n, NULL);       \
        code = call;                                   \
        refuse_growth(0, NULL);                        \
        if (code != DILFOREC_MEMORY || !is_refusing) break; \
        refusals++;                                    \
    }

static uint8_t *reply_of(dilforec_t *index, size_t *length) {
    uint8_t none;
    *length = dilforec_reply(index, &none, 0);
    uint8_t *reply = malloc(*length + 1);
    if (!reply || dilforec_reply(index, reply, *length) != *length) abort();
    return reply;
}

int main(int count, char **words) {
    (void)words;
    is_refusing = count > 1;
    dilforec_t index = {0};
    int32_t code;
    AGAIN(code, dilforec_open(&index));
    if (code != DILFOREC_OK) return 1;
    char *line = NULL;
    size_t room = 0;
    ssize_t length;
    while ((length = getline(&line, &room, stdin)) > 0) {
        if (line[length - 1] == '\n') length--;
        AGAIN(code, dilforec_execute(&index, (uint8_t *)line, (size_t)length));
        if (code != DILFOREC_OK) return 2;
        size_t size;
        uint8_t *reply = reply_of(&index, &size);
        fwrite(reply, 1, size, stdout);
        free(reply);
    }
    free(line);
    if (is_refusing) fprintf(stderr, "%ld\n", refusals);
    return dilforec_close(&index) == DILFOREC_OK ? 0 : 3;
}
