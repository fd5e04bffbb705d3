/* Times lines through the library.
 *
 *     embed FILE ..
 *
 * gives each line of the files to one index, and prints for each file how many nanoseconds a line took, its reply read
 * too.
 */
#include <stdio.h>
#include <stdlib.h>
#include <string.h>
#include <time.h>

#include "dilforec.h"

typedef struct {
    uint8_t *bytes;
    size_t length;
} text_t;

static text_t read_file(const char *path) {
    FILE *file = fopen(path, "rb");
    if (!file || fseek(file, 0, SEEK_END)) exit(1);
    text_t text = {NULL, (size_t)ftell(file)};
    rewind(file);
    text.bytes = malloc(text.length + 1);
    if (!text.bytes || fread(text.bytes, 1, text.length, file) != text.length) exit(1);
    fclose(file);
    return text;
}

static double seconds(void) {
    struct timespec now;
    clock_gettime(CLOCK_MONOTONIC, &now);
    return (double)now.tv_sec + (double)now.tv_nsec * 1e-9;
}

/* How many lines there were. */
static size_t run(dilforec_t *index, text_t text) {
    static uint8_t reply[1 << 20];
    size_t lines = 0;
    for (size_t at = 0; at < text.length;) {
        uint8_t *end = memchr(text.bytes + at, '\n', text.length - at);
        size_t length = end ? (size_t)(end - text.bytes) - at : text.length - at;
        if (dilforec_execute(index, text.bytes + at, length) != DILFOREC_OK) exit(2);
        if (dilforec_reply(index, reply, sizeof reply) > sizeof reply) exit(3);
        at += length + 1;
        lines++;
    }
    return lines;
}

int main(int count, char **words) {
    dilforec_t index = {0};
    if (count < 2 || dilforec_open(&index) != DILFOREC_OK) return 1;
    for (int word = 1; word < count; word++) {
        text_t text = read_file(words[word]);
        double began = seconds();
        size_t lines = run(&index, text);
        printf("%.1f\n", (seconds() - began) / (double)lines * 1e9);
        free(text.bytes);
    }
    dilforec_close(&index);
    return 0;
}
