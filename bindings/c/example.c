/* An index of two books, and one search. */
#include <stdio.h>
#include <string.h>

#include "dilforec.h"

static void say(dilforec_t *index, const char *line) {
    static uint8_t reply[65536];
    int32_t code = dilforec_execute(index, (const uint8_t *)line, strlen(line));
    size_t length = dilforec_reply(index, reply, sizeof reply);
    if (code == DILFOREC_OK && length <= sizeof reply) fwrite(reply, 1, length, stdout);
}

int main(void) {
    dilforec_t index = {0};
    if (dilforec_open(&index) != DILFOREC_OK) return 1;
    say(&index, "{\"schema\":[{\"name\":\"title\",\"kind\":\"text\",\"default\":true},"
                "{\"name\":\"year\",\"kind\":\"u64\"}]}");
    say(&index, "{\"add\":{\"title\":\"Programming Pearls\",\"year\":1986}}");
    say(&index, "{\"add\":{\"title\":\"Managing Gigabytes\",\"year\":1994}}");
    say(&index, "{\"commit\":true}");
    say(&index, "{\"search\":{\"query\":\"pearls OR year:>1990\","
                "\"top\":{\"by\":\"year\",\"k\":9,\"order\":\"falling\"}}}");
    dilforec_close(&index);
    return 0;
}
