/* An index in a program that walks folders by the C library's fts(3): both work, in either order.
 *
 *     beside FOLDER FILES
 *
 * FOLDER has FILES files in it. Both headers are included, as C99 and as C++17.
 */
#include <sys/types.h>
#include <sys/stat.h>
#include <fts.h>

#include "dilforec.h"

#include <stdio.h>
#include <stdlib.h>
#include <string.h>

#ifdef __cplusplus
extern "C"
#endif
int files_below(const char *folder);

static int replies(dilforec_t *index, const char *line, const char *wanted) {
    char reply[256];
    if (dilforec_execute(index, (const uint8_t *)line, strlen(line)) != DILFOREC_OK) return 0;
    size_t length = dilforec_reply(index, (uint8_t *)reply, sizeof reply);
    return length == strlen(wanted) && memcmp(reply, wanted, length) == 0;
}

int main(int count, char **words) {
    if (count != 3) return 2;
    int wanted = atoi(words[2]);
    dilforec_t index = {0};
    int wrong = files_below(words[1]) != wanted;
    wrong += dilforec_open(&index) != DILFOREC_OK;
    wrong += !replies(&index, "{\"schema\":[{\"name\":\"title\",\"kind\":\"text\",\"default\":true}]}",
                      "{\"fields\":1}\n");
    wrong += files_below(words[1]) != wanted;
    wrong += !replies(&index, "{\"add\":{\"title\":\"rust\"}}", "{\"stamp\":1}\n");
    wrong += !replies(&index, "{\"commit\":true}", "{\"commit\":2}\n");
    wrong += !replies(&index, "{\"search\":{\"query\":\"rust\"}}", "{\"count\":1}\n");
    wrong += dilforec_close(&index) != DILFOREC_OK;
    wrong += files_below(words[1]) != wanted;
    printf("%d wrong\n", wrong);
    return wrong != 0;
}
