/* A small library that walks a folder by the C library's own fts(3), as Tcl and others do. */
#include <sys/types.h>
#include <sys/stat.h>
#include <fts.h>
#include <stddef.h>

int files_below(const char *folder) {
    char *roots[] = {(char *)folder, NULL};
    FTS *walk = fts_open(roots, FTS_PHYSICAL | FTS_NOCHDIR, NULL);
    FTSENT *entry;
    int files = 0;
    if (!walk) return -1;
    while ((entry = fts_read(walk))) files += entry->fts_info == FTS_F;
    return fts_close(walk) == 0 && roots[0] == folder ? files : -1;
}
