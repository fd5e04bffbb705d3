/* A full-text index inside a C program: the lines of a script in, their replies out.
 *
 * A line is a JSON object with one member, the command; docs/SCRIPT.md has all commands, replies and limits. The
 * replies are those of `fts run` to the same lines, to the byte.
 *
 * Ownership. A handle is a struct that belongs to the caller. Initialize it with {0}, pass its address to the function
 * that opens it, and later to the one that closes it. What the handle points to belongs to the library. Lines and
 * buffers belong to the caller, and are only used during the call. Opening over an open handle loses what was open. No
 * pointer may be NULL, even if the length beside it is 0, and no two arguments may overlap.
 *
 * Closed handles. A struct with NULL in it is a closed handle: before it is opened, and after a close. Each call
 * answers DILFOREC_CLOSED for it and does nothing. A copy of a struct isn't closed with it, so don't use copies: a
 * handle that was closed through another struct can't be detected.
 *
 * Threads. A handle is used by one thread at a time, and may move from thread to thread. Calls on two handles may
 * run at the same time, even those on an index, its searchers and its merges: they share what was committed, which
 * never changes. No call starts a thread, waits or opens a file. None may be made by a signal handler that may have
 * interrupted another, nor, in the child of a fork, on a handle that another thread was using.
 *
 * Stack. A call needs at most 512 KiB of its thread's stack: the deepest query and the deepest JSON are within it.
 *
 * Searchers. A searcher is one commit for ever: it finds what its index had committed when the searcher was opened,
 * whatever is done to the index afterwards, and stays usable when the index is closed. To search from several threads,
 * open a searcher for each before it starts.
 *
 * Merges. A commit merges what is due after it, which takes long where the segments are large. An index whose
 * commits have to be short limits what they merge, and a thread of the caller's merges the rest: begin, run, end. It
 * changes the result of no search, and leaves the last reply as it is.
 *
 * Codes. At each code other than DILFOREC_OK everything is as it was before the call, slots included, except that a
 * line has no reply then, and that a merge is given up at DILFOREC_GONE. So a line for which there was no memory may
 * be sent again. (dilforec_execute_lines alone may have done some of its lines, and tells how many.) A refusal of
 * the script, such as {"error":"Syntax","line":5}, is a reply, and the code is DILFOREC_OK.
 *
 * Versions. The shared object is libdilforec.so.0; docs/EMBEDDING.md says what changes the number.
 */
#ifndef DILFOREC_H
#define DILFOREC_H

#include <stddef.h>
#include <stdint.h>

#ifdef __cplusplus
extern "C" {
#endif

#define DILFOREC_VERSION "0.2.0"

enum {
    DILFOREC_OK = 0,
    DILFOREC_MEMORY = 1,        /* there was no memory */
    DILFOREC_LINE_TOO_LONG = 2, /* a line has more than DILFOREC_LONGEST_LINE bytes */
    DILFOREC_USED_UP = 3,       /* the index took 2^61 lines */
    DILFOREC_CLOSED = 4,        /* the handle is closed */
    DILFOREC_NOTHING = 5,       /* no schema, no merge that is due, or none that was run to end */
    DILFOREC_GONE = 6           /* what a merge joined is gone, and it is given up */
};

#define DILFOREC_LONGEST_LINE 4194304
#define DILFOREC_NO_REPLY SIZE_MAX
#define DILFOREC_NO_BYTE SIZE_MAX
#define DILFOREC_NO_LIMIT UINT32_MAX

/* An index. It forgets everything when it is closed. */
typedef struct {
    void *at;
} dilforec_t;

/* Opens an index without a schema. DILFOREC_OK or DILFOREC_MEMORY. */
int32_t dilforec_open(dilforec_t *slot);

/* Does what a line says. `line` has `length` bytes and no LF at its end; any bytes will do. DILFOREC_OK,
 * DILFOREC_MEMORY, DILFOREC_LINE_TOO_LONG, DILFOREC_USED_UP or DILFOREC_CLOSED. Lines are counted at DILFOREC_OK, from
 * 1, blank ones too. */
int32_t dilforec_execute(dilforec_t *index, const uint8_t *line, size_t length);

/* Does what the lines of a block say, one after the other, as dilforec_execute does. Each line ends at its LF; the last
 * may lack it. It stops at the first line that has another code than DILFOREC_OK, and answers that code. `done` is how
 * many lines were done before, all of them at DILFOREC_OK; the reply is the replies to these, one after the other, and
 * stays readable at each code. A refused line is done: its reply is the refusal. To go on after DILFOREC_MEMORY, pass
 * the block from line `done` on. */
int32_t dilforec_execute_lines(dilforec_t *index, const uint8_t *block, size_t length, size_t *done);

/* Does what the lines of a block say, all of them or none. Each is an {"add":..}, a {"delete":..} or
 * {"delete_all":true}, and they are taken as by dilforec_execute_lines, one after the other, with a stamp each. If all
 * were done, DILFOREC_OK is answered, `done` is how many they are, and the reply is theirs, one after the other.
 *
 * Otherwise `done` is how many lines are before the first that can't be done, and everything is as it was. Either that
 * line was refused: then the code is DILFOREC_OK, and the reply is its refusal alone, as a line after the last. Any
 * other command is refused as BadCommand, and a blank line as BadJson. Or it has another code, that of
 * dilforec_execute, and there is no reply. The lines after it aren't looked at. Lines are counted if all are done. */
int32_t dilforec_transaction(dilforec_t *index, const uint8_t *block, size_t length, size_t *done);

/* Does what a delete's line and an add's say, or neither: {"delete":..} and {"add":..}. Both are read and checked
 * before anything is done. At DILFOREC_OK the reply is the add's, and both lines are counted, or it is the refusal of
 * the one that was refused first, and neither is. DILFOREC_USED_UP also if one line more is all that is left. */
int32_t dilforec_replace(dilforec_t *index, const uint8_t *delete_line, size_t delete_length,
                         const uint8_t *add_line, size_t add_length);

/* Answers a search of the last commit, a line as for dilforec_execute, {"search":..}: the reply is the same, but that
 * each document of a top list has the fields alone that `names` lists, a JSON list of texts. An unknown name is refused
 * as UnknownField, any other command as BadCommand, and a blank line has an empty reply. The line isn't counted; a
 * refusal names the next. */
int32_t dilforec_execute_fields(dilforec_t *index, const uint8_t *line, size_t length,
                                const uint8_t *names, size_t names_length);

/* Answers a search of the last commit as dilforec_execute does, but that its groups, if it asks for some, are at most
 * `limit`: the most frequent ones, those of equal counts by their values. Otherwise as dilforec_execute_fields. */
int32_t dilforec_execute_groups(dilforec_t *index, const uint8_t *line, size_t length, size_t limit);

/* The length of the last call's reply, its LF included; 0 after a blank line, or after a code other than DILFOREC_OK
 * (but see dilforec_execute_lines). The reply is copied to `out` if it fits into `room` bytes; otherwise `out` stays as
 * it was. The reply stays until the next line, so a call with a room of 0 tells how much is needed. DILFOREC_NO_REPLY
 * for a closed handle. The reply to a line other than a search has at most 128 bytes. */
size_t dilforec_reply(dilforec_t *index, uint8_t *out, size_t room);

/* How large an index is at its last commit. Each segment has a live document; one that isn't live was deleted, and goes
 * when its segment is merged. */
typedef struct {
    uint64_t segments;
    uint64_t documents;
    uint64_t live;
} dilforec_stats_t;

/* Fills in how large an index is: all 0 without a schema. DILFOREC_OK or DILFOREC_CLOSED. */
int32_t dilforec_stats(dilforec_t *index, dilforec_stats_t *stats);

/* Tells the byte from which on a query can't be read, if a search refuses it as Syntax: its length, if more has to
 * follow. For any other query it is DILFOREC_NO_BYTE, also for bytes that aren't UTF-8. The schema doesn't matter, and
 * so there is no handle. DILFOREC_OK or DILFOREC_MEMORY. */
int32_t dilforec_syntax_at(const uint8_t *query, size_t length, size_t *at);

/* Closes an index. DILFOREC_OK, or DILFOREC_CLOSED if it was closed before. */
int32_t dilforec_close(dilforec_t *index);

/* The last commit of an index, to search. */
typedef struct {
    void *at;
} dilforec_searcher_t;

/* Opens a searcher of the last commit of an index; uncommitted operations aren't found. DILFOREC_OK, DILFOREC_MEMORY or
 * DILFOREC_CLOSED. */
int32_t dilforec_searcher(dilforec_t *index, dilforec_searcher_t *slot);

/* Opens another searcher of a searcher's commit. DILFOREC_OK, DILFOREC_MEMORY or DILFOREC_CLOSED. */
int32_t dilforec_searcher_again(dilforec_searcher_t *searcher, dilforec_searcher_t *slot);

/* Answers a search: a line as for dilforec_execute, {"search":..}. Any other command is refused as BadCommand, and
 * refusals name line 1. A blank line has an empty reply. DILFOREC_OK, DILFOREC_MEMORY, DILFOREC_LINE_TOO_LONG or
 * DILFOREC_CLOSED. */
int32_t dilforec_search(dilforec_searcher_t *searcher, const uint8_t *line, size_t length);

/* Answers a search whose documents have the fields alone that `names` lists, as dilforec_execute_fields does. */
int32_t dilforec_search_fields(dilforec_searcher_t *searcher, const uint8_t *line, size_t length,
                               const uint8_t *names, size_t names_length);

/* Answers a search with at most `limit` groups, the most frequent ones, as dilforec_execute_groups does. */
int32_t dilforec_search_groups(dilforec_searcher_t *searcher, const uint8_t *line, size_t length, size_t limit);

/* The reply to the last search, as by dilforec_reply. */
size_t dilforec_searcher_reply(dilforec_searcher_t *searcher, uint8_t *out, size_t room);

/* Fills in how large a searcher's commit is, as dilforec_stats does. */
int32_t dilforec_searcher_stats(dilforec_searcher_t *searcher, dilforec_stats_t *stats);

/* Closes a searcher. DILFOREC_OK, or DILFOREC_CLOSED if it was closed before. */
int32_t dilforec_searcher_close(dilforec_searcher_t *searcher);

/* From now on, commits merge no segment of more than `limit` live documents, and none by itself; what is left waits for
 * merges that are begun. DILFOREC_NO_LIMIT, as at first: commits merge whatever is due. DILFOREC_OK, DILFOREC_NOTHING
 * without a schema, or DILFOREC_CLOSED. */
int32_t dilforec_limit_merges(dilforec_t *index, uint32_t limit);

/* A merge that was begun. */
typedef struct {
    void *at;
} dilforec_merge_t;

/* Begins the merge that is due next: segments of about one size, or one of which over a third is deleted. The index
 * forgets the one that was begun before. DILFOREC_OK; DILFOREC_NOTHING if none is due, as without a schema;
 * DILFOREC_MEMORY or DILFOREC_CLOSED. */
int32_t dilforec_merge_begin(dilforec_t *index, dilforec_merge_t *slot);

/* Makes one segment of those of a merge: the long part, which any thread may do while the index is used, or is closed.
 * Again, it does nothing. DILFOREC_OK, DILFOREC_MEMORY or DILFOREC_CLOSED. */
int32_t dilforec_merge_run(dilforec_merge_t *merge);

/* Puts what the merge made that was begun last in the place of what it joined, without what was deleted meanwhile. It
 * copies no document. DILFOREC_OK; DILFOREC_NOTHING if there is none, or it wasn't run; DILFOREC_GONE if what it
 * joined was merged meanwhile, by a commit or a script's `merge`, or all of it was deleted, and then it is given up;
 * DILFOREC_MEMORY, and then it may be ended again; or DILFOREC_CLOSED. */
int32_t dilforec_merge_end(dilforec_t *index);

/* Closes a merge, run or not, ended or not; what it made stays to be ended. DILFOREC_OK, or DILFOREC_CLOSED if it was
 * closed before. */
int32_t dilforec_merge_close(dilforec_merge_t *merge);

#ifdef __cplusplus
}
#endif

#endif
