/* The lines of a trace, from a file or from a text in memory. */
#ifndef READER_H
#define READER_H

#include <stdbool.h>
#include <stddef.h>
#include <stdint.h>

/* Longer than any line that says something: guest memory as hexadecimal is an eighth of it. */
#define LINE_LIMIT ((size_t)16 * 1024 * 1024)

enum reading { READING_LINE, READING_END, READING_TOO_LONG, READING_ERROR, READING_INTERRUPTED };

struct reader {
    int fd; /* -1 for a text */
    const char *data;
    char *buffer;
    size_t begin, end, room;
    uint64_t consumed; /* bytes of the lines given so far */
    bool ended;
};

void reader_open_file(struct reader *r, int fd);
void reader_open_text(struct reader *r, const char *text, size_t len);
void reader_close(struct reader *r);

/* The next line, without its end (LF or CR LF), and the first without a byte-order mark. It is there until the next call. Standard output is flushed before a
 * read that may block, so that whoever waits for the answers to the lines so far has them. */
enum reading reader_next(struct reader *r, const char **text, size_t *len);

#endif
