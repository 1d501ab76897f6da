#include "say.h"

#include <errno.h>
#include <unistd.h>

#include "system.h"
#include "text.h"

/* Those that are met here, by name; strerror may allocate. */
static void add_error(struct text *t, int error)
{
    static const struct {
        int error;
        const char *text;
    } known[] = {{ENOENT, "no such file"}, {EACCES, "permission denied"}, {EINVAL, "not of its size"}, {ENOSPC, "no space left"}};
    text_add(t, " (");
    for (size_t i = 0; i < sizeof known / sizeof *known; i++)
        if (known[i].error == error) {
            text_add(t, known[i].text);
            text_add(t, ")");
            return;
        }
    text_add(t, "error ");
    text_add_decimal(t, (uint64_t)error);
    text_add(t, ")");
}

void say_error(const char *what, const char *file, int error)
{
    char room[512];
    struct text t;
    text_start(&t, room, sizeof room - 1);
    text_add(&t, "keylocker-run: ");
    text_add(&t, what);
    text_add(&t, ": ");
    text_add(&t, file);
    if (error != 0)
        add_error(&t, error);
    room[t.len] = '\n';
    SYSTEM(SYS_write, STDERR_FILENO, room, t.len + 1);
}
