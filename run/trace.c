#include "trace.h"

#include <fcntl.h>
#include <signal.h>
#include <stdatomic.h>

#include "map.h"
#include "say.h"
#include "system.h"
#include "text.h"

/* The longest has a handle of 64 bytes, and eight blocks twice. */
enum { TRACE_ROOM = 2048 };

static char path[PATH_ROOM];

void trace_start(const char *named)
{
    if (named != NULL)
        path_copy(path, named);
}

/* ---- lines */

/* Which process and thread it was, and the instruction with its own operands. */
static void add_origin(struct text *t, const struct emulated *e)
{
    char instruction[INSTRUCTION_TEXT];
    uint64_t process = (uint64_t)SYSTEM(SYS_getpid), thread = (uint64_t)SYSTEM(SYS_gettid);
    instruction_text(e->instruction, instruction);
    text_add(t, "# process ");
    text_add_decimal(t, process);
    if (thread != process) {
        text_add(t, ", thread ");
        text_add_decimal(t, thread);
    }
    text_add(t, ": ");
    text_add(t, instruction);
}

static void add_expected(struct text *t, const char *name, const uint8_t *data, size_t len)
{
    text_add(t, "expect ");
    text_add(t, name);
    text_add(t, " = ");
    text_add_bytes(t, data, len);
    text_add(t, "\n");
}

static void add_encode(struct text *t, const struct emulated *e)
{
    const struct mnemonic *m = e->instruction->mnemonic;
    uint64_t source = keylocker_get_register(e->before, e->instruction->rm);
    text_add_bytes(t, e->before + KEYLOCKER_CPU_XMM, m->key_size);
    for (size_t i = 0; i < RESTRICTIONS; i++)
        if (source & restrictions[i].bit) {
            text_add(t, " ");
            text_add(t, restrictions[i].name);
        }
    text_add(t, " -> handle ");
    add_origin(t, e);
    text_add(t, "\n");
    add_expected(t, "handle", e->after + KEYLOCKER_CPU_XMM, m->key_size == 32 ? KEYLOCKER_HANDLE_256_SIZE : KEYLOCKER_HANDLE_128_SIZE);
}

static void add_use(struct text *t, const struct emulated *e)
{
    const struct mnemonic *m = e->instruction->mnemonic;
    size_t at = KEYLOCKER_CPU_XMM + (m->wide ? 0 : 16 * e->instruction->reg), len = m->wide ? 8 * 16 : 16;
    text_add_bytes(t, e->handle, e->handle_len);
    text_add(t, " ");
    text_add_bytes(t, e->before + at, len);
    text_add(t, " -> result ");
    add_origin(t, e);
    if (keylocker_get_zf(e->after)) {
        text_add(t, "\nexpect zf 1\n");
        return;
    }
    text_add(t, "\nexpect zf 0\n");
    add_expected(t, "result", e->after + at, len);
}

/* What was refused left everything as it was: a comment. */
static void add_refused(struct text *t, const struct emulated *e)
{
    add_origin(t, e);
    text_add(t, ": ");
    text_add(t, e->signal == SIGILL ? "SIGILL" : e->signal == SIGBUS ? "SIGBUS" : "SIGSEGV");
    text_add(t, "\n");
}

static void add_done(struct text *t, const struct emulated *e)
{
    text_add(t, "cpu 0 cpl 3 ");
    text_add(t, e->instruction->mnemonic->name);
    text_add(t, " ");
    if (e->instruction->mnemonic->memory)
        add_use(t, e);
    else
        add_encode(t, e);
}

/* ---- the file */

/* Opened each time: a program may close what it did not open. */
static void append(const struct text *t)
{
    long fd = SYSTEM(SYS_open, path, O_WRONLY | O_APPEND | O_CLOEXEC), written = fd;
    if (fd >= 0) {
        written = SYSTEM(SYS_write, fd, t->room, t->len);
        SYSTEM(SYS_close, fd);
    }
    static atomic_flag said = ATOMIC_FLAG_INIT;
    if (written != (long)t->len && !atomic_flag_test_and_set(&said))
        say_error("lines of the trace are lost", path, written < 0 ? (int)-written : 0);
}

void trace(const struct emulated *e)
{
    char room[TRACE_ROOM];
    struct text t;
    if (path[0] == '\0')
        return;
    text_start(&t, room, sizeof room);
    if (e->answer == KEYLOCKER_DONE)
        add_done(&t, e);
    else
        add_refused(&t, e);
    append(&t);
}
