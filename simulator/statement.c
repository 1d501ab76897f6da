#include "statement.h"

#include "define.h"
#include "expect.h"
#include "keyring.h"
#include "platform.h"
#include "print.h"
#include "processor.h"
#include "show.h"

static const struct {
    const char *name;
    void (*run)(struct simulator *s);
} statements[] = {
    {"cpu", run_cpu},
    {"expect", run_expect},
    {"say", say},
    {"bytes", run_bytes},
    {"iwkey", run_iwkey},
    {"memory", run_memory},
    {"taken", run_taken},
    {"settle", run_settle},
    {"sleep", run_sleep},
    {"reset", run_reset},
    {"power-on", run_power_on},
    {"machine", run_machine},
    {"keyring", run_keyring},
    {"show", run_show},
};

void run_line(struct simulator *s, const char *text, size_t len)
{
    s->line.number++;
    s->processor = s->cpl = -1;
    s->called = false;
    line_split(&s->line, text, len);
    if (at_end(&s->line))
        return;
    struct word word = take_word(&s->line, "a statement");
    for (size_t i = 0; i < sizeof statements / sizeof *statements; i++) {
        if (word_is(word, statements[i].name)) {
            statements[i].run(s);
            if (s->called)
                end_call(s);
            return;
        }
    }
    bad_line(&s->line,
             "'%.*s' begins no statement; expected cpu, power-on, taken, settle, sleep, reset, iwkey, bytes, memory, machine, keyring, expect, show or say",
             shown(word.len), word.text);
}
