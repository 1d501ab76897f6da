#include "define.h"

#include "print.h"
#include "value.h"

void run_bytes(struct simulator *s)
{
    struct name *name = take_new_name(s);
    take_keyword(&s->line, "=");
    take_bytes(s, "bytes", &s->left);
    take_end(&s->line);
    need_room(s, name, s->left.len);
    print_statement(s);
    give_value(s, name, s->left.data, s->left.len);
}

void run_iwkey(struct simulator *s)
{
    struct name *name = take_new_name(s);
    take_keyword(&s->line, "=");
    take_keyword(&s->line, "integrity");
    take_bytes_of(s, "an integrity key", 16, &s->left);
    take_keyword(&s->line, "encryption");
    take_bytes_of(s, "an encryption key", 32, &s->right);
    take_end(&s->line);
    need_room(s, name, KEYLOCKER_IWKEY_SOURCE);
    print_statement(s);
    bytes_append(&s->left, s->right.data, s->right.len);
    give_value(s, name, s->left.data, s->left.len);
    names_mark_iwkey(&s->names, name);
}
