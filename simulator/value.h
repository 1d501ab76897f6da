/* Byte strings as a trace writes them, and the names that it gives them. */
#ifndef VALUE_H
#define VALUE_H

#include "simulator.h"

/* One word: hexadecimal digits, a name, the keyring, or a place of the machine, with [from..to], * and ^. It is put behind what out holds. */
void append_word_value(struct simulator *s, struct word word, struct bytes *out);

/* All words up to the end of the line or to a keyword that can stand behind bytes. There has to be one. */
void take_bytes(struct simulator *s, const char *expected, struct bytes *out);

/* The same, of a length that is told where it is another. */
void take_bytes_of(struct simulator *s, const char *expected, size_t len, struct bytes *out);

/* A name to be given a value, old or new. */
struct name *take_new_name(struct simulator *s);

/* The line is bad where the names would hold too much with as many bytes in this one. */
void need_room(struct simulator *s, const struct name *name, size_t len);

/* The name behind "->", or none; there is room for a result of that length. */
struct name *take_result(struct simulator *s, size_t len);

/* The statement gives the name these bytes, or none. Nothing is done where there is no name. */
void give_value(struct simulator *s, struct name *name, const uint8_t *data, size_t len);
void take_value_away(struct simulator *s, struct name *name);

#endif
