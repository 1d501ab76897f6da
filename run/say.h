/* What the object says on standard error, from handlers, too. */
#ifndef SAY_H
#define SAY_H

/* What is wrong, of which file, and the error's number, or 0. */
void say_error(const char *what, const char *file, int error);

#endif
