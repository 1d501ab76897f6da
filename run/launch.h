/* The program, run and waited for. */
#ifndef LAUNCH_H
#define LAUNCH_H

/* Exits with a message where it cannot be found, or cannot be loaded an object into. */
void look_at_program(const char *name);

/* It takes the place of this one: process, signals and end are its own. */
_Noreturn void become(char **program);

/* In a process of its own: what became of it, as waitpid tells. */
int run_program(char **program);

/* Ends as the program did. */
_Noreturn void end_as(int status);

#endif
