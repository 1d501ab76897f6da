/* A folder for what belongs to one run alone, removed at its end. */
#ifndef SCRATCH_H
#define SCRATCH_H

/* The path of a file in it, which is made with the folder where there is none yet. */
char *scratch_file(const char *name);

/* At the latest when keylocker-run exits. */
void scratch_remove(void);

/* Leaves that to a process of its own, which waits for the end of this one, whatever program it becomes. */
void scratch_outlive(void);

#endif
