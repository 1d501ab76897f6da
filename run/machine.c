#include "machine.h"

#include <string.h>

#include "machine_file.h"
#include "map.h"
#include "say.h"

static struct machine_file *file;
static char path[PATH_ROOM];
static int error;

void machine_start(const char *named)
{
    path_copy(path, named);
    file = map_file(named, sizeof *file, &error);
}

bool machine_there(void)
{
    if (file == NULL)
        say_error("the machine cannot be opened; without --machine it is gone when the program has ended", path, error);
    return file != NULL;
}

void machine_damaged(void)
{
    say_error("the machine has been damaged", path, 0);
}

/* Where the lock is not to be had, a copy will do: at CPL 3 no instruction changes the machine. */
void with_machine(const struct self *self, void (*calls)(uint8_t *block, void *argument), void *argument)
{
    struct holding holding;
    if (lock_take(&file->lock, self, &holding)) {
        calls(file->block, argument);
        lock_free(&file->lock, &holding);
    } else {
        uint8_t copy[KEYLOCKER_MACHINE_SIZE];
        memcpy(copy, file->block, sizeof copy);
        calls(copy, argument);
    }
}
