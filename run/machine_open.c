#include "machine_open.h"

#include <errno.h>
#include <fcntl.h>
#include <stdio.h>
#include <stdlib.h>
#include <string.h>
#include <sys/mman.h>
#include <sys/stat.h>
#include <unistd.h>

#include "fail.h"
#include "iwkey.h"
#include "map.h"
#include "options.h"

/* ---- a new machine */

/* As an operating system loads it at boot, at CPL 0. */
static bool load(uint8_t *block, const uint8_t *iwkey)
{
    static const uint8_t loadiwkey[] = {0xF3, 0x0F, 0x38, 0xDC, 0xD1}; // loadiwkey xmm2, xmm1
    uint8_t cpu[KEYLOCKER_CPU_SIZE] = {0};
    cpu[KEYLOCKER_CPU_CONTROL] = KEYLOCKER_CONTROL_CR4_KL | KEYLOCKER_CONTROL_CR4_OSFXSR;
    memcpy(cpu + KEYLOCKER_CPU_XMM, iwkey, IWKEY_BYTES);
    uint32_t answer = keylocker_step(block, KEYLOCKER_MACHINE_SIZE, 0, cpu, sizeof cpu, NULL, 0, NULL, 0, loadiwkey, sizeof loadiwkey);
    bool done = answer == KEYLOCKER_DONE && !keylocker_get_zf(cpu);
    explicit_bzero(cpu, sizeof cpu);
    keylocker_clear_stack();
    return done;
}

static void make(struct machine_file *file, const uint8_t *given)
{
    uint8_t iwkey[IWKEY_BYTES];
    if (given == NULL)
        iwkey_random(iwkey);
    else
        memcpy(iwkey, given, sizeof iwkey);
    memset(file, 0, sizeof *file);
    if (keylocker_power_on(file->block, sizeof file->block, 1, KEYLOCKER_FEATURE_ALL) != KEYLOCKER_DONE || !load(file->block, iwkey))
        fail(EXIT_OURS, "the machine cannot be powered on");
    explicit_bzero(iwkey, sizeof iwkey);
    machine_file_seal(file);
}

/* ---- a new file */

/* Under its name it is whole from the first moment on, and takes no other's place. */
static bool publish(const char *from, const char *to)
{
    if (renameat2(AT_FDCWD, from, AT_FDCWD, to, RENAME_NOREPLACE) == 0)
        return true;
    bool done = (errno == EINVAL || errno == ENOSYS) && link(from, to) == 0;
    int error = errno;
    unlink(from);
    errno = error;
    return done;
}

/* Readable by its owner alone, as mkostemp makes it. Where another process was faster, its file stays. */
static void make_file(const char *path, const uint8_t *iwkey)
{
    struct machine_file file;
    char *name;
    if (asprintf(&name, "%s.XXXXXX", path) < 0)
        fail(EXIT_OURS, "out of memory");
    int fd = mkostemp(name, O_CLOEXEC);
    if (fd < 0)
        fail(EXIT_OURS, "%s cannot be made: %s", path, strerror(errno));
    make(&file, iwkey);
    bool written = write(fd, &file, sizeof file) == sizeof file && fsync(fd) == 0;
    explicit_bzero(&file, sizeof file);
    if (!written) {
        int error = errno;
        unlink(name);
        fail(EXIT_OURS, "%s cannot be written: %s", path, strerror(error));
    }
    close(fd);
    if (!publish(name, path) && errno != EEXIST)
        fail(EXIT_OURS, "%s cannot be made: %s", path, strerror(errno));
    free(name);
}

/* ---- opening */

/* Whether a thread's process has the file mapped: its maps have a line with the inode. The device there is another than stat's on some filesystems. */
static bool has_mapped(long thread, ino_t file)
{
    char name[64], *line = NULL;
    size_t room = 0;
    bool found = false;
    snprintf(name, sizeof name, "/proc/%ld/maps", thread);
    FILE *maps = fopen(name, "re");
    while (maps != NULL && !found && getline(&line, &room, maps) > 0) {
        unsigned long long inode;
        found = sscanf(line, "%*s %*s %*s %*s %llu", &inode) == 1 && inode == file;
    }
    free(line);
    if (maps != NULL)
        fclose(maps);
    return found;
}

/* What stands in the lock may be of an earlier boot, or of the file that this one is a copy of. */
static void clear_stale_lock(const char *path, ino_t inode)
{
    int error;
    struct machine_file *file = map_file(path, sizeof *file, &error);
    long holder = file == NULL ? 0 : lock_holder(&file->lock);
    if (holder != 0 && !has_mapped(holder, inode))
        lock_clear(&file->lock, holder);
    if (file != NULL)
        munmap(file, sizeof *file);
}

static void look_at(int fd, const char *path, const uint8_t *iwkey, struct machine_file *held)
{
    uint8_t one_more[sizeof *held + 1];
    struct stat status;
    if (fstat(fd, &status) == 0 && !S_ISREG(status.st_mode))
        fail(EXIT_OURS, "%s: a machine has to be a file", path);
    ssize_t len = pread(fd, one_more, sizeof one_more, 0);
    if (len < 0)
        fail(EXIT_OURS, "%s: %s", path, strerror(errno));
    memcpy(held, one_more, sizeof *held);
    const char *fault = machine_file_fault(held, (size_t)len);
    if (fault != NULL)
        fail(EXIT_OURS, "%s: %s. It is left as it is", path, fault);
    clear_stale_lock(path, status.st_ino);
    if (status.st_mode & S_IRWXO)
        fprintf(stderr, "keylocker-run: %s: its mode lets others use it, and read the IWKey\n", path);
    if (iwkey != NULL && memcmp(held->block + KEYLOCKER_MACHINE_ENTRIES, iwkey, IWKEY_BYTES) != 0)
        fail(EXIT_OURS, "%s: this machine has another IWKey than the one given. It is left as it is", path);
    explicit_bzero(one_more, sizeof one_more);
}

void machine_open(const char *path, const uint8_t *iwkey, struct machine_file *held)
{
    int fd = open(path, O_RDWR | O_CLOEXEC);
    if (fd < 0 && errno == ENOENT) {
        make_file(path, iwkey);
        fd = open(path, O_RDWR | O_CLOEXEC);
    }
    if (fd < 0)
        fail(EXIT_OURS, "%s: %s", path, strerror(errno));
    look_at(fd, path, iwkey, held);
    close(fd);
}
