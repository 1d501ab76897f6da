#define _DEFAULT_SOURCE /* mmap's MAP_ANONYMOUS */

#include "lend.h"

#include <inttypes.h>
#include <stdio.h>
#include <stdlib.h>
#include <string.h>
#include <sys/mman.h>

#include "catch.h"
#include "trial.h"

/* The longest that is lent is more memory than the limit. Two runs are lent to at the same time, thirteen places each. */
enum { PAGE = 4096, GUARD = 16 * PAGE, ROOM = MEMORY_ROOM + PAGE, PLOT = GUARD + ROOM + GUARD, PLOTS = 2 * 13 };
_Static_assert(ROOM % PAGE == 0, "guards are whole pages");

/* what stands in the pages of a buffer on both sides of it */
enum { BESIDE = 0xB5 };

/* Places in the order in which they are taken. Their number is prime, so that each buffer of a call comes to each of them. */
enum { AT_END, AT_START = 8, MISALIGNED = 16, TURNS = 31 };

static struct plot {
    const char *name; /* NULL where it is not in use */
    uint8_t *bytes, *pages, *pages_end;
    size_t length;
} plots[PLOTS];

static uint8_t *land; /* NULL where runs are not guarded */
static uint8_t all_beside[PAGE];
static unsigned turn;
static uint64_t ending, beginning, misaligned, empty, read_only;

bool lend_guarded(void)
{
    uint8_t *all = mmap(NULL, (size_t)PLOTS * PLOT, PROT_NONE, MAP_PRIVATE | MAP_ANONYMOUS | MAP_NORESERVE, -1, 0);
    if (all == MAP_FAILED || !catch_start(all, (size_t)PLOTS * PLOT))
        return false;
    land = all;
    memset(all_beside, BESIDE, sizeof all_beside);
    return true;
}

bool lends_guarded(void) { return land != NULL; }

/* ---- pages ---- */

static void must(bool done)
{
    if (!done)
        abort();
}

static struct plot *plot_of(const void *lent)
{
    size_t at = (uintptr_t)lent - (uintptr_t)land;
    return land && at < (size_t)PLOTS * PLOT ? &plots[at / PLOT] : NULL;
}

static void protect(const struct plot *plot, int protection)
{
    must(plot->pages == plot->pages_end || mprotect(plot->pages, (size_t)(plot->pages_end - plot->pages), protection) == 0);
}

static struct plot *free_plot(void)
{
    size_t i = 0;
    while (i < PLOTS && plots[i].name)
        i++;
    must(i < PLOTS);
    return &plots[i];
}

/* how far behind the start of the room */
static size_t some_place(size_t length, unsigned turns)
{
    turn = (turn + 1) % TURNS;
    unsigned place = turn % turns;
    *(length == 0 ? &empty : place < AT_START ? &ending : place < MISALIGNED ? &beginning : &misaligned) += 1;
    return place < AT_START ? ROOM - length : place < MISALIGNED ? 0 : place - MISALIGNED + 1;
}

static uint8_t *place(const char *name, size_t length, unsigned turns)
{
    struct plot *plot = free_plot();
    uint8_t *room = land + (size_t)(plot - plots) * PLOT + GUARD;
    must(length + TURNS <= ROOM);
    size_t at = some_place(length, turns);
    plot->name = name;
    plot->bytes = room + at;
    plot->length = length;
    plot->pages = room + at / PAGE * PAGE;
    plot->pages_end = length ? room + (at + length + PAGE - 1) / PAGE * PAGE : plot->pages;
    protect(plot, PROT_READ | PROT_WRITE);
    if (length) {
        memset(plot->pages, BESIDE, (size_t)(plot->bytes - plot->pages));
        memset(plot->bytes + length, BESIDE, (size_t)(plot->pages_end - (plot->bytes + length)));
    }
    return plot->bytes;
}

/* ---- lending ---- */

static uint8_t *lend_at(const char *name, size_t length, unsigned turns)
{
    uint8_t *lent = land && name ? place(name, length, turns) : malloc(length);
    must(lent);
    return lent;
}

uint8_t *lend(const char *name, const uint8_t *bytes, size_t length)
{
    uint8_t *lent = lend_at(name, length, TURNS);
    if (bytes && length)
        memcpy(lent, bytes, length);
    return lent;
}

void *lend_number(const char *name, size_t length) { return lend_at(name, length, MISALIGNED); }

void take_back(void *lent)
{
    struct plot *plot = plot_of(lent);
    if (!plot) {
        free(lent);
        return;
    }
    protect(plot, PROT_NONE);
    plot->name = NULL;
}

void lend_read_only(const void *lent)
{
    struct plot *plot = plot_of(lent);
    if (!plot)
        return;
    protect(plot, PROT_READ);
    read_only += plot->length != 0;
}

/* ---- calls ---- */

static bool beside_is_kept(const struct plot *plot)
{
    size_t before = (size_t)(plot->bytes - plot->pages), behind = (size_t)(plot->pages_end - (plot->bytes + plot->length));
    return !plot->length || (memcmp(plot->pages, all_beside, before) == 0 && memcmp(plot->bytes + plot->length, all_beside, behind) == 0);
}

static const char *told(const struct plot *plot, const char *what, ptrdiff_t number)
{
    static char text[128];
    snprintf(text, sizeof text, "guard: %s of %zu bytes %s %td", plot->name ? plot->name : "nothing that is lent, once", plot->length, what, number);
    return text;
}

const char *touched_by(void (*make)(void *argument), void *argument)
{
    if (!land) {
        make(argument);
        return NULL;
    }
    const uint8_t *at = caught(make, argument);
    const struct plot *plot = plot_of(at);
    if (plot && at < plot->bytes)
        return told(plot, "touched before its start, by", plot->bytes - at);
    if (plot && at >= plot->bytes + plot->length)
        return told(plot, "touched behind its end, at", at - plot->bytes);
    if (plot)
        return told(plot, "written where it may only be read, at", at - plot->bytes);
    for (size_t i = 0; i < PLOTS; i++)
        if (plots[i].name && !beside_is_kept(&plots[i]))
            return told(&plots[i], "written beside, in pages of", plots[i].pages_end - plots[i].pages);
    return NULL;
}

void print_lent(void)
{
    if (land)
        printf("%" PRIu64 " buffers lent between guards: %" PRIu64 " end at one, %" PRIu64 " begin at one, %" PRIu64 " are misaligned, %" PRIu64
               " are empty; %" PRIu64 " cannot be written\n",
               ending + beginning + misaligned + empty, ending, beginning, misaligned, empty, read_only);
}
