/* Tests the C entry from C, where no proof reaches: which bytes it reads and writes, and what it returns.
 *
 * c_entry FILE...: plays each file with rooms of every length that matters. Text and room each end at a page that may not be
 * touched, and begin behind one in a second pass, so that a byte read or written outside ends the program. The report is held to
 * the one that `c_entry` was given beside the file (FILE.report).
 */
#define _GNU_SOURCE
#include <stdio.h>
#include <stdlib.h>
#include <string.h>
#include <sys/mman.h>
#include <unistd.h>

#include "funkenrille.h"

static size_t page;

static void fail(const char *file, const char *what, size_t number)
{
    fprintf(stderr, "c_entry: %s: %s (%zu)\n", file, what, number);
    exit(EXIT_FAILURE);
}

/* A region of whole pages between two pages that may not be touched. */
struct region {
    uint8_t *first;
    size_t size;
};

static struct region guarded(size_t length)
{
    struct region r;
    r.size = (length / page + 1) * page;
    uint8_t *base = mmap(NULL, r.size + 2 * page, PROT_NONE, MAP_PRIVATE | MAP_ANONYMOUS, -1, 0);
    if (base == MAP_FAILED || mprotect(base + page, r.size, PROT_READ | PROT_WRITE) != 0) {
        perror("c_entry: mmap");
        exit(EXIT_FAILURE);
    }
    r.first = base + page;
    return r;
}

static void release(struct region r)
{
    munmap(r.first - page, r.size + 2 * page);
}

/* The place in a region at which length bytes end at its end, or begin at its beginning. */
static uint8_t *placed(struct region r, size_t length, int at_end)
{
    return at_end ? r.first + r.size - length : r.first;
}

static uint8_t mark(size_t i)
{
    return (uint8_t)(i * 131 + 17);
}

/* One call: the return value, every byte of the room, every byte around it, and the text untouched. */
static void call(const char *file, const uint8_t *text, size_t text_length, const uint8_t *report, size_t report_length, size_t room_length, int at_end)
{
    struct region t = guarded(text_length), r = guarded(room_length);
    uint8_t *text_at = placed(t, text_length, at_end), *room_at = placed(r, room_length, at_end);
    memcpy(text_at, text, text_length);
    for (size_t i = 0; i < r.size; i++)
        r.first[i] = mark(i);
    mprotect(t.first, t.size, PROT_READ);

    size_t wanted = text_length > FUNKENRILLE_TEXT_MAX || room_length < report_length ? 0 : report_length;
    size_t got = funkenrille_report(text_at, text_length, room_at, room_length);
    if (got != wanted)
        fail(file, "wrong length returned", got);
    if (memcmp(room_at, report, wanted) != 0)
        fail(file, "the report differs", room_length);
    for (size_t i = 0; i < r.size; i++)
        if ((r.first + i < room_at || r.first + i >= room_at + wanted) && r.first[i] != mark(i))
            fail(file, "a byte outside the report was written", i);
    release(t);
    release(r);
}

static uint8_t *whole_file(const char *file, size_t *length)
{
    FILE *in = fopen(file, "rb");
    uint8_t *bytes = malloc(2 * FUNKENRILLE_REPORT_MAX);
    if (in == NULL || bytes == NULL)
        fail(file, "cannot be read", 0);
    *length = fread(bytes, 1, 2 * FUNKENRILLE_REPORT_MAX, in);
    fclose(in);
    return bytes;
}

int main(int count, char **files)
{
    page = (size_t)sysconf(_SC_PAGESIZE);
    size_t calls = 0;
    for (int i = 1; i < count; i++) {
        char name[4096];
        snprintf(name, sizeof name, "%s.report", files[i]);
        size_t text_length, report_length;
        uint8_t *text = whole_file(files[i], &text_length), *report = whole_file(name, &report_length);
        size_t rooms[] = {0, 1, report_length / 2, report_length - 1, report_length, report_length + 1, report_length + page};
        for (size_t k = 0; k < sizeof rooms / sizeof *rooms; k++)
            for (int at_end = 0; at_end < 2; at_end++, calls++)
                call(files[i], text, text_length, report, report_length, rooms[k], at_end);
        free(text);
        free(report);
    }
    printf("c_entry: %d texts, %zu calls, each byte of text, room and surroundings as it must be\n", count - 1, calls);
    return EXIT_SUCCESS;
}
