/* Tests what funkenrille.h states beside the bytes, which c_entry.c tests: the version, NULL with length 0, threads, and the stack.
 *
 * c_calls TEXT...: each text is played by several threads at once, and on a stack that was filled with a mark.
 */
#define _GNU_SOURCE
#include <pthread.h>
#include <stdio.h>
#include <stdlib.h>
#include <string.h>
#include <sys/mman.h>

#include <funkenrille.h>

enum { THREADS = 4, ROUNDS = 20, STACK = 1 << 20, MARK = 0xA5 };

struct text {
    uint8_t *bytes;
    size_t length;
    uint8_t *report; /* as the first call wrote it */
    size_t report_length;
};

static void fail(const char *what)
{
    fprintf(stderr, "c_calls: %s\n", what);
    exit(EXIT_FAILURE);
}

static struct text read_text(const char *name)
{
    static uint8_t room[FUNKENRILLE_REPORT_MAX];
    struct text t = {malloc(FUNKENRILLE_TEXT_MAX + 1), 0, NULL, 0};
    FILE *file = fopen(name, "rb");
    if (!file || !t.bytes)
        fail(name);
    t.length = fread(t.bytes, 1, FUNKENRILLE_TEXT_MAX + 1, file);
    fclose(file);
    t.report_length = funkenrille_report(t.bytes, t.length, room, sizeof room);
    t.report = malloc(t.report_length + 1);
    memcpy(t.report, room, t.report_length);
    return t;
}

static void play(const struct text *t, uint8_t *room)
{
    size_t length = funkenrille_report(t->bytes, t->length, room, FUNKENRILLE_REPORT_MAX);
    if (length != t->report_length || memcmp(room, t->report, length) != 0)
        fail("a call among others wrote another report");
}

static struct text *texts;
static size_t text_count;

static void *play_many(void *seed)
{
    uint8_t *room = malloc(FUNKENRILLE_REPORT_MAX);
    for (size_t k = 0; k < ROUNDS * text_count; k++)
        play(&texts[(k + (size_t)seed) % text_count], room);
    free(room);
    return NULL;
}

static void threads(void)
{
    pthread_t started[THREADS];
    for (size_t k = 0; k < THREADS; k++)
        if (pthread_create(&started[k], NULL, play_many, (void *)k) != 0)
            fail("no thread");
    for (size_t k = 0; k < THREADS; k++)
        pthread_join(started[k], NULL);
}

/* On its own stack: a call's address of its own frame, and the call. */
struct call {
    const struct text *text;
    uint8_t *room;
    uint8_t *frame;
};

static void *one_call(void *argument)
{
    struct call *c = argument;
    c->frame = __builtin_frame_address(0);
    if (c->text)
        play(c->text, c->room);
    return NULL;
}

/* How many bytes below the caller's frame were touched. */
static size_t used(const struct text *t, uint8_t *room)
{
    uint8_t *stack = mmap(NULL, STACK, PROT_READ | PROT_WRITE, MAP_PRIVATE | MAP_ANONYMOUS, -1, 0);
    struct call c = {t, room, NULL};
    pthread_attr_t attributes;
    pthread_t thread;
    if (stack == MAP_FAILED)
        fail("no stack");
    memset(stack, MARK, STACK);
    pthread_attr_init(&attributes);
    if (pthread_attr_setstack(&attributes, stack, STACK) != 0 || pthread_create(&thread, &attributes, one_call, &c) != 0)
        fail("no thread on a stack of its own");
    pthread_join(thread, NULL);
    size_t lowest = 0;
    while (stack[lowest] == MARK)
        lowest++;
    size_t bytes = (size_t)(c.frame - (stack + lowest));
    munmap(stack, STACK);
    return bytes;
}

static size_t deepest(void)
{
    uint8_t *room = malloc(FUNKENRILLE_REPORT_MAX);
    size_t most = 0;
    for (size_t k = 0; k < text_count; k++) {
        size_t bytes = used(&texts[k], room);
        most = bytes > most ? bytes : most;
    }
    free(room);
    if (most > FUNKENRILLE_STACK_MAX)
        fail("a call took more stack than the header says");
    return most;
}

/* An empty text and an empty room, each with NULL and with a place that may not be touched. */
static void nothing(void)
{
    uint8_t *forbidden = mmap(NULL, 4096, PROT_NONE, MAP_PRIVATE | MAP_ANONYMOUS, -1, 0), room[64];
    const char report[] = "lines=0 refused=0\n";
    uint8_t *places[] = {NULL, forbidden};
    for (size_t k = 0; k < 2; k++) {
        if (funkenrille_report(places[k], 0, room, sizeof room) != sizeof report - 1 || memcmp(room, report, sizeof report - 1) != 0)
            fail("the empty text has another report");
        if (funkenrille_report((const uint8_t *)"\n", 1, places[k], 0) != 0)
            fail("a report was written to no room");
        for (size_t j = 0; j < 2; j++)
            if (funkenrille_report(places[k], 0, places[j], 0) != 0)
                fail("a report was written to no room, of no text");
        if (funkenrille_report(forbidden, FUNKENRILLE_TEXT_MAX + 1, places[k], 0) != 0)
            fail("a text that is too long was played");
    }
}

int main(int count, char **names)
{
    if (strcmp(funkenrille_version(), FUNKENRILLE_VERSION) != 0)
        fail("header and library have different versions");
    nothing();
    text_count = (size_t)count - 1;
    texts = calloc(text_count, sizeof *texts);
    for (size_t k = 0; k < text_count; k++)
        texts[k] = read_text(names[k + 1]);
    threads();
    printf("c_calls: version %s; NULL with length 0; %zu calls by %d threads; at most %zu bytes of stack, %zu without a call\n", funkenrille_version(),
           THREADS * ROUNDS * text_count, THREADS, deepest(), used(NULL, NULL));
    return EXIT_SUCCESS;
}
