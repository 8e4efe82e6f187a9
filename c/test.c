/* Calls the library for C: test EXAMPLE.co .. compares the report of each script with EXAMPLE.report, and then tries what no example
 * does. One line for each difference; status 1 if there is one.
 *
 * The linker is told --wrap=malloc, --wrap=realloc and --wrap=free, so that memory can fail and what is not given back is seen. */
#include "jisthrom.h"

#include <pthread.h>
#include <stdio.h>
#include <stdlib.h>
#include <string.h>

#define LONGEST 1048576
#define ROOM (4u << 20)
#define MARK 0xa5

static int differences;

#define EXPECT(holds, ...) \
    do { \
        if (!(holds)) { \
            fprintf(stderr, __VA_ARGS__); \
            fputc('\n', stderr); \
            differences++; \
        } \
    } while (0)

/* ---- memory that is counted, and fails where it is told; one thread at a time arms it */

void *__real_malloc(size_t);
void *__real_realloc(void *, size_t);
void __real_free(void *);

static _Thread_local int is_armed;
static _Thread_local long left_until_none, blocks;

static int fails(void) { return is_armed && left_until_none-- == 0; }

void *__wrap_malloc(size_t n) {
    void *block = fails() ? NULL : __real_malloc(n);
    blocks += is_armed && block;
    return block;
}

void *__wrap_realloc(void *old, size_t n) { return fails() ? NULL : __real_realloc(old, n); }

void __wrap_free(void *block) {
    blocks -= is_armed && block;
    __real_free(block);
}

/* ---- calls */

struct text {
    uint8_t *bytes;
    size_t size;
};

static struct text read_file(const char *name) {
    struct text text = {malloc(ROOM), 0};
    FILE *file = fopen(name, "rb");
    if (!file || !text.bytes) {
        fprintf(stderr, "%s cannot be read\n", name);
        exit(2);
    }
    text.size = fread(text.bytes, 1, ROOM, file);
    fclose(file);
    return text;
}

static struct text text_of(const char *words) { return (struct text){(uint8_t *)words, strlen(words)}; }

static int all_marked(const uint8_t *from, const uint8_t *to) {
    while (from < to && *from == MARK) from++;
    return from == to;
}

/* A call with so much room, in a larger block that is marked. */
static uint32_t call(struct text script, uint8_t *block, size_t room, size_t *size) {
    memset(block, MARK, room + 64);
    *size = 77;
    uint32_t status = jisthrom_run(script.bytes, script.size, block, room, size);
    EXPECT(all_marked(block + room, block + room + 64), "a byte behind the room was written");
    return status;
}

static void expect_text(const char *name, struct text script, uint32_t wanted, struct text report) {
    uint8_t *block = malloc(ROOM + 64);
    size_t size;
    uint32_t status = call(script, block, ROOM, &size);
    EXPECT(status == wanted, "%s: status %u, and not %u", name, status, wanted);
    EXPECT(size == report.size && !memcmp(block, report.bytes, size), "%s: another text than is wanted, of %zu bytes", name, size);
    EXPECT(size > ROOM || all_marked(block + size, block + ROOM), "%s: a byte behind the text was written", name);

    status = call(script, block, report.size, &size);
    EXPECT(status == wanted && size == report.size, "%s: does not fit into just its room", name);
    for (size_t room = 0; room < report.size; room += report.size - 1) {
        status = call(script, block, room, &size);
        EXPECT(status == JISTHROM_LONGER_THAN_ROOM, "%s: status %u with room for %zu", name, status, room);
        EXPECT(size == report.size, "%s: asks for %zu bytes, and not %zu", name, size, report.size);
        EXPECT(all_marked(block, block + room), "%s: something was written where the text is too long", name);
        if (report.size == 1) break;
    }
    free(block);
}

/* The status that a report stands for, by the line of the root's Job. */
static uint32_t status_of(struct text report) {
    for (size_t at = 0; at + 6 < report.size; at++)
        if ((at == 0 || report.bytes[at - 1] == '\n') && !memcmp(report.bytes + at, "job 0 ", 6)) {
            switch (report.bytes[at + 6]) {
            case 'a': return JISTHROM_IDLE;
            case 'c': return report.bytes[at + 7] == 'o' ? JISTHROM_COMPLETED : JISTHROM_CANCELLED;
            default: return JISTHROM_CANCELLED;
            }
        }
    return 99;
}

static void try_example(const char *name) {
    char other[4096];
    size_t stem = strlen(name) - strlen(".co");
    snprintf(other, sizeof other, "%.*s.report", (int)stem, name);
    struct text script = read_file(name), report = read_file(other);
    expect_text(name, script, status_of(report), report);
    free(script.bytes);
    free(report.bytes);
}

/* ---- what no example does */

#define SMALLEST "coroutine main\nend\n"
#define SMALLEST_REPORT "0 endbody 0 0\n0 finish 0 completed 0\n0 close @0 0\njob 0 completed 0\n"

/* The smallest script, with so many bytes of a comment before it. */
static struct text padded(size_t whole) {
    struct text text = {malloc(whole), whole};
    size_t front = whole - strlen(SMALLEST);
    memset(text.bytes, '#', front);
    text.bytes[front - 1] = '\n';
    memcpy(text.bytes + front, SMALLEST, strlen(SMALLEST));
    return text;
}

static void try_lengths(void) {
    expect_text("no bytes", text_of(""), JISTHROM_NO_SCRIPT, text_of("line 1: NoMain\n"));
    expect_text("a body without an end", text_of("coroutine main\n"), JISTHROM_NO_SCRIPT, text_of("line 1: NoEnd\n"));
    expect_text("the smallest script", text_of(SMALLEST), JISTHROM_COMPLETED, text_of(SMALLEST_REPORT));
    struct text longest = padded(LONGEST), longer = padded(LONGEST + 1), longer_still = padded(16 * LONGEST);
    expect_text("1 MiB", longest, JISTHROM_COMPLETED, text_of(SMALLEST_REPORT));
    expect_text("one byte more", longer, JISTHROM_NO_SCRIPT, text_of("line 1: TooMany\n"));
    expect_text("16 MiB", longer_still, JISTHROM_NO_SCRIPT, text_of("line 1: TooMany\n"));
    free(longest.bytes);
    free(longer.bytes);
    free(longer_still.bytes);
}

/* Each allocation fails in turn: the call says so, and has written nothing. All that a call took it gives back. */
static void try_memory(struct text script) {
    static uint8_t block[65536 + 64];
    size_t size;
    uint32_t status = JISTHROM_NO_MEMORY;
    long most = 0;
    for (; status == JISTHROM_NO_MEMORY && most < 1000000; most++) {
        blocks = 0;
        left_until_none = most;
        is_armed = 1;
        status = call(script, block, 65536, &size);
        is_armed = 0;
        EXPECT(blocks == 0, "%ld blocks were not given back when allocation %ld failed", blocks, most);
        if (status == JISTHROM_NO_MEMORY)
            EXPECT(size == 0 && all_marked(block, block + 65536), "something was written when allocation %ld failed", most);
    }
    EXPECT(most > 10, "only %ld allocations were made", most);
    EXPECT(status == JISTHROM_COMPLETED, "status %u once memory suffices", status);
}

static void *many_calls(void *given) {
    struct text *script = given;
    static _Thread_local uint8_t block[1024 + 64];
    size_t size;
    for (int turn = 0; turn < 200; turn++)
        if (call(*script, block, 1024, &size) != JISTHROM_COMPLETED || size != strlen(SMALLEST_REPORT)) return given;
    return NULL;
}

static void try_threads(void) {
    struct text script = text_of(SMALLEST);
    pthread_t threads[4];
    void *wrong;
    for (int k = 0; k < 4; k++) pthread_create(&threads[k], NULL, many_calls, &script);
    for (int k = 0; k < 4; k++) {
        pthread_join(threads[k], &wrong);
        EXPECT(!wrong, "a call beside those of other threads ended otherwise");
    }
}

int main(int count, char **words) {
    if (count < 2) {
        fprintf(stderr, "usage: test EXAMPLE.co ..\n");
        return 2;
    }
    for (int at = 1; at < count; at++) try_example(words[at]);
    try_lengths();
    struct text script = read_file(words[1]);
    try_memory(script);
    free(script.bytes);
    try_threads();
    return differences != 0;
}
