/* Channels from C: each call with each wrong argument, and threads that send and receive pointers, each of which is freed once.
 *
 * channels ITEMS. One line for each difference on standard error; status 1 if there is one. */
#include <jisthrom.h>

#include <pthread.h>
#include <semaphore.h>
#include <stdatomic.h>
#include <stdio.h>
#include <stdlib.h>
#include <string.h>

#if defined __SANITIZE_THREAD__
/* The archive is not instrumented: that a send happens before its receive is told here. */
void __tsan_acquire(void *);
void __tsan_release(void *);
#else
#define __tsan_acquire(place) ((void)(place))
#define __tsan_release(place) ((void)(place))
#endif

static atomic_int differences;

#define EXPECT(holds, ...) \
    do { \
        if (!(holds)) { \
            fprintf(stderr, __VA_ARGS__); \
            fputc('\n', stderr); \
            differences++; \
        } \
    } while (0)

#define MARK 0x5a5a5a5a5a5a5a5au

/* ---- call by call. Each line says what comes by the header: the answer, the item, and the two masks. */

static struct jisthrom_wakes wakes;
static uint64_t item;

static void expect(int line, uint32_t answer, uint32_t wanted, uint64_t receivers, uint64_t senders) {
    EXPECT(answer == wanted, "line %d: answer %u, and not %u", line, answer, wanted);
    EXPECT(wakes.receivers == receivers && wakes.senders == senders, "line %d: wakes %llx and %llx, and not %llx and %llx", line,
           (unsigned long long)wakes.receivers, (unsigned long long)wakes.senders, (unsigned long long)receivers,
           (unsigned long long)senders);
    wakes = (struct jisthrom_wakes){MARK, MARK};
}

#define SEND(end, x, ...) expect(__LINE__, jisthrom_channel_send(end, x, &wakes), __VA_ARGS__)
#define RECEIVE(end, x, ...) \
    do { \
        item = MARK; \
        expect(__LINE__, jisthrom_channel_receive(end, &item, &wakes), __VA_ARGS__); \
        EXPECT(item == (x), "line %d: another item is received", __LINE__); \
    } while (0)
#define LEAVE(end, ...) expect(__LINE__, jisthrom_channel_leave(end, &wakes), __VA_ARGS__)
#define CLOSE(end, ...) expect(__LINE__, jisthrom_channel_close(end, &wakes), __VA_ARGS__)
#define FREE(end, ...) expect(__LINE__, jisthrom_channel_free(end, &wakes), __VA_ARGS__)

static int is_none(const struct jisthrom_end *end) { return end->tag_plus_1 == 0; }

static void try_wrong_arguments(void) {
    struct jisthrom_end none = {0}, first = {0}, other = {0}, more[62] = {{0}}, last = {0};
    wakes = (struct jisthrom_wakes){MARK, MARK};
    SEND(&none, 1, JISTHROM_NO_END, 0, 0);
    RECEIVE(&none, MARK, JISTHROM_NO_END, 0, 0);
    LEAVE(&none, JISTHROM_NO_END, 0, 0);
    CLOSE(&none, JISTHROM_NO_END, 0, 0);
    FREE(&none, JISTHROM_NO_END, 0, 0);
    EXPECT(jisthrom_channel_split(&none, &other) == JISTHROM_NO_END && is_none(&other), "an end was split off none");

    EXPECT(jisthrom_channel_new(0, &first) == JISTHROM_WRONG_SIZE && is_none(&first), "a channel of no slots");
    EXPECT(jisthrom_channel_new(1048577, &first) == JISTHROM_WRONG_SIZE && is_none(&first), "a channel of too many slots");
    EXPECT(jisthrom_channel_new(UINT32_MAX, &first) == JISTHROM_WRONG_SIZE && is_none(&first), "a channel of 2^32 - 1 slots");
    EXPECT(jisthrom_channel_new(1048576, &first) == JISTHROM_DONE && first.tag_plus_1 == 1, "no channel of 1048576 slots");
    FREE(&first, JISTHROM_DONE, 0, 0);
    EXPECT(is_none(&first), "the end is there after it was given back");
    SEND(&first, 1, JISTHROM_NO_END, 0, 0);
    FREE(&first, JISTHROM_NO_END, 0, 0);

    EXPECT(jisthrom_channel_new(1, &first) == JISTHROM_DONE, "no second channel");
    EXPECT(jisthrom_channel_new(1, &first) == JISTHROM_IN_USE && first.tag_plus_1 == 1, "a channel over another");
    EXPECT(jisthrom_channel_split(&first, &other) == JISTHROM_DONE && other.tag_plus_1 == 2, "no second end");
    EXPECT(jisthrom_channel_split(&first, &other) == JISTHROM_IN_USE, "an end over another");
    EXPECT(jisthrom_channel_split(&other, &last) == JISTHROM_NO_TAG && is_none(&last), "an end was split off the second");
    for (int k = 0; k < 62; k++)
        EXPECT(jisthrom_channel_split(&first, &more[k]) == JISTHROM_DONE && more[k].tag_plus_1 == (uint32_t)k + 3, "no end of tag %d",
               k + 2);
    EXPECT(jisthrom_channel_split(&first, &last) == JISTHROM_NO_TAG && is_none(&last), "a 65th end");
    RECEIVE(&more[61], MARK, JISTHROM_WAITS, 0, 0);
    SEND(&other, 5, JISTHROM_DONE, 1ull << 63, 0);
    RECEIVE(&more[61], 5, JISTHROM_DONE, 0, 0);
    for (int k = 0; k < 62; k++) FREE(&more[k], JISTHROM_DONE, 0, 0);
    FREE(&first, JISTHROM_DONE, 0, 0);
    SEND(&other, 6, JISTHROM_DONE, 0, 0);
    RECEIVE(&other, 6, JISTHROM_DONE, 0, 0);
    FREE(&other, JISTHROM_DONE, 0, 0);
}

/* A channel of two slots with three ends, of tags 0 to 2. */
static void try_calls(void) {
    struct jisthrom_end a = {0}, b = {0}, c = {0};
    EXPECT(jisthrom_channel_new(2, &a) == JISTHROM_DONE, "no channel");
    EXPECT(jisthrom_channel_split(&a, &b) == JISTHROM_DONE && jisthrom_channel_split(&a, &c) == JISTHROM_DONE, "no ends");
    wakes = (struct jisthrom_wakes){MARK, MARK};
    RECEIVE(&b, MARK, JISTHROM_WAITS, 0, 0);
    RECEIVE(&c, MARK, JISTHROM_WAITS, 0, 0);
    SEND(&a, UINT64_MAX, JISTHROM_DONE, 2, 0); /* place 0: b is the first that waits from tag 0 on */
    LEAVE(&b, JISTHROM_DONE, 4, 0);            /* b has no use for it: c is named in its place */
    RECEIVE(&c, UINT64_MAX, JISTHROM_DONE, 0, 0);
    SEND(&a, 1, JISTHROM_DONE, 0, 0);
    SEND(&a, 2, JISTHROM_DONE, 0, 0);
    SEND(&a, 3, JISTHROM_WAITS, 0, 0);
    SEND(&b, 4, JISTHROM_WAITS, 0, 0);
    RECEIVE(&c, 1, JISTHROM_DONE, 0, 2); /* place 1: the first that waits from tag 1 on is b */
    FREE(&b, JISTHROM_DONE, 0, 1);       /* b is gone, and a is named in its place */
    EXPECT(is_none(&b), "the end is there after it was given back");
    SEND(&a, 3, JISTHROM_DONE, 0, 0);
    SEND(&a, 4, JISTHROM_WAITS, 0, 0);
    CLOSE(&c, JISTHROM_DONE, 0, 1);
    CLOSE(&c, JISTHROM_CLOSED, 0, 0);
    SEND(&a, 4, JISTHROM_CLOSED, 0, 0);
    RECEIVE(&a, 2, JISTHROM_DONE, 0, 0);
    RECEIVE(&c, 3, JISTHROM_DONE, 0, 0);
    RECEIVE(&c, MARK, JISTHROM_CLOSED, 0, 0);
    FREE(&a, JISTHROM_DONE, 0, 0);
    FREE(&c, JISTHROM_DONE, 0, 0);
}

/* ---- threads. An end that is named is woken by its bell. */

#define THREADS 4
#define MIDDLE 1000 /* one receiver has received so many: bell 63 rings, which is no end's */

struct seat {
    struct jisthrom_end end;
    unsigned long many, sent, freed, returned;
};

static sem_t bells[64];
static atomic_ulong alive;

static void wake(struct jisthrom_wakes named) {
    for (uint64_t all = named.receivers | named.senders, t = 0; all; all >>= 1, t++)
        if (all & 1) sem_post(&bells[t]);
}

static void sleep_of(const struct jisthrom_end *end) { sem_wait(&bells[end->tag_plus_1 - 1]); }

static unsigned long *new_item(unsigned long number) {
    unsigned long *made = malloc(sizeof *made);
    if (!made) exit(2);
    *made = number;
    alive++;
    return made;
}

static void free_item(unsigned long *made) {
    free(made);
    alive--;
}

static void *sends(void *given) {
    struct seat *seat = given;
    struct jisthrom_wakes named;
    for (unsigned long k = 0; k < seat->many; k++) {
        unsigned long *made = new_item(k);
        uint32_t answer;
        __tsan_release(made);
        while ((answer = jisthrom_channel_send(&seat->end, (uintptr_t)made, &named)) == JISTHROM_WAITS) sleep_of(&seat->end);
        wake(named);
        if (answer == JISTHROM_DONE) {
            seat->sent++;
            continue;
        }
        EXPECT(answer == JISTHROM_CLOSED, "a send answers %u", answer);
        free_item(made);
        seat->returned++;
        break;
    }
    jisthrom_channel_free(&seat->end, &named);
    wake(named);
    return NULL;
}

static void *receives(void *given) {
    struct seat *seat = given;
    struct jisthrom_wakes named;
    for (;;) {
        uint64_t got;
        uint32_t answer = jisthrom_channel_receive(&seat->end, &got, &named);
        wake(named);
        if (answer == JISTHROM_WAITS) {
            sleep_of(&seat->end);
            continue;
        }
        if (answer != JISTHROM_DONE) {
            EXPECT(answer == JISTHROM_CLOSED, "a receive answers %u", answer);
            break;
        }
        unsigned long *made = (unsigned long *)(uintptr_t)got;
        __tsan_acquire(made);
        EXPECT(*made < seat->many, "what was received was never sent");
        free_item(made);
        if (++seat->freed == MIDDLE) sem_post(&bells[63]);
    }
    jisthrom_channel_free(&seat->end, &named);
    wake(named);
    return NULL;
}

/* Four send and four receive. The channel is closed after the senders have ended, or in the middle. */
static void try_threads(unsigned long items, uint32_t slots, int in_the_middle) {
    struct jisthrom_end first = {0};
    struct seat seats[2 * THREADS] = {{{0}, 0, 0, 0, 0}};
    pthread_t threads[2 * THREADS];
    struct jisthrom_wakes named;
    for (int t = 0; t < 64; t++) sem_init(&bells[t], 0, 0);
    EXPECT(jisthrom_channel_new(slots, &first) == JISTHROM_DONE, "no channel of %u slots", slots);
    for (int k = 0; k < 2 * THREADS; k++) {
        seats[k].many = items / THREADS;
        EXPECT(jisthrom_channel_split(&first, &seats[k].end) == JISTHROM_DONE, "no end");
    }
    for (int k = 0; k < 2 * THREADS; k++) pthread_create(&threads[k], NULL, k < THREADS ? sends : receives, &seats[k]);
    if (in_the_middle) sem_wait(&bells[63]);
    for (int k = 0; k < THREADS && !in_the_middle; k++) pthread_join(threads[k], NULL);
    jisthrom_channel_close(&first, &named);
    wake(named);
    for (int k = in_the_middle ? 0 : THREADS; k < 2 * THREADS; k++) pthread_join(threads[k], NULL);
    jisthrom_channel_free(&first, &named);
    unsigned long sent = 0, freed = 0, returned = 0;
    for (int k = 0; k < 2 * THREADS; k++) {
        sent += seats[k].sent;
        freed += seats[k].freed;
        returned += seats[k].returned;
    }
    EXPECT(sent == freed, "%lu were sent, and %lu received", sent, freed);
    EXPECT(in_the_middle ? returned <= THREADS : sent == items / THREADS * THREADS && !returned, "%lu were sent, %lu came back", sent,
           returned);
    EXPECT(!alive, "%lu items are left", (unsigned long)alive);
}

int main(int count, char **words) {
    unsigned long items = count > 1 ? strtoul(words[1], NULL, 10) : 1000000;
    try_wrong_arguments();
    try_calls();
    try_threads(items, 64, 0);
    try_threads(items / 4, 1, 0);
    try_threads(1ul << 40, 16, 1);
    return differences != 0;
}
