/* Jisthrom for C: a script of coroutines is run, and its report handed over; and channels that many threads use at once.
 *
 * The archive is libjisthrom_c.a. Link it with the toolchain's liblibc_c.a, or with a heap of your own (docs/C.md). */
#ifndef JISTHROM_H
#define JISTHROM_H

#include <stddef.h>
#include <stdint.h>

#ifdef __cplusplus
extern "C" {
#endif

/* How a call ended. */
enum jisthrom_status {
    JISTHROM_COMPLETED = 0,        /* the report is written; the root's Job has completed */
    JISTHROM_CANCELLED = 1,        /* the report is written; the root's Job has ended as cancelled, or has failed */
    JISTHROM_NO_SCRIPT = 3,        /* the bytes are no script; the line of the first fault is written */
    JISTHROM_IDLE = 4,             /* the report is written; the root's Job has not ended, since all that is left waits */
    JISTHROM_LONGER_THAN_ROOM = 6, /* the text is longer than the room: nothing is written, and *size is how much it needs */
    JISTHROM_NO_MEMORY = 7         /* nothing is written, and *size is 0 */
};

/* Runs the script of `script_size` bytes by one worker, in the calling thread, and writes the report, without a zero byte behind it, to
 * the front of the `room` bytes at `report`. *size is then the length of the text, also where it is longer than the room. The bytes
 * behind the text, and all of them where nothing is written, are as they were. A script has at most 1,048,576 bytes.
 *
 * The same bytes give the same report each time. The call waits for nobody, keeps nothing, and gives back all memory that it took; several
 * threads may call at once. `script`, `report` and `size` are never null, not even for no bytes, and do not overlap. Not to be called from
 * a signal handler, nor in the forked child of a process with threads. */
uint32_t jisthrom_run(const uint8_t *script, size_t script_size, uint8_t *report, size_t room, size_t *size);

/* ---- channels
 *
 * A channel carries numbers of 64 bits, as pointers or indexes, between the threads of one process, in the order in which they were put;
 * each is received at most once. It has a fixed number of slots. No call blocks, takes a lock, or takes memory but `new` and `split`.
 *
 * What a thread calls with is an end. It has a tag, below 64, by which others name it. The first end, of tag 0, gives out up to 63 others.
 * An end is used by one call at a time. It may go to another thread, handed over by a lock, a start or join of a thread, or a sequentially
 * consistent atomic. Ends are never copied: of two copies only one may be used. A `jisthrom_end` that is all zeros holds no end.
 *
 * Handles, `item` and `wakes` are never null, and no two arguments of a call overlap. Not to be called from a signal handler, nor in the
 * forked child of a process with threads.
 *
 * Who is to wait is told so (JISTHROM_WAITS), and does so by whatever means: it is named in the masks of a later call of another end, by
 * the bit 2^tag, and then makes its call again. It may also call again at once, or later. Who is named and has no use for it calls
 * `leave`, so that another is named in its place; so does who gives its wait up. Each end that a call names is to be woken by who made
 * the call. */

/* How a call on an end ended. */
enum jisthrom_answer {
    JISTHROM_DONE = 0,
    JISTHROM_WAITS = 1,      /* nothing was done, and the end waits */
    JISTHROM_CLOSED = 2,     /* the channel is closed */
    JISTHROM_SPENT = 3,      /* 2^62 items were put: no more can be sent */
    JISTHROM_OVERTAKEN = 4,  /* nothing was done: others came first, 2^64 - 1 times */
    JISTHROM_NO_END = 5,     /* the handle holds no end: nothing was done */
    JISTHROM_IN_USE = 6,     /* the handle to be filled holds an end already: nothing was done */
    /* JISTHROM_NO_MEMORY = 7: nothing was made */
    JISTHROM_WRONG_SIZE = 8, /* a channel has 1 to 1,048,576 slots */
    JISTHROM_NO_TAG = 9      /* the end is not the first of its channel, or has given out 63 others */
};

/* An end, or none where it is all zeros. The call alone writes it. */
struct jisthrom_end {
    uint32_t tag_plus_1; /* to be read alone: 0 where there is no end */
    void *end;           /* not to be touched */
};

/* Whom to wake: the bit 2^t is that of the end of tag t. Each call that has such an argument writes both. */
struct jisthrom_wakes {
    uint64_t receivers; /* of the ends that wait to receive */
    uint64_t senders;   /* of the ends that wait to send */
};

/* Makes a channel of so many slots. *first holds no end before, and the first end afterwards: DONE, IN_USE, NO_MEMORY, WRONG_SIZE. */
uint32_t jisthrom_channel_new(uint32_t slots, struct jisthrom_end *first);

/* Gives out another end of the same channel, of the next tag. *other holds no end before: DONE, NO_END, IN_USE, NO_MEMORY (the tag may be
 * lost then), NO_TAG. */
uint32_t jisthrom_channel_split(struct jisthrom_end *first, struct jisthrom_end *other);

/* Sends the item: DONE, WAITS (there is no room), CLOSED, SPENT, OVERTAKEN, NO_END. The item is still the caller's but for DONE. */
uint32_t jisthrom_channel_send(struct jisthrom_end *end, uint64_t item, struct jisthrom_wakes *wakes);

/* Receives the first item: DONE, WAITS (there is none), CLOSED (and each item that was sent was received), OVERTAKEN, NO_END. *item is
 * written for DONE alone. */
uint32_t jisthrom_channel_receive(struct jisthrom_end *end, uint64_t *item, struct jisthrom_wakes *wakes);

/* The end waits no more, neither to send nor to receive: DONE, NO_END. */
uint32_t jisthrom_channel_leave(struct jisthrom_end *end, struct jisthrom_wakes *wakes);

/* Closes the channel, and names all who wait: DONE, CLOSED (it was closed before), NO_END. Nothing is sent any more, and what was sent can
 * still be received. */
uint32_t jisthrom_channel_close(struct jisthrom_end *end, struct jisthrom_wakes *wakes);

/* Gives the end back, which waits no more; it is none afterwards: DONE, NO_END. With the last end of a channel its memory goes. Items that
 * nobody received are lost then: who owns them closes the channel before, and receives until it is told CLOSED. */
uint32_t jisthrom_channel_free(struct jisthrom_end *end, struct jisthrom_wakes *wakes);

#ifdef __cplusplus
}
#endif

#endif
