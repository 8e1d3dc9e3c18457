/* Logging from C: the calls of libnanolog.a.
 *
 * A session has a ring for each writer, and one consumer that makes the log of what the writers logged. Every call
 * returns at once: it takes no lock, waits for nobody and starts nothing. Memory is taken by nanolog_open and
 * nanolog_writer alone, and these take all that is ever needed.
 *
 * A caller owes this, and all else is answered:
 *  - A pointer points to what it is said to point to. With a count or a length of 0 it may be null.
 *  - A `void *` that is handed in, or pointed to, is null or a handle: what nanolog_open or nanolog_writer put there
 *    and nanolog_free wasn't given. A handle stands in one place: a copy of it isn't used beside it.
 *  - One call at a time is made on a handle. It may go from thread to thread by anything that orders the two calls: a
 *    mutex, a join, a sequentially consistent atomic.
 *  - No call is made in a signal handler, or in the forked child of a process with threads.
 *
 * A text in memory that a call reads isn't changed by another thread meanwhile. What a call doesn't say that it changes
 * is as it was.
 */
#ifndef NANOLOG_H
#define NANOLOG_H

#include <stddef.h>
#include <stdint.h>

#ifdef __cplusplus
extern "C" {
#endif

/* ---- answers ---- */

/* Done. */
#define NANOLOG_OK 0

/* nanolog_log: the ring lacked room, as far as the consumer had come when this call looked. */
#define NANOLOG_FULL 1
/* nanolog_log: the call would take more than 512 words of any ring. */
#define NANOLOG_TOO_LONG 2
/* nanolog_log: the dictionary has no message with this id, or the arguments aren't those that its format takes. */
#define NANOLOG_MISFIT 3
/* nanolog_log: the stamp is below that of this writer's last call, or below the first clock's tick. */
#define NANOLOG_EARLY 4
/* nanolog_log, nanolog_finish: the writer was finished before. */
#define NANOLOG_FINISHED 5
/* nanolog_log: the writer's calls have taken 2^62 words. It never comes to that in a life. */
#define NANOLOG_WORN_OUT 6

/* nanolog_writer: all writers were given out, or the session has ended. */
#define NANOLOG_NO_WRITER 1

/* nanolog_clock: the consumer has taken a call with a stamp at or above the tick. */
#define NANOLOG_REACHED 1

/* nanolog_next_part: a part is being ended, and nanolog_pump hasn't answered NANOLOG_PART_OVER yet. */
#define NANOLOG_PART_ENDS 1
/* nanolog_next_part: nanolog_pump has answered NANOLOG_AT_END. */
#define NANOLOG_NO_PART 5

/* nanolog_open, nanolog_writer: there is no memory. */
#define NANOLOG_NO_MEMORY (-1)
/* nanolog_open: the dictionary isn't the text of one. */
#define NANOLOG_BAD_DICTIONARY (-2)
/* nanolog_open: a number is out of its range. nanolog_pump: the room is 0. nanolog_clock: the rate is 0, the tick isn't
 * above that of the last clock, or there are as many clocks as a log has. */
#define NANOLOG_OUT_OF_RANGE (-3)
/* The handle is null, or of another kind. nanolog_open, nanolog_writer: a handle stands where one is to be put. */
#define NANOLOG_BAD_HANDLE (-4)

/* nanolog_text_limit: the dictionary has no message with this id, or the message no such argument, or it is no text. */
#define NANOLOG_NO_TEXT (-5)

/* nanolog_pump: every writer has its close mark, and all bytes of the log were given. */
#define NANOLOG_AT_END (-1)
/* nanolog_pump: all bytes of the part were given. What comes is another log. */
#define NANOLOG_PART_OVER (-2)

/* ---- arguments ---- */

/* A signed number, `word` in two's complement. */
#define NANOLOG_SIGNED 0
/* An unsigned number, `word`. */
#define NANOLOG_UNSIGNED 1
/* A text: `len` bytes at `text`, without a NUL, and at most 4,000. */
#define NANOLOG_TEXT 2

/* An argument of a call. What its kind doesn't name isn't looked at, but `text` and `len` are a place in memory all the
 * same: null with 0 where it is no text. An argument of no kind fits nothing. */
typedef struct nanolog_arg {
  uint8_t tag;
  uint64_t word;
  const uint8_t *text;
  size_t len;
} nanolog_arg;

/* ---- limits ---- */

#define NANOLOG_MIN_RING 1024
#define NANOLOG_MAX_RING 1048576
#define NANOLOG_MAX_WRITERS 1024
/* Of all rings together. */
#define NANOLOG_MAX_WORDS 67108864
#define NANOLOG_MAX_BATCH 65536
/* Clocks that a log has beside its first one. */
#define NANOLOG_MAX_CLOCKS 255
#define NANOLOG_MAX_ARGUMENTS 64
#define NANOLOG_MAX_TEXT 4000

/* ---- calls ---- */

/* Answers 1. The calls of another version have this one under another name, so that a program doesn't link where the
 * header and the archive differ. */
int32_t nanolog_version_1(void);

/* Opens a session, and puts its two handles into `*session` and `*consumer`, which are null before.
 *
 * `dictionary` is the text that `nanolog preprocess` writes, of `len` bytes, which are not needed afterwards. The
 * session has `writers` writers, 1 to 1,024, with a ring of `ring` words each, 1,024 to 1,048,576, and 67,108,864 words
 * in all rings at most. The consumer puts at most `batch` calls, 1 to 65,536, into a block of the log. The clock by
 * which calls are stamped stood at `tick` when it was `nanos` nanoseconds since 1970, and makes `rate` ticks in a
 * second, at least 1.
 *
 * NANOLOG_OK. Else no handle was made, and nothing is to be freed; the first of these that holds:
 * NANOLOG_BAD_HANDLE where `*session` or `*consumer` isn't null; NANOLOG_OUT_OF_RANGE; NANOLOG_BAD_DICTIONARY, and only
 * then `*line` is written: the number of the first line that is refused, from 1, or 0 where the text is too long.
 * NANOLOG_NO_MEMORY may come in place of the last, and of NANOLOG_OK.
 *
 * The memory of the dictionary is kept for as long as the program runs: open one session, not one for each request. */
int32_t nanolog_open(const uint8_t *dictionary, size_t len, uint64_t ring, uint32_t writers, uint32_t batch,
                     uint64_t tick, uint64_t nanos, uint64_t rate, void **session, void **consumer, uint64_t *line);

/* Puts the handle of the next writer into `*writer`, which is null before. The first one has the number 0.
 *
 * NANOLOG_OK. Else nothing changed; the first of these that holds: NANOLOG_BAD_HANDLE where `*session` is no session or
 * `*writer` isn't null; NANOLOG_NO_WRITER; NANOLOG_NO_MEMORY. */
int32_t nanolog_writer(void **session, void **writer);

/* Answers how many bytes of a text are printed at most: of the argument `nth` of the message `id`. Arguments are
 * counted from 0, and one that a `*` takes is one of them. It is the precision of the `%s` where that is given in
 * digits, at most 4,000; without one, and where a `*` gives it, it is 4,000. A text that is cut to so many bytes prints
 * the same.
 *
 * NANOLOG_BAD_HANDLE where `*session` is no session; else NANOLOG_NO_TEXT where there is no such text. The answer is
 * the same for as long as the session is there, also when it has ended. */
int32_t nanolog_text_limit(void **session, uint32_t id, uint32_t nth);

/* Logs a call with `count` arguments. No stamp of a writer is below its last one; the first is at least the tick
 * of nanolog_open.
 *
 * NANOLOG_OK. Else nothing was logged, and the writer is as before; the first of these that holds: NANOLOG_BAD_HANDLE
 * where `*writer` is no writer; NANOLOG_FINISHED; NANOLOG_MISFIT; NANOLOG_EARLY; NANOLOG_WORN_OUT; NANOLOG_TOO_LONG;
 * NANOLOG_FULL, and only then `*need` and `*room` are written: how many words of the ring the call wanted, and how many
 * were free. */
int32_t nanolog_log(void **writer, uint64_t stamp, uint32_t id, const nanolog_arg *args, size_t count,
                    uint64_t *need, uint64_t *room);

/* Puts the writer's close mark into its ring. Nothing more is logged with it.
 *
 * NANOLOG_OK; NANOLOG_FINISHED; NANOLOG_BAD_HANDLE where `*writer` is no writer. */
int32_t nanolog_finish(void **writer);

/* Ends the giving out of writers: those that weren't given out have their close marks in their rings, and no other is
 * given out. Ending it again changes nothing.
 *
 * NANOLOG_OK; NANOLOG_BAD_HANDLE where `*session` is no session. */
int32_t nanolog_end(void **session);

/* Tells of another clock: calls whose stamps are at least `tick` are read by it. It stood at `tick` when it was `nanos`
 * nanoseconds since 1970, which may be less than the clock before it would say, and makes `rate` ticks in a second. It
 * takes no memory. The log has the clock in front of the first call whose stamp has reached the tick, and not at all
 * where there is none.
 *
 * NANOLOG_OK. Else nothing changed; the first of these that holds: NANOLOG_BAD_HANDLE where `*consumer` is no consumer;
 * NANOLOG_OUT_OF_RANGE where the rate is 0, where the tick isn't above that of the last clock, which is that of
 * nanolog_open at first, or where 255 clocks were told before; NANOLOG_REACHED where the consumer has taken a call with
 * a stamp that isn't below the tick. */
int32_t nanolog_clock(void **consumer, uint64_t tick, uint64_t nanos, uint64_t rate);

/* Ends a part of the log: what is taken from now on belongs to a new one. No call is taken from a ring until the bytes
 * of the old part were given. They end with the close marks, in rising order, of all writers that have none in it, so
 * that the part is a whole log; then nanolog_pump answers NANOLOG_PART_OVER, once. Behind that comes another log, of
 * the calls that are taken since: its header with the clock of nanolog_open, and the other clocks and the messages anew
 * as they are needed. The last part ends at NANOLOG_AT_END, without NANOLOG_PART_OVER. It takes no memory.
 *
 * NANOLOG_OK. Else nothing changed; the first of these that holds: NANOLOG_BAD_HANDLE where `*consumer` is no consumer;
 * NANOLOG_NO_PART; NANOLOG_PART_ENDS. */
int32_t nanolog_next_part(void **consumer);

/* Puts the next bytes of the log into the front of `into`, which has `room` bytes, and answers how many: at least one.
 * It gives what it has, which may be less than the room: call it again until it answers 0 or less. The first bytes are
 * the log's header. All bytes that were given, joined, are the front of a log of calls that were logged: of each writer
 * the first ones, each once and in their order. At NANOLOG_AT_END they are the whole log, of all calls. Where the log
 * has parts this holds of the bytes of each: it has the calls behind those of the part before.
 *
 * Bytes are made of one writer's calls at a time. Each search for a writer that has calls begins behind the one that
 * was served last, so that none is passed over while others are served.
 *
 * 0 where nothing waits now. NANOLOG_PART_OVER, once, where nanolog_next_part has ended a part and all its bytes were
 * given. NANOLOG_AT_END, from then on always. NANOLOG_BAD_HANDLE where `*consumer` is no consumer;
 * else NANOLOG_OUT_OF_RANGE where the room is 0. */
int64_t nanolog_pump(void **consumer, uint8_t *into, size_t room);

/* Gives up a handle of any kind, and its memory. Null is allowed. What is given up unfinished gets no close mark: a
 * writer, and of a session the writers that weren't given out. */
void nanolog_free(void *handle);

#ifdef __cplusplus
}
#endif

#endif
