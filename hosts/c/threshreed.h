/* Threshreed for a host in C11 (a C++ host may include it too). Link with libhost.a, which `hosts/library` writes.
 * example.c is ten lines to the first sound, tour.c two minutes with every call, live.c the same through a ring and
 * ALSA, saved.c a walk that is kept in a file and played again.
 *
 * There is no heap. `Threshreed` holds a session and the stores that a host lends it, and the functions `tr_...` take a
 * pointer to it. Above them stand the proved functions themselves, `threshreed_...`, which take a session by value and
 * hand it back. Any argument is safe but a bad pointer: what a host lends must have as many elements as it says, and
 * what is written must overlap nothing else that is lent. A `tr_...` call takes NULL as nothing lent, and for a result
 * as one that is not wanted.
 *
 * Every `tr_...` call answers 0 or a refusal's number. A refused call leaves the session and all stores as they were;
 * 15 alone raises the dropped count.
 *
 * A call on a session needs 19 to 28 KB of stack, its caller's copies of the session among them, however much there is
 * to play, and a dry run, which makes a session of its own, 28; a drain and a tour's file, which have none, next to
 * nothing. Who makes a call should have THRESHREED_STACK bytes left: stack.c measures each, and fails above that.
 */
#ifndef THRESHREED_H
#define THRESHREED_H

#include <assert.h>
#include <stdbool.h>
#include <stddef.h>
#include <stdint.h>
#include <string.h>

#ifdef __cplusplus
extern "C" {
#endif

/* ---- the refusals: to 23 of a session and its ring, from 101 on of a tour's file, and 116 and 117 of a dry run */

#define THRESHREED_REFUSALS(X) \
    X(1, NOT_WELL_FORMED, "session or its stores not well formed") \
    X(2, POOL_LENGTH, "lent pool has another length") \
    X(3, ODD_SAMPLES, "odd sample count") \
    X(4, CLOCK_SPENT, "block would pass clock 2^62") \
    X(5, NO_SAMPLES, "clip without samples") \
    X(6, BAD_SAMPLE, "sample not finite or above 16") \
    X(7, OUT_OF_RANGE, "opening number, clip rate (8,000 to 192,000) or song length outside its range") \
    X(8, SLOTS_USED, "32 slots used") \
    X(9, SERIALS_SPENT, "serials spent") \
    X(10, NO_ROOM, "no start in the pool fits") \
    X(11, STALE, "stale handle") \
    X(12, WRONG_KIND, "song where a stinger is due, or the reverse") \
    X(13, WRONG_RATE, "clip rate is not the session's") \
    X(14, BAD_GAIN, "gain not finite; stinger gain above 16; snapshot gain outside 0..2") \
    X(15, QUEUE_FULL, "queue full; dropped count + 1, stopping at 2^64 - 1") \
    X(16, CAPTURE_FULL, "capture on and full") \
    X(17, VOICES_TAKEN, "a stinger while queued stingers + sounding voices = 16") \
    X(18, NUMBERS_SPENT, "submission number 2^64 - 1 already given") \
    X(19, HELD, "clip held by song, tail, voice, queue or running capture") \
    X(20, LIST_TOO_SHORT, "list for captured records too short") \
    X(21, UNREADABLE, "replayed record unreadable (seen only as a skip)") \
    X(22, SENSELESS_LOOP, "senseless loop: its start is not below its end") \
    X(23, BAD_RING, "ring's store not of 3 to 65,536 samples, or its head or tail outside") \
    X(101, LISTED_TWICE, "handle listed twice") \
    X(102, CUT_SHORT, "file cut short") \
    X(103, WRONG_FIRST_TAG, "wrong first tag") \
    X(104, UNKNOWN_TAG, "unknown tag") \
    X(105, WRONG_LENGTH, "field of a wrong length") \
    X(106, OTHER_VERSION, "file of another version") \
    X(107, UNKNOWN_KIND, "unknown kind of command") \
    X(108, NOT_LISTED, "clip not listed") \
    X(109, NOT_RISING, "number not rising") \
    X(110, TOO_MANY, "more than 4,096 commands") \
    X(111, WRONG_COUNT, "wrong count of commands") \
    X(112, BYTES_AFTER_END, "bytes after the end") \
    X(113, RECORDS_TOO_SHORT, "list for a tour's records or ranges too short") \
    X(114, UNREADABLE_RECORD, "record unreadable") \
    X(115, OUTPUT_TOO_SHORT, "output for a tour's file too short") \
    X(116, BAD_CLIPS, "no session has this clip list") \
    X(117, LONG_TOUR, "more than 256 commands in the tour") \
    X(255, NO_SUCH_CASE, "argument names no case")

/* THRESHREED_NOT_WELL_FORMED to THRESHREED_NO_SUCH_CASE. */
enum {
#define THRESHREED_NAMED(number, name, words) THRESHREED_##name = number,
    THRESHREED_REFUSALS(THRESHREED_NAMED)
#undef THRESHREED_NAMED
};

/* A refusal in words. */
static inline const char *threshreed_refusal(uint32_t number)
{
    switch (number) {
#define THRESHREED_SAID(number, name, words) case number: return words;
        THRESHREED_REFUSALS(THRESHREED_SAID)
#undef THRESHREED_SAID
    default: return "none";
    }
}

/* ---- the numbers */

enum {
    THRESHREED_SLOTS = 32,
    THRESHREED_VOICES = 16,
    /* Words of a record: clock frame, number, kind, and two that the kind uses. */
    THRESHREED_WORDS = 5,
    /* Words of a salvage's range: what was done with it, its first byte, and the byte behind its last. */
    THRESHREED_RANGE_WORDS = 3,
    /* Words of a clip in a dry run's list: slot, serial, kind, rate, frames, length. */
    THRESHREED_CLIP_WORDS = 6,
    /* Words of a row on a dry run's sheet: the record's five, and those that are named below. */
    THRESHREED_ROW_WORDS = 10,
    /* The most commands of a tour that a dry run takes. */
    THRESHREED_DRY_COMMANDS = 256,
    /* Bytes of stack that are enough for any call. */
    THRESHREED_STACK = 32768
};

/* The bytes that a tour's file of so many commands has at most: all of them loops. */
#define THRESHREED_TOUR_BYTES(commands) (10 + 36 * (commands))

/* What a salvage of a file of so many bytes writes at most: the bytes of the fresh file, and the words of the ranges,
 * which are most where a dropped byte and an empty field that is passed over take turns, two in four bytes. */
#define THRESHREED_SALVAGE_BYTES(bytes) (10 + (bytes))
#define THRESHREED_SALVAGE_WORDS(bytes) (((bytes) + 1) / 2 * THRESHREED_RANGE_WORDS)

/* A session's mode, chosen at opening. As tono: a swap's tail ignores the master gain, so that the old room bursts
 * through at full level where the score is turned down, and a song whose position is past its loop sounds from the
 * loop's start, behind the playhead (tr_position). House: the tail is under the master gain, as the song is, and the
 * song sounds where the playhead is. */
enum { THRESHREED_AS_TONO = 0, THRESHREED_HOUSE = 1 };

/* A clip's kind. */
enum { THRESHREED_CLIP_SONG = 1, THRESHREED_CLIP_STINGER = 2 };

/* A session's state. */
enum { THRESHREED_STOPPED = 0, THRESHREED_PLAYING = 1, THRESHREED_PAUSED = 2 };

/* A command's kind. A transition stands in records alone: it has its own call. */
enum {
    THRESHREED_PLAY = 1,
    THRESHREED_PAUSE = 2,
    THRESHREED_STOP = 3,
    THRESHREED_SEEK = 4,
    THRESHREED_TRANSITION = 5,
    THRESHREED_LOOP = 6,
    THRESHREED_CLEAR_LOOP = 7,
    THRESHREED_GAIN = 8,
    THRESHREED_SWAP = 9,
    THRESHREED_STINGER = 10
};

/* What a salvage does with a range of a file's bytes: a command that is kept, another field that is passed over, bytes
 * that are dropped. */
enum { THRESHREED_KEPT = 1, THRESHREED_PASSED = 2, THRESHREED_DROPPED = 3 };

/* The words of a row behind its record's: the clock frame at which the command was executed, and around it the position
 * and the laps. */
enum {
    THRESHREED_ROW_CLOCK = 5,
    THRESHREED_ROW_FROM = 6,
    THRESHREED_ROW_TO = 7,
    THRESHREED_ROW_LAPS = 8,
    THRESHREED_ROW_THEN = 9
};

/* When a command is due. */
enum { THRESHREED_AT_ONCE = 1, THRESHREED_AT_CLOCK = 2, THRESHREED_AT_SONG = 3 };

/* ---- the structs, in the library's layout */

/* Rate, mode, capacity of the queue and of the capture in records, frames of the pool. A host that fills it itself
 * writes the mode too, THRESHREED_AS_TONO (0) or THRESHREED_HOUSE: any other is out of range. */
typedef struct {
    uint32_t rate;
    uint32_t mode;
    size_t queue;
    size_t capture;
    uint64_t pool;
} ThreshreedSettings;

/* A loaded clip. No serial comes twice in a session, so the handle of a retired clip is refused as stale. */
typedef struct {
    uint32_t slot;
    uint32_t serial;
} ThreshreedHandle;

typedef struct {
    float value;
    float target;
    float step;
    uint32_t remaining;
} ThreshreedRamp;

/* Extent: a song's length; not used of a stinger. Of a slot that is not used nothing is. */
typedef struct {
    uint32_t serial;
    uint32_t kind;
    uint64_t extent;
    uint64_t start;
    uint64_t frames;
    uint32_t rate;
} ThreshreedClip;

/* Set: 0 or 1. If 0, the ends are not used. */
typedef struct {
    uint32_t set;
    uint64_t start;
    uint64_t end;
} ThreshreedLoop;

/* Sounding: 0 or 1. If 0, the rest is not used. */
typedef struct {
    uint32_t sounding;
    ThreshreedHandle song;
    uint64_t cursor;
    ThreshreedRamp weight;
} ThreshreedTail;

typedef struct {
    ThreshreedHandle handle;
    size_t head;
    ThreshreedRamp gain;
} ThreshreedVoice;

/* The first `count` sound, in firing order. */
typedef struct {
    ThreshreedVoice table[THRESHREED_VOICES];
    size_t count;
} ThreshreedVoices;

typedef struct {
    uint64_t executed;
    uint64_t swaps;
    uint64_t fired;
} ThreshreedCounters;

/* Laps: those since the loop was set. Capturing: 0 or 1. */
typedef struct {
    ThreshreedSettings settings;
    uint32_t used;
    uint32_t last;
    ThreshreedClip clips[THRESHREED_SLOTS];
    uint64_t clock;
    uint32_t state;
    uint64_t position;
    uint64_t cursor;
    ThreshreedLoop looped;
    uint64_t laps;
    ThreshreedHandle song;
    ThreshreedRamp master;
    ThreshreedTail tail;
    ThreshreedVoices voices;
    ThreshreedCounters counters;
    size_t queued;
    uint64_t number;
    size_t deepest;
    uint64_t dropped;
    uint32_t capturing;
    size_t captured;
} ThreshreedSession;

/* A kind uses the fields that it needs: a seek `frame`, a loop `frame` and `end`, a gain `gain`, a swap `clip`, a
 * stinger `clip` and `gain`. */
typedef struct {
    uint32_t kind;
    float gain;
    ThreshreedHandle clip;
    uint64_t frame;
    uint64_t end;
} ThreshreedCommand;

typedef struct {
    uint32_t kind;
    uint64_t frame;
} ThreshreedAt;

typedef struct {
    uint64_t position;
    uint32_t state;
    float gain;
    ThreshreedLoop looped;
} ThreshreedSnapshot;

/* Of a replay: records taken, records that found the queue full, records skipped otherwise. */
typedef struct {
    size_t taken;
    size_t full;
    size_t skipped;
} ThreshreedReport;

typedef struct {
    uint64_t rendered;
    uint64_t executed;
    uint64_t dropped;
    size_t deepest;
    uint64_t swaps;
    uint64_t fired;
} ThreshreedMetrics;

/* Where a ring stands in its store, a place for each sample: the next that is read, and the next that is written. One
 * place always stays empty, so that a ring of two equal places holds nothing; {0, 0} is one. */
typedef struct {
    size_t head;
    size_t tail;
} ThreshreedRing;

/* The answers: 0 or the refusal's number, what the call gives, and the session. */
typedef struct {
    uint32_t refusal;
    ThreshreedSession session;
} ThreshreedAnswered;

typedef struct {
    uint32_t refusal;
    ThreshreedHandle handle;
    ThreshreedSession session;
} ThreshreedLoaded;

typedef struct {
    uint32_t refusal;
    uint64_t number;
    ThreshreedSession session;
} ThreshreedSubmitted;

typedef struct {
    uint32_t refusal;
    uint64_t passes;
    ThreshreedSession session;
} ThreshreedBlocked;

/* Of a pump: the frames made, their passes, and the ring past them. */
typedef struct {
    uint32_t refusal;
    size_t frames;
    uint64_t passes;
    ThreshreedRing ring;
    ThreshreedSession session;
} ThreshreedPumped;

/* Of a drain: the frames taken, and the ring past them. */
typedef struct {
    uint32_t refusal;
    size_t frames;
    ThreshreedRing ring;
} ThreshreedDrained;

typedef struct {
    uint32_t refusal;
    ThreshreedReport report;
    ThreshreedSession session;
} ThreshreedReplayed;

typedef struct {
    uint32_t refusal;
    size_t copied;
    ThreshreedSession session;
} ThreshreedStopped;

typedef struct {
    uint32_t refusal;
    ThreshreedSnapshot snapshot;
    ThreshreedSession session;
} ThreshreedSnapped;

typedef struct {
    uint32_t refusal;
    ThreshreedMetrics metrics;
    ThreshreedSession session;
} ThreshreedMetered;

/* Of a tour's file: how many records were read, or bytes written. If it is refused, where: the first byte of the field
 * at fault, or which record of the list; 0 if it is none. */
typedef struct {
    uint32_t refusal;
    size_t count;
    size_t place;
} ThreshreedTour;

/* Of a salvage: the commands kept, the bytes of the fresh file, and the ranges listed; each 0 if it is refused. */
typedef struct {
    uint32_t refusal;
    size_t kept;
    size_t bytes;
    size_t ranges;
} ThreshreedSalvage;

/* Of a dry run: the commands in the file and how many of them were taken, how many were executed and how many are still
 * queued, and where the session stands at the end. If it is refused, `place` is the first byte of the field at fault in
 * the tour's file, 0 if it is none, and all else is 0. */
typedef struct {
    uint32_t refusal;
    size_t place;
    size_t commands;
    size_t taken;
    size_t executed;
    size_t queued;
    uint64_t clock;
    ThreshreedHandle song;
    uint32_t state;
    uint64_t position;
    ThreshreedLoop looped;
    uint64_t laps;
} ThreshreedDryRun;

/* The same numbers are tested against the Rust types. */
#define THRESHREED_SIZE(type, bytes) static_assert(sizeof(Threshreed##type) == (bytes), #type)
#define THRESHREED_OFFSET(type, field, bytes) \
    static_assert(offsetof(Threshreed##type, field) == (bytes), #type "." #field)

THRESHREED_SIZE(Settings, 32);
THRESHREED_OFFSET(Settings, rate, 0);
THRESHREED_OFFSET(Settings, mode, 4);
THRESHREED_OFFSET(Settings, queue, 8);
THRESHREED_OFFSET(Settings, capture, 16);
THRESHREED_OFFSET(Settings, pool, 24);

THRESHREED_SIZE(Handle, 8);
THRESHREED_OFFSET(Handle, slot, 0);
THRESHREED_OFFSET(Handle, serial, 4);

THRESHREED_SIZE(Ramp, 16);
THRESHREED_OFFSET(Ramp, value, 0);
THRESHREED_OFFSET(Ramp, target, 4);
THRESHREED_OFFSET(Ramp, step, 8);
THRESHREED_OFFSET(Ramp, remaining, 12);

THRESHREED_SIZE(Clip, 40);
THRESHREED_OFFSET(Clip, serial, 0);
THRESHREED_OFFSET(Clip, kind, 4);
THRESHREED_OFFSET(Clip, extent, 8);
THRESHREED_OFFSET(Clip, start, 16);
THRESHREED_OFFSET(Clip, frames, 24);
THRESHREED_OFFSET(Clip, rate, 32);

THRESHREED_SIZE(Loop, 24);
THRESHREED_OFFSET(Loop, set, 0);
THRESHREED_OFFSET(Loop, start, 8);
THRESHREED_OFFSET(Loop, end, 16);

THRESHREED_SIZE(Tail, 40);
THRESHREED_OFFSET(Tail, sounding, 0);
THRESHREED_OFFSET(Tail, song, 4);
THRESHREED_OFFSET(Tail, cursor, 16);
THRESHREED_OFFSET(Tail, weight, 24);

THRESHREED_SIZE(Voice, 32);
THRESHREED_OFFSET(Voice, handle, 0);
THRESHREED_OFFSET(Voice, head, 8);
THRESHREED_OFFSET(Voice, gain, 16);

THRESHREED_SIZE(Voices, 520);
THRESHREED_OFFSET(Voices, table, 0);
THRESHREED_OFFSET(Voices, count, 512);

THRESHREED_SIZE(Counters, 24);
THRESHREED_OFFSET(Counters, executed, 0);
THRESHREED_OFFSET(Counters, swaps, 8);
THRESHREED_OFFSET(Counters, fired, 16);

THRESHREED_SIZE(Session, 2040);
THRESHREED_OFFSET(Session, settings, 0);
THRESHREED_OFFSET(Session, used, 32);
THRESHREED_OFFSET(Session, last, 36);
THRESHREED_OFFSET(Session, clips, 40);
THRESHREED_OFFSET(Session, clock, 1320);
THRESHREED_OFFSET(Session, state, 1328);
THRESHREED_OFFSET(Session, position, 1336);
THRESHREED_OFFSET(Session, cursor, 1344);
THRESHREED_OFFSET(Session, looped, 1352);
THRESHREED_OFFSET(Session, laps, 1376);
THRESHREED_OFFSET(Session, song, 1384);
THRESHREED_OFFSET(Session, master, 1392);
THRESHREED_OFFSET(Session, tail, 1408);
THRESHREED_OFFSET(Session, voices, 1448);
THRESHREED_OFFSET(Session, counters, 1968);
THRESHREED_OFFSET(Session, queued, 1992);
THRESHREED_OFFSET(Session, number, 2000);
THRESHREED_OFFSET(Session, deepest, 2008);
THRESHREED_OFFSET(Session, dropped, 2016);
THRESHREED_OFFSET(Session, capturing, 2024);
THRESHREED_OFFSET(Session, captured, 2032);

THRESHREED_SIZE(Command, 32);
THRESHREED_OFFSET(Command, kind, 0);
THRESHREED_OFFSET(Command, gain, 4);
THRESHREED_OFFSET(Command, clip, 8);
THRESHREED_OFFSET(Command, frame, 16);
THRESHREED_OFFSET(Command, end, 24);

THRESHREED_SIZE(At, 16);
THRESHREED_OFFSET(At, kind, 0);
THRESHREED_OFFSET(At, frame, 8);

THRESHREED_SIZE(Snapshot, 40);
THRESHREED_OFFSET(Snapshot, position, 0);
THRESHREED_OFFSET(Snapshot, state, 8);
THRESHREED_OFFSET(Snapshot, gain, 12);
THRESHREED_OFFSET(Snapshot, looped, 16);

THRESHREED_SIZE(Report, 24);
THRESHREED_OFFSET(Report, taken, 0);
THRESHREED_OFFSET(Report, full, 8);
THRESHREED_OFFSET(Report, skipped, 16);

THRESHREED_SIZE(Metrics, 48);
THRESHREED_OFFSET(Metrics, rendered, 0);
THRESHREED_OFFSET(Metrics, executed, 8);
THRESHREED_OFFSET(Metrics, dropped, 16);
THRESHREED_OFFSET(Metrics, deepest, 24);
THRESHREED_OFFSET(Metrics, swaps, 32);
THRESHREED_OFFSET(Metrics, fired, 40);

THRESHREED_SIZE(Ring, 16);
THRESHREED_OFFSET(Ring, head, 0);
THRESHREED_OFFSET(Ring, tail, 8);

THRESHREED_SIZE(Answered, 2048);
THRESHREED_OFFSET(Answered, refusal, 0);
THRESHREED_OFFSET(Answered, session, 8);

THRESHREED_SIZE(Loaded, 2056);
THRESHREED_OFFSET(Loaded, refusal, 0);
THRESHREED_OFFSET(Loaded, handle, 4);
THRESHREED_OFFSET(Loaded, session, 16);

THRESHREED_SIZE(Submitted, 2056);
THRESHREED_OFFSET(Submitted, refusal, 0);
THRESHREED_OFFSET(Submitted, number, 8);
THRESHREED_OFFSET(Submitted, session, 16);

THRESHREED_SIZE(Blocked, 2056);
THRESHREED_OFFSET(Blocked, refusal, 0);
THRESHREED_OFFSET(Blocked, passes, 8);
THRESHREED_OFFSET(Blocked, session, 16);

THRESHREED_SIZE(Pumped, 2080);
THRESHREED_OFFSET(Pumped, refusal, 0);
THRESHREED_OFFSET(Pumped, frames, 8);
THRESHREED_OFFSET(Pumped, passes, 16);
THRESHREED_OFFSET(Pumped, ring, 24);
THRESHREED_OFFSET(Pumped, session, 40);

THRESHREED_SIZE(Drained, 32);
THRESHREED_OFFSET(Drained, refusal, 0);
THRESHREED_OFFSET(Drained, frames, 8);
THRESHREED_OFFSET(Drained, ring, 16);

THRESHREED_SIZE(Replayed, 2072);
THRESHREED_OFFSET(Replayed, refusal, 0);
THRESHREED_OFFSET(Replayed, report, 8);
THRESHREED_OFFSET(Replayed, session, 32);

THRESHREED_SIZE(Stopped, 2056);
THRESHREED_OFFSET(Stopped, refusal, 0);
THRESHREED_OFFSET(Stopped, copied, 8);
THRESHREED_OFFSET(Stopped, session, 16);

THRESHREED_SIZE(Snapped, 2088);
THRESHREED_OFFSET(Snapped, refusal, 0);
THRESHREED_OFFSET(Snapped, snapshot, 8);
THRESHREED_OFFSET(Snapped, session, 48);

THRESHREED_SIZE(Metered, 2096);
THRESHREED_OFFSET(Metered, refusal, 0);
THRESHREED_OFFSET(Metered, metrics, 8);
THRESHREED_OFFSET(Metered, session, 56);

THRESHREED_SIZE(Tour, 24);
THRESHREED_OFFSET(Tour, refusal, 0);
THRESHREED_OFFSET(Tour, count, 8);
THRESHREED_OFFSET(Tour, place, 16);

THRESHREED_SIZE(Salvage, 32);
THRESHREED_OFFSET(Salvage, refusal, 0);
THRESHREED_OFFSET(Salvage, kept, 8);
THRESHREED_OFFSET(Salvage, bytes, 16);
THRESHREED_OFFSET(Salvage, ranges, 24);

THRESHREED_SIZE(DryRun, 112);
THRESHREED_OFFSET(DryRun, refusal, 0);
THRESHREED_OFFSET(DryRun, place, 8);
THRESHREED_OFFSET(DryRun, commands, 16);
THRESHREED_OFFSET(DryRun, taken, 24);
THRESHREED_OFFSET(DryRun, executed, 32);
THRESHREED_OFFSET(DryRun, queued, 40);
THRESHREED_OFFSET(DryRun, clock, 48);
THRESHREED_OFFSET(DryRun, song, 56);
THRESHREED_OFFSET(DryRun, state, 64);
THRESHREED_OFFSET(DryRun, position, 72);
THRESHREED_OFFSET(DryRun, looped, 80);
THRESHREED_OFFSET(DryRun, laps, 104);

/* ---- the proved functions, a session by value in and out */

/* Opens a session on its first song. A refused one has no session to hand back: every call refuses what it gives. */
ThreshreedLoaded threshreed_open(ThreshreedSettings settings, const uint64_t *queue, size_t queue_len,
                                 const uint64_t *capture, size_t capture_len, float *pool, size_t pool_len,
                                 const float *samples, size_t samples_len, uint32_t rate, uint64_t extent);

/* Loads a clip: a song of a length, or a stinger. */
ThreshreedLoaded threshreed_load(ThreshreedSession session, const uint64_t *queue, size_t queue_len,
                                 const uint64_t *capture, size_t capture_len, float *pool, size_t pool_len,
                                 const float *samples, size_t samples_len, uint32_t kind, uint64_t extent,
                                 uint32_t rate);

/* Retires a clip that nothing holds. */
ThreshreedAnswered threshreed_retire(ThreshreedSession session, const uint64_t *queue, size_t queue_len,
                                     const uint64_t *capture, size_t capture_len, ThreshreedHandle clip);

/* Submits a command of one of nine kinds. */
ThreshreedSubmitted threshreed_submit(ThreshreedSession session, uint64_t *queue, size_t queue_len, uint64_t *capture,
                                      size_t capture_len, ThreshreedCommand command, ThreshreedAt at);

/* Submits a transition in place of every queued one. */
ThreshreedSubmitted threshreed_transition(ThreshreedSession session, uint64_t *queue, size_t queue_len,
                                          uint64_t *capture, size_t capture_len, uint64_t frame, ThreshreedAt at);

/* Queues the records of a list at their frames. `list_len` is in words, five a record; a remainder is not looked at. */
ThreshreedReplayed threshreed_replay(ThreshreedSession session, uint64_t *queue, size_t queue_len,
                                     const uint64_t *capture, size_t capture_len, const uint64_t *list,
                                     size_t list_len);

/* Makes a block: half as many frames as the output has samples. */
ThreshreedBlocked threshreed_block(ThreshreedSession session, const uint64_t *queue, size_t queue_len,
                                   const uint64_t *capture, size_t capture_len, const float *pool, size_t pool_len,
                                   float *out, size_t out_len);

/* Makes frames into a ring's store: those asked for, held to half the free samples. */
ThreshreedPumped threshreed_pump(ThreshreedSession session, const uint64_t *queue, size_t queue_len,
                                 const uint64_t *capture, size_t capture_len, const float *pool, size_t pool_len,
                                 ThreshreedRing ring, float *store, size_t store_len, size_t frames);

/* Fills the callback's block from a ring's store: whole frames while there are any, and silence. */
ThreshreedDrained threshreed_drain(ThreshreedRing ring, const float *store, size_t store_len, float *out,
                                   size_t out_len);

/* Starts capture, empty. */
ThreshreedAnswered threshreed_start_capture(ThreshreedSession session, const uint64_t *queue, size_t queue_len,
                                            const uint64_t *capture, size_t capture_len);

/* Stops capture and copies its records to the list's front. `list_len` is in words; below five for each captured record
 * it is refused with 20, and words past them stay as they were. */
ThreshreedStopped threshreed_stop_capture(ThreshreedSession session, const uint64_t *queue, size_t queue_len,
                                          const uint64_t *capture, size_t capture_len, uint64_t *list,
                                          size_t list_len);

/* Takes a control snapshot. */
ThreshreedSnapped threshreed_snapshot(ThreshreedSession session, const uint64_t *queue, size_t queue_len,
                                      const uint64_t *capture, size_t capture_len);

/* Applies a control snapshot. */
ThreshreedAnswered threshreed_apply_snapshot(ThreshreedSession session, const uint64_t *queue, size_t queue_len,
                                             const uint64_t *capture, size_t capture_len, ThreshreedSnapshot snapshot);

/* Reads the metrics. */
ThreshreedMetered threshreed_metrics(ThreshreedSession session, const uint64_t *queue, size_t queue_len,
                                     const uint64_t *capture, size_t capture_len);

/* Reads a tour's file to the list's front. `clips` has 32 words, a handle for each clip byte: slot * 2^32 + serial, and
 * none where the serial is 0. `list_len` is in words, five a record. */
ThreshreedTour threshreed_read_tour(const uint64_t *clips, const uint8_t *file, size_t file_len, uint64_t *list,
                                    size_t list_len);

/* Writes records as a tour's file to the output's front. `records_len` is in words, five a record; a remainder is not
 * looked at. */
ThreshreedTour threshreed_write_tour(const uint64_t *clips, const uint64_t *records, size_t records_len, uint8_t *out,
                                     size_t out_len);

/* Salvages a damaged tour's file: a fresh file to the output's front, the ranges to the list's. `list_len` is in words,
 * three a range. */
ThreshreedSalvage threshreed_salvage(const uint8_t *file, size_t file_len, uint8_t *out, size_t out_len, uint64_t *list,
                                     size_t list_len);

/* Runs a tour's file without its sound. `clips_len` is in words, six a clip; `blocks_len` is in words, times and length
 * of blocks in turn. `records` and `queue` have 1,280 words, `reasons` 256, `sheet` 2,560. */
ThreshreedDryRun threshreed_dry_run(uint32_t mode, const uint64_t *clips, size_t clips_len, const uint8_t *file,
                                    size_t file_len, const uint64_t *blocks, size_t blocks_len, uint64_t *records,
                                    uint64_t *reasons, uint64_t *queue, uint64_t *sheet);

/* ---- a session together with its stores */

typedef struct {
    ThreshreedSession session;
    uint64_t *queue;
    size_t queue_len;
    uint64_t *capture;
    size_t capture_len;
    float *pool;
    size_t pool_len;
} Threshreed;

/* Lends the stores: THRESHREED_WORDS words for each of the 1 to 4,096 commands of the queue and of the 0 to 4,096 of
 * the capture, two samples for each of the 1 to 33,554,432 frames of the pool. They are the session's until its end.
 * This comes first. There is no session until one is opened, and each other call is refused with 1. */
static inline void tr_lend(Threshreed *t, uint64_t *queue, size_t queue_len, uint64_t *capture, size_t capture_len,
                           float *pool, size_t pool_len)
{
    /* The library takes no null pointer, also where it reads nothing: here and below another stands in. */
    static uint64_t no_words;
    static float no_samples;
    memset(&t->session, 0, sizeof t->session);
    t->queue = queue ? queue : &no_words;
    t->queue_len = queue ? queue_len : 0;
    t->capture = capture ? capture : &no_words;
    t->capture_len = capture ? capture_len : 0;
    t->pool = pool ? pool : &no_samples;
    t->pool_len = pool ? pool_len : 0;
}

/* Opens a session in a mode on its first song, stopped at 0, gain 1.0. `length` in frames, from those in the samples
 * to 2^40: past its samples a song is silent. A session that runs is given up, unless the call is refused. */
static inline uint32_t tr_open_in(Threshreed *t, uint32_t mode, uint32_t rate, const float *samples,
                                  size_t samples_len, uint32_t song_rate, uint64_t length)
{
    ThreshreedSettings settings;
    settings.rate = rate;
    settings.mode = mode;
    settings.queue = t->queue_len / THRESHREED_WORDS;
    settings.capture = t->capture_len / THRESHREED_WORDS;
    settings.pool = t->pool_len / 2;
    ThreshreedLoaded r =
        threshreed_open(settings, t->queue, t->queue_len, t->capture, t->capture_len, t->pool, t->pool_len,
                        samples ? samples : t->pool, samples ? samples_len : 0, song_rate, length);
    /* A refused opening hands back no session. */
    if (r.refusal == 0) {
        t->session = r.session;
    }
    return r.refusal;
}

/* Opens a session as tono. */
static inline uint32_t tr_open(Threshreed *t, uint32_t rate, const float *samples, size_t samples_len,
                               uint32_t song_rate, uint64_t length)
{
    return tr_open_in(t, THRESHREED_AS_TONO, rate, samples, samples_len, song_rate, length);
}

/* Loads a clip of a kind. */
static inline uint32_t tr_load(Threshreed *t, const float *samples, size_t samples_len, uint32_t kind, uint64_t length,
                               uint32_t rate, ThreshreedHandle *handle)
{
    ThreshreedLoaded r =
        threshreed_load(t->session, t->queue, t->queue_len, t->capture, t->capture_len, t->pool, t->pool_len,
                        samples ? samples : t->pool, samples ? samples_len : 0, kind, length, rate);
    t->session = r.session;
    if (r.refusal == 0 && handle) {
        *handle = r.handle;
    }
    return r.refusal;
}

/* Loads a song of a length into the lowest free slot and the lowest room in the pool where it fits. The handle is
 * written if it is loaded, as is every result below if the call is not refused.
 *
 * Rooms may stream in while the score plays, in both modes: before a block and after it a load gives the same, its
 * answer and its handle, what the block answers, the samples, the session and the pool. The order of two loads does
 * count: the first takes the lower slot, whichever it is. */
static inline uint32_t tr_load_song(Threshreed *t, const float *samples, size_t samples_len, uint32_t rate,
                                    uint64_t length, ThreshreedHandle *handle)
{
    return tr_load(t, samples, samples_len, THRESHREED_CLIP_SONG, length, rate, handle);
}

/* Loads a stinger likewise. */
static inline uint32_t tr_load_stinger(Threshreed *t, const float *samples, size_t samples_len, uint32_t rate,
                                       ThreshreedHandle *handle)
{
    return tr_load(t, samples, samples_len, THRESHREED_CLIP_STINGER, 0, rate, handle);
}

/* Retires a clip that neither song, tail, voice, queue nor running capture holds. Its slot and its room are free.
 *
 * A clip that may be retired before a block may be after it, and both give the same, as with a load. One that the block
 * sets free goes after it alone. */
static inline uint32_t tr_retire(Threshreed *t, ThreshreedHandle clip)
{
    ThreshreedAnswered r =
        threshreed_retire(t->session, t->queue, t->queue_len, t->capture, t->capture_len, clip);
    t->session = r.session;
    return r.refusal;
}

/* Submits a command, whose number is then the session's last, `t->session.number`. Commands are executed by frame,
 * those of one frame by number. */
static inline uint32_t tr_submit(Threshreed *t, ThreshreedCommand command, ThreshreedAt at)
{
    ThreshreedSubmitted r =
        threshreed_submit(t->session, t->queue, t->queue_len, t->capture, t->capture_len, command, at);
    t->session = r.session;
    return r.refusal;
}

/* Submits a seek that takes the place of every queued transition. */
static inline uint32_t tr_transition(Threshreed *t, uint64_t frame, ThreshreedAt at)
{
    ThreshreedSubmitted r =
        threshreed_transition(t->session, t->queue, t->queue_len, t->capture, t->capture_len, frame, at);
    t->session = r.session;
    return r.refusal;
}

/* Queues a list's records at their frames, without capture. `list_len` is in words, THRESHREED_WORDS a record; a
 * remainder is not looked at. */
static inline uint32_t tr_replay(Threshreed *t, const uint64_t *list, size_t list_len, ThreshreedReport *report)
{
    ThreshreedReplayed r = threshreed_replay(t->session, t->queue, t->queue_len, t->capture, t->capture_len,
                                             list ? list : t->queue, list ? list_len : 0);
    t->session = r.session;
    if (r.refusal == 0 && report) {
        *report = r.report;
    }
    return r.refusal;
}

/* Makes a block of half as many frames as `out` has samples, each due command at its frame. `passes` tells how many
 * times the playhead passed from a loop's end to its start in it, whatever set the laps back in between. A refused
 * block leaves `out` as it was. */
static inline uint32_t tr_block(Threshreed *t, float *out, size_t out_len, uint64_t *passes)
{
    ThreshreedBlocked r = threshreed_block(t->session, t->queue, t->queue_len, t->capture, t->capture_len, t->pool,
                                           t->pool_len, out ? out : t->pool, out ? out_len : 0);
    t->session = r.session;
    if (r.refusal == 0 && passes) {
        *passes = r.passes;
    }
    return r.refusal;
}

/* Makes frames as a block does, straight into a ring's store of 3 to 65,536 samples: those asked for, held to half the
 * free samples; one place always stays empty. `made` tells how many, 0 if the ring is full: the rest may be asked for
 * once some are drained. `passes` is as a block's. A refused pump leaves ring and store as they were. */
static inline uint32_t tr_pump(Threshreed *t, ThreshreedRing *ring, float *store, size_t store_len, size_t frames,
                               size_t *made, uint64_t *passes)
{
    ThreshreedPumped r =
        threshreed_pump(t->session, t->queue, t->queue_len, t->capture, t->capture_len, t->pool, t->pool_len, *ring,
                        store ? store : t->pool, store ? store_len : 0, frames);
    t->session = r.session;
    *ring = r.ring;
    if (r.refusal == 0 && made) {
        *made = r.frames;
    }
    if (r.refusal == 0 && passes) {
        *passes = r.passes;
    }
    return r.refusal;
}

/* Fills the audio callback's block from a ring's store; no session is needed. The first `2 * taken` samples are what
 * was pumped, in order, and the rest is silence: a frame for which two samples are not there, and an odd last sample. A
 * refused drain, which a ring that is pumped never sees, leaves ring and block as they were.
 *
 * Ring and store are for a single caller: the ring is a plain struct, and nothing here orders what two threads read and
 * write. A host that pumps on one thread and drains on another puts one lock around each of both calls; the callback
 * then waits as long as a pump takes. */
static inline uint32_t tr_drain(ThreshreedRing *ring, const float *store, size_t store_len, float *out, size_t out_len,
                                size_t *taken)
{
    static const float no_samples = 0.0f;
    static float no_block;
    ThreshreedDrained r = threshreed_drain(*ring, store ? store : &no_samples, store ? store_len : 0,
                                           out ? out : &no_block, out ? out_len : 0);
    *ring = r.ring;
    if (r.refusal == 0 && taken) {
        *taken = r.frames;
    }
    return r.refusal;
}

/* Starts capture, empty, also while it runs. */
static inline uint32_t tr_start_capture(Threshreed *t)
{
    ThreshreedAnswered r =
        threshreed_start_capture(t->session, t->queue, t->queue_len, t->capture, t->capture_len);
    t->session = r.session;
    return r.refusal;
}

/* Stops capture and copies its records to the list's front; none if capture is off. `list_len` is in words, `copied` in
 * records. Below THRESHREED_WORDS words for each captured record it is refused with 20, and capture goes on; words past
 * them stay as they were. */
static inline uint32_t tr_stop_capture(Threshreed *t, uint64_t *list, size_t list_len, size_t *copied)
{
    ThreshreedStopped r = threshreed_stop_capture(t->session, t->queue, t->queue_len, t->capture, t->capture_len,
                                                  list ? list : t->queue, list ? list_len : 0);
    t->session = r.session;
    if (r.refusal == 0 && copied) {
        *copied = r.copied;
    }
    return r.refusal;
}

/* Takes a control snapshot: position, state, the gain that the master is heading for, loop. */
static inline uint32_t tr_snapshot(const Threshreed *t, ThreshreedSnapshot *snapshot)
{
    ThreshreedSnapped r = threshreed_snapshot(t->session, t->queue, t->queue_len, t->capture, t->capture_len);
    if (r.refusal == 0 && snapshot) {
        *snapshot = r.snapshot;
    }
    return r.refusal;
}

/* Applies a control snapshot at once. Clock, queue, tail and voices stay.
 *
 * An undo button may apply snapshots freely, in both modes. Twice is as once. The last one decides alone, whatever was
 * applied before it, if its loop is none or fits the song that plays. If its loop does not fit, the loop and its laps
 * remain as they were left, and all else is as the last one says. */
static inline uint32_t tr_apply_snapshot(Threshreed *t, ThreshreedSnapshot snapshot)
{
    ThreshreedAnswered r =
        threshreed_apply_snapshot(t->session, t->queue, t->queue_len, t->capture, t->capture_len, snapshot);
    t->session = r.session;
    return r.refusal;
}

/* Reads the metrics. */
static inline uint32_t tr_metrics(const Threshreed *t, ThreshreedMetrics *metrics)
{
    ThreshreedMetered r = threshreed_metrics(t->session, t->queue, t->queue_len, t->capture, t->capture_len);
    if (r.refusal == 0 && metrics) {
        *metrics = r.metrics;
    }
    return r.refusal;
}

/* ---- a tour in a file
 *
 * What a capture kept is saved as a file of at most THRESHREED_TOUR_BYTES(count) bytes:
 *
 *     ThreshreedHandle clips[THRESHREED_SLOTS];
 *     tr_stop_capture(&t, list, LEN(list), &count);
 *     tr_clips(&t, clips);
 *     tr_write_tour(clips, list, count * THRESHREED_WORDS, bytes, LEN(bytes), &length, NULL);
 *     fwrite(bytes, 1, length, file);
 *
 * A session that has loaded the same clips in the same order replays it:
 *
 *     length = fread(bytes, 1, LEN(bytes), file);
 *     tr_clips(&t, clips);
 *     tr_read_tour(clips, bytes, length, list, LEN(list), &count, NULL);
 *     tr_replay(&t, list, count * THRESHREED_WORDS, &report);
 *
 * The queue then holds all of it at once, and of stingers at most 16; the report tells what was not taken. At clock 0
 * it is the same sound, if the capture ran from there on, no snapshot was applied, and no command was submitted for a
 * clock frame that had passed.
 *
 * In a file a clip is a byte, 0 to 31: its place in a list of handles, in which serial 0 is none and no other handle
 * stands twice. So a file hangs on no serial: it is read to the handles of the session that is to play it. NULL for
 * such a list is one of none. */

/* A list of handles as the library takes it. */
static inline void tr_clip_words(const ThreshreedHandle clips[THRESHREED_SLOTS], uint64_t words[THRESHREED_SLOTS])
{
    for (int i = 0; i < THRESHREED_SLOTS; i += 1) {
        words[i] = clips ? (uint64_t)clips[i].slot << 32 | clips[i].serial : 0;
    }
}

/* Tells how many there are, or where the fault is, and answers its number. */
static inline uint32_t tr_tour_told(ThreshreedTour r, size_t *count, size_t *place)
{
    if (r.refusal == 0 && count) {
        *count = r.count;
    }
    if (r.refusal != 0 && place) {
        *place = r.place;
    }
    return r.refusal;
}

/* Writes records as a tour's file to the front of `out`. `records_len` is in words, THRESHREED_WORDS a record; a
 * remainder is not looked at. Gains are kept bit for bit. `bytes` tells the file's length; what stands behind it stays.
 * If it is refused, `place` tells which record is at fault, from 0; it is 0 where none is. */
static inline uint32_t tr_write_tour(const ThreshreedHandle clips[THRESHREED_SLOTS], const uint64_t *records,
                                     size_t records_len, uint8_t *out, size_t out_len, size_t *bytes, size_t *place)
{
    static const uint64_t no_words = 0;
    static uint8_t no_bytes;
    uint64_t words[THRESHREED_SLOTS];
    tr_clip_words(clips, words);
    ThreshreedTour r = threshreed_write_tour(words, records ? records : &no_words, records ? records_len : 0,
                                             out ? out : &no_bytes, out ? out_len : 0);
    return tr_tour_told(r, bytes, place);
}

/* Reads a tour's file, which ends where `file` does, to the list's front. `list_len` is in words, `records` tells how
 * many were read; words past them stay as they were. If it is refused, `place` tells the first byte of the field at
 * fault; it is 0 where none is. */
static inline uint32_t tr_read_tour(const ThreshreedHandle clips[THRESHREED_SLOTS], const uint8_t *file,
                                    size_t file_len, uint64_t *list, size_t list_len, size_t *records, size_t *place)
{
    static const uint8_t no_bytes = 0;
    static uint64_t no_words;
    uint64_t words[THRESHREED_SLOTS];
    tr_clip_words(clips, words);
    ThreshreedTour r = threshreed_read_tour(words, file ? file : &no_bytes, file ? file_len : 0,
                                            list ? list : &no_words, list ? list_len : 0);
    return tr_tour_told(r, records, place);
}

/* Salvages a damaged tour's file, such as one that was cut while it was copied:
 *
 *     tr_salvage(bytes, length, fresh, LEN(fresh), ranges, LEN(ranges), &told);
 *     tr_read_tour(clips, fresh, told.bytes, list, LEN(list), &count, NULL);
 *
 * From left to right, a whole valid command whose number is above that of the last one kept is kept; a valid first or
 * last field and a field that is skipped are passed over; at any other place one byte is dropped. The kept commands,
 * byte for byte, make a fresh file at the front of `out`, which is read by whoever lists their clips. An undamaged file
 * loses none. What only looks like a command may be kept too. A damaged number that is too high shuts out the later
 * commands up to it, and a byte that has become a skippable tag swallows what its length covers. The list shows where.
 *
 * The list has THRESHREED_RANGE_WORDS words for each range: THRESHREED_KEPT, THRESHREED_PASSED or THRESHREED_DROPPED,
 * its first byte, and the byte behind its last. The ranges cover the file once, in order; bytes that are dropped side
 * by side are one. `told` has the counts of commands, bytes and ranges; what stands behind them in output and list
 * stays. THRESHREED_SALVAGE_BYTES and THRESHREED_SALVAGE_WORDS are always enough. */
static inline uint32_t tr_salvage(const uint8_t *file, size_t file_len, uint8_t *out, size_t out_len, uint64_t *list,
                                  size_t list_len, ThreshreedSalvage *told)
{
    static const uint8_t no_file = 0;
    static uint8_t no_bytes;
    static uint64_t no_words;
    ThreshreedSalvage r = threshreed_salvage(file ? file : &no_file, file ? file_len : 0, out ? out : &no_bytes,
                                             out ? out_len : 0, list ? list : &no_words, list ? list_len : 0);
    if (r.refusal == 0 && told) {
        *told = r;
    }
    return r.refusal;
}

/* ---- a tour without its sound */

/* What a dry run writes, from the front of each: the file's commands; for each of them 0 if it was taken, else the
 * number of its refusal; what is still queued, of which the last is due first; and a row for each executed command, in
 * order. */
typedef struct {
    uint64_t records[THRESHREED_DRY_COMMANDS * THRESHREED_WORDS];
    uint64_t reasons[THRESHREED_DRY_COMMANDS];
    uint64_t queue[THRESHREED_DRY_COMMANDS * THRESHREED_WORDS];
    uint64_t rows[THRESHREED_DRY_COMMANDS * THRESHREED_ROW_WORDS];
} ThreshreedSheet;

/* Tells what a saved tour does, without a session, clips or sound:
 *
 *     static const uint64_t clips[] = {
 *         0, 1, THRESHREED_CLIP_SONG, 48000, 2880000, 2880000,
 *         7, 3, THRESHREED_CLIP_STINGER, 48000, 24000, 0,
 *     };
 *     static const uint64_t blocks[] = {675000, 512};
 *     static ThreshreedSheet sheet;
 *     ThreshreedDryRun told;
 *     tr_dry_run(THRESHREED_AS_TONO, clips, LEN(clips), bytes, length, blocks, LEN(blocks), &sheet, &told, NULL);
 *     for (size_t i = 0; i < told.executed; i += 1) {
 *         const uint64_t *row = sheet.rows + i * THRESHREED_ROW_WORDS;
 *         printf("kind %" PRIu64 " at %" PRIu64 "\n", row[2], row[THRESHREED_ROW_CLOCK]);
 *     }
 *
 * It is what a session does that has just these clips, each in its slot and under its serial, is stopped at 0 on the
 * first of them, a song whose rate is the session's, and has a queue for THRESHREED_DRY_COMMANDS or more: the file's
 * commands, a clip byte being a slot, are replayed at clock 0, and then the blocks are made. In `clips` the length of a
 * stinger is not looked at. In `blocks` stand how often and how many frames in turn; a last word alone counts nothing.
 * Only their sum counts, and hours cost no more than the commands in them.
 *
 * A record that the replay skips is no refusal: its reason is 12, 13, 14, 17 or 22. The number in the record of a row
 * and in the queue is its place among the records taken, from 1.
 *
 * It is refused, in this order, with 116 if no session has these clips or the mode is none, with what tr_read_tour
 * answers of the file, with 117 if that has more than 256 commands, and with 4 if the blocks pass clock 2^62. A refused
 * one leaves the sheet, and `place` tells the first byte of the field at fault in the file; it is 0 where none is. The
 * sheet must be there, as a session must for the calls above. */
static inline uint32_t tr_dry_run(uint32_t mode, const uint64_t *clips, size_t clips_len, const uint8_t *file,
                                  size_t file_len, const uint64_t *blocks, size_t blocks_len, ThreshreedSheet *sheet,
                                  ThreshreedDryRun *told, size_t *place)
{
    static const uint64_t no_words = 0;
    static const uint8_t no_bytes = 0;
    ThreshreedDryRun r = threshreed_dry_run(
        mode, clips ? clips : &no_words, clips ? clips_len : 0, file ? file : &no_bytes, file ? file_len : 0,
        blocks ? blocks : &no_words, blocks ? blocks_len : 0, sheet->records, sheet->reasons, sheet->queue,
        sheet->rows);
    if (r.refusal == 0 && told) {
        *told = r;
    }
    if (r.refusal != 0 && place) {
        *place = r.place;
    }
    return r.refusal;
}

/* ---- what a host reads */

/* THRESHREED_AS_TONO or THRESHREED_HOUSE. */
static inline uint32_t tr_mode(const Threshreed *t) { return t->session.settings.mode; }

/* The clock: frames rendered. */
static inline uint64_t tr_clock(const Threshreed *t) { return t->session.clock; }

/* The song position, or playhead. If it is at the loop's end or past it, the next frame that plays first takes it to
 * start + (position - start) mod (end - start). In house mode the song sounds where the playhead is. As tono it then
 * starts over at the loop's start, less than a loop behind the playhead, until the loop comes round, or a seek,
 * transition, stop, swap or snapshot sets both. */
static inline uint64_t tr_position(const Threshreed *t) { return t->session.position; }

/* THRESHREED_STOPPED, THRESHREED_PLAYING or THRESHREED_PAUSED. */
static inline uint32_t tr_state(const Threshreed *t) { return t->session.state; }

/* The loop, if one is set. */
static inline ThreshreedLoop tr_loop_range(const Threshreed *t) { return t->session.looped; }

/* The laps: how many times the playhead passed from the loop's end to its start since the loop was set. Setting or
 * clearing a loop, by command or snapshot, and a swap make them 0; a loop that is not set leaves them. They stop at
 * 2^64 - 1. */
static inline uint64_t tr_laps(const Threshreed *t) { return t->session.laps; }

/* The master gain: the value that it is heading for. */
static inline float tr_master_gain(const Threshreed *t) { return t->session.master.target; }

/* The song that plays. */
static inline ThreshreedHandle tr_song(const Threshreed *t) { return t->session.song; }

/* The loaded clips, each at its slot, for a tour's file. When a capture has just stopped they are all that its records
 * name: until then it holds them. */
static inline void tr_clips(const Threshreed *t, ThreshreedHandle clips[THRESHREED_SLOTS])
{
    for (uint32_t slot = 0; slot < THRESHREED_SLOTS; slot += 1) {
        clips[slot].slot = slot;
        clips[slot].serial = (t->session.used >> slot & 1) == 1 ? t->session.clips[slot].serial : 0;
    }
}

/* How many commands are queued. */
static inline size_t tr_queue_depth(const Threshreed *t) { return t->session.queued; }

/* Whether a handle stands for a loaded clip. */
static inline bool tr_is_live(const Threshreed *t, ThreshreedHandle clip)
{
    return clip.slot < THRESHREED_SLOTS && (t->session.used >> clip.slot & 1) == 1 &&
           t->session.clips[clip.slot].serial == clip.serial;
}

/* ---- commands and when they are due */

static inline ThreshreedCommand tr_command(uint32_t kind)
{
    ThreshreedCommand x;
    memset(&x, 0, sizeof x);
    x.kind = kind;
    return x;
}

static inline ThreshreedCommand tr_play(void) { return tr_command(THRESHREED_PLAY); }

static inline ThreshreedCommand tr_pause(void) { return tr_command(THRESHREED_PAUSE); }

/* To position 0; loop and laps are kept. */
static inline ThreshreedCommand tr_stop(void) { return tr_command(THRESHREED_STOP); }

/* To a song frame, held to the song's length. */
static inline ThreshreedCommand tr_seek(uint64_t frame)
{
    ThreshreedCommand x = tr_command(THRESHREED_SEEK);
    x.frame = frame;
    return x;
}

/* Set if its end is not past the length of the song that then plays, else nothing. Refused as senseless (22) if its start
 * is not below its end. */
static inline ThreshreedCommand tr_loop(uint64_t start, uint64_t end)
{
    ThreshreedCommand x = tr_command(THRESHREED_LOOP);
    x.frame = start;
    x.end = end;
    return x;
}

static inline ThreshreedCommand tr_clear_loop(void) { return tr_command(THRESHREED_CLEAR_LOOP); }

/* The master gain, held to 0..2, reached in 256 frames. */
static inline ThreshreedCommand tr_gain(float gain)
{
    ThreshreedCommand x = tr_command(THRESHREED_GAIN);
    x.gain = gain;
    return x;
}

/* The song under the handle plays from 0 with no loop; the old one fades out in 1,024 frames, in house mode under the
 * master gain. */
static inline ThreshreedCommand tr_swap(ThreshreedHandle clip)
{
    ThreshreedCommand x = tr_command(THRESHREED_SWAP);
    x.clip = clip;
    return x;
}

/* The stinger under the handle sounds at a gain; below 0 is 0. */
static inline ThreshreedCommand tr_stinger(ThreshreedHandle clip, float gain)
{
    ThreshreedCommand x = tr_command(THRESHREED_STINGER);
    x.clip = clip;
    x.gain = gain;
    return x;
}

static inline ThreshreedAt tr_at(uint32_t kind, uint64_t frame)
{
    ThreshreedAt x;
    x.kind = kind;
    x.frame = frame;
    return x;
}

static inline ThreshreedAt tr_now(void) { return tr_at(THRESHREED_AT_ONCE, 0); }

/* At a clock frame; one that has passed is executed at once. */
static inline ThreshreedAt tr_at_clock(uint64_t frame) { return tr_at(THRESHREED_AT_CLOCK, frame); }

/* When the song comes to a frame, through its loop if it has one; at once if it does not come there. */
static inline ThreshreedAt tr_at_song(uint64_t frame) { return tr_at(THRESHREED_AT_SONG, frame); }

#ifdef __cplusplus
}
#endif

#endif
