/* What each call needs of the stack: it is made on a stack of its own, painted before, and the paint that is gone tells
 * how deep it went. More than THRESHREED_STACK is a failure. */
#define _XOPEN_SOURCE 700
#include <stdio.h>
#include <stdlib.h>
#include <ucontext.h>

#include "threshreed.h"

#define LEN(array) (sizeof(array) / sizeof(array)[0])

enum { RATE = 48000, FRAMES = 2048, PAINT = 0xA5 };

static uint64_t queue[64 * THRESHREED_WORDS], capture[64 * THRESHREED_WORDS], list[64 * THRESHREED_WORDS];
static float pool[2 * 4 * FRAMES], clip[2 * FRAMES], out[2 * 512], store[2 * 512 + 1];
static const uint32_t kinds[] = {THRESHREED_CLIP_SONG, THRESHREED_CLIP_STINGER, THRESHREED_CLIP_STINGER};
static ThreshreedHandle clips[LEN(kinds)], listed[THRESHREED_SLOTS];
static struct {
    ThreshreedCommand command;
    ThreshreedAt at;
} script[25];
static ThreshreedSnapshot snapshot;
static ThreshreedMetrics metrics;
static ThreshreedReport report;
/* Of the frames that it takes one lies over the store's end. */
static ThreshreedRing ring = {500, 500};
static size_t copied, made, taken;
static uint64_t passes;
static uint8_t file[THRESHREED_TOUR_BYTES(64)], fresh[THRESHREED_SALVAGE_BYTES(sizeof file)];
static uint64_t ranges[THRESHREED_SALVAGE_WORDS(sizeof file)];
static size_t bytes;
static uint64_t dry_clips[LEN(kinds) * THRESHREED_CLIP_WORDS];
static const uint64_t hours[] = {675000, 512};
static ThreshreedSheet sheet;
static Threshreed t;

/* The calls, each in a function of its own; `nth` counts those of one name. */
static size_t nth;
static uint32_t refusal;
#define CALL(name, call) \
    static void name(void) { refusal = call; }

CALL(opening, tr_open(&t, RATE, clip, LEN(clip), RATE, FRAMES))
CALL(load, tr_load(&t, clip, LEN(clip), kinds[nth], FRAMES, RATE, &clips[nth]))
CALL(retire, tr_retire(&t, clips[2]))
CALL(submit, tr_submit(&t, script[nth].command, script[nth].at))
CALL(transition, tr_transition(&t, nth, tr_at_song(600)))
CALL(replay, tr_replay(&t, list, copied * THRESHREED_WORDS, &report))
CALL(block, tr_block(&t, out, LEN(out), &passes))
CALL(pump, tr_pump(&t, &ring, store, LEN(store), 512, &made, &passes))
CALL(drain, tr_drain(&ring, store, LEN(store), out, LEN(out), &taken))
CALL(start_capture, tr_start_capture(&t))
CALL(stop_capture, tr_stop_capture(&t, list, LEN(list), &copied))
CALL(write_tour, tr_write_tour(listed, list, copied * THRESHREED_WORDS, file, LEN(file), &bytes, NULL))
CALL(read_tour, tr_read_tour(listed, file, bytes, list, LEN(list), &copied, NULL))
CALL(salvage, tr_salvage(file, bytes, fresh, LEN(fresh), ranges, LEN(ranges), NULL))
CALL(dry_run, tr_dry_run(THRESHREED_HOUSE, dry_clips, LEN(dry_clips), file, bytes, hours, LEN(hours), &sheet, NULL,
                         NULL))
CALL(take_snapshot, tr_snapshot(&t, &snapshot))
CALL(apply_snapshot, tr_apply_snapshot(&t, snapshot))
CALL(read_metrics, tr_metrics(&t, &metrics))

static unsigned char stack[4 * THRESHREED_STACK];

/* Makes a call on that stack. */
static void make(void (*call)(void))
{
    static ucontext_t here, there;
    getcontext(&there);
    there.uc_stack.ss_sp = stack;
    there.uc_stack.ss_size = sizeof stack;
    there.uc_link = &here;
    makecontext(&there, call, 0);
    swapcontext(&here, &there);
}

/* Makes a call so many times, and tells how deep the deepest went. */
static void measure(const char *name, void (*call)(void), size_t times)
{
    size_t left = 0;
    memset(stack, PAINT, sizeof stack);
    for (nth = 0; nth < times; nth += 1) {
        make(call);
        if (refusal != 0) {
            fprintf(stderr, "stack.c: %s is refused: %s\n", name, threshreed_refusal(refusal));
            exit(1);
        }
    }
    while (stack[left] == PAINT) {
        left += 1;
    }
    printf(" %s %zu", name, sizeof stack - left);
    if (sizeof stack - left > THRESHREED_STACK) {
        fprintf(stderr, "stack.c: %s needs %zu bytes, above %d\n", name, sizeof stack - left, THRESHREED_STACK);
        exit(1);
    }
}

static void put(ThreshreedCommand command, ThreshreedAt at)
{
    script[nth].command = command;
    script[nth].at = at;
    nth += 1;
}

/* A command of every kind, with as many voices as there can be. */
static void write_script(void)
{
    nth = 0;
    put(tr_play(), tr_now());
    put(tr_loop(8, 1000), tr_at_song(10));
    put(tr_gain(0.5f), tr_at_clock(300));
    put(tr_seek(5), tr_at_clock(301));
    put(tr_clear_loop(), tr_at_clock(302));
    put(tr_pause(), tr_at_clock(303));
    put(tr_stop(), tr_at_clock(304));
    put(tr_play(), tr_at_clock(305));
    while (nth < LEN(script) - 1) {
        put(tr_stinger(clips[1], 0.5f), tr_at_clock(306));
    }
    put(tr_swap(clips[0]), tr_at_clock(307));
}

/* The clips that are loaded when the capture stops, as a dry run's list. */
static void write_clips(void)
{
    for (size_t slot = 0; slot < LEN(kinds); slot += 1) {
        const ThreshreedClip clip = t.session.clips[slot];
        const uint64_t line[] = {slot, clip.serial, clip.kind, clip.rate, clip.frames, clip.extent};
        memcpy(dry_clips + slot * THRESHREED_CLIP_WORDS, line, sizeof line);
    }
}

int main(void)
{
    tr_lend(&t, queue, LEN(queue), capture, LEN(capture), pool, LEN(pool));
    printf("bytes of stack:");
    measure("open", opening, 1);
    measure("load", load, LEN(kinds));
    write_script();
    measure("start_capture", start_capture, 1);
    measure("submit", submit, LEN(script));
    measure("transition", transition, 2);
    measure("retire", retire, 1);
    measure("snapshot", take_snapshot, 1);
    measure("block", block, 4);
    measure("metrics", read_metrics, 1);
    measure("stop_capture", stop_capture, 1);
    tr_clips(&t, listed);
    measure("write_tour", write_tour, 1);
    measure("read_tour", read_tour, 1);
    measure("salvage", salvage, 1);
    write_clips();
    measure("dry_run", dry_run, 1);
    measure("replay", replay, 1);
    measure("pump", pump, 1);
    measure("drain", drain, 1);
    measure("apply_snapshot", apply_snapshot, 1);
    printf("\n");
    return 0;
}
