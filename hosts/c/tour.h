/* A tour of two minutes through three rooms, for a file that says how a block is played. It tells after how many bars
 * the lights change, which is when a loop has come round for the third time, and what the whole tour did. After it
 * comes one threshold twice, while the guide speaks: as tono, where the old room bursts through, and in house mode.
 *
 * The pool has room for two rooms and the bell: the third room comes where the first one was.
 */
#ifndef TOUR_H
#define TOUR_H

#include "rooms.h"

enum { BARS = 60, THRESHOLD = 4 };

static float pool[2 * (2 * ROOM + BAR)];

/* Plays the session's next BLOCK frames, and tells their passes. */
static uint64_t play(void);

/* From the porch into the hall in a mode: the guide turns the score down for her words, and steps over when a note of
 * the porch has just been struck. */
static void cross(uint32_t mode)
{
    ThreshreedHandle hall;
    need(tr_open_in(&t, mode, RATE, porch_clip, LEN(porch_clip), RATE, ROOM));
    need(tr_load_song(&t, hall_clip, LEN(hall_clip), RATE, ROOM, &hall));
    submit(tr_play(), tr_now());
    submit(tr_gain(0.25f), on(1, 0));
    submit(tr_swap(hall), tr_at_clock(3 * BAR + 240));
    for (int block = 0; block < THRESHOLD * BAR / BLOCK; block += 1) {
        play();
    }
}

static void tell_peak(void)
{
    printf("peak     %.6f\n", (double)peak);
}

/* The first `last` bars of the tour, and the crossings. */
static void tour(int last)
{
    make_clips();
    tr_lend(&t, queue, LEN(queue), capture, LEN(capture), pool, LEN(pool));
    need(tr_open(&t, RATE, porch_clip, LEN(porch_clip), RATE, ROOM));
    ThreshreedHandle porch = tr_song(&t), hall, bell;
    need(tr_load_song(&t, hall_clip, LEN(hall_clip), RATE, ROOM, &hall));
    need(tr_load_stinger(&t, bell_clip, LEN(bell_clip), RATE, &bell));
    ThreshreedHandle ahead = hall;
    uint64_t bells[3 * THRESHREED_WORDS];
    ThreshreedSnapshot kept;
    need(tr_snapshot(&t, &kept));

    uint64_t passes = 0;
    for (int bar = 0; bar < last; bar += 1) {
        switch (bar) {
        /* The porch, round and round, and somebody at the door. */
        case 0:
            submit(bars(0, 4), tr_now());
            submit(tr_play(), tr_now());
            submit(tr_stinger(bell, 0.5f), on(4, 1));
            break;
        /* The guide speaks for four bars. */
        case 8:
            submit(tr_gain(0.25f), on(8, 0));
            submit(tr_gain(1.0f), on(12, 0));
            break;
        /* Over the threshold into the hall, on the bar. */
        case 15:
            submit(tr_swap(ahead), on(16, 0));
            submit(bars(0, 4), on(16, 0));
            submit(tr_stinger(bell, 1.0f), on(16, 0));
            break;
        /* The porch goes, the cellar takes its room, and nobody takes the one for the other. */
        case 17:
            need(tr_retire(&t, porch));
            need(tr_load_song(&t, cellar_clip, LEN(cellar_clip), RATE, ROOM, &ahead));
            if (tr_submit(&t, tr_swap(porch), tr_now()) != THRESHREED_STALE) {
                exit(1);
            }
            break;
        /* Three bells on the song's beats, kept as they are submitted. */
        case 20: {
            size_t copied;
            need(tr_start_capture(&t));
            for (uint64_t beat = 1; beat < 4; beat += 1) {
                submit(tr_stinger(bell, 1.0f / (float)(beat + 1)), tr_at_song(beat * BEAT));
            }
            need(tr_stop_capture(&t, bells, LEN(bells), &copied));
            break;
        }
        /* The same bells four bars later. */
        case 24: {
            ThreshreedReport report;
            for (size_t i = 0; i < LEN(bells); i += THRESHREED_WORDS) {
                bells[i] += 4 * BAR;
            }
            need(tr_replay(&t, bells, LEN(bells), &report));
            if (report.taken != 3) {
                exit(1);
            }
            break;
        }
        /* On to the third bar; no, at the end of the second to the fourth. */
        case 28:
            need(tr_transition(&t, 2 * BAR, tr_at_song(1 * BAR)));
            need(tr_transition(&t, 3 * BAR, tr_at_song(2 * BAR)));
            break;
        /* Quiet, but for the bell. */
        case 32:
            submit(tr_pause(), on(32, 0));
            submit(tr_stinger(bell, 0.75f), on(32, 1));
            submit(tr_play(), on(34, 0));
            break;
        case 36:
            need(tr_snapshot(&t, &kept));
            break;
        /* Down to the cellar: two bars of it, the last one, and it ends by itself. */
        case 39:
            submit(tr_swap(ahead), on(40, 0));
            submit(bars(0, 2), on(40, 0));
            submit(tr_clear_loop(), on(44, 0));
            submit(tr_seek(3 * BAR), on(44, 0));
            break;
        /* As it was in the hall. */
        case 46:
            need(tr_apply_snapshot(&t, kept));
            break;
        /* Back through the hall and out. */
        case 53:
            submit(tr_swap(hall), on(54, 0));
            submit(bars(0, 4), on(54, 0));
            for (int step = 0; step < 4; step += 1) {
                submit(tr_gain((float)(3 - step) / 4.0f), on(56 + (uint64_t)step, 0));
            }
            submit(tr_stop(), on(59, 2));
            break;
        }
        for (int block = 0; block < BAR / BLOCK; block += 1) {
            uint64_t more = play();
            passes += more;
            if (more > 0 && tr_laps(&t) == 3) {
                printf("lights   change after %d bars\n", bar + 1);
            }
        }
        fprintf(stderr, "\rbar %d of %d", bar + 1, last);
    }
    fputs("\n", stderr);

    ThreshreedMetrics metrics;
    need(tr_metrics(&t, &metrics));
    printf("frames   %llu\n", (unsigned long long)metrics.rendered);
    printf("executed %llu\n", (unsigned long long)metrics.executed);
    printf("deepest  %zu\n", metrics.deepest);
    printf("swaps    %llu\n", (unsigned long long)metrics.swaps);
    printf("bells    %llu\n", (unsigned long long)metrics.fired);
    printf("passes   %llu\n", (unsigned long long)passes);
    printf("laps     %llu\n", (unsigned long long)tr_laps(&t));

    cross(THRESHREED_AS_TONO);
    cross(THRESHREED_HOUSE);
}

#endif
