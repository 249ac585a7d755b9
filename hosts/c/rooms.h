/* What the tours share: the clips of three rooms and of a bell, a session for them, the bars that they count in, and
 * the peak of what is heard.
 *
 * The clips are made in plain float steps that hosts/rust/examples/rooms/mod.rs takes in the same order, so that both
 * make the same samples (without fused steps: -ffp-contract=off).
 */
#ifndef ROOMS_H
#define ROOMS_H

#include <stdio.h>
#include <stdlib.h>

#include "threshreed.h"

#define LEN(array) (sizeof(array) / sizeof(array)[0])

enum { RATE = 48000, BEAT = 24000, BAR = 4 * BEAT, ROOM = 4 * BAR, BLOCK = 480 };

static float porch_clip[2 * ROOM], hall_clip[2 * ROOM], cellar_clip[2 * ROOM], bell_clip[2 * BAR];
static uint64_t queue[64 * THRESHREED_WORDS], capture[64 * THRESHREED_WORDS];
static Threshreed t;

/* ---- the clips */

/* Strikes a string at a pitch in hundredths of a Hertz, for each side at a level. What rings past the clip's end goes
 * on at its start, so that a loop has no seam. */
static void strike(float *clip, size_t frames, size_t at, size_t ring, uint64_t pitch, float left, float right)
{
    uint32_t step = (uint32_t)((pitch << 32) / (100 * RATE));
    uint32_t phase = 0;
    size_t frame = at % frames;
    for (size_t i = 0; i < ring; i += 1) {
        float x = (float)phase / 2147483648.0f - 1.0f;
        float wave = 4.0f * x * (1.0f - (x < 0.0f ? -x : x));
        float attack = i < 240 ? (float)i / 240.0f : 1.0f;
        float rest = (float)(ring - i) / (float)ring;
        float sample = wave * (attack * (rest * rest));
        clip[2 * frame] += sample * left;
        clip[2 * frame + 1] += sample * right;
        phase += step;
        frame = (frame + 1) % frames;
    }
}

/* A room of four bars: a bass note a bar, a note of its chord a beat, and two echoes of each, from side to side. */
static void room(float *clip, uint64_t bass, const uint64_t chord[4], size_t delay, float echo)
{
    for (size_t bar = 0; bar < 4; bar += 1) {
        strike(clip, ROOM, bar * BAR, BAR, bass, 0.2f, 0.2f);
    }
    for (size_t beat = 0; beat < 16; beat += 1) {
        float left = 0.25f, right = 0.125f;
        for (size_t n = 0; n < 3; n += 1) {
            size_t at = beat * BEAT + n * delay;
            uint64_t pitch = chord[(beat + beat / 4) % 4];
            strike(clip, ROOM, at, 2 * BEAT, pitch, left, right);
            float other = left * echo;
            left = right * echo;
            right = other;
        }
    }
}

/* The three rooms, and a bell of one bar. */
static void make_clips(void)
{
    room(porch_clip, 13081, (const uint64_t[]){26163, 32963, 39200, 49388}, 12000, 0.4f);
    room(hall_clip, 11000, (const uint64_t[]){22000, 26163, 32963, 39200}, 18000, 0.7f);
    room(cellar_clip, 8731, (const uint64_t[]){17461, 22000, 26163, 20765}, 8000, 0.8f);
    strike(bell_clip, BAR, 0, BAR, 65926, 0.3f, 0.3f);
    strike(bell_clip, BAR, 0, BAR / 2, 181955, 0.15f, 0.1f);
    strike(bell_clip, BAR, 0, BAR / 4, 356000, 0.05f, 0.1f);
}

/* ---- the session */

/* Ends it all at a refusal. */
static void need(uint32_t refusal)
{
    if (refusal != 0) {
        fprintf(stderr, "refused: %s\n", threshreed_refusal(refusal));
        exit(1);
    }
}

static void submit(ThreshreedCommand command, ThreshreedAt at)
{
    need(tr_submit(&t, command, at));
}

/* A beat of a bar, on the session's clock. */
static ThreshreedAt on(uint64_t bar, uint64_t beat)
{
    return tr_at_clock(bar * BAR + beat * BEAT);
}

static ThreshreedCommand bars(uint64_t start, uint64_t end)
{
    return tr_loop(start * BAR, end * BAR);
}

/* ---- what is heard */

static float peak;

static void hear(const float *samples, size_t count)
{
    for (size_t i = 0; i < count; i += 1) {
        float level = samples[i] < 0.0f ? -samples[i] : samples[i];
        peak = level > peak ? level : peak;
    }
}

#endif
