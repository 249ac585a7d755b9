/* Two rooms and a bell, as raw samples: the second room comes at a bar, and the bell rings over it.
 *
 *     ./example >rooms.raw
 *     aplay -t raw -f FLOAT_LE -c 2 -r 48000 rooms.raw
 */
#include <stdio.h>

#include "threshreed.h"

#define LEN(array) (sizeof(array) / sizeof(array)[0])

/* A refusal ends the function that makes the call. */
#define TRY(call) \
    do { \
        uint32_t refusal = (call); \
        if (refusal != 0) { \
            return refusal; \
        } \
    } while (0)

enum { RATE = 48000, BAR = 48000 };

static uint64_t queue[64 * THRESHREED_WORDS];
static float pool[2 * 3 * BAR], clip[2 * BAR], out[2 * 480];
static Threshreed t;

/* A bar of a tone, whose wave has so many frames. */
static void tone(size_t wave)
{
    for (size_t i = 0; i < LEN(clip); i += 1) {
        clip[i] = (float)(i / 2 % wave) / (float)(4 * wave);
    }
}

static uint32_t play(void)
{
    ThreshreedHandle hall, bell;
    tr_lend(&t, queue, LEN(queue), NULL, 0, pool, LEN(pool));
    tone(400);
    TRY(tr_open(&t, RATE, clip, LEN(clip), RATE, BAR));
    tone(300);
    TRY(tr_load_song(&t, clip, LEN(clip), RATE, BAR, &hall));
    tone(50);
    TRY(tr_load_stinger(&t, clip, LEN(clip) / 4, RATE, &bell));
    TRY(tr_submit(&t, tr_loop(0, BAR), tr_now()));
    TRY(tr_submit(&t, tr_play(), tr_now()));
    TRY(tr_submit(&t, tr_swap(hall), tr_at_clock(2 * BAR)));
    TRY(tr_submit(&t, tr_stinger(bell, 0.5f), tr_at_clock(2 * BAR + BAR / 2)));
    while (tr_clock(&t) < 3 * BAR) {
        TRY(tr_block(&t, out, LEN(out), NULL));
        fwrite(out, sizeof *out, LEN(out), stdout);
    }
    return 0;
}

int main(void)
{
    uint32_t refusal = play();
    if (refusal != 0) {
        fprintf(stderr, "refused: %s\n", threshreed_refusal(refusal));
    }
    return (int)refusal;
}
