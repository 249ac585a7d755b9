/* The tour of tour.h, played through ALSA: `live [DEVICE [ANSWERS [late]]]`. Link with -lasound.
 *
 * The session is pumped into a ring, and the card's callback drains the ring, a period at a time. Ring and store are
 * for a single caller: pump and callback take turns on one thread.
 *
 * DEVICE is "default" if it is not named. ANSWERS is a file to which each callback's answer is written: a line of the
 * frames of its block and of those that it took, past which the block is silence. With `late` the pump comes too late
 * now and then, and the ring runs dry.
 */
#define _POSIX_C_SOURCE 200809L
#include <alsa/asoundlib.h>

#include "tour.h"

/* What the card is asked to hold, in four periods: 2,048 frames, in microseconds. */
enum { LATENCY = 42667 };

/* 2,000 frames and the place that stays empty: an odd number, so that every second time round a frame lies over the
 * end. */
static float store[4001];
static ThreshreedRing ring;
static snd_pcm_t *card;
static snd_pcm_uframes_t period;
static FILE *answers;
static bool late;

/* Ends the tour where ALSA fails. */
static void check(int error)
{
    if (error < 0) {
        fprintf(stderr, "ALSA: %s\n", snd_strerror(error));
        exit(1);
    }
}

/* Opens the card, whose period must fit into the ring. */
static void open_card(const char *device)
{
    snd_pcm_uframes_t held;
    check(snd_pcm_open(&card, device, SND_PCM_STREAM_PLAYBACK, 0));
    check(snd_pcm_set_params(card, SND_PCM_FORMAT_FLOAT_LE, SND_PCM_ACCESS_RW_INTERLEAVED, 2, RATE, 1, LATENCY));
    check(snd_pcm_get_params(card, &held, &period));
    if (2 * period >= LEN(store)) {
        fprintf(stderr, "%s: a period of %lu frames does not fit into the ring\n", device, period);
        exit(1);
    }
}

/* The card's callback: fills a block from the ring, and tells how many frames it took. It needs no session. */
static size_t callback(float *out, size_t samples)
{
    size_t taken;
    need(tr_drain(&ring, store, LEN(store), out, samples, &taken));
    return taken;
}

/* Goes on after an error that the card can recover from, as when it ran dry itself. */
static void recover(int error)
{
    check(snd_pcm_recover(card, error, 1));
}

/* Waits until the card has room for a period. It starts by itself once it holds all the whole periods that it can. If
 * it ran dry within a period, it was given the rest of that one first, and may be full before: it is started here. */
static void wait_for_room(void)
{
    snd_pcm_sframes_t frames;
    while ((frames = snd_pcm_avail_update(card)) < (snd_pcm_sframes_t)period) {
        bool still = snd_pcm_state(card) == SND_PCM_STATE_PREPARED;
        int error = frames < 0 ? (int)frames : still ? snd_pcm_start(card) : snd_pcm_wait(card, -1);
        if (error < 0) {
            recover(error);
        }
    }
}

/* Gives the card its next period. */
static void serve(void)
{
    static float out[LEN(store) - 1];
    wait_for_room();
    size_t taken = callback(out, 2 * period);
    hear(out, 2 * period);
    if (answers != NULL) {
        fprintf(answers, "%lu %zu\n", period, taken);
    }
    for (snd_pcm_uframes_t given = 0; given < period;) {
        snd_pcm_sframes_t more = snd_pcm_writei(card, out + 2 * given, period - given);
        if (more < 0) {
            recover((int)more);
        } else {
            given += (snd_pcm_uframes_t)more;
        }
    }
}

/* Serves the card until the ring is empty, and then with a period of silence. */
static void run_dry(void)
{
    while (ring.head != ring.tail) {
        serve();
    }
    serve();
}

/* Lets the ring run dry before the first block, the second, the fourth, the seventh and so on: each stretch is a block
 * longer. */
static void come_late(void)
{
    static int stretch, blocks;
    if (blocks == stretch) {
        run_dry();
        stretch += 1;
        blocks = 0;
    }
    blocks += 1;
}

/* Pumps a block into the ring. When the ring is full, the card is served. */
static uint64_t play(void)
{
    uint64_t passes = 0;
    if (late) {
        come_late();
    }
    for (size_t left = BLOCK; left > 0;) {
        size_t made;
        uint64_t more;
        need(tr_pump(&t, &ring, store, LEN(store), left, &made, &more));
        passes += more;
        left -= made;
        if (left > 0) {
            serve();
        }
    }
    return passes;
}

int main(int count, char **arguments)
{
    late = count > 3;
    if (count > 2) {
        answers = fopen(arguments[2], "w");
        if (answers == NULL) {
            perror(arguments[2]);
            return 1;
        }
    }
    open_card(count > 1 ? arguments[1] : "default");
    tour(BARS);
    run_dry();
    check(snd_pcm_drain(card));
    check(snd_pcm_close(card));
    if (answers != NULL && (ferror(answers) || fclose(answers) != 0)) {
        perror(arguments[2]);
        return 1;
    }
    tell_peak();
    return 0;
}
