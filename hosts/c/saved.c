/* A walk of 48 seconds that is kept in a file: `saved TOUR WAV` plays it live, heard in WAV, and saves in TOUR what was
 * submitted on the way; `saved TOUR WAV again` replays TOUR, in blocks of other lengths, to the same sound. Of a damaged
 * TOUR it replays what remains.
 *
 * hosts/rust/examples/saved.rs is the same walk: each plays what the other saved.
 */
#include "wav.h"

/* As many commands as queue and capture hold: a replay queues the whole walk at once. */
enum { BARS = 24, COMMANDS = LEN(queue) / THRESHREED_WORDS };

static float pool[2 * (3 * ROOM + BAR)];
static ThreshreedHandle porch, hall, cellar, bell;
static ThreshreedHandle clips[THRESHREED_SLOTS];
static uint64_t list[COMMANDS * THRESHREED_WORDS];
/* A byte more than the longest file has, so that a longer one is not taken for it. */
static uint8_t bytes[THRESHREED_TOUR_BYTES(COMMANDS) + 1];

/* Always in this order, so that a clip has the same slot in the session that is saved and in the one that replays. */
static void open_rooms(void)
{
    make_clips();
    tr_lend(&t, queue, LEN(queue), capture, LEN(capture), pool, LEN(pool));
    need(tr_open(&t, RATE, porch_clip, LEN(porch_clip), RATE, ROOM));
    porch = tr_song(&t);
    need(tr_load_song(&t, hall_clip, LEN(hall_clip), RATE, ROOM, &hall));
    need(tr_load_song(&t, cellar_clip, LEN(cellar_clip), RATE, ROOM, &cellar));
    need(tr_load_stinger(&t, bell_clip, LEN(bell_clip), RATE, &bell));
    tr_clips(&t, clips);
}

/* What is submitted as a bar begins. */
static void begin(int bar)
{
    switch (bar) {
    /* The porch, round and round, and somebody at the door. */
    case 0:
        submit(bars(0, 4), tr_now());
        submit(tr_play(), tr_now());
        submit(tr_stinger(bell, 0.5f), on(2, 1));
        break;
    /* The guide speaks for two bars. */
    case 4:
        submit(tr_gain(0.25f), tr_now());
        submit(tr_gain(1.0f), on(6, 0));
        break;
    /* Over the threshold into the hall, on the bar. */
    case 7:
        submit(tr_swap(hall), on(8, 0));
        submit(bars(0, 4), on(8, 0));
        submit(tr_stinger(bell, 1.0f), on(8, 0));
        break;
    /* Three bells on the beats of the song's third bar. */
    case 9:
        for (uint64_t beat = 1; beat < 4; beat += 1) {
            submit(tr_stinger(bell, 1.0f / (float)(beat + 1)), tr_at_song(2 * BAR + beat * BEAT));
        }
        break;
    /* On to the third bar; no, at the end of the second to the fourth. What was withdrawn is not saved. */
    case 12:
        need(tr_transition(&t, 2 * BAR, tr_at_song(1 * BAR)));
        need(tr_transition(&t, 3 * BAR, tr_at_song(2 * BAR)));
        break;
    /* Quiet, but for the bell. */
    case 15:
        submit(tr_pause(), on(16, 0));
        submit(tr_stinger(bell, 0.75f), on(16, 1));
        submit(tr_play(), on(17, 0));
        break;
    /* Down to the cellar: two bars of it, the last one, and it ends by itself. */
    case 17:
        submit(tr_swap(cellar), on(18, 0));
        submit(bars(0, 2), on(18, 0));
        submit(tr_clear_loop(), on(20, 0));
        submit(tr_seek(3 * BAR), on(20, 0));
        break;
    /* The first bar of it is left early. In the replay this transition waits beside the one before. */
    case 18:
        need(tr_transition(&t, 1 * BAR, tr_at_song(BEAT)));
        break;
    /* Back to the porch and out. */
    case 21:
        submit(tr_swap(porch), on(21, 2));
        submit(tr_play(), on(21, 2));
        submit(tr_gain(0.5f), on(22, 2));
        submit(tr_gain(0.0f), on(23, 0));
        submit(tr_stop(), on(23, 2));
        break;
    }
}

/* Plays the walk live. */
static void live(void)
{
    static float out[2 * BLOCK];
    need(tr_start_capture(&t));
    for (int bar = 0; bar < BARS; bar += 1) {
        begin(bar);
        for (int block = 0; block < BAR / BLOCK; block += 1) {
            play_wav(out, LEN(out));
        }
    }
}

/* Saves what was captured. */
static void save(FILE *tour)
{
    size_t count, length;
    need(tr_stop_capture(&t, list, LEN(list), &count));
    need(tr_write_tour(clips, list, count * THRESHREED_WORDS, bytes, LEN(bytes), &length, NULL));
    fwrite(bytes, 1, length, tour);
    printf("saved: %zu commands in %zu bytes, peak %.6f\n", count, length, (double)peak);
}

/* Reads what was saved, or what remains of it. */
static size_t restore(FILE *tour)
{
    static uint8_t fresh[THRESHREED_SALVAGE_BYTES(sizeof bytes)];
    static uint64_t ranges[THRESHREED_SALVAGE_WORDS(sizeof bytes)];
    size_t length = fread(bytes, 1, LEN(bytes), tour), count;
    ThreshreedSalvage told;
    uint32_t refusal = tr_read_tour(clips, bytes, length, list, LEN(list), &count, NULL);
    if (refusal != 0) {
        need(tr_salvage(bytes, length, fresh, LEN(fresh), ranges, LEN(ranges), &told));
        need(tr_read_tour(clips, fresh, told.bytes, list, LEN(list), &count, NULL));
        printf("saved: %s, %zu commands remain\n", threshreed_refusal(refusal), count);
    }
    return count;
}

/* Plays what was saved. */
static void again(FILE *tour)
{
    static const size_t lengths[] = {1, 37, 512, 4096};
    static float out[2 * 4096];
    size_t count = restore(tour);
    ThreshreedReport report;
    need(tr_replay(&t, list, count * THRESHREED_WORDS, &report));
    if (report.taken != count || report.full != 0 || report.skipped != 0) {
        fputs("not all of it was taken\n", stderr);
        exit(1);
    }
    for (size_t left = BARS * BAR, n = 0; left > 0; n += 1) {
        size_t frames = lengths[n % LEN(lengths)];
        frames = frames < left ? frames : left;
        play_wav(out, 2 * frames);
        left -= frames;
    }
    printf("saved: %zu commands played again, peak %.6f\n", count, (double)peak);
}

int main(int count, char **arguments)
{
    if (count < 3) {
        fputs("saved TOUR WAV [again]\n", stderr);
        return 2;
    }
    bool replayed = count > 3;
    FILE *tour = fopen(arguments[1], replayed ? "rb" : "wb");
    if (tour == NULL) {
        perror(arguments[1]);
        return 1;
    }
    open_rooms();
    open_wav(arguments[2], BARS * BAR);
    if (replayed) {
        again(tour);
    } else {
        live();
        save(tour);
    }
    close_wav(arguments[2]);
    if (ferror(tour) || fclose(tour) != 0) {
        perror(arguments[1]);
        return 1;
    }
    return 0;
}
