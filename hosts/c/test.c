/* The header's own part: the session and the stores that it keeps, what it reads, the refusals' words, NULL where
 * nothing is lent or wanted; files of tours, each refusal by its number and its place; what is salvaged of them; and
 * what they do without their sound. */
#include <math.h>
#include <stdio.h>
#include <stdlib.h>

#include "threshreed.h"

#define LEN(array) (sizeof(array) / sizeof(array)[0])
#define EXPECT(fact) expect(fact, #fact, __LINE__)

static int expected;

static void expect(bool holds, const char *fact, int line)
{
    if (!holds) {
        fprintf(stderr, "test.c:%d: not so: %s\n", line, fact);
        exit(1);
    }
    expected += 1;
}

static const float pair[] = {0.5f, -0.5f, 0.25f, 0.25f};
static const float seven[7];
static const float old[] = {0.7f, -0.1f, 0.9f, 0.6f};

/* There is no session that is well formed: each call but an opening is refused with 1. */
static void expect_none(Threshreed *t)
{
    const ThreshreedHandle clip = {0, 1};
    const ThreshreedSnapshot start = {0, THRESHREED_STOPPED, 1.0f, {0, 0, 0}};
    ThreshreedRing ring = {0, 0};
    float out[2], store[3];
    EXPECT(tr_load_song(t, pair, LEN(pair), 48000, 2, NULL) == THRESHREED_NOT_WELL_FORMED);
    EXPECT(tr_load_stinger(t, pair, LEN(pair), 48000, NULL) == THRESHREED_NOT_WELL_FORMED);
    EXPECT(tr_retire(t, clip) == THRESHREED_NOT_WELL_FORMED);
    EXPECT(tr_submit(t, tr_play(), tr_now()) == THRESHREED_NOT_WELL_FORMED);
    EXPECT(tr_transition(t, 0, tr_now()) == THRESHREED_NOT_WELL_FORMED);
    EXPECT(tr_replay(t, NULL, 0, NULL) == THRESHREED_NOT_WELL_FORMED);
    EXPECT(tr_block(t, out, LEN(out), NULL) == THRESHREED_NOT_WELL_FORMED);
    EXPECT(tr_pump(t, &ring, store, LEN(store), 1, NULL, NULL) == THRESHREED_NOT_WELL_FORMED);
    EXPECT(tr_start_capture(t) == THRESHREED_NOT_WELL_FORMED);
    EXPECT(tr_stop_capture(t, NULL, 0, NULL) == THRESHREED_NOT_WELL_FORMED);
    EXPECT(tr_snapshot(t, NULL) == THRESHREED_NOT_WELL_FORMED);
    EXPECT(tr_apply_snapshot(t, start) == THRESHREED_NOT_WELL_FORMED);
    EXPECT(tr_metrics(t, NULL) == THRESHREED_NOT_WELL_FORMED);
}

/* A host with all that is its own. */
typedef struct {
    Threshreed t;
    uint64_t queue[4 * THRESHREED_WORDS], capture[2 * THRESHREED_WORDS];
    float pool[2 * 8], out[2 * 2];
} Host;

static void lend(Host *h)
{
    memset(h, 0, sizeof *h);
    tr_lend(&h->t, h->queue, LEN(h->queue), h->capture, LEN(h->capture), h->pool, LEN(h->pool));
}

/* One frame of the pair has sounded, a ride is on its way and a stop is queued. */
static void play(Host *h)
{
    lend(h);
    EXPECT(tr_open(&h->t, 48000, pair, LEN(pair), 48000, 8) == 0);
    EXPECT(tr_submit(&h->t, tr_play(), tr_now()) == 0 && tr_submit(&h->t, tr_gain(0.5f), tr_now()) == 0);
    EXPECT(tr_submit(&h->t, tr_stop(), tr_at_clock(2)) == 0 && tr_block(&h->t, h->out, 2, NULL) == 0);
}

/* The same session in every field; the bytes between fields are nobody's. */
static bool same(const ThreshreedSession *a, const ThreshreedSession *b)
{
#define SAME(field) (memcmp(&a->field, &b->field, sizeof a->field) == 0)
    for (int i = 0; i < THRESHREED_SLOTS; i += 1) {
        if (!(SAME(clips[i].serial) && SAME(clips[i].kind) && SAME(clips[i].extent) && SAME(clips[i].start) &&
              SAME(clips[i].frames) && SAME(clips[i].rate))) {
            return false;
        }
    }
    return SAME(settings) && SAME(used) && SAME(last) && SAME(clock) && SAME(state) && SAME(position) &&
           SAME(cursor) && SAME(looped.set) && SAME(looped.start) && SAME(looped.end) && SAME(laps) && SAME(song) &&
           SAME(master) && SAME(tail.sounding) && SAME(tail.song) && SAME(tail.cursor) && SAME(tail.weight) &&
           SAME(voices) && SAME(counters) && SAME(queued) && SAME(number) && SAME(deepest) && SAME(dropped) &&
           SAME(capturing) && SAME(captured);
#undef SAME
}

/* The same session and the same stores. */
static bool unchanged(const Host *a, const Host *b)
{
    return same(&a->t.session, &b->t.session) && memcmp(a->queue, b->queue, sizeof a->queue) == 0 &&
           memcmp(a->capture, b->capture, sizeof a->capture) == 0 && memcmp(a->pool, b->pool, sizeof a->pool) == 0;
}

/* A refused opening leaves things as they were: without a session, or with the one that plays. */
static void refused_openings(void)
{
    static Host host, before, other;
    lend(&host);
    expect_none(&host.t);
    lend(&host);
    memcpy(&before, &host, sizeof host);
    EXPECT(tr_open(&host.t, 48000, seven, LEN(seven), 48000, 8) == THRESHREED_ODD_SAMPLES);
    EXPECT(memcmp(&before, &host, sizeof host) == 0);
    expect_none(&host.t);

    play(&host);
    play(&other);
    memcpy(&before, &host, sizeof host);
    EXPECT(tr_open(&host.t, 48000, seven, LEN(seven), 48000, 8) == THRESHREED_ODD_SAMPLES);
    EXPECT(unchanged(&before, &host));
    EXPECT(tr_block(&host.t, host.out, LEN(host.out), NULL) == 0);
    EXPECT(tr_block(&other.t, other.out, LEN(other.out), NULL) == 0);
    EXPECT(memcmp(host.out, other.out, sizeof host.out) == 0 && host.out[0] > 0.2f && host.out[2] == 0.0f);
    EXPECT(same(&host.t.session, &other.t.session) && tr_clock(&host.t) == 3);
}

/* A list's length is in words: a remainder is not looked at, and not written. */
static void lists_in_words(void)
{
    uint64_t list[] = {99, 99, 99, 99, 99, 99, 99};
    ThreshreedReport report;
    size_t copied = 99;
    static Host host;
    play(&host);
    EXPECT(tr_start_capture(&host.t) == 0 && tr_submit(&host.t, tr_pause(), tr_now()) == 0);
    EXPECT(tr_stop_capture(&host.t, list, 4, &copied) == THRESHREED_LIST_TOO_SHORT && copied == 99);
    EXPECT(host.t.session.capturing == 1 && host.t.session.captured == 1);
    EXPECT(tr_stop_capture(&host.t, list, LEN(list), &copied) == 0 && copied == 1);
    EXPECT(list[1] == 4 && list[2] == THRESHREED_PAUSE && list[5] == 99 && list[6] == 99);
    EXPECT(tr_replay(&host.t, list, 4, &report) == 0 && report.taken == 0 && report.skipped == 0);
    EXPECT(tr_replay(&host.t, list, LEN(list), &report) == 0 && report.taken == 1 && report.skipped == 0);
}

/* A block tells its passes, and the session keeps the laps since its loop was set. */
static void passes_and_laps(void)
{
    float out[2 * 7];
    uint64_t passes = 99;
    ThreshreedSnapshot snapshot;
    ThreshreedHandle hall;
    static Host host;
    lend(&host);
    EXPECT(tr_open(&host.t, 48000, pair, LEN(pair), 48000, 8) == 0 && tr_laps(&host.t) == 0);
    EXPECT(tr_load_song(&host.t, pair, LEN(pair), 48000, 8, &hall) == 0);
    EXPECT(tr_submit(&host.t, tr_loop(0, 2), tr_now()) == 0 && tr_submit(&host.t, tr_play(), tr_now()) == 0);
    EXPECT(tr_block(&host.t, out, 3, &passes) == THRESHREED_ODD_SAMPLES && passes == 99);
    EXPECT(tr_block(&host.t, out, LEN(out), &passes) == 0 && passes == 3 && tr_laps(&host.t) == 3);
    EXPECT(tr_block(&host.t, NULL, 8, &passes) == 0 && passes == 0 && tr_laps(&host.t) == 3);
    EXPECT(tr_block(&host.t, out, 2, NULL) == 0 && tr_laps(&host.t) == 4);

    /* From 3 to 1 by rule a, and in the same frame to 0 by rule b. A loop past the length is not set. */
    EXPECT(tr_submit(&host.t, tr_seek(3), tr_now()) == 0 && tr_submit(&host.t, tr_loop(0, 9), tr_now()) == 0);
    EXPECT(tr_block(&host.t, out, 2, &passes) == 0 && passes == 2 && tr_laps(&host.t) == 6);

    /* A loop, a cleared loop, a swap and a snapshot set the laps back; the block tells the passes before it too. */
    EXPECT(tr_submit(&host.t, tr_loop(0, 1), tr_at_clock(11)) == 0);
    EXPECT(tr_block(&host.t, out, 2 * 3, &passes) == 0 && passes == 2 && tr_laps(&host.t) == 1);
    EXPECT(tr_submit(&host.t, tr_clear_loop(), tr_at_clock(13)) == 0);
    EXPECT(tr_block(&host.t, out, 2 * 2, &passes) == 0 && passes == 1 && tr_laps(&host.t) == 0);
    EXPECT(tr_submit(&host.t, tr_loop(0, 1), tr_now()) == 0 && tr_block(&host.t, out, 2 * 2, NULL) == 0);
    EXPECT(tr_laps(&host.t) == 3 && tr_snapshot(&host.t, &snapshot) == 0);
    EXPECT(tr_apply_snapshot(&host.t, snapshot) == 0 && tr_laps(&host.t) == 0);
    EXPECT(tr_submit(&host.t, tr_swap(hall), tr_at_clock(17)) == 0);
    EXPECT(tr_block(&host.t, out, 2 * 3, &passes) == 0 && passes == 1 && tr_laps(&host.t) == 0);

    /* At 2^64 - 1 they stop; a block tells its passes. */
    EXPECT(tr_submit(&host.t, tr_loop(0, 8), tr_now()) == 0 && tr_submit(&host.t, tr_seek(7), tr_now()) == 0);
    EXPECT(tr_block(&host.t, out, 2, NULL) == 0 && tr_laps(&host.t) == 1);
    host.t.session.laps = UINT64_MAX;
    EXPECT(tr_submit(&host.t, tr_seek(7), tr_now()) == 0 && tr_block(&host.t, out, 2, &passes) == 0 && passes == 1);
    EXPECT(tr_laps(&host.t) == UINT64_MAX);
}

/* A swap from the old song to a silent one, while the master rests at 0.3: in a mode, in blocks of so many samples. */
static void swap_under(Host *h, uint32_t mode, size_t samples)
{
    static const float silent[2];
    ThreshreedSnapshot low;
    ThreshreedHandle hall;
    lend(h);
    EXPECT(tr_open_in(&h->t, mode, 48000, old, LEN(old), 48000, 8) == 0 && tr_mode(&h->t) == mode);
    EXPECT(tr_load_song(&h->t, silent, LEN(silent), 48000, 8, &hall) == 0 && tr_snapshot(&h->t, &low) == 0);
    low.gain = 0.3f;
    EXPECT(tr_apply_snapshot(&h->t, low) == 0 && tr_submit(&h->t, tr_swap(hall), tr_now()) == 0);
    for (size_t i = 0; i < LEN(h->out); i += samples) {
        EXPECT(tr_block(&h->t, h->out + i, samples, NULL) == 0);
    }
}

/* A tail as tono and in house mode; a mode that is unknown, at opening and in a session. */
static void modes(void)
{
    static Host host, cut, before;
    for (uint32_t mode = THRESHREED_AS_TONO; mode <= THRESHREED_HOUSE; mode += 1) {
        swap_under(&host, mode, LEN(host.out));
        for (size_t i = 0; i < LEN(old); i += 1) {
            float weight = (float)(1023 - i / 2) / 1024.0f;
            float tail = mode == THRESHREED_HOUSE ? old[i] * 0.3f : old[i];
            EXPECT(host.out[i] == tail * weight);
        }
        swap_under(&cut, mode, 2);
        EXPECT(memcmp(host.out, cut.out, sizeof host.out) == 0 && same(&host.t.session, &cut.t.session));
    }

    /* 7 comes before the odd samples' 3. */
    memcpy(&before, &host, sizeof host);
    EXPECT(tr_open_in(&host.t, 2, 48000, pair, LEN(pair), 48000, 8) == THRESHREED_OUT_OF_RANGE);
    EXPECT(tr_open_in(&host.t, UINT32_MAX, 48000, seven, LEN(seven), 48000, 8) == THRESHREED_OUT_OF_RANGE);
    EXPECT(tr_open_in(&host.t, THRESHREED_HOUSE, 48000, seven, LEN(seven), 48000, 8) == THRESHREED_ODD_SAMPLES);
    EXPECT(unchanged(&before, &host) && tr_mode(&host.t) == THRESHREED_HOUSE);

    host.t.session.settings.mode = 2;
    memcpy(&before, &host, sizeof host);
    expect_none(&host.t);
    EXPECT(unchanged(&before, &host));
}

/* Loop 10..14 and position 27, of a song whose frame i sounds as i: which frames sound as tono and in house mode. */
static void past_its_loop(void)
{
    static const float heard[][5] = {{10, 11, 12, 10, 11}, {11, 12, 13, 10, 11}};
    static uint64_t queue[4 * THRESHREED_WORDS];
    static float song[2 * 16], pool[2 * 16], out[2 * 5];
    uint64_t passes;
    Threshreed t;
    for (size_t i = 0; i < LEN(song); i += 1) {
        song[i] = (float)(i / 2);
    }
    for (uint32_t mode = THRESHREED_AS_TONO; mode <= THRESHREED_HOUSE; mode += 1) {
        tr_lend(&t, queue, LEN(queue), NULL, 0, pool, LEN(pool));
        EXPECT(tr_open_in(&t, mode, 48000, song, LEN(song), 48000, 32) == 0);
        EXPECT(tr_submit(&t, tr_loop(10, 14), tr_now()) == 0 && tr_submit(&t, tr_seek(27), tr_now()) == 0);
        EXPECT(tr_submit(&t, tr_play(), tr_now()) == 0 && tr_block(&t, out, LEN(out), &passes) == 0);
        for (size_t i = 0; i < LEN(out); i += 1) {
            EXPECT(out[i] == heard[mode][i / 2]);
        }
        EXPECT(tr_position(&t) == 12 && passes == 2);
    }
}

/* A song of length eight plays in a loop of one frame, which has come round twice; a ride is on its way. */
static void go_round(Host *h, uint32_t mode)
{
    lend(h);
    EXPECT(tr_open_in(&h->t, mode, 48000, pair, LEN(pair), 48000, 8) == 0);
    EXPECT(tr_submit(&h->t, tr_loop(0, 1), tr_now()) == 0 && tr_submit(&h->t, tr_play(), tr_now()) == 0);
    EXPECT(tr_submit(&h->t, tr_gain(0.5f), tr_now()) == 0);
    EXPECT(tr_block(&h->t, h->out, LEN(h->out), NULL) == 0 && tr_laps(&h->t) == 2);
}

/* The same session, and after the next block the same sound. */
static void expect_same(Host *a, Host *b)
{
    EXPECT(same(&a->t.session, &b->t.session));
    EXPECT(tr_block(&a->t, a->out, LEN(a->out), NULL) == 0 && tr_block(&b->t, b->out, LEN(b->out), NULL) == 0);
    EXPECT(memcmp(a->out, b->out, sizeof a->out) == 0 && same(&a->t.session, &b->t.session));
}

/* Snapshots one after the other, as an undo button applies them. */
static void undo(void)
{
    static const ThreshreedSnapshot s = {5, THRESHREED_PAUSED, 0.25f, {1, 3, 5}};
    static const ThreshreedSnapshot t = {1, THRESHREED_PLAYING, 0.75f, {1, 0, 8}};
    static Host host, other;
    for (uint32_t mode = THRESHREED_AS_TONO; mode <= THRESHREED_HOUSE; mode += 1) {
        ThreshreedSnapshot past = t;
        go_round(&host, mode);
        go_round(&other, mode);
        EXPECT(tr_apply_snapshot(&host.t, s) == 0 && tr_apply_snapshot(&host.t, s) == 0);
        EXPECT(tr_apply_snapshot(&other.t, s) == 0);
        expect_same(&host, &other);

        go_round(&host, mode);
        go_round(&other, mode);
        EXPECT(tr_apply_snapshot(&host.t, s) == 0 && tr_apply_snapshot(&host.t, t) == 0);
        EXPECT(tr_apply_snapshot(&other.t, t) == 0);
        expect_same(&host, &other);

        /* A loop past the length: the one before it remains, and all else is the last one's. */
        go_round(&host, mode);
        past.looped.end = 9;
        EXPECT(tr_apply_snapshot(&host.t, past) == 0);
        EXPECT(tr_loop_range(&host.t).end == 1 && tr_laps(&host.t) == 2);
        EXPECT(tr_apply_snapshot(&host.t, s) == 0 && tr_apply_snapshot(&host.t, past) == 0);
        EXPECT(tr_loop_range(&host.t).end == 5 && tr_laps(&host.t) == 0);
        go_round(&other, mode);
        past.looped = s.looped;
        EXPECT(tr_apply_snapshot(&other.t, past) == 0);
        expect_same(&host, &other);
    }
}

/* A block of a host, into its own output. */
static uint64_t block(Host *h)
{
    uint64_t passes;
    EXPECT(tr_block(&h->t, h->out, LEN(h->out), &passes) == 0);
    return passes;
}

/* The same session, the same stores and the same sound. */
static bool alike(const Host *a, const Host *b)
{
    return unchanged(a, b) && memcmp(a->out, b->out, sizeof a->out) == 0;
}

/* A load and a retirement before a block and after it. */
static void between_blocks(void)
{
    static Host host, other;
    ThreshreedHandle clip, its, bell;
    for (uint32_t mode = THRESHREED_AS_TONO; mode <= THRESHREED_HOUSE; mode += 1) {
        go_round(&host, mode);
        go_round(&other, mode);
        EXPECT(tr_load_song(&host.t, old, LEN(old), 48000, 2, &clip) == 0 && block(&host) == 2);
        EXPECT(block(&other) == 2 && tr_load_song(&other.t, old, LEN(old), 48000, 2, &its) == 0);
        EXPECT(clip.slot == its.slot && clip.serial == its.serial && alike(&host, &other));

        EXPECT(tr_retire(&host.t, clip) == 0 && block(&host) == 2);
        EXPECT(block(&other) == 2 && tr_retire(&other.t, clip) == 0);
        EXPECT(alike(&host, &other));

        /* A load that is refused, and a block that is. */
        EXPECT(tr_load_song(&host.t, seven, LEN(seven), 48000, 4, NULL) == THRESHREED_ODD_SAMPLES);
        EXPECT(block(&host) == 2 && block(&other) == 2);
        EXPECT(tr_load_song(&other.t, seven, LEN(seven), 48000, 4, NULL) == THRESHREED_ODD_SAMPLES);
        EXPECT(alike(&host, &other));
        EXPECT(tr_load_song(&host.t, old, LEN(old), 48000, 2, NULL) == 0);
        EXPECT(tr_block(&host.t, host.out, 3, NULL) == THRESHREED_ODD_SAMPLES);
        EXPECT(tr_block(&other.t, other.out, 3, NULL) == THRESHREED_ODD_SAMPLES);
        EXPECT(tr_load_song(&other.t, old, LEN(old), 48000, 2, NULL) == 0);
        EXPECT(alike(&host, &other));

        /* Its last frame is in the block: before it, it is held, and goes after it alone. */
        EXPECT(tr_load_stinger(&host.t, old, LEN(old), 48000, &bell) == 0);
        EXPECT(tr_load_stinger(&other.t, old, LEN(old), 48000, &its) == 0);
        EXPECT(tr_submit(&host.t, tr_stinger(bell, 1.0f), tr_now()) == 0);
        EXPECT(tr_submit(&other.t, tr_stinger(its, 1.0f), tr_now()) == 0);
        EXPECT(tr_retire(&host.t, bell) == THRESHREED_HELD && block(&host) == 2);
        EXPECT(block(&other) == 2 && tr_retire(&other.t, bell) == 0);
        EXPECT(memcmp(host.out, other.out, sizeof host.out) == 0 && !alike(&host, &other));

        /* The first of two loads takes the lower slot, whichever it is. */
        go_round(&host, mode);
        go_round(&other, mode);
        EXPECT(tr_load_song(&host.t, old, LEN(old), 48000, 2, &clip) == 0);
        EXPECT(tr_load_song(&host.t, pair, LEN(pair), 48000, 2, NULL) == 0);
        EXPECT(tr_load_song(&other.t, pair, LEN(pair), 48000, 2, &its) == 0);
        EXPECT(tr_load_song(&other.t, old, LEN(old), 48000, 2, NULL) == 0);
        EXPECT(clip.slot == its.slot && clip.serial == its.serial && !alike(&host, &other));
    }
}

static bool stands(ThreshreedRing ring, size_t head, size_t tail)
{
    return ring.head == head && ring.tail == tail;
}

/* Each sample has these bits. */
static bool filled(const float *samples, size_t count, float with)
{
    for (size_t i = 0; i < count; i += 1) {
        if (memcmp(&samples[i], &with, sizeof with) != 0) {
            return false;
        }
    }
    return true;
}

/* Portions through a ring of three frames, some of which lie over its end, are heard as one block. */
static void portions(uint32_t mode)
{
    static Host host, other;
    float store[7], out[5], whole[2 * 20], heard[2 * 20];
    ThreshreedRing ring = {0, 0};
    size_t made, taken, pumped = 0, drained = 0;
    uint64_t passes, all = 0;
    go_round(&host, mode);
    go_round(&other, mode);
    EXPECT(tr_block(&other.t, whole, LEN(whole), &passes) == 0 && passes == 20);
    while (drained < 20) {
        EXPECT(tr_pump(&host.t, &ring, store, LEN(store), 20 - pumped, &made, &passes) == 0 && made == passes);
        pumped += made;
        all += passes;
        EXPECT(tr_drain(&ring, store, LEN(store), out, LEN(out), &taken) == 0 && 0 < taken && taken <= 2);
        EXPECT(filled(out + 2 * taken, LEN(out) - 2 * taken, 0.0f));
        memcpy(heard + 2 * drained, out, 2 * taken * sizeof *out);
        drained += taken;
    }
    EXPECT(pumped == 20 && all == 20 && memcmp(heard, whole, sizeof whole) == 0 && unchanged(&host, &other));
}

/* A pump that is refused: the host, the ring, the store and the results are as they were. */
static uint32_t refused_pump(Host *h, ThreshreedRing ring, float *store, size_t samples)
{
    static Host before;
    const ThreshreedRing was = ring;
    size_t made = 99;
    uint64_t passes = 99;
    memcpy(&before, h, sizeof before);
    for (size_t i = 0; i < samples; i += 1) {
        store[i] = 9.0f;
    }
    uint32_t refusal = tr_pump(&h->t, &ring, store, samples, 1, &made, &passes);
    EXPECT(refusal != 0 && made == 99 && passes == 99 && stands(ring, was.head, was.tail));
    EXPECT(filled(store, samples, 9.0f) && unchanged(&before, h));
    return refusal;
}

/* A drain that is refused, likewise. */
static uint32_t refused_drain(ThreshreedRing ring, const float *store, size_t samples)
{
    const ThreshreedRing was = ring;
    float out[] = {9.0f, 9.0f};
    size_t taken = 99;
    uint32_t refusal = tr_drain(&ring, store, samples, out, LEN(out), &taken);
    EXPECT(refusal != 0 && taken == 99 && stands(ring, was.head, was.tail) && filled(out, LEN(out), 9.0f));
    return refusal;
}

/* What a ring refuses: after 1, before 2 and 4, which are as for a block of the frames made. */
static void refused_rings(void)
{
    static const struct {
        size_t samples;
        ThreshreedRing ring;
    } bad[] = {{2, {0, 0}}, {65537, {0, 0}}, {3, {3, 0}}, {3, {0, 3}}, {65536, {65536, 0}}, {65536, {0, SIZE_MAX}}};
    static const ThreshreedRing empty = {1, 1}, full = {2, 1};
    static float store[65537];
    static Host host, spoiled, small, spent;
    play(&host);
    play(&spoiled);
    play(&small);
    play(&spent);
    spoiled.t.session.state = 3;
    small.t.pool_len -= 2;
    spent.t.session.clock = UINT64_C(1) << 62;
    for (size_t i = 0; i < LEN(bad); i += 1) {
        EXPECT(refused_pump(&host, bad[i].ring, store, bad[i].samples) == THRESHREED_BAD_RING);
        EXPECT(refused_pump(&spoiled, bad[i].ring, store, bad[i].samples) == THRESHREED_NOT_WELL_FORMED);
        EXPECT(refused_pump(&small, bad[i].ring, store, bad[i].samples) == THRESHREED_BAD_RING);
        EXPECT(refused_pump(&spent, bad[i].ring, store, bad[i].samples) == THRESHREED_BAD_RING);
        EXPECT(refused_drain(bad[i].ring, store, bad[i].samples) == THRESHREED_BAD_RING);
    }
    EXPECT(refused_pump(&host, empty, NULL, 0) == THRESHREED_BAD_RING);
    EXPECT(refused_drain(empty, NULL, 3) == THRESHREED_BAD_RING);
    EXPECT(refused_pump(&small, empty, store, 3) == THRESHREED_POOL_LENGTH);
    EXPECT(refused_pump(&small, full, store, 3) == THRESHREED_POOL_LENGTH);
    EXPECT(refused_pump(&spent, empty, store, 3) == THRESHREED_CLOCK_SPENT);
    EXPECT(refused_pump(&spoiled, empty, store, 3) == THRESHREED_NOT_WELL_FORMED);
}

/* What a ring makes and takes. */
static void rings(void)
{
    static float store[65536];
    static Host host;
    const float three[] = {0.1f, 0.2f, 0.3f, 0.4f, 0.5f};
    ThreshreedRing ring = {0, 0};
    float out[5];
    size_t made, taken;
    portions(THRESHREED_AS_TONO);
    portions(THRESHREED_HOUSE);
    refused_rings();

    /* The least store and the largest; a full ring makes no frame, and is not refused at the clock's end. */
    play(&host);
    EXPECT(tr_pump(&host.t, &ring, store, 3, SIZE_MAX, &made, NULL) == 0 && made == 1 && stands(ring, 0, 2));
    host.t.session.clock = UINT64_C(1) << 62;
    EXPECT(tr_pump(&host.t, &ring, store, 3, SIZE_MAX, &made, NULL) == 0 && made == 0 && stands(ring, 0, 2));
    host.t.session.clock -= 40000;
    ring.head = ring.tail = 65535;
    EXPECT(tr_pump(&host.t, &ring, store, LEN(store), 40000, &made, NULL) == 0 && made == 32767);
    EXPECT(stands(ring, 65535, 65533));

    /* An underrun is silence and takes nothing. Three samples can wait by hand alone: one stays behind. */
    ring.head = ring.tail;
    EXPECT(tr_drain(&ring, store, LEN(store), out, LEN(out), &taken) == 0 && taken == 0 && filled(out, LEN(out), 0.0f));
    ring = (ThreshreedRing){3, 1};
    EXPECT(tr_drain(&ring, three, LEN(three), out, LEN(out), &taken) == 0 && taken == 1 && stands(ring, 0, 1));
    EXPECT(out[0] == 0.4f && out[1] == 0.5f && filled(out + 2, 3, 0.0f));
    EXPECT(tr_drain(&ring, three, LEN(three), out, LEN(out), NULL) == 0 && stands(ring, 0, 1));
    EXPECT(filled(out, LEN(out), 0.0f));
    EXPECT(tr_drain(&ring, three, LEN(three), NULL, 8, &taken) == 0 && taken == 0 && stands(ring, 0, 1));
}

/* ---- files of tours */

enum { COMMANDS = 4096, BYTES = THRESHREED_TOUR_BYTES(COMMANDS + 1) };

/* A file's fields, where `number` and `count` are one byte of the whole. The commands are due at frame 7. */
#define VERSION "\1\2\0\1\0"
#define COUNT(count) "\3\2\0" count "\0"
#define COMMAND(length, number, kind) "\2" length "\0\7\0\0\0\0\0\0\0" number "\0\0\0\0\0\0\0" kind
#define PLAY(number) COMMAND("\x11", number, "\1")
#define SWAP(number, clip) COMMAND("\x12", number, "\x9" clip)
#define STINGER(number, clip) COMMAND("\x16", number, "\xA" clip "\0\0\0\0")

/* The only clip that these files list, as byte 3. */
static const ThreshreedHandle listed[THRESHREED_SLOTS] = {[3] = {30, 7}};

/* Small files, and what the reader answers: 0 or a number, and how many records or a place. */
static const struct {
    const char *file;
    size_t bytes;
    uint32_t refusal;
    size_t told;
} small[] = {
#define SMALL(file, refusal, told) {file, sizeof file - 1, refusal, told}
    SMALL("", THRESHREED_CUT_SHORT, 0),
    SMALL("\x9", THRESHREED_CUT_SHORT, 0),
    SMALL("\x9\0\0", THRESHREED_WRONG_FIRST_TAG, 0),
    SMALL("\x80\0\0", THRESHREED_WRONG_FIRST_TAG, 0),
    SMALL("\x80\x14\0" PLAY("\5") COUNT("\1"), THRESHREED_WRONG_FIRST_TAG, 0),
    SMALL(VERSION, THRESHREED_CUT_SHORT, 5),
    SMALL(VERSION PLAY("\5"), THRESHREED_CUT_SHORT, 25),
    SMALL("\1\2\0\2\0", THRESHREED_OTHER_VERSION, 0),
    SMALL("\1\3\0\1\0\0", THRESHREED_WRONG_LENGTH, 0),
    SMALL(VERSION VERSION, THRESHREED_UNKNOWN_TAG, 5),
    SMALL(VERSION "\x7F\0\0" COUNT("\0"), THRESHREED_UNKNOWN_TAG, 5),
    SMALL(VERSION COUNT("\0"), 0, 0),
    SMALL(VERSION "\x80\0\0" COUNT("\0"), 0, 0),
    SMALL(VERSION "\xFF\2\0\7\7" PLAY("\0") "\x80\0\0" PLAY("\1") COUNT("\2"), 0, 2),
    SMALL(VERSION COUNT("\1"), THRESHREED_WRONG_COUNT, 5),
    SMALL(VERSION COUNT("\1") "\0", THRESHREED_WRONG_COUNT, 5),
    SMALL(VERSION COUNT("\0") "\0", THRESHREED_BYTES_AFTER_END, 5),
    SMALL(VERSION COUNT("\0") COUNT("\0"), THRESHREED_BYTES_AFTER_END, 5),
    SMALL(VERSION PLAY("\5") PLAY("\5") COUNT("\2"), THRESHREED_NOT_RISING, 25),
    SMALL(VERSION PLAY("\5") SWAP("\5", "\4") COUNT("\2"), THRESHREED_NOT_LISTED, 25),
    SMALL(VERSION COMMAND("\x11", "\1", "\xB") COUNT("\1"), THRESHREED_UNKNOWN_KIND, 5),
    SMALL(VERSION COMMAND("\x12", "\1", "\0\0") COUNT("\1"), THRESHREED_UNKNOWN_KIND, 5),
    SMALL(VERSION COMMAND("\x12", "\1", "\1\0") COUNT("\1"), THRESHREED_WRONG_LENGTH, 5),
    SMALL(VERSION "\2\0\0" COUNT("\1"), THRESHREED_WRONG_LENGTH, 5),
    SMALL(VERSION SWAP("\1", "\3") COUNT("\1"), 0, 1),
    SMALL(VERSION SWAP("\1", "\4") COUNT("\1"), THRESHREED_NOT_LISTED, 5),
    SMALL(VERSION SWAP("\1", "\x20") COUNT("\1"), THRESHREED_NOT_LISTED, 5),
#undef SMALL
};

/* One of every kind: a gain of a NaN's bits, clip 3 of those listed. What a kind does not use is 0. */
static const uint64_t kinds[][THRESHREED_WORDS] = {
    {9, 0, THRESHREED_PLAY, 0, 0},
    {8, 1, THRESHREED_PAUSE, 0, 0},
    {7, 2, THRESHREED_STOP, 0, 0},
    {7, 5, THRESHREED_SEEK, UINT64_MAX, 0},
    {UINT64_MAX, 6, THRESHREED_TRANSITION, 1, 0},
    {0, 7, THRESHREED_LOOP, 5, 5},
    {0, 8, THRESHREED_CLEAR_LOOP, 0, 0},
    {0, 9, THRESHREED_GAIN, 0x7F800001, 0},
    {0, 10, THRESHREED_SWAP, UINT64_C(30) << 32 | 7, 0},
    {0, UINT64_MAX, THRESHREED_STINGER, UINT64_C(30) << 32 | 7, 0xFFFFFFFF},
};

enum { KINDS = 4 * 20 + 2 * 28 + 36 + 24 + 21 + 25 + 10 };

/* Each of so many words. */
static bool filled_words(const uint64_t *words, size_t count, uint64_t with)
{
    for (size_t i = 0; i < count; i += 1) {
        if (words[i] != with) {
            return false;
        }
    }
    return true;
}

static bool filled_bytes(const uint8_t *bytes, size_t count, uint8_t with)
{
    for (size_t i = 0; i < count; i += 1) {
        if (bytes[i] != with) {
            return false;
        }
    }
    return true;
}

/* A reading into a list of so many words: 0 or a number, with how many records or the place in `told`. A refused one
 * leaves the list, and an accepted one what stands behind its records. */
static uint32_t reading(const ThreshreedHandle *clips, const uint8_t *file, size_t bytes, size_t words, size_t *told)
{
    static uint64_t list[COMMANDS * THRESHREED_WORDS];
    size_t records = 99999, place = 99999;
    memset(list, 9, sizeof list);
    uint32_t refusal = tr_read_tour(clips, file, bytes, list, words, &records, &place);
    size_t written = refusal == 0 ? records * THRESHREED_WORDS : 0;
    EXPECT((refusal == 0 ? place : records) == 99999 && written <= words);
    EXPECT(filled_words(list + written, LEN(list) - written, UINT64_C(0x0909090909090909)));
    *told = refusal == 0 ? records : place;
    return refusal;
}

/* A writing to an output of so many bytes, likewise. */
static uint32_t writing(const ThreshreedHandle *clips, const uint64_t *records, size_t words, size_t bytes,
                        size_t *told)
{
    static uint8_t out[BYTES];
    size_t length = 999999, place = 999999;
    memset(out, 9, sizeof out);
    uint32_t refusal = tr_write_tour(clips, records, words, out, bytes, &length, &place);
    size_t written = refusal == 0 ? length : 0;
    EXPECT((refusal == 0 ? place : length) == 999999 && written <= bytes);
    EXPECT(filled_bytes(out + written, LEN(out) - written, 9));
    *told = refusal == 0 ? length : place;
    return refusal;
}

/* What the reader answers, by number and place. */
static void refused_files(void)
{
    static uint8_t large[BYTES];
    ThreshreedHandle twice[THRESHREED_SLOTS];
    uint64_t list[THRESHREED_WORDS];
    size_t told;
    memcpy(twice, listed, sizeof twice);
    twice[31] = twice[3];
    for (size_t i = 0; i < LEN(small); i += 1) {
        const uint8_t *file = (const uint8_t *)small[i].file;
        EXPECT(reading(listed, file, small[i].bytes, 10, &told) == small[i].refusal && told == small[i].told);
        EXPECT(reading(twice, file, small[i].bytes, 10, &told) == THRESHREED_LISTED_TWICE && told == 0);
    }
    EXPECT(reading(listed, NULL, 5, 10, &told) == THRESHREED_CUT_SHORT && told == 0);

    /* The list comes last: one word is missing; none is lent. */
    const uint8_t one[] = VERSION SWAP("\1", "\3") COUNT("\1");
    EXPECT(reading(listed, one, sizeof one - 1, 4, &told) == THRESHREED_RECORDS_TOO_SHORT && told == 0);
    EXPECT(reading(NULL, one, sizeof one - 1, 4, &told) == THRESHREED_NOT_LISTED && told == 5);
    EXPECT(tr_read_tour(listed, one, sizeof one - 1, NULL, 5, NULL, NULL) == THRESHREED_RECORDS_TOO_SHORT);
    EXPECT(tr_read_tour(listed, one, sizeof one - 1, list, 5, NULL, NULL) == 0);
    EXPECT(list[0] == 7 && list[1] == 1 && list[2] == 9 && list[3] == (UINT64_C(30) << 32 | 7) && list[4] == 0);

    /* 4,096 commands and one more. */
    size_t at = sizeof VERSION - 1;
    memcpy(large, VERSION, at);
    for (size_t i = 0; i <= COMMANDS; i += 1, at += 20) {
        memcpy(large + at, PLAY("\0"), 20);
        large[at + 11] = (uint8_t)i;
        large[at + 12] = (uint8_t)(i >> 8);
    }
    memcpy(large + at, COUNT("\1"), 5);
    large[at + 4] = COMMANDS >> 8;
    const size_t words = COMMANDS * THRESHREED_WORDS;
    EXPECT(reading(listed, large, at + 5, words, &told) == THRESHREED_TOO_MANY && told == at - 20);
    at -= 20;
    memcpy(large + at, large + at + 20, 5);
    EXPECT(reading(listed, large, at + 5, words, &told) == THRESHREED_WRONG_COUNT && told == at);
    large[at + 3] = 0;
    EXPECT(reading(listed, large, at + 5, words, &told) == 0 && told == COMMANDS);
    EXPECT(reading(listed, large, at + 5, words - 1, &told) == THRESHREED_RECORDS_TOO_SHORT && told == 0);
}

/* What the writer answers, by number and place. */
static void refused_records(void)
{
    static uint64_t many[(COMMANDS + 1) * THRESHREED_WORDS];
    uint64_t records[LEN(kinds)][THRESHREED_WORDS];
    const uint64_t *words = records[0];
    ThreshreedHandle twice[THRESHREED_SLOTS];
    size_t told;
    memcpy(twice, listed, sizeof twice);
    twice[0] = twice[3];
    memcpy(records, kinds, sizeof records);
    EXPECT(writing(listed, words, LEN(records) * 5, KINDS, &told) == 0 && told == KINDS);
    EXPECT(writing(twice, words, LEN(records) * 5, 0, &told) == THRESHREED_LISTED_TWICE && told == 0);
    EXPECT(writing(listed, words, LEN(records) * 5, KINDS - 1, &told) == THRESHREED_OUTPUT_TOO_SHORT && told == 0);
    EXPECT(tr_write_tour(listed, words, LEN(records) * 5, NULL, KINDS, NULL, NULL) == THRESHREED_OUTPUT_TOO_SHORT);
    EXPECT(writing(listed, NULL, 5, 10, &told) == 0 && told == 10);
    EXPECT(writing(NULL, words, LEN(records) * 5, 0, &told) == THRESHREED_NOT_LISTED && told == 8);

    /* From the last fault to the first, of a record and of those before it. */
    records[9][1] = records[8][1];
    EXPECT(writing(listed, words, LEN(records) * 5, 0, &told) == THRESHREED_NOT_RISING && told == 9);
    records[9][3] += 1;
    EXPECT(writing(listed, words, LEN(records) * 5, 0, &told) == THRESHREED_NOT_LISTED && told == 9);
    records[9][4] += 1;
    EXPECT(writing(listed, words, LEN(records) * 5, 0, &told) == THRESHREED_UNREADABLE_RECORD && told == 9);
    records[8][3] = UINT64_C(30) << 32;
    EXPECT(writing(listed, words, LEN(records) * 5, 0, &told) == THRESHREED_NOT_LISTED && told == 8);
    records[7][3] = UINT64_C(1) << 32;
    EXPECT(writing(listed, words, LEN(records) * 5, 0, &told) == THRESHREED_UNREADABLE_RECORD && told == 7);
    records[1][1] = 0;
    EXPECT(writing(listed, words, LEN(records) * 5, 0, &told) == THRESHREED_NOT_RISING && told == 1);
    records[0][2] = 11;
    EXPECT(writing(listed, words, LEN(records) * 5, 0, &told) == THRESHREED_UNREADABLE_RECORD && told == 0);

    /* 4,096 commands, all loops, and one more; a fault of the last comes before their number. */
    for (size_t i = 0; i <= COMMANDS; i += 1) {
        many[i * 5 + 1] = i;
        many[i * 5 + 2] = THRESHREED_LOOP;
    }
    EXPECT(writing(listed, many, LEN(many) - 1, THRESHREED_TOUR_BYTES(COMMANDS), &told) == 0);
    EXPECT(told == THRESHREED_TOUR_BYTES(COMMANDS));
    EXPECT(writing(listed, many, LEN(many), 0, &told) == THRESHREED_TOO_MANY && told == 0);
    many[COMMANDS * 5 + 2] = 0;
    EXPECT(writing(listed, many, LEN(many), 0, &told) == THRESHREED_UNREADABLE_RECORD && told == COMMANDS);
}

/* Records there and back, and a file back and there. */
static void there_and_back(void)
{
    uint64_t records[LEN(kinds)][THRESHREED_WORDS], list[LEN(kinds) + 1][THRESHREED_WORDS];
    uint8_t file[KINDS], again[KINDS];
    size_t bytes, count;
    memcpy(records, kinds, sizeof records);
    /* What a kind does not use is not looked at. */
    records[0][3] = records[0][4] = records[3][4] = records[7][4] = records[8][4] = UINT64_MAX;
    EXPECT(tr_write_tour(listed, records[0], LEN(records) * 5 + 4, file, LEN(file), &bytes, NULL) == 0);
    EXPECT(bytes == KINDS && memcmp(file, VERSION "\2\x11\0\x9", 9) == 0);
    EXPECT(tr_read_tour(listed, file, bytes, list[0], LEN(list) * 5, &count, NULL) == 0 && count == LEN(kinds));
    EXPECT(memcmp(list, kinds, sizeof kinds) == 0);
    EXPECT(tr_write_tour(listed, list[0], count * 5, again, LEN(again), &bytes, NULL) == 0 && bytes == KINDS);
    EXPECT(memcmp(file, again, KINDS) == 0);
}

/* A capture that is saved, and replayed in another session, whose clips have other serials. */
static void saved(void)
{
    ThreshreedHandle clips[THRESHREED_SLOTS], bell, spare;
    uint64_t list[2 * THRESHREED_WORDS], again[2 * THRESHREED_WORDS];
    uint8_t file[THRESHREED_TOUR_BYTES(2)];
    ThreshreedReport report;
    size_t count, bytes;
    static Host host, other;
    lend(&host);
    EXPECT(tr_open(&host.t, 48000, pair, LEN(pair), 48000, 8) == 0);
    EXPECT(tr_load_stinger(&host.t, old, LEN(old), 48000, &bell) == 0 && tr_start_capture(&host.t) == 0);
    EXPECT(tr_submit(&host.t, tr_play(), tr_now()) == 0);
    EXPECT(tr_submit(&host.t, tr_stinger(bell, 1.0f), tr_at_clock(1)) == 0);
    EXPECT(tr_stop_capture(&host.t, list, LEN(list), &count) == 0 && count == 2);
    tr_clips(&host.t, clips);
    EXPECT(clips[0].slot == 0 && clips[0].serial == 1 && clips[1].slot == 1 && clips[1].serial == bell.serial);
    EXPECT(clips[2].serial == 0 && clips[31].serial == 0);
    EXPECT(tr_write_tour(clips, list, count * 5, file, LEN(file), &bytes, NULL) == 0 && bytes == 10 + 20 + 25);
    EXPECT(tr_block(&host.t, host.out, LEN(host.out), NULL) == 0);

    lend(&other);
    EXPECT(tr_open(&other.t, 48000, pair, LEN(pair), 48000, 8) == 0);
    EXPECT(tr_load_song(&other.t, pair, LEN(pair), 48000, 2, &spare) == 0 && tr_retire(&other.t, spare) == 0);
    tr_clips(&other.t, clips);
    EXPECT(clips[0].serial == 1 && clips[1].serial == 0);
    EXPECT(tr_load_stinger(&other.t, old, LEN(old), 48000, &spare) == 0);
    tr_clips(&other.t, clips);
    EXPECT(clips[1].serial == spare.serial && spare.serial == bell.serial + 1);
    EXPECT(tr_read_tour(clips, file, bytes, again, LEN(again), &count, NULL) == 0 && count == 2);
    EXPECT(again[8] == list[8] + 1 && tr_replay(&other.t, again, LEN(again), &report) == 0 && report.taken == 2);
    EXPECT(tr_block(&other.t, other.out, LEN(other.out), NULL) == 0);
    EXPECT(memcmp(host.out, other.out, sizeof host.out) == 0 && host.out[2] == 0.25f + 0.7f);
}

/* ---- salvage */

static uint8_t fresh[BYTES];
static uint64_t ranges[2 * COMMANDS * THRESHREED_RANGE_WORDS];

/* A salvage into an output of so many bytes and a list of so many words: 0 or a number, with the counts in `told`. A
 * refused one leaves both and tells nothing; an accepted one leaves what stands behind its file and its ranges. */
static uint32_t salvaging(const char *file, size_t length, size_t bytes, size_t words, ThreshreedSalvage *told)
{
    const ThreshreedSalvage none = {99, 0, 0, 0};
    memset(fresh, 9, sizeof fresh);
    memset(ranges, 9, sizeof ranges);
    *told = none;
    uint32_t refusal = tr_salvage((const uint8_t *)file, length, fresh, bytes, ranges, words, told);
    size_t written = told->ranges * THRESHREED_RANGE_WORDS;
    EXPECT(told->refusal == (refusal == 0 ? 0 : 99) && told->bytes <= bytes && written <= words);
    EXPECT((told->bytes == 0) == (refusal != 0) && (told->kept == 0 || refusal == 0));
    EXPECT(filled_bytes(fresh + told->bytes, LEN(fresh) - told->bytes, 9));
    EXPECT(filled_words(ranges + written, LEN(ranges) - written, UINT64_C(0x0909090909090909)));
    return refusal;
}

/* A range of the list. */
static bool ranged(size_t n, uint64_t what, uint64_t from, uint64_t to)
{
    const uint64_t *range = ranges + n * THRESHREED_RANGE_WORDS;
    return range[0] == what && range[1] == from && range[2] == to;
}

/* Damaged files, the fresh ones of the commands that are kept, and of each range what was done and how many bytes. */
static const struct {
    const char *file;
    size_t length;
    const char *fresh;
    size_t bytes;
    const char *ranges;
} damaged[] = {
#define DAMAGED(file, commands, kept, ranges) \
    {file, sizeof file - 1, VERSION commands COUNT(kept), sizeof commands + 9, ranges}
#define K "\1"
#define P "\2"
#define D "\3"
    DAMAGED("", "", "\0", ""),
    DAMAGED("\x9", "", "\0", D "\1"),
    DAMAGED(VERSION COUNT("\0"), "", "\0", P "\5" P "\5"),
    /* Whole; cut in a command, in its head, in the last field. */
    DAMAGED(VERSION PLAY("\5") PLAY("\6") COUNT("\2"), PLAY("\5") PLAY("\6"), "\2", P "\5" K "\x14" K "\x14" P "\5"),
    DAMAGED(VERSION PLAY("\5") "\2\x11\0\7", PLAY("\5"), "\1", P "\5" K "\x14" D "\4"),
    DAMAGED(VERSION PLAY("\5") "\2\x11", PLAY("\5"), "\1", P "\5" K "\x14" D "\2"),
    DAMAGED(VERSION PLAY("\5") "\3\2\0\1", PLAY("\5"), "\1", P "\5" K "\x14" D "\4"),
    /* First and last fields anywhere, whatever the count; of another version or length they are none. */
    DAMAGED(COUNT("\7") VERSION PLAY("\5") VERSION, PLAY("\5"), "\1", P "\5" P "\5" K "\x14" P "\5"),
    DAMAGED("\1\2\0\2\0" PLAY("\5"), PLAY("\5"), "\1", D "\5" K "\x14"),
    DAMAGED("\1\2\0\1\1" PLAY("\5"), PLAY("\5"), "\1", D "\5" K "\x14"),
    DAMAGED("\1\3\0\1\0\0" PLAY("\5"), PLAY("\5"), "\1", D "\6" K "\x14"),
    DAMAGED("\3\1\0\1" PLAY("\5"), PLAY("\5"), "\1", D "\4" K "\x14"),
    /* What is skipped hides what is in it. */
    DAMAGED("\x80\0\0" "\xFF\x14\0" PLAY("\5") PLAY("\6"), PLAY("\6"), "\1", P "\3" P "\x17" K "\x14"),
    DAMAGED("\xFF\x15\0" PLAY("\5"), PLAY("\5"), "\1", D "\3" K "\x14"),
    DAMAGED("\x80\0\1" PLAY("\5"), PLAY("\5"), "\1", D "\3" K "\x14"),
    /* Numbers that do not rise, the first being free; then those above the last one kept. */
    DAMAGED(PLAY("\5") PLAY("\5") PLAY("\4") PLAY("\6"), PLAY("\5") PLAY("\6"), "\2", K "\x14" D "\x28" K "\x14"),
    DAMAGED(PLAY("\0") PLAY("\1"), PLAY("\0") PLAY("\1"), "\2", K "\x14" K "\x14"),
    /* A kind that is none, another kind's length, clip bytes 31 and 32. */
    DAMAGED(COMMAND("\x11", "\1", "\0"), "", "\0", D "\x14"),
    DAMAGED(COMMAND("\x11", "\1", "\xB"), "", "\0", D "\x14"),
    DAMAGED(COMMAND("\x11", "\1", "\x9") "\x1F", "", "\0", D "\x15"),
    DAMAGED(SWAP("\1", "\x1F"), SWAP("\1", "\x1F"), "\1", K "\x15"),
    DAMAGED(SWAP("\1", "\x20"), "", "\0", D "\x15"),
    DAMAGED(STINGER("\1", "\x1F"), STINGER("\1", "\x1F"), "\1", K "\x19"),
    DAMAGED(STINGER("\1", "\x20"), "", "\0", D "\x19"),
    /* The most ranges that so many bytes have. */
    DAMAGED("\0\x80\0\0" "\0\x80\0\0" "\0", "", "\0", D "\1" P "\3" D "\1" P "\3" D "\1"),
#undef D
#undef P
#undef K
#undef DAMAGED
};

static void salvaged_files(void)
{
    ThreshreedHandle all[THRESHREED_SLOTS];
    ThreshreedSalvage told;
    size_t read;
    for (uint32_t i = 0; i < THRESHREED_SLOTS; i += 1) {
        all[i] = (ThreshreedHandle){i, i + 1};
    }
    for (size_t i = 0; i < LEN(damaged); i += 1) {
        const char *file = damaged[i].file;
        size_t length = damaged[i].length, bytes = damaged[i].bytes, count = strlen(damaged[i].ranges) / 2;
        size_t words = count * THRESHREED_RANGE_WORDS, at = 0;
        EXPECT(bytes <= THRESHREED_SALVAGE_BYTES(length) && words <= THRESHREED_SALVAGE_WORDS(length));
        EXPECT(salvaging(file, length, bytes, words + 2, &told) == 0);
        EXPECT(told.kept == (size_t)damaged[i].fresh[bytes - 2] && told.bytes == bytes && told.ranges == count);
        EXPECT(memcmp(fresh, damaged[i].fresh, bytes) == 0);
        for (size_t n = 0; n < count; n += 1) {
            size_t from = at;
            at += (size_t)damaged[i].ranges[2 * n + 1];
            EXPECT(ranged(n, (uint64_t)damaged[i].ranges[2 * n], from, at));
        }
        EXPECT(at == length);
        EXPECT(reading(all, (const uint8_t *)damaged[i].fresh, bytes, 10, &read) == 0 && read == told.kept);

        /* The output comes before the list. */
        EXPECT(salvaging(file, length, bytes - 1, 0, &told) == THRESHREED_OUTPUT_TOO_SHORT);
        if (count > 0) {
            EXPECT(salvaging(file, length, bytes, words - 1, &told) == THRESHREED_RECORDS_TOO_SHORT);
        }
    }
}

/* 4,096 commands are kept, and one more comes before a short output and a short list. */
static void many_salvaged(void)
{
    static char file[(COMMANDS + 1) * 20];
    const size_t most = COMMANDS * 20;
    ThreshreedSalvage told;
    for (size_t i = 0; i <= COMMANDS; i += 1) {
        memcpy(file + i * 20, PLAY("\0"), 20);
        file[i * 20 + 11] = (char)i;
        file[i * 20 + 12] = (char)(i >> 8);
    }
    EXPECT(salvaging(file, most, most + 10, COMMANDS * THRESHREED_RANGE_WORDS, &told) == 0);
    EXPECT(told.kept == COMMANDS && told.bytes == THRESHREED_SALVAGE_BYTES(most) && told.ranges == COMMANDS);
    EXPECT(memcmp(fresh + 5, file, most) == 0 && memcmp(fresh + 5 + most, "\3\2\0\0\x10", 5) == 0);
    EXPECT(ranged(COMMANDS - 1, THRESHREED_KEPT, most - 20, most));
    EXPECT(salvaging(file, most, most + 9, 0, &told) == THRESHREED_OUTPUT_TOO_SHORT);
    EXPECT(salvaging(file, most, most + 10, 0, &told) == THRESHREED_RECORDS_TOO_SHORT);
    EXPECT(salvaging(file, sizeof file, 0, 0, &told) == THRESHREED_TOO_MANY);
    EXPECT(salvaging(file, sizeof file, LEN(fresh), LEN(ranges), &told) == THRESHREED_TOO_MANY);
    /* Cut in the last one. */
    EXPECT(salvaging(file, sizeof file - 1, LEN(fresh), LEN(ranges), &told) == 0 && told.kept == COMMANDS);
    EXPECT(ranged(COMMANDS, THRESHREED_DROPPED, most, most + 19));
}

/* NULL for a file, an output or a list is an empty one. */
static void nothing_salvaged(void)
{
    static const uint8_t one[] = VERSION PLAY("\5") COUNT("\1");
    ThreshreedSalvage told;
    EXPECT(salvaging(NULL, 5, 10, 0, &told) == 0 && told.kept == 0 && told.bytes == 10 && told.ranges == 0);
    EXPECT(memcmp(fresh, VERSION COUNT("\0"), 10) == 0);
    EXPECT(tr_salvage(NULL, 5, fresh, 10, NULL, 9, &told) == 0 && told.bytes == 10);
    EXPECT(tr_salvage(NULL, 5, NULL, 10, NULL, 9, NULL) == THRESHREED_OUTPUT_TOO_SHORT);
    EXPECT(tr_salvage(one, sizeof one - 1, NULL, 30, ranges, 9, &told) == THRESHREED_OUTPUT_TOO_SHORT);
    EXPECT(tr_salvage(one, sizeof one - 1, fresh, 30, NULL, 9, &told) == THRESHREED_RECORDS_TOO_SHORT);
    EXPECT(tr_salvage(one, sizeof one - 1, fresh, 30, ranges, 9, NULL) == 0 && memcmp(fresh, one, 30) == 0);
}

/* ---- dry runs */

static ThreshreedSheet sheet;

/* A dry run: 0 or a number, with the answer in `told` or the place in `place`. A refused one leaves the sheet and tells
 * nothing. */
static uint32_t drying(uint32_t mode, const uint64_t *clips, size_t clips_len, const uint8_t *file, size_t bytes,
                       const uint64_t *blocks, size_t blocks_len, ThreshreedDryRun *told, size_t *place)
{
    static ThreshreedSheet before;
    ThreshreedDryRun none;
    memset(&sheet, 9, sizeof sheet);
    memset(&before, 9, sizeof before);
    memset(&none, 9, sizeof none);
    memset(told, 9, sizeof *told);
    *place = 99999;
    uint32_t refusal = tr_dry_run(mode, clips, clips_len, file, bytes, blocks, blocks_len, &sheet, told, place);
    EXPECT(refusal == 0 ? told->refusal == 0 && *place == 99999 : memcmp(told, &none, sizeof none) == 0);
    EXPECT(refusal == 0 || memcmp(&sheet, &before, sizeof sheet) == 0);
    return refusal;
}

/* A row of the sheet behind its record's words, and its record's number and kind. */
static bool row_is(size_t n, uint64_t number, uint64_t kind, uint64_t clock, uint64_t from, uint64_t to, uint64_t laps,
                   uint64_t then)
{
    const uint64_t *row = sheet.rows + n * THRESHREED_ROW_WORDS;
    return row[1] == number && row[2] == kind && row[THRESHREED_ROW_CLOCK] == clock &&
           row[THRESHREED_ROW_FROM] == from && row[THRESHREED_ROW_TO] == to && row[THRESHREED_ROW_LAPS] == laps &&
           row[THRESHREED_ROW_THEN] == then;
}

/* The opening song of two frames and of length eight, a bell, whose length is not looked at, and a song of another
 * rate. */
static const uint64_t three[] = {
    0, 1, THRESHREED_CLIP_SONG, 48000, 2, 8,
    2, 3, THRESHREED_CLIP_STINGER, 48000, 2, UINT64_MAX,
    1, 2, THRESHREED_CLIP_SONG, 44100, 2, 2,
};

/* A tour of every kind, read to those clips: commands that are due together, some that are skipped, one that is due
 * long after. */
static const uint64_t walk[][THRESHREED_WORDS] = {
    {0, 11, THRESHREED_PLAY, 0, 0},
    {9, 12, THRESHREED_LOOP, 9, 9},
    {5, 13, THRESHREED_LOOP, 0, 2},
    {5, 14, THRESHREED_STINGER, UINT64_C(2) << 32 | 3, 0x3F800000},
    {16, 15, THRESHREED_SWAP, UINT64_C(1) << 32 | 2, 0},
    {16, 16, THRESHREED_SWAP, UINT64_C(2) << 32 | 3, 0},
    {16, 17, THRESHREED_GAIN, 0x7F800000, 0},
    {16, 18, THRESHREED_GAIN, 0x3F000000, 0},
    {18, 19, THRESHREED_CLEAR_LOOP, 0, 0},
    {19, 20, THRESHREED_PAUSE, 0, 0},
    {20, 21, THRESHREED_TRANSITION, 9, 0},
    {21, 22, THRESHREED_LOOP, 6, 8},
    {22, 23, THRESHREED_PLAY, 0, 0},
    {30, 24, THRESHREED_SEEK, 7, 0},
    {30, 25, THRESHREED_STOP, 0, 0},
    {UINT64_C(1) << 50, 26, THRESHREED_SWAP, UINT64_C(0) << 32 | 1, 0},
};

static const ThreshreedHandle three_listed[THRESHREED_SLOTS] = {{0, 1}, {1, 2}, {2, 3}};

/* Each row, each reason and the end; and the end of a session that has replayed the same and made the same blocks. */
static void dry_walk(uint32_t mode)
{
    static const uint64_t reasons[LEN(walk)] = {0, 22, 0, 0, 13, 12, 14};
    static const uint64_t blocks[] = {2, 10, 0, UINT64_MAX, 5, 2, 99};
    static uint64_t queue[THRESHREED_DRY_COMMANDS * THRESHREED_WORDS];
    static float pool[2 * 6], out[2 * 10];
    uint8_t file[THRESHREED_TOUR_BYTES(LEN(walk))];
    ThreshreedDryRun told;
    ThreshreedReport report;
    size_t bytes, place;
    Threshreed t;
    EXPECT(tr_write_tour(three_listed, walk[0], LEN(walk) * THRESHREED_WORDS, file, LEN(file), &bytes, NULL) == 0);
    EXPECT(drying(mode, three, LEN(three), file, bytes, blocks, LEN(blocks), &told, &place) == 0);
    EXPECT(told.commands == LEN(walk) && told.taken == 12 && told.executed == 10 && told.queued == 2);
    EXPECT(memcmp(sheet.records, walk, sizeof walk) == 0 && memcmp(sheet.reasons, reasons, sizeof reasons) == 0);
    /* Of the two that are due at the end the first is executed. */
    EXPECT(row_is(0, 1, THRESHREED_PLAY, 0, 0, 0, 0, 0) && row_is(1, 2, THRESHREED_LOOP, 5, 5, 5, 0, 0));
    EXPECT(row_is(2, 3, THRESHREED_STINGER, 5, 5, 5, 0, 0) && row_is(3, 4, THRESHREED_GAIN, 16, 0, 0, 7, 7));
    EXPECT(row_is(4, 5, THRESHREED_CLEAR_LOOP, 18, 0, 0, 8, 0) && row_is(5, 6, THRESHREED_PAUSE, 19, 1, 1, 0, 0));
    EXPECT(row_is(6, 7, THRESHREED_TRANSITION, 20, 1, 8, 0, 0) && row_is(7, 8, THRESHREED_LOOP, 21, 8, 8, 0, 0));
    EXPECT(row_is(8, 9, THRESHREED_PLAY, 22, 8, 8, 0, 0) && row_is(9, 10, THRESHREED_SEEK, 30, 6, 7, 5, 5));
    EXPECT(sheet.rows[2 * THRESHREED_ROW_WORDS] == 5 && sheet.rows[2 * THRESHREED_ROW_WORDS + 4] == 0x3F800000);
    EXPECT(sheet.queue[1] == 12 && sheet.queue[5] == 30 && sheet.queue[6] == 11 && sheet.queue[7] == THRESHREED_STOP);
    EXPECT(told.clock == 30 && told.song.slot == 0 && told.song.serial == 1 && told.state == THRESHREED_PLAYING);
    EXPECT(told.position == 7 && told.looped.set == 1 && told.looped.start == 6 && told.looped.end == 8);
    EXPECT(told.laps == 5);

    tr_lend(&t, queue, LEN(queue), NULL, 0, pool, LEN(pool));
    EXPECT(tr_open_in(&t, mode, 48000, pair, LEN(pair), 48000, 8) == 0);
    EXPECT(tr_load_song(&t, pair, LEN(pair), 44100, 2, NULL) == 0);
    EXPECT(tr_load_stinger(&t, pair, LEN(pair), 48000, NULL) == 0);
    EXPECT(tr_replay(&t, walk[0], LEN(walk) * THRESHREED_WORDS, &report) == 0 && report.taken == told.taken);
    EXPECT(report.full == 0 && report.taken + report.skipped == told.commands);
    for (int i = 0; i < 3; i += 1) {
        EXPECT(tr_block(&t, out, LEN(out), NULL) == 0);
    }
    EXPECT(tr_clock(&t) == told.clock && tr_position(&t) == told.position && tr_state(&t) == told.state);
    EXPECT(tr_laps(&t) == told.laps && tr_loop_range(&t).start == 6 && tr_loop_range(&t).end == 8);
    EXPECT(t.session.counters.executed == told.executed && tr_queue_depth(&t) == told.queued);
    EXPECT(memcmp(queue, sheet.queue, told.queued * THRESHREED_WORDS * sizeof *queue) == 0);

    /* No frame is made: what is due at 0 waits too. */
    EXPECT(drying(mode, three, LEN(three), file, bytes, blocks + 2, 2, &told, &place) == 0);
    EXPECT(told.clock == 0 && told.taken == 12 && told.executed == 0 && told.queued == 12);
}

/* What a dry run refuses, in its order: clips, file, commands, blocks. */
static void refused_dry_runs(void)
{
    static const uint8_t empty[] = VERSION COUNT("\0"), cut[] = VERSION, other[] = VERSION SWAP("\1", "\3") COUNT("\1");
    static const uint64_t most[] = {UINT64_C(1) << 61, 2}, past[] = {1, UINT64_C(1) << 62, 1, 1};
    static const uint64_t wrapping[] = {UINT64_C(1) << 32, UINT64_C(1) << 32};
    /* A word of the list, and what no session has there. */
    static const struct {
        size_t word;
        uint64_t value;
    } bad[] = {
        {0, 2}, {0, 32}, {0, UINT64_C(1) << 32},
        {1, 0}, {1, 2}, {1, UINT64_C(1) << 32},
        {2, 0}, {2, 2}, {2, 3},
        {3, 7999}, {3, 192001},
        {4, 0}, {4, 9}, {10, 33554429},
        {5, 1}, {5, (UINT64_C(1) << 40) + 1},
    };
    static uint8_t many[THRESHREED_TOUR_BYTES(THRESHREED_DRY_COMMANDS + 1)];
    static uint64_t plays[(THRESHREED_DRY_COMMANDS + 1) * THRESHREED_WORDS];
    uint64_t list[LEN(three)];
    ThreshreedDryRun told;
    size_t place, bytes, fewer;
    for (size_t i = 0; i <= THRESHREED_DRY_COMMANDS; i += 1) {
        plays[i * THRESHREED_WORDS + 1] = i;
        plays[i * THRESHREED_WORDS + 2] = THRESHREED_PLAY;
    }
#define DRYING(clips, clips_len, file, bytes, blocks) \
    drying(THRESHREED_HOUSE, clips, clips_len, file, bytes, blocks, LEN(blocks), &told, &place)
    for (size_t i = 0; i < LEN(bad); i += 1) {
        memcpy(list, three, sizeof list);
        list[bad[i].word] = bad[i].value;
        EXPECT(DRYING(list, LEN(list), cut, sizeof cut - 1, past) == THRESHREED_BAD_CLIPS && place == 0);
        EXPECT(DRYING(list, LEN(list), empty, sizeof empty - 1, most) == THRESHREED_BAD_CLIPS && place == 0);
    }
    for (size_t words = 0; words <= LEN(three); words += 1) {
        uint32_t expected = words > 0 && words % THRESHREED_CLIP_WORDS == 0 ? 0 : THRESHREED_BAD_CLIPS;
        EXPECT(DRYING(three, words, empty, sizeof empty - 1, most) == expected);
    }
    EXPECT(told.clock == UINT64_C(1) << 62 && told.commands == 0 && told.song.serial == 1);
    EXPECT(drying(2, three, LEN(three), empty, sizeof empty - 1, most, 2, &told, &place) == THRESHREED_BAD_CLIPS);
    EXPECT(DRYING(three, LEN(three), cut, sizeof cut - 1, past) == THRESHREED_CUT_SHORT && place == 5);
    EXPECT(DRYING(three, LEN(three), other, sizeof other - 1, past) == THRESHREED_NOT_LISTED && place == 5);

    EXPECT(tr_write_tour(NULL, plays, LEN(plays), many, LEN(many), &bytes, NULL) == 0);
    EXPECT(DRYING(three, LEN(three), many, bytes - 1, past) == THRESHREED_CUT_SHORT && place == bytes - 5);
    EXPECT(DRYING(three, LEN(three), many, bytes, past) == THRESHREED_LONG_TOUR && place == 0);
    EXPECT(tr_write_tour(NULL, plays, LEN(plays) - 5, many, LEN(many), &fewer, NULL) == 0 && fewer == bytes - 20);
    EXPECT(DRYING(three, LEN(three), many, fewer, past) == THRESHREED_CLOCK_SPENT && place == 0);
    EXPECT(DRYING(three, LEN(three), many, fewer, wrapping) == THRESHREED_CLOCK_SPENT && place == 0);
    EXPECT(DRYING(three, LEN(three), many, fewer, most) == 0 && told.executed == THRESHREED_DRY_COMMANDS);
#undef DRYING
}

/* NULL for the clips, a file or the blocks is none of them, and for a result one that is not wanted. */
static void nothing_dried(void)
{
    static const uint8_t one[] = VERSION PLAY("\5") COUNT("\1");
    static const uint64_t blocks[] = {1, 9, 3, 2};
    ThreshreedDryRun told;
    size_t place;
    EXPECT(drying(0, NULL, 6, one, sizeof one - 1, blocks, 2, &told, &place) == THRESHREED_BAD_CLIPS && place == 0);
    EXPECT(drying(0, three, LEN(three), NULL, 9, blocks, 2, &told, &place) == THRESHREED_CUT_SHORT && place == 0);
    EXPECT(drying(0, three, LEN(three), one, sizeof one - 1, NULL, 2, &told, &place) == 0);
    EXPECT(told.clock == 0 && told.taken == 1 && told.executed == 0 && told.queued == 1);
    EXPECT(tr_dry_run(0, three, LEN(three), one, sizeof one - 1, blocks, 2, &sheet, NULL, NULL) == 0);
    EXPECT(row_is(0, 1, THRESHREED_PLAY, 7, 0, 0, 0, 0));

    /* Eight frames from frame 7 on, to the song's end. */
    EXPECT(drying(0, three, LEN(three), one, sizeof one - 1, blocks, 2, &told, &place) == 0);
    EXPECT(told.clock == 9 && told.position == 2 && told.state == THRESHREED_PLAYING);
    EXPECT(drying(0, three, LEN(three), one, sizeof one - 1, blocks, 4, &told, &place) == 0);
    EXPECT(told.clock == 15 && told.position == 8 && told.state == THRESHREED_STOPPED);
    EXPECT(tr_dry_run(2, three, LEN(three), NULL, 0, NULL, 0, &sheet, NULL, NULL) == THRESHREED_BAD_CLIPS);
}

/* NULL for a result that is not wanted. */
static void unwanted_results(void)
{
    uint64_t list[2 * THRESHREED_WORDS];
    static Host host;
    play(&host);
    EXPECT(tr_load_song(&host.t, pair, LEN(pair), 48000, 2, NULL) == 0 && host.t.session.last == 2);
    EXPECT(tr_load_stinger(&host.t, pair, LEN(pair), 48000, NULL) == 0 && host.t.session.last == 3);
    EXPECT(tr_start_capture(&host.t) == 0 && tr_submit(&host.t, tr_pause(), tr_now()) == 0);
    EXPECT(tr_stop_capture(&host.t, list, LEN(list), NULL) == 0 && list[2] == THRESHREED_PAUSE);
    EXPECT(tr_replay(&host.t, list, THRESHREED_WORDS, NULL) == 0 && tr_queue_depth(&host.t) == 3);
    EXPECT(tr_snapshot(&host.t, NULL) == 0 && tr_metrics(&host.t, NULL) == 0);
}

int main(void)
{
    uint64_t queue[4 * THRESHREED_WORDS], list[2 * THRESHREED_WORDS];
    float pool[2 * 4], out[2 * 4];
    ThreshreedHandle porch, bell, again;
    ThreshreedSnapshot snapshot;
    ThreshreedMetrics metrics;
    ThreshreedReport report;
    size_t copied;
    Threshreed t;

    refused_openings();
    lists_in_words();
    passes_and_laps();
    modes();
    past_its_loop();
    undo();
    between_blocks();
    rings();
    refused_files();
    refused_records();
    there_and_back();
    saved();
    salvaged_files();
    many_salvaged();
    nothing_salvaged();
    dry_walk(THRESHREED_AS_TONO);
    dry_walk(THRESHREED_HOUSE);
    refused_dry_runs();
    nothing_dried();
    unwanted_results();

    /* Nothing is lent. */
    tr_lend(&t, NULL, 0, NULL, 0, NULL, 0);
    EXPECT(tr_open(&t, 48000, NULL, 0, 48000, 1) == THRESHREED_OUT_OF_RANGE);
    expect_none(&t);
    tr_lend(&t, NULL, 40, NULL, 40, NULL, 8);
    EXPECT(tr_open(&t, 48000, NULL, 8, 48000, 1) == THRESHREED_OUT_OF_RANGE);
    tr_lend(&t, queue, LEN(queue), NULL, 0, pool, LEN(pool));
    EXPECT(tr_open(&t, 48000, NULL, 0, 48000, 1) == THRESHREED_NO_SAMPLES);

    /* Opening is stopped at 0, gain 1. */
    EXPECT(tr_open(&t, 48000, pair, LEN(pair), 48000, 2) == 0);
    porch = tr_song(&t);
    EXPECT(tr_clock(&t) == 0 && tr_position(&t) == 0 && tr_state(&t) == THRESHREED_STOPPED);
    EXPECT(tr_mode(&t) == THRESHREED_AS_TONO);
    EXPECT(tr_loop_range(&t).set == 0 && tr_master_gain(&t) == 1.0f && tr_queue_depth(&t) == 0);
    EXPECT(tr_is_live(&t, porch));

    /* A song of two frames, heard. */
    EXPECT(tr_submit(&t, tr_play(), tr_now()) == 0 && t.session.number == 1 && tr_queue_depth(&t) == 1);
    EXPECT(tr_block(&t, NULL, 8, NULL) == 0 && tr_queue_depth(&t) == 1);
    EXPECT(tr_block(&t, out, LEN(out), NULL) == 0);
    EXPECT(memcmp(out, pair, sizeof pair) == 0 && out[4] == 0.0f && out[7] == 0.0f);
    EXPECT(tr_clock(&t) == 4 && tr_position(&t) == 2 && tr_state(&t) == THRESHREED_STOPPED);

    /* A retired bell stays stale when another takes its slot. */
    EXPECT(tr_load_stinger(&t, NULL, 0, 48000, &bell) == THRESHREED_NO_SAMPLES);
    EXPECT(tr_load_stinger(&t, pair, LEN(pair), 48000, &bell) == 0 && tr_is_live(&t, bell));
    EXPECT(tr_load_song(&t, pair, LEN(pair), 48000, 2, &again) == THRESHREED_NO_ROOM);
    EXPECT(tr_retire(&t, bell) == 0 && !tr_is_live(&t, bell));
    EXPECT(tr_load_stinger(&t, pair, LEN(pair), 48000, &again) == 0 && again.slot == bell.slot);
    EXPECT(tr_submit(&t, tr_stinger(bell, 1.0f), tr_now()) == THRESHREED_STALE);
    EXPECT(tr_submit(&t, tr_swap(again), tr_now()) == THRESHREED_WRONG_KIND);
    EXPECT(tr_retire(&t, porch) == THRESHREED_HELD);
    porch.slot = UINT32_MAX;
    EXPECT(!tr_is_live(&t, porch) && tr_retire(&t, porch) == THRESHREED_STALE);

    /* Numbers that name no case, gains that are none. */
    EXPECT(tr_submit(&t, tr_command(THRESHREED_TRANSITION), tr_now()) == THRESHREED_NO_SUCH_CASE);
    EXPECT(tr_submit(&t, tr_play(), tr_at(0, 0)) == THRESHREED_NO_SUCH_CASE);
    EXPECT(tr_submit(&t, tr_gain(NAN), tr_now()) == THRESHREED_BAD_GAIN);
    EXPECT(tr_snapshot(&t, &snapshot) == 0 && snapshot.position == 2 && snapshot.gain == 1.0f);
    snapshot.state = 3;
    EXPECT(tr_apply_snapshot(&t, snapshot) == THRESHREED_NO_SUCH_CASE);
    snapshot.state = THRESHREED_PAUSED;
    EXPECT(tr_apply_snapshot(&t, snapshot) == 0 && tr_state(&t) == THRESHREED_PAUSED);

    /* A loop is senseless or not whatever the song's length; a snapshot's that does not fit is not set. */
    EXPECT(tr_submit(&t, tr_loop(5, 5), tr_now()) == THRESHREED_SENSELESS_LOOP);
    EXPECT(tr_submit(&t, tr_loop(6, 5), tr_now()) == THRESHREED_SENSELESS_LOOP);
    EXPECT(tr_submit(&t, tr_loop(5, 6), tr_now()) == 0 && tr_block(&t, out, 2, NULL) == 0);
    EXPECT(tr_loop_range(&t).set == 0);
    snapshot.looped = (ThreshreedLoop){1, 1, 1};
    EXPECT(tr_apply_snapshot(&t, snapshot) == 0 && tr_loop_range(&t).set == 0);

    /* No capture, and a queue of four. */
    EXPECT(tr_stop_capture(&t, NULL, 0, &copied) == 0 && copied == 0);
    EXPECT(tr_start_capture(&t) == 0 && tr_submit(&t, tr_play(), tr_now()) == THRESHREED_CAPTURE_FULL);
    EXPECT(tr_stop_capture(&t, list, LEN(list), &copied) == 0 && copied == 0);
    for (int i = 0; i < 3; i += 1) {
        EXPECT(tr_submit(&t, tr_pause(), tr_at_clock(4)) == 0);
    }
    EXPECT(tr_transition(&t, 1, tr_now()) == 0 && tr_transition(&t, 0, tr_now()) == 0);
    EXPECT(tr_submit(&t, tr_stop(), tr_now()) == THRESHREED_QUEUE_FULL);
    EXPECT(tr_submit(&t, tr_loop(5, 5), tr_now()) == THRESHREED_SENSELESS_LOOP);
    EXPECT(tr_replay(&t, NULL, 5, &report) == 0 && report.taken == 0);
    EXPECT(tr_metrics(&t, &metrics) == 0 && metrics.rendered == 5 && metrics.dropped == 1 && metrics.deepest == 4);

    EXPECT(strcmp(threshreed_refusal(THRESHREED_STALE), "stale handle") == 0);
    EXPECT(strcmp(threshreed_refusal(THRESHREED_CUT_SHORT), "file cut short") == 0);
    EXPECT(strcmp(threshreed_refusal(0), "none") == 0 && strcmp(threshreed_refusal(254), "none") == 0);
    printf("test: %d as expected\n", expected);
    return 0;
}
