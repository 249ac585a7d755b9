/* A stereo WAV file of 32-bit floats, at RATE frames a second, on a little-endian machine. */
#ifndef WAV_H
#define WAV_H

#include "rooms.h"

static FILE *wav;

static void put(uint32_t number, int bytes)
{
    for (int i = 0; i < bytes; i += 1) {
        fputc((int)(number >> 8 * i & 255), wav);
    }
}

/* Opens it for so many frames. */
static void open_wav(const char *path, uint32_t frames)
{
    wav = fopen(path, "wb");
    if (wav == NULL) {
        perror(path);
        exit(1);
    }
    fputs("RIFF", wav);
    put(50 + 8 * frames, 4);
    fputs("WAVEfmt ", wav);
    put(18, 4);
    put(3, 2); /* floats */
    put(2, 2); /* channels */
    put(RATE, 4);
    put(8 * RATE, 4); /* bytes a second */
    put(8, 2);        /* bytes a frame */
    put(32, 2);       /* bits a sample */
    put(0, 2);
    fputs("fact", wav);
    put(4, 4);
    put(frames, 4);
    fputs("data", wav);
    put(8 * frames, 4);
}

/* Plays the session's next frames to it, and tells their passes. */
static uint64_t play_wav(float *out, size_t samples)
{
    uint64_t passes;
    need(tr_block(&t, out, samples, &passes));
    fwrite(out, sizeof *out, samples, wav);
    hear(out, samples);
    return passes;
}

static void close_wav(const char *path)
{
    if (ferror(wav) || fclose(wav) != 0) {
        perror(path);
        exit(1);
    }
}

#endif
