/* Holds a recording of live.c against the tour's file: `recorded RECORDING ANSWERS TOUR`. Of each callback's frames
 * those that it took, by its answer, are the tour's next, bit for bit, and the rest are +0.0 on both sides. Recording,
 * answers and tour end together. There is silence before the tour, after it and in between.
 */
#include <stdbool.h>
#include <stdio.h>
#include <stdlib.h>
#include <string.h>

/* In bytes: the head of a WAV file as wav.h writes it, and a frame. */
enum { HEAD = 58, FRAME = 8 };

static void need(bool holds, const char *fact)
{
    if (!holds) {
        fprintf(stderr, "not so: %s\n", fact);
        exit(1);
    }
}

static FILE *opened(const char *path)
{
    FILE *file = fopen(path, "rb");
    if (file == NULL) {
        perror(path);
        exit(1);
    }
    return file;
}

/* Reads past the head, and tells the frames that it promises. */
static unsigned long read_head(FILE *tour)
{
    unsigned char head[HEAD];
    need(fread(head, HEAD, 1, tour) == 1 && memcmp(head + HEAD - 8, "data", 4) == 0, "the head has 58 bytes");
    unsigned long bytes = 0;
    for (int i = 1; i <= 4; i += 1) {
        bytes = bytes << 8 | head[HEAD - i];
    }
    return bytes / FRAME;
}

int main(int count, char **arguments)
{
    if (count < 4) {
        fputs("recorded RECORDING ANSWERS TOUR\n", stderr);
        return 2;
    }
    FILE *recording = opened(arguments[1]), *answers = opened(arguments[2]), *tour = opened(arguments[3]);
    static const unsigned char silence[FRAME];
    unsigned char heard[FRAME], made[FRAME];
    unsigned long callbacks = 0, sounding = 0, silent = 0, places = 0, block, taken;
    bool quiet = false;
    unsigned long promised = read_head(tour);
    while (fscanf(answers, "%lu %lu\n", &block, &taken) == 2) {
        need(taken <= block, "no answer is above its block");
        need(callbacks > 0 || taken == 0, "there is silence before the tour");
        for (unsigned long i = 0; i < block; i += 1) {
            need(fread(heard, FRAME, 1, recording) == 1, "each answered frame is recorded");
            if (i < taken) {
                need(fread(made, FRAME, 1, tour) == 1, "the tour has as many frames as were taken");
                need(memcmp(heard, made, FRAME) == 0, "the frames taken are the tour's");
                sounding += 1;
                quiet = false;
            } else {
                need(memcmp(heard, silence, FRAME) == 0, "the rest is silence");
                silent += 1;
                places += quiet ? 0 : 1;
                quiet = true;
            }
        }
        callbacks += 1;
    }
    need(fgetc(answers) == EOF, "each answer is a line of two numbers");
    need(fgetc(recording) == EOF, "each recorded frame is answered");
    need(fgetc(tour) == EOF && sounding == promised, "the whole tour is recorded");
    need(quiet && places > 2, "there is silence after the tour and in between");
    printf("live: %lu frames in %lu callbacks: the tour's %lu, and by the answers %lu of silence in %lu places\n",
           sounding + silent, callbacks, sounding, silent, places);
    return 0;
}
