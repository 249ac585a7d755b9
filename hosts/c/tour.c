/* The tour of tour.h, written as a WAV file: `tour FILE [BARS]`. */
#include "tour.h"
#include "wav.h"

static uint64_t play(void)
{
    static float out[2 * BLOCK];
    return play_wav(out, LEN(out));
}

int main(int count, char **arguments)
{
    if (count < 2) {
        fputs("tour FILE [BARS]\n", stderr);
        return 2;
    }
    int last = count < 3 ? BARS : atoi(arguments[2]);
    last = last < 0 ? 0 : last > BARS ? BARS : last;

    open_wav(arguments[1], (uint32_t)(last + 2 * THRESHOLD) * BAR);
    tour(last);
    close_wav(arguments[1]);
    tell_peak();
    return 0;
}
