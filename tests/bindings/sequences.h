/* All sequences of some calls. */
#ifndef SEQUENCES_H
#define SEQUENCES_H
#include <stdio.h>

/* Whether some answer was wrong. */
static int wrong = 0;

/* Plays each sequence of up to so many calls: a number whose digits they are, and its length. It ends after one that is wrong. */
static void play_all(void (*play)(long sequence, int length), int calls, int longest) {
    int length;
    long sequence, count = 1, played = 0;
    for (length = 1; length <= longest; length++) {
        count *= calls;
        for (sequence = 0; sequence < count && !wrong; sequence++, played++)
            play(sequence, length);
    }
    printf("%ld sequences of up to %d calls\n", played, longest);
}

#endif
