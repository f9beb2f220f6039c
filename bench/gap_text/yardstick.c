// The same work on the same text by the C library: memmem for a search, memmove for a move over the whole text.
#define _GNU_SOURCE
#include <stdio.h>
#include <stdlib.h>
#include <string.h>
#include <time.h>

#define LINE "The quick brown fox jumps over the lazy dog, and back.\n"
#define SIZE (10 << 20)
#define MISSING "the lazy fox"

static double micros(void) {
    struct timespec now;
    clock_gettime(CLOCK_MONOTONIC, &now);
    return now.tv_sec * 1e6 + now.tv_nsec / 1e3;
}

int main(void) {
    size_t line = strlen(LINE), length = SIZE / line * line;
    char *room = calloc(1, 4 * (size_t)SIZE);
    if (room == NULL) return 1;
    for (size_t at = 0; at < length; at += line) memcpy(room + at, LINE, line);

    double start = micros();
    const char *found = memmem(room, length, MISSING, strlen(MISSING));
    printf("find %.0f\n", micros() - start);
    if (found != NULL) return 1;

    memset(room + length, 'y', 4 * (size_t)SIZE - length);
    struct { const char *name; size_t bytes, gap; } moves[] = {{"wide", length, SIZE}, {"narrow", 2 * (size_t)SIZE, 16}};
    for (int i = 0; i < 2; i++) {
        start = micros();
        memmove(room + moves[i].gap, room, moves[i].bytes);
        printf("move_back_%s %.0f\n", moves[i].name, micros() - start);
        start = micros();
        memmove(room, room + moves[i].gap, moves[i].bytes);
        printf("move_on_%s %.0f\n", moves[i].name, micros() - start);
    }
    return 0;
}
