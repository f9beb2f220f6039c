// One copy of the text into new memory; and one pass over it that copies it piece by piece, with another word at each place.
#define _GNU_SOURCE
#include <stdio.h>
#include <stdlib.h>
#include <string.h>
#include <time.h>

#define LINE "The quick brown fox jumps over the lazy dog, and back; then it sleeps in the sun for an hour, or so.\n"
#define SIZE (10 << 20)

static double micros(void) {
    struct timespec now;
    clock_gettime(CLOCK_MONOTONIC, &now);
    return now.tv_sec * 1e6 + now.tv_nsec / 1e3;
}

int main(void) {
    size_t line = strlen(LINE), length = SIZE / line * line;
    char *text = malloc(length);
    if (text == NULL) return 1;
    for (size_t at = 0; at < length; at += line) memcpy(text + at, LINE, line);

    double start = micros();
    char *copy = malloc(length);
    if (copy == NULL) return 1;
    memcpy(copy, text, length);
    printf("copy %.0f\n", micros() - start);

    start = micros();
    char *built = malloc(length + length / line), *to = built;
    if (built == NULL) return 1;
    const char *from = text, *end = text + length, *place;
    while ((place = memmem(from, end - from, "fox", 3)) != NULL) {
        to = mempcpy(mempcpy(to, from, place - from), "bird", 4);
        from = place + 3;
    }
    to = mempcpy(to, from, end - from);
    printf("pass %.0f\n", micros() - start);
    return copy[length - 1] != built[to - built - 1];
}
