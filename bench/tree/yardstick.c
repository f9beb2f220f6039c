// The same work by the system's calls: a file that stays open, and 65,536 bytes a call.
#define _GNU_SOURCE
#include <fcntl.h>
#include <stdio.h>
#include <string.h>
#include <time.h>
#include <unistd.h>

#define CHUNK 65536
#define CHUNKS 16384

static double micros(void) {
    struct timespec now;
    clock_gettime(CLOCK_MONOTONIC, &now);
    return now.tv_sec * 1e6 + now.tv_nsec / 1e3;
}

int main(int count, char **words) {
    static char bytes[CHUNK];
    if (count != 3) return 1;
    int writes = strcmp(words[1], "write") == 0;
    double start = micros();
    int file = writes ? open(words[2], O_WRONLY | O_CREAT | O_EXCL, 0644) : open(words[2], O_RDONLY);
    if (file < 0) return 1;
    memset(bytes, 'x', CHUNK);
    for (off_t chunk = 0; chunk < CHUNKS; chunk++) {
        ssize_t done = writes ? pwrite(file, bytes, CHUNK, chunk * CHUNK) : pread(file, bytes, CHUNK, chunk * CHUNK);
        if (done != CHUNK) return 1;
    }
    close(file);
    printf("%.0f\n", micros() - start);
    return 0;
}
