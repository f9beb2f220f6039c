// Copies a folder with all that lies in it as `cp -r` does, and brings each file and each folder onto the disk: `yardstick FROM TO`.
// Gives each file of a folder a mode as `chmod` does, and brings it onto the disk: `yardstick --mode MODE FOLDER`.
#include <dirent.h>
#include <err.h>
#include <fcntl.h>
#include <stdio.h>
#include <stdlib.h>
#include <string.h>
#include <sys/stat.h>
#include <unistd.h>

static char bytes[1 << 17];

static void sync_and_close(int open_one, const char *path) {
    if (fsync(open_one) != 0 || close(open_one) != 0)
        err(1, "%s", path);
}

static void copy_file(const char *from, const char *to, mode_t mode) {
    int source = open(from, O_RDONLY), target = open(to, O_WRONLY | O_CREAT | O_EXCL, mode);
    if (source < 0 || target < 0)
        err(1, "%s", to);
    ssize_t count;
    while ((count = read(source, bytes, sizeof bytes)) > 0)
        if (write(target, bytes, (size_t)count) != count)
            err(1, "%s", to);
    sync_and_close(target, to);
    close(source);
}

static void copy_folder(const char *from, const char *to, mode_t mode);

static void copy_thing(const char *from, const char *to) {
    struct stat facts;
    if (lstat(from, &facts) != 0)
        err(1, "%s", from);
    if (S_ISDIR(facts.st_mode))
        copy_folder(from, to, facts.st_mode & 07777);
    else
        copy_file(from, to, facts.st_mode & 07777);
}

static void copy_folder(const char *from, const char *to, mode_t mode) {
    char source[4096], target[4096];
    DIR *names = opendir(from);
    if (names == NULL || mkdir(to, mode) != 0)
        err(1, "%s", to);
    for (struct dirent *entry; (entry = readdir(names)) != NULL;) {
        if (strcmp(entry->d_name, ".") == 0 || strcmp(entry->d_name, "..") == 0)
            continue;
        snprintf(source, sizeof source, "%s/%s", from, entry->d_name);
        snprintf(target, sizeof target, "%s/%s", to, entry->d_name);
        copy_thing(source, target);
    }
    closedir(names);
    sync_and_close(open(to, O_RDONLY | O_DIRECTORY), to);
}

static void set_modes(const char *folder, mode_t mode) {
    char path[4096];
    DIR *names = opendir(folder);
    if (names == NULL)
        err(1, "%s", folder);
    for (struct dirent *entry; (entry = readdir(names)) != NULL;) {
        if (strcmp(entry->d_name, ".") == 0 || strcmp(entry->d_name, "..") == 0)
            continue;
        snprintf(path, sizeof path, "%s/%s", folder, entry->d_name);
        if (chmod(path, mode) != 0)
            err(1, "%s", path);
        sync_and_close(open(path, O_RDONLY), path);
    }
    closedir(names);
}

int main(int count, char **words) {
    if (count == 4 && strcmp(words[1], "--mode") == 0)
        set_modes(words[3], (mode_t)strtoul(words[2], NULL, 8));
    else if (count == 3)
        copy_thing(words[1], words[2]);
    else
        errx(2, "usage: yardstick FROM TO, or yardstick --mode MODE FOLDER");
}
