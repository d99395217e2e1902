/* For LD_PRELOAD: simulates the disk of a machine that loses its power. Whenever a file is synced, writes a copy of it, FILE.disk, which is what such a
   disk is sure to have. A test then puts the copies in the files' places. */
#define _GNU_SOURCE
#include <dlfcn.h>
#include <fcntl.h>
#include <stdio.h>
#include <string.h>
#include <sys/file.h>
#include <sys/stat.h>
#include <unistd.h>

static void copy(int from, const char *path)
{
    char name[4200], fresh[4300], part[65536];
    snprintf(name, sizeof name, "%s.disk", path);
    snprintf(fresh, sizeof fresh, "%s.lock", name);
    int lock = open(fresh, O_RDWR | O_CREAT | O_CLOEXEC, 0600);
    flock(lock, LOCK_EX);
    snprintf(fresh, sizeof fresh, "%s.new", name);
    int to = open(fresh, O_WRONLY | O_CREAT | O_TRUNC | O_CLOEXEC, 0600);
    off_t at = 0;
    for (ssize_t got; to >= 0 && (got = pread(from, part, sizeof part, at)) > 0; at += got)
        if (write(to, part, (size_t)got) != got)
            break;
    close(to);
    rename(fresh, name);
    close(lock);
}

static int synced(int file, int done)
{
    char link[64], path[4096];
    snprintf(link, sizeof link, "/proc/self/fd/%d", file);
    ssize_t size = readlink(link, path, sizeof path - 1);
    struct stat about;
    if (!done && size > 0 && !fstat(file, &about) && S_ISREG(about.st_mode)) {
        path[size] = 0;
        copy(file, path);
    }
    return done;
}

int fsync(int file)
{
    int (*real)(int) = (int (*)(int))dlsym(RTLD_NEXT, "fsync");
    return synced(file, real(file));
}

int fdatasync(int file)
{
    int (*real)(int) = (int (*)(int))dlsym(RTLD_NEXT, "fdatasync");
    return synced(file, real(file));
}
