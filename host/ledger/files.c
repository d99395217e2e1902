#define _XOPEN_SOURCE 700
#include "files.h"

#include "visit.h"

#include <errno.h>
#include <fcntl.h>
#include <stdlib.h>
#include <string.h>
#include <sys/mman.h>
#include <sys/stat.h>
#include <unistd.h>

static struct file *mapped;
static size_t files;

static void fail(int file, const char *path, const char *reason)
{
    if (file >= 0)
        close(file);
    cannot("%s: %s; nothing was done", path, reason);
}

/* The pointer is never null, even if nothing is mapped. */
struct file map_file(const char *path)
{
    struct stat about;
    struct file found = {path, (const uint8_t *)"", 0};
    int file = open(path, O_RDONLY | O_CLOEXEC);
    if (file < 0 || fstat(file, &about))
        fail(file, path, strerror(errno));
    if (!S_ISREG(about.st_mode))
        fail(file, path, S_ISDIR(about.st_mode) ? "a directory" : "not a plain file");
    if (about.st_size) {
        void *bytes = mmap(NULL, (size_t)about.st_size, PROT_READ, MAP_PRIVATE, file, 0);
        if (bytes == MAP_FAILED)
            fail(file, path, strerror(errno));
        found.bytes = bytes;
        found.size = (size_t)about.st_size;
    }
    close(file);
    struct file *more = realloc(mapped, (files + 1) * sizeof *mapped);
    if (!more)
        cannot("no memory");
    mapped = more;
    mapped[files++] = found;
    return found;
}

void unmap_files(void)
{
    while (files--)
        if (mapped[files].size)
            munmap((void *)(uintptr_t)mapped[files].bytes, mapped[files].size);
    free(mapped);
    mapped = NULL;
    files = 0;
}

void write_sheet(const char *path, const uint8_t *sheet)
{
    int file = open(path, O_WRONLY | O_CREAT | O_EXCL | O_CLOEXEC, 0666);
    if (file < 0)
        cannot("%s: %s", path, errno == EEXIST ? "there is such a file; it was left as it is" : strerror(errno));
    int written = write(file, sheet, HERNGANOW_SHEET) == HERNGANOW_SHEET && !fsync(file);
    int reason = errno;
    if (close(file) || !written) {
        unlink(path);
        cannot("%s: %s; nothing was written", path, strerror(reason));
    }
    say("%s: a sheet of %d bytes\n", path, HERNGANOW_SHEET);
}
