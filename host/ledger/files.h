/* Files that a command reads and writes. */
#ifndef FILES_H
#define FILES_H

#include <stddef.h>
#include <stdint.h>

struct file {
    const char *path;
    const uint8_t *bytes;
    size_t size;
};

/* Maps a file. If it cannot be read, the command ends. All files are unmapped together at the command's end. */
struct file map_file(const char *path);
void unmap_files(void);

/* Writes a sheet to a new file, and says so. */
void write_sheet(const char *path, const uint8_t *sheet);

#endif
