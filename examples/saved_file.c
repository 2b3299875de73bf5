/* Bytes that last, in a file. */
#define _POSIX_C_SOURCE 200809L

#include "saved_file.h"

#include <errno.h>
#include <stdio.h>
#include <unistd.h>

enum { PATH_BYTES = 4096 };

saved_file_result saved_file_load(const char *path, uint8_t *bytes, size_t room, size_t *length)
{
    FILE *file = fopen(path, "rb");
    if (file == NULL)
        return errno == ENOENT ? SAVED_FILE_MISSING : SAVED_FILE_FAILED;
    *length = fread(bytes, 1, room, file);
    bool failed = ferror(file) != 0;
    fclose(file);
    return failed ? SAVED_FILE_FAILED : SAVED_FILE_READ;
}

/* The bytes are on the medium before the file is closed. */
static bool written(FILE *file, const uint8_t *bytes, size_t length)
{
    bool done = fwrite(bytes, 1, length, file) == length;
    done = done && fflush(file) == 0 && fsync(fileno(file)) == 0;
    return fclose(file) == 0 && done;
}

/* A second file first, and then its name: the old bytes stay whole until the new ones are. */
bool saved_file_save(const char *path, const uint8_t *bytes, size_t length)
{
    char fresh[PATH_BYTES];
    int needed = snprintf(fresh, sizeof fresh, "%s.new", path);
    if (needed < 0 || (size_t)needed >= sizeof fresh) {
        errno = ENAMETOOLONG;
        return false;
    }
    FILE *file = fopen(fresh, "wb");
    return file != NULL && written(file, bytes, length) && rename(fresh, path) == 0;
}
