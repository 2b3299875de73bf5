/* Bytes that last, in a file: the stored list in one, the name in another, a recording in a third. In a product this is flash
 * memory. */
#ifndef SAVED_FILE_H
#define SAVED_FILE_H

#include <stdbool.h>
#include <stddef.h>
#include <stdint.h>

typedef enum { SAVED_FILE_READ, SAVED_FILE_MISSING, SAVED_FILE_FAILED } saved_file_result;

/* Reads at most `room` bytes. What they are worth is for fp_power_on to say. SAVED_FILE_FAILED: see errno. */
saved_file_result saved_file_load(const char *path, uint8_t *bytes, size_t room, size_t *length);

/* Replaces the file. After a power cut it holds the old bytes or the new ones. False: see errno. */
bool saved_file_save(const char *path, const uint8_t *bytes, size_t length);

#endif
