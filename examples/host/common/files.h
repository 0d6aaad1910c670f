/* Files of the host: reading one whole, replacing one atomically, and keeping two writers of one file apart.
 *
 * Every function that answers false has told the error on the standard error stream.
 */
#ifndef HOST_FILES_H
#define HOST_FILES_H

#include <stdbool.h>
#include <stddef.h>
#include <stdint.h>

/* The most bytes that the host reads from a file or gives an image; one with 1,024 bodies of the greatest length has 33,595,400. */
#define FILE_MAX_LEN ((size_t)40 * 1024 * 1024)

/* The bytes of a file. After a successful read `bytes` is never null and has room for one byte more than `len`; free it with file_free. */
typedef struct file_bytes {
    uint8_t *bytes;
    size_t len;
} file_bytes;

/* Tells an error of the host about the named thing; `reason` may be null. */
void tell_error(const char *what, const char *name, const char *reason);

/* Joins two texts into a new one, which the caller frees; answers null where there is no memory. */
char *join_texts(const char *first, const char *second);

/* Gives the folder part of a path as a new text, which the caller frees; "." where the path has no folder. */
char *folder_of(const char *path);

/* Says whether something is at the path, or whether that cannot be known. */
bool file_exists(const char *path);

/* Reads a whole file. */
bool file_read(const char *path, file_bytes *file);

/* Frees the bytes of a file; does nothing for a file_bytes of zeros. */
void file_free(file_bytes *file);

/* Replaces the file by these bytes, so that whoever opens the path, also after a crash, finds either the old bytes or the new ones. */
bool file_replace(const char *path, const uint8_t *bytes, size_t len);

/* Waits until no other process holds the lock of the path, and takes it; answers its handle, or -1. */
int file_lock(const char *path);

/* Lets go of a lock. */
void file_unlock(int lock);

#endif
