/* Files of the host: reading one whole, replacing one atomically, and keeping two writers of one file apart. */
#define _POSIX_C_SOURCE 200809L

#include "files.h"

#include <errno.h>
#include <fcntl.h>
#include <stdio.h>
#include <stdlib.h>
#include <string.h>
#include <unistd.h>

/* Tells an error about the named thing, with a reason where there is one. */
void tell_error(const char *what, const char *name, const char *reason) {
    if (reason != NULL) {
        fprintf(stderr, "error: %s: %s: %s\n", what, name, reason);
    } else {
        fprintf(stderr, "error: %s: %s\n", what, name);
    }
}

/* Tells an error that the operating system gave. */
static void tell_system_error(const char *what, const char *path) {
    tell_error(what, path, strerror(errno));
}

/* Joins two texts into a new one. */
char *join_texts(const char *first, const char *second) {
    size_t first_len = strlen(first);
    size_t second_len = strlen(second);
    char *joined = malloc(first_len + second_len + 1);
    if (joined == NULL) {
        tell_error("cannot name a file", first, "no memory");
        return NULL;
    }
    memcpy(joined, first, first_len);
    memcpy(joined + first_len, second, second_len + 1);
    return joined;
}

/* Gives what stands before the last slash, "/" for a file of the root folder, and "." where there is no slash. */
char *folder_of(const char *path) {
    const char *slash = strrchr(path, '/');
    if (slash == NULL) {
        return join_texts(".", "");
    }
    char *folder = join_texts(path, "");
    if (folder != NULL) {
        folder[slash == path ? 1 : slash - path] = '\0';
    }
    return folder;
}

/* Says whether something is at the path, or whether that cannot be known. */
bool file_exists(const char *path) {
    return access(path, F_OK) == 0 || errno != ENOENT;
}

/* Reads a stream to its end into a buffer that has room for one byte more than a file may have. */
static bool read_stream(FILE *stream, const char *path, file_bytes *file) {
    file->len = fread(file->bytes, 1, FILE_MAX_LEN + 1, stream);
    if (ferror(stream)) {
        tell_system_error("cannot read", path);
        return false;
    }
    if (file->len > FILE_MAX_LEN) {
        tell_error("cannot read", path, "the file is too long");
        return false;
    }
    return true;
}

/* Gives back what the buffer has beyond the bytes read, and at least one byte is kept so that the pointer isn't null. */
static void shrink(file_bytes *file) {
    uint8_t *smaller = realloc(file->bytes, file->len + 1);
    if (smaller != NULL) {
        file->bytes = smaller;
    }
}

/* Reads a whole file. */
bool file_read(const char *path, file_bytes *file) {
    file->len = 0;
    file->bytes = malloc(FILE_MAX_LEN + 1);
    if (file->bytes == NULL) {
        tell_error("cannot read", path, "no memory");
        return false;
    }
    FILE *stream = fopen(path, "rb");
    if (stream == NULL) {
        tell_system_error("cannot open", path);
        file_free(file);
        return false;
    }
    bool read = read_stream(stream, path, file);
    fclose(stream);
    if (!read) {
        file_free(file);
        return false;
    }
    shrink(file);
    return true;
}

/* Frees the bytes of a file. */
void file_free(file_bytes *file) {
    free(file->bytes);
    file->bytes = NULL;
    file->len = 0;
}

/* Writes all bytes to an open file, also where the system takes them in several parts. */
static bool write_all(int handle, const uint8_t *bytes, size_t len) {
    while (len > 0) {
        ssize_t written = write(handle, bytes, len);
        if (written < 0 && errno == EINTR) {
            continue;
        }
        if (written < 0) {
            return false;
        }
        bytes += written;
        len -= (size_t)written;
    }
    return true;
}

/* Writes the bytes to an open file and on to the disk, and closes it in any case. */
static bool write_to_disk(int handle, const char *path, const uint8_t *bytes, size_t len) {
    bool written = write_all(handle, bytes, len) && fsync(handle) == 0;
    if (!written) {
        tell_system_error("cannot write", path);
    }
    if (close(handle) != 0 && written) {
        tell_system_error("cannot close", path);
        return false;
    }
    return written;
}

/* Brings the folder of a path to the disk, with the names in it. */
static bool sync_folder_of(const char *path) {
    char *folder = folder_of(path);
    if (folder == NULL) {
        return false;
    }
    int handle = open(folder, O_RDONLY | O_DIRECTORY);
    bool synced = handle >= 0 && fsync(handle) == 0;
    if (!synced) {
        tell_system_error("cannot bring the folder to the disk", folder);
    }
    if (handle >= 0) {
        close(handle);
    }
    free(folder);
    return synced;
}

/* Writes the bytes to the temporary file and renames it to the path; the temporary file is gone afterwards in any case. */
static bool write_and_rename(char *temporary, const char *path, const uint8_t *bytes, size_t len) {
    int handle = mkstemp(temporary);
    if (handle < 0) {
        tell_system_error("cannot make a temporary file beside", path);
        return false;
    }
    if (!write_to_disk(handle, temporary, bytes, len)) {
        unlink(temporary);
        return false;
    }
    if (rename(temporary, path) != 0) {
        tell_system_error("cannot replace", path);
        unlink(temporary);
        return false;
    }
    return true;
}

/* Replaces the file: a temporary file beside it, to the disk, renamed over it, and the folder to the disk. */
bool file_replace(const char *path, const uint8_t *bytes, size_t len) {
    char *temporary = join_texts(path, ".XXXXXX");
    if (temporary == NULL) {
        return false;
    }
    bool renamed = write_and_rename(temporary, path, bytes, len);
    free(temporary);
    return renamed && sync_folder_of(path);
}

/* Takes the lock of an open lock file, waiting for it; the system lets go of it when the process ends, however it ends. */
static bool take_lock(int handle) {
    struct flock lock = {0};
    lock.l_type = F_WRLCK;
    lock.l_whence = SEEK_SET;
    int answer;
    do {
        answer = fcntl(handle, F_SETLKW, &lock);
    } while (answer != 0 && errno == EINTR);
    return answer == 0;
}

/* Takes the lock of a path, which is the lock of a file of its own beside it, since the path's own file gets replaced. */
int file_lock(const char *path) {
    char *lock_path = join_texts(path, ".lock");
    if (lock_path == NULL) {
        return -1;
    }
    int handle = open(lock_path, O_RDWR | O_CREAT, 0600);
    if (handle < 0 || !take_lock(handle)) {
        tell_system_error("cannot lock", lock_path);
        if (handle >= 0) {
            close(handle);
        }
        handle = -1;
    }
    free(lock_path);
    return handle;
}

/* Lets go of a lock. */
void file_unlock(int lock) {
    close(lock);
}
