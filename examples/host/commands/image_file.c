/* The image file under its lock. */
#include "image_file.h"

#include <stdio.h>
#include <stdlib.h>
#include <string.h>

#include "arguments.h"
#include "cap.h"
#include "words.h"

/* Where an image has its row count, the length of its header, and that of a row of edition 2, which begins with the descriptor id. */
enum { COUNT_AT = 4, HEADER_LEN = 8, ROW_LEN = 40 };

/* Copies the bytes of a file. */
static bool copy_file(const char *path, const file_bytes *from, file_bytes *to) {
    to->bytes = malloc(from->len + 1);
    if (to->bytes == NULL) {
        tell_error("cannot read", path, "no memory");
        return false;
    }
    memcpy(to->bytes, from->bytes, from->len);
    to->len = from->len;
    return true;
}

/* Takes the lock of the path and reads the file. */
bool image_open(const char *path, image_file *file) {
    file->path = path;
    if (!file_exists(path)) {
        tell_error("cannot open", path, "no such file");
        return false;
    }
    file->lock = file_lock(path);
    file->is_locked = file->lock >= 0;
    return file->is_locked && file_read(path, &file->image) && copy_file(path, &file->image, &file->before);
}

/* Says whether the gate has changed the image since the file was read. */
bool image_changed(const image_file *file) {
    return memcmp(file->image.bytes, file->before.bytes, file->image.len) != 0;
}

/* Replaces the file by the image where the image has changed. */
bool image_save(const image_file *file) {
    return !image_changed(file) || file_replace(file->path, file->image.bytes, file->image.len);
}

/* Lets go of the lock and of the memory. */
void image_close(image_file *file) {
    file_free(&file->image);
    file_free(&file->before);
    if (file->is_locked) {
        file_unlock(file->lock);
    }
    file->is_locked = false;
}

/* Prints a line for each descriptor that the file has and the image holds no longer. */
void print_removed(const image_file *file) {
    const uint8_t *before = file->before.bytes;
    size_t count = (size_t)before[COUNT_AT] << 8 | before[COUNT_AT + 1];
    for (size_t row = 0; row < count; row++) {
        const uint8_t *id = before + HEADER_LEN + row * ROW_LEN;
        if (cap_image_find(file->image.bytes, file->image.len, id, ID_LEN).answer == CAP_DESCRIPTOR_NOT_FOUND) {
            printf("  removed, since it was expired and room was needed: descriptor ");
            print_id(id);
            putchar('\n');
        }
    }
}

/* Reads the size of an image and makes a buffer of so many zeros. */
uint8_t *image_buffer(const char *path, const char *size_text, size_t *size) {
    uint64_t number = 0;
    if (!parse_number(size_text, &number) || number > FILE_MAX_LEN) {
        tell_bad_argument("SIZE", size_text);
        return NULL;
    }
    *size = (size_t)number;
    uint8_t *buffer = calloc(*size + 1, 1);
    if (buffer == NULL) {
        tell_error("cannot make an image", path, "no memory");
    }
    return buffer;
}
