/* The image file, which is read, changed by the gate in memory, and replaced as a whole, all under its lock. */
#ifndef HOST_IMAGE_FILE_H
#define HOST_IMAGE_FILE_H

#include <stdbool.h>
#include <stddef.h>
#include <stdint.h>

#include "files.h"

/* An image file under its lock; one of zeros is not open. */
typedef struct image_file {
    const char *path;
    file_bytes image;  /* what the gate is given, and may change */
    file_bytes before; /* what the file has */
    int lock;
    bool is_locked;
} image_file;

/* Takes the lock of the path and reads the file; answers false where that fails, and has told it. */
bool image_open(const char *path, image_file *file);

/* Says whether the gate has changed the image since the file was read. */
bool image_changed(const image_file *file);

/* Replaces the file by the image where the image has changed; answers false where that fails, and has told it. */
bool image_save(const image_file *file);

/* Lets go of the lock and of the memory; does nothing for one that is not open. */
void image_close(image_file *file);

/* Prints a line for each descriptor that the file has and the image, of edition 2, holds no longer. */
void print_removed(const image_file *file);

/* Reads the size of an image and makes a buffer of so many zeros, which the caller frees; answers null where that fails, and has told it. */
uint8_t *image_buffer(const char *path, const char *size_text, size_t *size);

#endif
