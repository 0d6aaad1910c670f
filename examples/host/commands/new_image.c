/* The command `new`: a new image file. */
#include <stdint.h>
#include <stdio.h>
#include <stdlib.h>

#include "cap.h"
#include "commands.h"
#include "files.h"
#include "image_file.h"
#include "words.h"

/* Says whether nothing is at the path yet, so that no image is lost; tells it otherwise. */
static bool path_is_free(const char *path) {
    if (file_exists(path)) {
        tell_error("cannot make a new image", path, "the file is there already");
        return false;
    }
    return true;
}

/* Writes the new image to its file, unless something is there; the lock keeps two hosts from both finding the path free. */
static int write_image(const char *path, const uint8_t *image, size_t size) {
    int lock = file_lock(path);
    if (lock < 0) {
        return ENDED_WITH_ERROR;
    }
    bool written = path_is_free(path) && file_replace(path, image, size);
    file_unlock(lock);
    if (!written) {
        return ENDED_WITH_ERROR;
    }
    printf("new image: %zu bytes, no descriptor\n", size);
    return ENDED_WELL;
}

/* Makes a new image of `size` bytes in the buffer and writes it to its file. */
static int make_image(const char *path, uint8_t *image, size_t size) {
    uint64_t answer = cap_image_new(image, size);
    if (answer != CAP_DONE) {
        print_refusal(ASKED_NEW_IMAGE, answer);
        return ENDED_REFUSED;
    }
    return write_image(path, image, size);
}

/* Makes a new image file. */
int command_new(char **arguments, int count) {
    size_t size = 0;
    (void)count;
    uint8_t *image = image_buffer(arguments[0], arguments[1], &size);
    if (image == NULL) {
        return ENDED_WITH_ERROR;
    }
    int ended = make_image(arguments[0], image, size);
    free(image);
    return ended;
}
