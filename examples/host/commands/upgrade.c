/* The command `upgrade`: an image file of edition 1 becomes one of edition 2. */
#include <inttypes.h>
#include <stdint.h>
#include <stdio.h>
#include <stdlib.h>

#include "cap.h"
#include "commands.h"
#include "files.h"
#include "image_file.h"
#include "words.h"

/* Has the gate write the image of edition 2 to the buffer, and replaces the file by the buffer. */
static int upgrade_to(const image_file *old, uint8_t *buffer, size_t size) {
    cap_written written = cap_image_upgrade(old->image.bytes, old->image.len, buffer, size);
    if (written.answer != CAP_DONE) {
        print_refusal(ASKED_UPGRADE, written.answer);
        return ENDED_REFUSED;
    }
    if (!file_replace(old->path, buffer, size)) {
        return ENDED_WITH_ERROR;
    }
    printf("upgraded: image of edition 2, %zu bytes, of which %" PRIu64 " are in use\n", size, written.len);
    return ENDED_WELL;
}

/* Turns an image file of edition 1 into one of edition 2, with the file's lock held. */
int command_upgrade(char **arguments, int count) {
    image_file old = {0};
    size_t size = 0;
    int ended = ENDED_WITH_ERROR;
    (void)count;
    uint8_t *buffer = image_buffer(arguments[0], arguments[1], &size);
    if (buffer != NULL && image_open(arguments[0], &old)) {
        ended = upgrade_to(&old, buffer, size);
    }
    image_close(&old);
    free(buffer);
    return ended;
}
