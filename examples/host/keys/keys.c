/* The host's verification keys, from a key file. */
#include "keys.h"

#include <stdio.h>
#include <stdlib.h>
#include <string.h>

#include "arguments.h"
#include "cap.h"
#include "files.h"
#include "lines.h"
#include "public_key.h"
#include "words.h"

/* The fewest and the most fields of a line, and the longest public key in bytes. */
enum { FIELDS_MIN = 5, FIELDS_MAX = 6, PUBLIC_KEY_MAX_LEN = 65 };

/* Turns each % with two hex digits into the byte that they spell; answers false for a % without them and for more than `room` bytes. */
static bool unescape(const char *text, uint8_t *bytes, size_t room, size_t *len) {
    size_t count = 0;
    while (*text != '\0') {
        if (count == room) {
            return false;
        }
        if (*text != '%') {
            bytes[count] = (uint8_t)*text;
            text += 1;
        } else if (parse_hex_byte(text + 1, &bytes[count])) {
            text += 3;
        } else {
            return false;
        }
        count++;
    }
    *len = count;
    return true;
}

/* Reads an algorithm by its name. */
static bool parse_algorithm(const char *text, uint64_t *algorithm) {
    for (uint64_t number = CAP_ED25519; number <= CAP_ECDSA_P256_SHA256; number++) {
        if (strcmp(text, algorithm_name(number)) == 0) {
            *algorithm = number;
            return true;
        }
    }
    return false;
}

/* Reads the key in the PEM file that a field names, whose path is meant from the key file's folder unless it begins with a slash. */
static EVP_PKEY *key_from_pem_field(const char *key_file, uint64_t algorithm, const char *field) {
    EVP_PKEY *key = NULL;
    size_t len = 0;
    char *name = malloc(strlen(field) + 1);
    char *folder = folder_of(key_file);
    char *prefix = folder == NULL ? NULL : join_texts(folder, "/");
    if (name != NULL && prefix != NULL && unescape(field, (uint8_t *)name, strlen(field), &len)) {
        name[len] = '\0';
        char *path = join_texts(name[0] == '/' ? "" : prefix, name);
        key = path == NULL ? NULL : public_key_from_pem(algorithm, path);
        free(path);
    }
    free(prefix);
    free(folder);
    free(name);
    return key;
}

/* Reads the public key that a field spells or names. */
static EVP_PKEY *key_from_field(const char *key_file, uint64_t algorithm, const char *field) {
    uint8_t bytes[PUBLIC_KEY_MAX_LEN];
    size_t len = 0;
    if (strncmp(field, "pem:", 4) == 0) {
        return key_from_pem_field(key_file, algorithm, field + 4);
    }
    return parse_hex(field, bytes, sizeof bytes, &len) ? public_key_from_bytes(algorithm, bytes, len) : NULL;
}

/* Reads a key from its fields; answers what is wrong, or null. A key is owned by `key` only where nothing is wrong. */
static const char *key_from_fields(const char *key_file, char *const fields[], size_t count, verification_key *key) {
    if (count < FIELDS_MIN || count > FIELDS_MAX) {
        return "a key has 5 or 6 fields";
    }
    if (!unescape(fields[0], key->issuer, ISSUER_MAX_LEN, &key->issuer_len)) {
        return "the issuer has over 128 bytes, or a % without two hex digits";
    }
    if (!unescape(fields[1], key->key_id, KEY_ID_MAX_LEN, &key->key_id_len)) {
        return "the key id has over 64 bytes, or a % without two hex digits";
    }
    if (!parse_algorithm(fields[2], &key->algorithm)) {
        return "the algorithm is neither ed25519 nor ecdsa-p256-sha256";
    }
    key->has_valid_until = count == FIELDS_MAX;
    if (!parse_number(fields[4], &key->valid_from) || (key->has_valid_until && !parse_number(fields[5], &key->valid_until))) {
        return "a time isn't a number of seconds";
    }
    key->public_key = key_from_field(key_file, key->algorithm, fields[3]);
    return key->public_key == NULL ? "the public key isn't one for the algorithm, or its PEM file cannot be read" : NULL;
}

/* Adds a key to the list, which owns it from then on; answers what is wrong, or null. */
static const char *add_key(key_list *list, const verification_key *key) {
    if (keys_find(list, key->issuer, key->issuer_len, key->key_id, key->key_id_len, key->algorithm) != NULL) {
        return "an earlier line has the same issuer, key id and algorithm";
    }
    verification_key *longer = realloc(list->keys, (list->count + 1) * sizeof *longer);
    if (longer == NULL) {
        return "no memory";
    }
    list->keys = longer;
    list->keys[list->count++] = *key;
    return NULL;
}

/* Takes one line of a key file into the list; answers what is wrong, or null. */
static const char *take_line(void *taker, const char *path, char *line) {
    key_list *list = taker;
    char *fields[FIELDS_MAX];
    verification_key key = {0};
    size_t count = cut_fields(line, fields, FIELDS_MAX);
    const char *wrong = key_from_fields(path, fields, count, &key);
    if (wrong != NULL) {
        return wrong;
    }
    wrong = add_key(list, &key);
    if (wrong != NULL) {
        EVP_PKEY_free(key.public_key);
    }
    return wrong;
}

/* Reads a key file. */
bool keys_read(const char *path, key_list *list) {
    list->keys = NULL;
    list->count = 0;
    if (!lines_read(path, take_line, list)) {
        keys_free(list);
        return false;
    }
    return true;
}

/* Frees the keys. */
void keys_free(key_list *list) {
    for (size_t place = 0; place < list->count; place++) {
        EVP_PKEY_free(list->keys[place].public_key);
    }
    free(list->keys);
    list->keys = NULL;
    list->count = 0;
}

/* Says whether two byte strings are the same. */
static bool same_bytes(const uint8_t *first, size_t first_len, const uint8_t *second, size_t second_len) {
    return first_len == second_len && memcmp(first, second, first_len) == 0;
}

/* Finds the key of an issuer under a key id for an algorithm, or null. */
const verification_key *keys_find(const key_list *list, const uint8_t *issuer, size_t issuer_len, const uint8_t *key_id, size_t key_id_len,
                                  uint64_t algorithm) {
    for (size_t place = 0; place < list->count; place++) {
        const verification_key *key = &list->keys[place];
        if (key->algorithm == algorithm && same_bytes(key->issuer, key->issuer_len, issuer, issuer_len) &&
            same_bytes(key->key_id, key->key_id_len, key_id, key_id_len)) {
            return key;
        }
    }
    return NULL;
}
