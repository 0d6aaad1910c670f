/* The maker of the example's descriptors: makes keys, signs each descriptor, and writes the descriptor files, the terminal's key file and a
 * PEM file into a folder. The private keys are never written. */
#include <inttypes.h>
#include <stdio.h>
#include <stdlib.h>
#include <string.h>

#include "encoding.h"
#include "fields.h"
#include "files.h"
#include "samples.h"
#include "signing.h"
#include "words.h"

/* The keys of the signers, at their places. */
typedef EVP_PKEY *signer_keys[SIGNER_COUNT];

/* Writes a file of the folder. */
static bool write_in_folder(const char *folder, const char *name, const void *bytes, size_t len) {
    char *with_slash = join_texts(folder, "/");
    char *path = with_slash == NULL ? NULL : join_texts(with_slash, name);
    bool written = path != NULL && file_replace(path, bytes, len);
    free(path);
    free(with_slash);
    return written;
}

/* Makes the keys of all signers. */
static bool make_keys(signer_keys keys) {
    for (size_t place = 0; place < SIGNER_COUNT; place++) {
        keys[place] = signing_key_new(signers[place].algorithm);
        if (keys[place] == NULL) {
            tell_error("cannot make the key", signers[place].key_id, NULL);
            return false;
        }
    }
    return true;
}

/* Frees the keys of all signers. */
static void free_keys(signer_keys keys) {
    for (size_t place = 0; place < SIGNER_COUNT; place++) {
        EVP_PKEY_free(keys[place]);
    }
}

/* ---- the key file */

/* Prints a text as a key file has it, each byte that could part or end a field as % and two hex digits. */
static void print_field(FILE *out, const char *text) {
    for (; *text != '\0'; text++) {
        if (*text <= ' ' || *text > '~' || *text == '%' || *text == '#') {
            fprintf(out, "%%%02x", (unsigned)(unsigned char)*text);
        } else {
            fputc(*text, out);
        }
    }
    fputc(' ', out);
}

/* Prints the public key in hex. */
static bool print_public_hex(FILE *out, EVP_PKEY *key, uint64_t algorithm) {
    uint8_t bytes[PUBLIC_BYTES_MAX_LEN];
    size_t len = 0;
    if (!public_bytes(key, algorithm, bytes, &len)) {
        return false;
    }
    for (size_t place = 0; place < len; place++) {
        fprintf(out, "%02x", bytes[place]);
    }
    return true;
}

/* Writes the PEM file of a public key and prints its name. */
static bool print_public_pem(FILE *out, const char *folder, EVP_PKEY *key, const char *name) {
    char *pem = public_pem(key);
    bool written = pem != NULL && write_in_folder(folder, name, pem, strlen(pem));
    free(pem);
    fprintf(out, "pem:%s", name);
    return written;
}

/* Prints the line of a signer. */
static bool print_signer(FILE *out, const char *folder, const signer *who, EVP_PKEY *key) {
    print_field(out, who->issuer);
    print_field(out, who->key_id);
    print_field(out, algorithm_name(who->algorithm));
    bool printed = who->pem_name != NULL ? print_public_pem(out, folder, key, who->pem_name) : print_public_hex(out, key, who->algorithm);
    fprintf(out, " %" PRIu64, who->valid_from);
    if (who->has_valid_until) {
        fprintf(out, " %" PRIu64, who->valid_until);
    }
    fputc('\n', out);
    return printed;
}

/* Prints the lines of all signers that the terminal knows. */
static bool print_signers(FILE *out, const char *folder, signer_keys keys) {
    bool printed = true;
    fputs("# issuer, key id, algorithm, public key, valid from, valid until where there is an end\n", out);
    for (size_t place = 0; place < SIGNER_COUNT && printed; place++) {
        if (signers[place].listed) {
            printed = print_signer(out, folder, &signers[place], keys[place]);
        }
    }
    return printed;
}

/* Writes the terminal's key file. */
static bool write_key_file(const char *folder, signer_keys keys) {
    char *path = join_texts(folder, "/keys.txt");
    FILE *out = path == NULL ? NULL : fopen(path, "wb");
    bool written = out != NULL && print_signers(out, folder, keys);
    if (out != NULL && fclose(out) != 0) {
        written = false;
    }
    if (!written) {
        tell_error("cannot write the key file", path == NULL ? folder : path, NULL);
    }
    free(path);
    return written;
}

/* ---- the descriptors */

/* Encodes and signs a descriptor; a bad signature is a good one of another payload. */
static bool make_descriptor(encoding *descriptor, const sample *made, EVP_PKEY *key) {
    static encoding payload;
    static encoding to_sign;
    uint8_t signature[SIGNATURE_MAX_LEN];
    const signer *who = &signers[made->signer];
    signature_fields signed_by = {who->key_id, who->algorithm, signature, 0};
    memset(descriptor, 0, sizeof *descriptor);
    memset(&payload, 0, sizeof payload);
    memset(&to_sign, 0, sizeof to_sign);
    encode_payload(&payload, &made->payload);
    encode_payload(&to_sign, made->signed_instead != NULL ? made->signed_instead : &made->payload);
    if (!sign(key, who->algorithm, to_sign.bytes, to_sign.len, signature, &signed_by.value_len)) {
        return false;
    }
    encode_descriptor(descriptor, &payload, &signed_by);
    return !descriptor->full && !to_sign.full;
}

/* Makes and writes all descriptors. */
static bool write_descriptors(const char *folder, signer_keys keys) {
    static encoding descriptor;
    for (size_t place = 0; place < sample_count; place++) {
        const sample *made = &samples[place];
        if (!make_descriptor(&descriptor, made, keys[made->signer])) {
            tell_error("cannot make the descriptor", made->file_name, NULL);
            return false;
        }
        if (!write_in_folder(folder, made->file_name, descriptor.bytes, descriptor.len)) {
            return false;
        }
    }
    return true;
}

/* Makes everything in the folder that is named; ends with 0, or with 2 after an error. */
int main(int argc, char **argv) {
    signer_keys keys = {NULL};
    if (argc != 2) {
        fputs("usage: issue FOLDER\n", stderr);
        return 2;
    }
    bool made = make_keys(keys) && write_key_file(argv[1], keys) && write_descriptors(argv[1], keys);
    free_keys(keys);
    return made ? 0 : 2;
}
