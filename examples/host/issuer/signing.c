/* The issuer's side of keys. */
#include "signing.h"

#include <openssl/bio.h>
#include <openssl/core_names.h>
#include <openssl/ec.h>
#include <openssl/pem.h>
#include <stdlib.h>
#include <string.h>

#include "cap.h"

/* Makes a new key for the algorithm, or null. */
EVP_PKEY *signing_key_new(uint64_t algorithm) {
    switch (algorithm) {
    case CAP_ED25519: return EVP_PKEY_Q_keygen(NULL, NULL, "ED25519");
    case CAP_ECDSA_P256_SHA256: return EVP_EC_gen("P-256");
    default: return NULL;
    }
}

/* Signs a message. */
bool sign(EVP_PKEY *key, uint64_t algorithm, const uint8_t *message, size_t message_len, uint8_t signature[SIGNATURE_MAX_LEN],
          size_t *signature_len) {
    const EVP_MD *digest = algorithm == CAP_ED25519 ? NULL : EVP_sha256();
    EVP_MD_CTX *context = EVP_MD_CTX_new();
    *signature_len = SIGNATURE_MAX_LEN;
    bool signed_well = context != NULL && EVP_DigestSignInit(context, NULL, digest, NULL, key) == 1 &&
                       EVP_DigestSign(context, signature, signature_len, message, message_len) == 1;
    EVP_MD_CTX_free(context);
    return signed_well;
}

/* Gives the bytes of the public key. */
bool public_bytes(EVP_PKEY *key, uint64_t algorithm, uint8_t bytes[PUBLIC_BYTES_MAX_LEN], size_t *len) {
    *len = PUBLIC_BYTES_MAX_LEN;
    if (algorithm == CAP_ED25519) {
        return EVP_PKEY_get_raw_public_key(key, bytes, len) == 1;
    }
    return EVP_PKEY_get_octet_string_param(key, OSSL_PKEY_PARAM_ENCODED_PUBLIC_KEY, bytes, PUBLIC_BYTES_MAX_LEN, len) == 1;
}

/* Copies what a memory stream of libcrypto has into a new text, or null. */
static char *text_of(BIO *memory) {
    char *start = NULL;
    long len = BIO_get_mem_data(memory, &start);
    char *text = len < 0 ? NULL : malloc((size_t)len + 1);
    if (text != NULL) {
        memcpy(text, start, (size_t)len);
        text[len] = '\0';
    }
    return text;
}

/* Gives the public key as PEM. */
char *public_pem(EVP_PKEY *key) {
    BIO *memory = BIO_new(BIO_s_mem());
    char *text = memory != NULL && PEM_write_bio_PUBKEY(memory, key) == 1 ? text_of(memory) : NULL;
    BIO_free(memory);
    return text;
}
