/* Public keys and the check of a signature, by OpenSSL's libcrypto. */
#include "public_key.h"

#include <openssl/core_names.h>
#include <openssl/params.h>
#include <openssl/pem.h>
#include <stdio.h>
#include <string.h>

#include "cap.h"

/* The longest name of a curve that is looked at. */
enum { CURVE_NAME_LEN = 64 };

/* Makes a key on the curve P-256 from the bytes of a point. */
static EVP_PKEY *p256_key_from_point(const uint8_t *bytes, size_t len) {
    EVP_PKEY *key = NULL;
    OSSL_PARAM parameters[3];
    parameters[0] = OSSL_PARAM_construct_utf8_string(OSSL_PKEY_PARAM_GROUP_NAME, (char *)"prime256v1", 0);
    parameters[1] = OSSL_PARAM_construct_octet_string(OSSL_PKEY_PARAM_PUB_KEY, (void *)bytes, len);
    parameters[2] = OSSL_PARAM_construct_end();
    EVP_PKEY_CTX *context = EVP_PKEY_CTX_new_from_name(NULL, "EC", NULL);
    if (context == NULL || EVP_PKEY_fromdata_init(context) <= 0 || EVP_PKEY_fromdata(context, &key, EVP_PKEY_PUBLIC_KEY, parameters) <= 0) {
        key = NULL;
    }
    EVP_PKEY_CTX_free(context);
    return key;
}

/* Says whether a key is on the curve P-256. */
static bool is_p256(EVP_PKEY *key) {
    char curve[CURVE_NAME_LEN];
    return EVP_PKEY_is_a(key, "EC") && EVP_PKEY_get_group_name(key, curve, sizeof curve, NULL) && strcmp(curve, "prime256v1") == 0;
}

/* Says whether libcrypto finds nothing wrong with the public part of a key. */
static bool passes_public_check(EVP_PKEY *key) {
    EVP_PKEY_CTX *context = EVP_PKEY_CTX_new_from_pkey(NULL, key, NULL);
    bool passes = context != NULL && EVP_PKEY_public_check(context) == 1;
    EVP_PKEY_CTX_free(context);
    return passes;
}

/* Says whether a key is one for the algorithm. */
static bool fits(EVP_PKEY *key, uint64_t algorithm) {
    switch (algorithm) {
    case CAP_ED25519: return EVP_PKEY_is_a(key, "ED25519");
    case CAP_ECDSA_P256_SHA256: return is_p256(key) && passes_public_check(key);
    default: return false;
    }
}

/* Hands on a key that is one for the algorithm, and frees any other. */
static EVP_PKEY *only_if_fits(EVP_PKEY *key, uint64_t algorithm) {
    if (key != NULL && !fits(key, algorithm)) {
        EVP_PKEY_free(key);
        return NULL;
    }
    return key;
}

/* Makes a key from raw bytes. */
EVP_PKEY *public_key_from_bytes(uint64_t algorithm, const uint8_t *bytes, size_t len) {
    EVP_PKEY *key = NULL;
    if (algorithm == CAP_ED25519) {
        key = EVP_PKEY_new_raw_public_key(EVP_PKEY_ED25519, NULL, bytes, len);
    } else if (algorithm == CAP_ECDSA_P256_SHA256) {
        key = p256_key_from_point(bytes, len);
    }
    return only_if_fits(key, algorithm);
}

/* Reads a key from a PEM file; the empty password keeps libcrypto from asking for one. */
EVP_PKEY *public_key_from_pem(uint64_t algorithm, const char *path) {
    FILE *stream = fopen(path, "rb");
    if (stream == NULL) {
        return NULL;
    }
    EVP_PKEY *key = PEM_read_PUBKEY(stream, NULL, NULL, (void *)"");
    fclose(stream);
    return only_if_fits(key, algorithm);
}

/* Checks a signature over a message. */
bool signature_is_good(EVP_PKEY *key, uint64_t algorithm, const uint8_t *message, size_t message_len, const uint8_t *signature,
                       size_t signature_len) {
    const EVP_MD *digest = algorithm == CAP_ED25519 ? NULL : EVP_sha256();
    EVP_MD_CTX *context = EVP_MD_CTX_new();
    bool good = context != NULL && EVP_DigestVerifyInit(context, NULL, digest, NULL, key) == 1 &&
                EVP_DigestVerify(context, signature, signature_len, message, message_len) == 1;
    EVP_MD_CTX_free(context);
    return good;
}
