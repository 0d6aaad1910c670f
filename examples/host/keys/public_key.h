/* Public keys and the check of a signature, by OpenSSL's libcrypto. */
#ifndef HOST_PUBLIC_KEY_H
#define HOST_PUBLIC_KEY_H

#include <openssl/evp.h>
#include <stdbool.h>
#include <stddef.h>
#include <stdint.h>

/* Makes a key from raw bytes: 32 for ed25519; for ecdsa-p256-sha256 a point, 65 uncompressed or 33 compressed. Null where they are none. */
EVP_PKEY *public_key_from_bytes(uint64_t algorithm, const uint8_t *bytes, size_t len);

/* Reads a key from a PEM file ("BEGIN PUBLIC KEY"). Null where there is none, or none for the algorithm. */
EVP_PKEY *public_key_from_pem(uint64_t algorithm, const char *path);

/* Checks a signature over a message: ed25519's 64 bytes, or ECDSA's signature over SHA-256 in DER. Anything but a good one is false. */
bool signature_is_good(EVP_PKEY *key, uint64_t algorithm, const uint8_t *message, size_t message_len, const uint8_t *signature,
                       size_t signature_len);

#endif
