/* The issuer's side of keys: making one, signing with it, and giving its public part out. By OpenSSL's libcrypto. */
#ifndef HOST_SIGNING_H
#define HOST_SIGNING_H

#include <openssl/evp.h>
#include <stdbool.h>
#include <stddef.h>
#include <stdint.h>

/* The longest signature that a descriptor may have, and the longest public key in bytes. */
enum { SIGNATURE_MAX_LEN = 72, PUBLIC_BYTES_MAX_LEN = 65 };

/* Makes a new key for the algorithm, or null. */
EVP_PKEY *signing_key_new(uint64_t algorithm);

/* Signs a message: ed25519, or ECDSA over SHA-256 in DER. */
bool sign(EVP_PKEY *key, uint64_t algorithm, const uint8_t *message, size_t message_len, uint8_t signature[SIGNATURE_MAX_LEN],
          size_t *signature_len);

/* Gives the bytes of the public key: 32 for ed25519, an uncompressed point of 65 for ecdsa-p256-sha256. */
bool public_bytes(EVP_PKEY *key, uint64_t algorithm, uint8_t bytes[PUBLIC_BYTES_MAX_LEN], size_t *len);

/* Gives the public key as PEM, a new text that the caller frees; null where that fails. */
char *public_pem(EVP_PKEY *key);

#endif
