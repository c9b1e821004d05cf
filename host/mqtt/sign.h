/* Ed25519 over a head, by libcrypto. What is signed is the topic's prefix and
 * the head's first bytes, so that a head of another file is none of this one. */
#ifndef SIGN_H
#define SIGN_H

#include "wire.h"

struct sign;

/* A key from a PEM file; NULL when it has said why not. */
struct sign *sign_private(const char *path);
struct sign *sign_public(const char *path);

void sign_head(struct sign *s, const char *prefix, const uint8_t *head,
               uint8_t signature[WIRE_SIGNATURE]);
int sign_verify(struct sign *s, const char *prefix, const uint8_t *head,
                const uint8_t *signature);

#endif
