/* Ed25519 over a head. */
#include "sign.h"

#include "log.h"

#include <errno.h>
#include <stdio.h>
#include <string.h>

#ifdef WITH_CRYPTO

#include <openssl/evp.h>
#include <openssl/pem.h>

static EVP_PKEY *read_key(const char *path, int is_private)
{
    FILE *file = fopen(path, "r");
    EVP_PKEY *key;

    if (file == NULL) {
        log_trouble("%s: %s", path, strerror(errno));
        return NULL;
    }
    key = is_private ? PEM_read_PrivateKey(file, NULL, NULL, NULL)
                     : PEM_read_PUBKEY(file, NULL, NULL, NULL);
    fclose(file);
    if (key != NULL && EVP_PKEY_base_id(key) == EVP_PKEY_ED25519)
        return key;
    EVP_PKEY_free(key);
    log_trouble("%s: no %s key of Ed25519 in PEM", path,
                is_private ? "private" : "public");
    return NULL;
}

struct sign *sign_private(const char *path)
{
    return (struct sign *)read_key(path, 1);
}

struct sign *sign_public(const char *path)
{
    return (struct sign *)read_key(path, 0);
}

static size_t signed_bytes(uint8_t to[256], const char *prefix,
                           const uint8_t *head)
{
    size_t n = strlen(prefix) + 1;

    memcpy(to, prefix, n);
    memcpy(to + n, head, WIRE_HEAD);
    return n + WIRE_HEAD;
}

void sign_head(struct sign *s, const char *prefix, const uint8_t *head,
               uint8_t signature[WIRE_SIGNATURE])
{
    EVP_MD_CTX *c = EVP_MD_CTX_new();
    size_t size = WIRE_SIGNATURE;
    uint8_t bytes[256];

    memset(signature, 0, WIRE_SIGNATURE);
    if (c != NULL && EVP_DigestSignInit(c, NULL, NULL, NULL, (EVP_PKEY *)s) == 1)
        EVP_DigestSign(c, signature, &size, bytes,
                       signed_bytes(bytes, prefix, head));
    EVP_MD_CTX_free(c);
}

int sign_verify(struct sign *s, const char *prefix, const uint8_t *head,
                const uint8_t *signature)
{
    EVP_MD_CTX *c = EVP_MD_CTX_new();
    uint8_t bytes[256];
    int good = c != NULL &&
               EVP_DigestVerifyInit(c, NULL, NULL, NULL, (EVP_PKEY *)s) == 1 &&
               EVP_DigestVerify(c, signature, WIRE_SIGNATURE, bytes,
                                signed_bytes(bytes, prefix, head)) == 1;

    EVP_MD_CTX_free(c);
    return good;
}

#else

static struct sign *none(const char *path)
{
    log_trouble("%s: built without libcrypto: signatures are not to be had",
                path);
    return NULL;
}

struct sign *sign_private(const char *path)
{
    return none(path);
}

struct sign *sign_public(const char *path)
{
    return none(path);
}

void sign_head(struct sign *s, const char *prefix, const uint8_t *head,
               uint8_t signature[WIRE_SIGNATURE])
{
    (void)s;
    (void)prefix;
    (void)head;
    memset(signature, 0, WIRE_SIGNATURE);
}

int sign_verify(struct sign *s, const char *prefix, const uint8_t *head,
                const uint8_t *signature)
{
    (void)s;
    (void)prefix;
    (void)head;
    (void)signature;
    return 0;
}

#endif
