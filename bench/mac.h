/* MACs of NTP by OpenSSL, and big-endian numbers. */
#define OPENSSL_SUPPRESS_DEPRECATED
#include <openssl/md5.h>
#include <openssl/sha.h>
#include <stdint.h>
#include <stdio.h>
#include <string.h>

struct key { uint8_t octets[32]; size_t length; };

static inline struct key key_of(const char *hex) {
  struct key it = {.length = 0};
  while (it.length < sizeof it.octets && sscanf(hex + 2 * it.length, "%2hhx", &it.octets[it.length]) == 1)
    it.length++;
  return it;
}

/* The digest of a key and a header of 48 octets: MD5 where `size` is 16, SHA-1 where it is 20. */
static inline void digest(int size, const struct key *key, const uint8_t *header, uint8_t *out) {
  if (size == 16) {
    MD5_CTX it;
    MD5_Init(&it), MD5_Update(&it, key->octets, key->length), MD5_Update(&it, header, 48), MD5_Final(out, &it);
  } else {
    SHA_CTX it;
    SHA1_Init(&it), SHA1_Update(&it, key->octets, key->length), SHA1_Update(&it, header, 48), SHA1_Final(out, &it);
  }
}

static inline void put(uint8_t *at, int octets, uint64_t number) {
  while (octets--)
    at[octets] = number, number >>= 8;
}

static inline uint64_t get(const uint8_t *at, int octets) {
  uint64_t number = 0;
  while (octets--)
    number = number << 8 | *at++;
  return number;
}
