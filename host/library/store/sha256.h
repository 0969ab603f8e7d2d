/* SHA-256 (FIPS 180-4). It tells file states and damaged journals apart; no secret depends on it. */
#ifndef SHA256_H
#define SHA256_H

#include <stddef.h>
#include <stdint.h>

enum { SHA256_SIZE = 32 };

void sha256(const uint8_t *at, size_t length, uint8_t hash[SHA256_SIZE]);

#endif
