#include <stddef.h>
#include <stdint.h>

void portable_sha256(const uint8_t *m, size_t n, uint8_t *out);
void portable_sha3_256(const uint8_t *m, size_t n, uint8_t *out);
