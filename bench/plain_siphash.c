// SipHash-2-4 in plain C.
#include "plain.h"
#include "plain_siphash.h"

uint32_t plain_siphash24(const uint8_t *secret, size_t secret_length, const uint8_t *message, size_t message_length, uint8_t *output,
                         size_t output_length) {
    if (secret_length != 16) return DNSCOOKIE_WRONG_SECRETS;
    if (output_length < 8) return DNSCOOKIE_NO_ROOM;
    uint64_t hash = siphash24(word(secret), word(secret + 8), message, message_length);
    memcpy(output, &hash, 8);
    return DNSCOOKIE_DONE;
}
