// A DNS request read in plain C.
#include "plain.h"
#include "plain_request.h"

dnscookie_found plain_find(const uint8_t *message, size_t length) {
    const uint8_t *body;
    unsigned qdcount;
    size_t n;
    unsigned refused = read_request(message, length, &qdcount, &body, &n);
    if (refused) return (dnscookie_found){refused};
    if (n == 0) return (dnscookie_found){DNSCOOKIE_ABSENT | qdcount << 8};
    uint64_t start = body - message;
    return (dnscookie_found){qdcount << 8 | start << 16 | (start + n) << 32};
}
