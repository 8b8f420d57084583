// A request answered in plain C.
#include "plain.h"
#include "plain_cookie.h"
#include "plain_request.h"

static inline dnscookie_answer answer(unsigned number, unsigned reply, unsigned option, int32_t age) {
    return (dnscookie_answer){with_age(number | reply << 8 | option << 16, age)};
}

static inline dnscookie_answer refused(unsigned number) {
    if (number <= 2 || 100 < number) return answer(number, DNSCOOKIE_CALLERS_FAULT, 0, 0);
    if (number <= 4) return answer(number, DNSCOOKIE_NO_REPLY, 0, 0);
    return answer(number, number == DNSCOOKIE_WRONG_VERSION ? DNSCOOKIE_BADVERS : DNSCOOKIE_FORMERR, 0, 0);
}

static inline int is_kept(unsigned number, int32_t age, const uint8_t *body) {
    return number == DNSCOOKIE_GOOD_GENERATING && 0 <= age && age <= 1800 && !(body[9] | body[10] | body[11]);
}

dnscookie_answer plain_respond(uint32_t mode, const uint8_t *secrets, size_t secrets_length, uint32_t clock, const uint8_t *address,
                               size_t address_length, const uint8_t *message, size_t message_length, uint8_t *output,
                               size_t output_length) {
    if (mode > DNSCOOKIE_ENFORCED) return refused(DNSCOOKIE_WRONG_MODE);
    if (!are_secrets(secrets_length)) return refused(DNSCOOKIE_WRONG_SECRETS);
    if (output_length < DNSCOOKIE_OPTION_SIZE) return refused(DNSCOOKIE_SHORT_OUTPUT);
    if (!is_address(address_length)) return refused(DNSCOOKIE_WRONG_ADDRESS);
    unsigned number, qdcount;
    if (mode == DNSCOOKIE_DISABLED) {
        number = check_head(message, message_length);
        return number ? refused(number) : answer(DNSCOOKIE_IGNORED, DNSCOOKIE_SERVE, DNSCOOKIE_NO_OPTION, 0);
    }
    const uint8_t *body;
    size_t n;
    number = read_request(message, message_length, &qdcount, &body, &n);
    if (number) return refused(number);
    if (n == 0) return answer(DNSCOOKIE_ABSENT, mode == DNSCOOKIE_ENFORCED ? DNSCOOKIE_TRUNCATE : DNSCOOKIE_SERVE, DNSCOOKIE_NO_OPTION, 0);
    int32_t age = 0;
    unsigned reply = DNSCOOKIE_BADCOOKIE;
    number = judge_body(secrets, secrets_length, clock, address, address_length, body, n, &age);
    if (dnscookie_is_good(number)) {
        reply = DNSCOOKIE_SERVE;
        if (is_kept(number, age, body)) {
            write_kept(output, body);
            return answer(number, reply, DNSCOOKIE_KEPT, age);
        }
    } else if (number == DNSCOOKIE_CLIENT_ONLY && (mode == DNSCOOKIE_ENABLED || qdcount == 0)) {
        reply = DNSCOOKIE_SERVE;
    }
    write_fresh(output, secrets, clock, address, address_length, body);
    return answer(number, reply, DNSCOOKIE_FRESH, age);
}
