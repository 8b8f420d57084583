// A cookie judged and one made, in plain C.
#include "plain.h"
#include "plain_cookie.h"

static inline dnscookie_judged judged(unsigned number, int32_t age) { return (dnscookie_judged){with_age(number, age)}; }

dnscookie_judged plain_judge(uint32_t mode, const uint8_t *secrets, size_t secrets_length, uint32_t clock, const uint8_t *address,
                             size_t address_length, const uint8_t *body, size_t body_length) {
    if (mode > DNSCOOKIE_ENFORCED) return judged(DNSCOOKIE_WRONG_MODE, 0);
    if (!are_secrets(secrets_length)) return judged(DNSCOOKIE_WRONG_SECRETS, 0);
    if (!is_address(address_length)) return judged(DNSCOOKIE_WRONG_ADDRESS, 0);
    if (mode == DNSCOOKIE_DISABLED) return judged(DNSCOOKIE_IGNORED, 0);
    if (!is_body(body_length)) return judged(DNSCOOKIE_WRONG_COOKIE, 0);
    int32_t age = 0;
    unsigned number = judge_body(secrets, secrets_length, clock, address, address_length, body, body_length, &age);
    return judged(number, age);
}

uint32_t plain_make(const uint8_t *secrets, size_t secrets_length, uint32_t clock, const uint8_t *address, size_t address_length,
                    const uint8_t *client, size_t client_length, uint8_t *output, size_t output_length) {
    if (!are_secrets(secrets_length)) return DNSCOOKIE_WRONG_SECRETS;
    if (client_length != 8) return DNSCOOKIE_WRONG_CLIENT;
    if (output_length < DNSCOOKIE_OPTION_SIZE) return DNSCOOKIE_SHORT_OUTPUT;
    if (!is_address(address_length)) return DNSCOOKIE_WRONG_ADDRESS;
    write_fresh(output, secrets, clock, address, address_length, client);
    return DNSCOOKIE_DONE;
}
