// The header by itself: its numbers, as crates/dnscookie/specs/Words has them, and its functions, on the words of FieldsHold in
// crates/dnscookie/specs/Cases. Run by make example.
#include <dnscookie.h>
#include <stdio.h>

static int failures;

static void hold(int holds, const char *what) {
    if (holds) return;
    fprintf(stderr, "header: %s\n", what);
    failures++;
}

#define IS(value, number) hold((int64_t)(value) == (int64_t)(number), #value " is not " #number)

static void sizes(void) {
    IS(DNSCOOKIE_IPV4_SIZE, 4);
    IS(DNSCOOKIE_IPV6_SIZE, 16);
    IS(DNSCOOKIE_SECRET_SIZE, 16);
    IS(DNSCOOKIE_CLIENT_SIZE, 8);
    IS(DNSCOOKIE_HASH_SIZE, 8);
    IS(DNSCOOKIE_OPTION_SIZE, 28);
    IS(DNSCOOKIE_RECORD_SIZE, 32);
    IS(DNSCOOKIE_SECRETS_ROOM, 32);
    IS(DNSCOOKIE_LINE_ROOM, 47);
    IS(DNSCOOKIE_LEDGER_SIZE, 68);
    IS(DNSCOOKIE_MEMBERS, 32);
    IS(DNSCOOKIE_WAIT, 3601);
}

// Document 01's order of modes, checks, kinds of steps and refusals of a step is that of these lists.
static void in_order(const int *numbers, int count, int first, const char *what) {
    for (int i = 0; i < count; i++) hold(numbers[i] == first + i, what);
}

#define ORDER(first, ...) \
    do { \
        const int numbers[] = {__VA_ARGS__}; \
        in_order(numbers, (int)(sizeof numbers / sizeof *numbers), first, "not in order: " #__VA_ARGS__); \
    } while (0)

static void numbers(void) {
    ORDER(0, DNSCOOKIE_DISABLED, DNSCOOKIE_ENABLED, DNSCOOKIE_ENFORCED);
    ORDER(0, DNSCOOKIE_DONE, DNSCOOKIE_SHORT_OUTPUT, DNSCOOKIE_WRONG_ADDRESS, DNSCOOKIE_WRONG_SIZE, DNSCOOKIE_RESPONSE,
          DNSCOOKIE_MANY_QUESTIONS, DNSCOOKIE_MALFORMED, DNSCOOKIE_WRONG_OPT, DNSCOOKIE_WRONG_VERSION, DNSCOOKIE_OPTION_PAST,
          DNSCOOKIE_WRONG_COOKIE);
    ORDER(101, DNSCOOKIE_WRONG_MODE, DNSCOOKIE_WRONG_SECRETS, DNSCOOKIE_WRONG_CLIENT, DNSCOOKIE_WRONG_LEDGER, DNSCOOKIE_WRONG_RECORD,
          DNSCOOKIE_WRONG_ANSWER, DNSCOOKIE_NO_ROOM, DNSCOOKIE_NO_SECRETS);
    ORDER(200, DNSCOOKIE_IGNORED, DNSCOOKIE_ABSENT, DNSCOOKIE_CLIENT_ONLY, DNSCOOKIE_BAD_METHOD, DNSCOOKIE_BAD_HASH, DNSCOOKIE_BAD_TIME,
          DNSCOOKIE_GOOD_GENERATING, DNSCOOKIE_GOOD_OTHER);
    ORDER(0, DNSCOOKIE_START, DNSCOOKIE_OPEN, DNSCOOKIE_LEARN, DNSCOOKIE_SWITCH, DNSCOOKIE_DROP, DNSCOOKIE_CANCEL);
    ORDER(1, DNSCOOKIE_STEP_KIND, DNSCOOKIE_STEP_TIME, DNSCOOKIE_STEP_EARLIER, DNSCOOKIE_STEP_AGAIN, DNSCOOKIE_STEP_NOT_OPEN,
          DNSCOOKIE_STEP_OTHER_SECRET, DNSCOOKIE_STEP_NO_MEMBER, DNSCOOKIE_STEP_OTHER_STAGE, DNSCOOKIE_STEP_OTHERS_APART,
          DNSCOOKIE_STEP_WAIT);
    ORDER(0, DNSCOOKIE_NO_OPTION, DNSCOOKIE_FRESH, DNSCOOKIE_KEPT);
    ORDER(128, DNSCOOKIE_TRUNCATE, DNSCOOKIE_NO_REPLY, DNSCOOKIE_CALLERS_FAULT);
    IS(DNSCOOKIE_SERVE, 0);
    IS(DNSCOOKIE_FORMERR, 1);
    IS(DNSCOOKIE_BADVERS, 16);
    IS(DNSCOOKIE_BADCOOKIE, 23);
    for (unsigned n = 0; n < 256; n++) hold(dnscookie_is_good(n) == (n == 206 || n == 207), "good is 206 and 207");
}

static void fields(void) {
    dnscookie_answer answer = {0xfffffed4000217ce}, after = {0x00000960000217ce};
    IS(dnscookie_answer_number(answer), 0xce);
    IS(dnscookie_answer_reply(answer), 0x17);
    IS(dnscookie_answer_option(answer), 2);
    IS(dnscookie_answer_age(answer), -300);
    IS(dnscookie_answer_age(after), 2400);
    dnscookie_judged judged = {0xfffffed4000217ce};
    IS(dnscookie_judged_number(judged), 0xce);
    IS(dnscookie_judged_age(judged), -300);
    dnscookie_found found = {0xffff0049003101ff};
    IS(dnscookie_found_number(found), 0xff);
    IS(dnscookie_found_qdcount(found), 1);
    IS(dnscookie_found_start(found), 49);
    IS(dnscookie_found_end(found), 73);
    dnscookie_written written = {0xffffffffffff2fff};
    IS(dnscookie_written_number(written), 0xff);
    IS(dnscookie_written_length(written), 47);
}

// And whatever stands around a field.
static void fields_alone(void) {
    IS(dnscookie_answer_number((dnscookie_answer){0xffffffffffffff00}), 0);
    IS(dnscookie_answer_reply((dnscookie_answer){0xffffffffffff00ff}), 0);
    IS(dnscookie_answer_option((dnscookie_answer){0xfffffffffffcffff}), 0);
    IS(dnscookie_answer_age((dnscookie_answer){0x00000000ffffffff}), 0);
}

int main(void) {
    sizes();
    numbers();
    fields();
    fields_alone();
    return failures != 0;
}
