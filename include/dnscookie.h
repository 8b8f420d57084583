/*
 * dnscookie.h - DNS server cookies (RFC 7873, RFC 9018) and the rollover ledger of an anycast fleet, for C.
 *
 * Each function below is proved to meet an equation (crates/dnscookie/specs, crates/dnscookie_find/specs) for every argument. That this
 * page and its inline functions say the same is read and tested, not proved; nor is the compiler. "Document 01" is the project's page
 * of exact rules: refusals of a request and of a step have its numbers.
 *
 * What holds of all of them:
 *  - Bytes are lent as a pointer and a length. They stay the caller's: nothing is allocated, no call depends on an earlier one, and
 *    time, secrets and addresses are arguments. So threads need no lock, unless one writes to bytes that another has lent.
 *  - What is asked of a caller is only what no callee can see: a pointer has as many bytes behind it as its length says (with a length
 *    of 0 it may be NULL), and bytes that are written overlap no others of the same call.
 *  - What can't be used is refused by number, and then every lent byte is as it was. No argument makes a function fault or hang.
 *  - Times are in seconds. Addresses are in network order, as in struct in_addr and struct in6_addr.
 *  - Secrets are in the bytes that the caller lends, and on the stack, which is not wiped.
 *
 * Link with -ldnscookie (x86-64, Linux). docs/INTEGRATION.md has a whole example.
 */
#ifndef DNSCOOKIE_H
#define DNSCOOKIE_H

#include <stddef.h>
#include <stdint.h>

#define DNSCOOKIE_VERSION "1.0.0"

#ifdef __cplusplus
extern "C" {
#endif

/* Sizes, in bytes. */
enum dnscookie_sizes {
    DNSCOOKIE_IPV4_SIZE = 4,
    DNSCOOKIE_CLIENT_SIZE = 8,   /* a client cookie */
    DNSCOOKIE_HASH_SIZE = 8,     /* SipHash-2-4 */
    DNSCOOKIE_IPV6_SIZE = 16,
    DNSCOOKIE_SECRET_SIZE = 16,
    DNSCOOKIE_OPTION_SIZE = 28,  /* a reply's COOKIE option, code and length with it: 00 0a 00 18, then 24 bytes */
    DNSCOOKIE_RECORD_SIZE = 32,  /* a step, as the journal has it */
    DNSCOOKIE_SECRETS_ROOM = 32, /* for what a member holds, one secret or two */
    DNSCOOKIE_LINE_ROOM = 47,    /* for any line of a listing */
    DNSCOOKIE_LEDGER_SIZE = 68   /* the state of a ledger, in this version's form */
};

/* Limits of a ledger. */
enum dnscookie_limits {
    DNSCOOKIE_MEMBERS = 32, /* of a fleet, at most; n members have the numbers 0 to n - 1 */
    DNSCOOKIE_WAIT = 3601   /* seconds from the last SWITCH to the first DROP, at least */
};

/* How a member treats cookies. */
enum dnscookie_modes {
    DNSCOOKIE_DISABLED = 0, /* as if there were none */
    DNSCOOKIE_ENABLED = 1,  /* a bad cookie is answered BADCOOKIE; a client cookie alone, or none, is served */
    DNSCOOKIE_ENFORCED = 2  /* a client cookie alone is answered BADCOOKIE too, unless QDCOUNT is 0; without a cookie, truncated */
};

/* The number of an answer. */
enum dnscookie_numbers {
    /* Made, found, written, accepted. */
    DNSCOOKIE_DONE = 0,

    /* A request is refused: document 01's numbers, by its order of checks; and what is owed to whoever sent it. */
    DNSCOOKIE_SHORT_OUTPUT = 1,    /* an output under 28 bytes; the caller's fault */
    DNSCOOKIE_WRONG_ADDRESS = 2,   /* a client address that is not 4 or 16 bytes; the caller's fault */
    DNSCOOKIE_WRONG_SIZE = 3,      /* a message under 12 or over 65,535 bytes; no reply */
    DNSCOOKIE_RESPONSE = 4,        /* QR is 1; no reply */
    DNSCOOKIE_MANY_QUESTIONS = 5,  /* QDCOUNT above 1; FORMERR */
    DNSCOOKIE_MALFORMED = 6,       /* a malformed name, a part past the end, bytes left over; FORMERR */
    DNSCOOKIE_WRONG_OPT = 7,       /* an OPT misplaced, its owner not the root, or a second OPT; FORMERR */
    DNSCOOKIE_WRONG_VERSION = 8,   /* an EDNS version other than 0; BADVERS */
    DNSCOOKIE_OPTION_PAST = 9,     /* an option past the OPT's data; FORMERR */
    DNSCOOKIE_WRONG_COOKIE = 10,   /* a first COOKIE body that is not 8, nor 16 to 40 bytes; FORMERR */

    /* An argument is refused: the caller's mistake (but 104 also for a state that another version kept). These go before document
       01's numbers, of a request above and of a step below, and a lower one before a higher. */
    DNSCOOKIE_WRONG_MODE = 101,    /* not one of enum dnscookie_modes */
    DNSCOOKIE_WRONG_SECRETS = 102, /* not 16 bytes; nor 32, where there may be two */
    DNSCOOKIE_WRONG_CLIENT = 103,  /* a client cookie that is not 8 bytes */
    DNSCOOKIE_WRONG_LEDGER = 104,  /* not DNSCOOKIE_LEDGER_SIZE bytes in this version's form */
    DNSCOOKIE_WRONG_RECORD = 105,  /* not DNSCOOKIE_RECORD_SIZE bytes */
    DNSCOOKIE_WRONG_ANSWER = 106,  /* above 10, which no step that reached a ledger is answered */
    DNSCOOKIE_NO_ROOM = 107,       /* fewer bytes to write to than the function asks for */

    /* The ledger gives the member no secrets: before START, or for a number that is no member's. Asked last, behind 104 and 107. */
    DNSCOOKIE_NO_SECRETS = 108,

    /* The verdict on a cookie. */
    DNSCOOKIE_IGNORED = 200,         /* in mode Disabled */
    DNSCOOKIE_ABSENT = 201,          /* no OPT, or no COOKIE option in it */
    DNSCOOKIE_CLIENT_ONLY = 202,     /* a client cookie alone */
    DNSCOOKIE_BAD_METHOD = 203,      /* not of version 1 with 16 bytes */
    DNSCOOKIE_BAD_HASH = 204,        /* its hash is right under no secret that is held */
    DNSCOOKIE_BAD_TIME = 205,        /* more than 3,600 seconds old, or more than 300 ahead */
    DNSCOOKIE_GOOD_GENERATING = 206, /* good, under the generating secret */
    DNSCOOKIE_GOOD_OTHER = 207       /* good, under the other one: in a rollover, from before a SWITCH, or from a member at another stage */
};

/* Whether a cookie is good, under whichever secret. */
static inline int dnscookie_is_good(unsigned number) {
    return number == DNSCOOKIE_GOOD_GENERATING || number == DNSCOOKIE_GOOD_OTHER;
}

/*
 * An answer that is more than its number is 64 bits, of a type of its own; the functions behind the type read its fields. Bits that
 * none of them reads are zero, and may get a meaning in a later version.
 */

/* Of dnscookie_respond. */
typedef struct { uint64_t bits; } dnscookie_answer;

/* What the reply is. */
enum dnscookie_replies {
    DNSCOOKIE_SERVE = 0,          /* answer the question */
    DNSCOOKIE_FORMERR = 1,        /* this RCODE, and no answer */
    DNSCOOKIE_BADVERS = 16,       /* this extended RCODE, and no answer */
    DNSCOOKIE_BADCOOKIE = 23,     /* this extended RCODE, and no answer */
    DNSCOOKIE_TRUNCATE = 128,     /* the question alone, with the TC bit, so that the client comes again by TCP */
    DNSCOOKIE_NO_REPLY = 129,     /* nothing is sent */
    DNSCOOKIE_CALLERS_FAULT = 130 /* the call was wrong, and no fault of the request's */
};

/* Which COOKIE option it carries. If any, it is at the front of the output. */
enum dnscookie_options {
    DNSCOOKIE_NO_OPTION = 0,
    DNSCOOKIE_FRESH = 1, /* made now, under the generating secret */
    DNSCOOKIE_KEPT = 2   /* the one that came */
};

static inline unsigned dnscookie_answer_number(dnscookie_answer a) { return (unsigned)(a.bits & 0xff); }
static inline unsigned dnscookie_answer_reply(dnscookie_answer a) { return (unsigned)(a.bits >> 8 & 0xff); }
static inline unsigned dnscookie_answer_option(dnscookie_answer a) { return (unsigned)(a.bits >> 16 & 3); }
/* Of a good cookie, from -300 (its timestamp is ahead of the clock) to 3,600; 0 for any other, so look at the number first. */
static inline int32_t dnscookie_answer_age(dnscookie_answer a) { return (int32_t)(uint32_t)(a.bits >> 32); }

/* Of dnscookie_judge. The age is as above. */
typedef struct { uint64_t bits; } dnscookie_judged;

static inline unsigned dnscookie_judged_number(dnscookie_judged j) { return (unsigned)(j.bits & 0xff); }
static inline int32_t dnscookie_judged_age(dnscookie_judged j) { return (int32_t)(uint32_t)(j.bits >> 32); }

/* Of dnscookie_find: QDCOUNT, 0 or 1, and where in the message the body of the first COOKIE option starts and ends: it is the
   end less the start bytes from message + start on. Both are 0 where there is no COOKIE option, and all three where the message is
   refused. */
typedef struct { uint64_t bits; } dnscookie_found;

static inline unsigned dnscookie_found_number(dnscookie_found f) { return (unsigned)(f.bits & 0xff); }
static inline unsigned dnscookie_found_qdcount(dnscookie_found f) { return (unsigned)(f.bits >> 8 & 0xff); }
static inline size_t dnscookie_found_start(dnscookie_found f) { return (size_t)(f.bits >> 16 & 0xffff); }
static inline size_t dnscookie_found_end(dnscookie_found f) { return (size_t)(f.bits >> 32 & 0xffff); }

/* Of dnscookie_ledger_secrets and dnscookie_ledger_line: how many bytes were written. With any number but DNSCOOKIE_DONE it is 0. */
typedef struct { uint64_t bits; } dnscookie_written;

static inline unsigned dnscookie_written_number(dnscookie_written w) { return (unsigned)(w.bits & 0xff); }
static inline size_t dnscookie_written_length(dnscookie_written w) { return (size_t)(w.bits >> 8 & 0xff); }

/*
 * A request answered: what a name server calls for each datagram.
 *
 *  mode      enum dnscookie_modes. For TCP, where a reply is never truncated, not DNSCOOKIE_ENFORCED; and there DNSCOOKIE_BADCOOKIE is
 *            served too, with its option
 *  secrets   16 bytes: the secret that this member makes cookies with and accepts. Or 32: behind it another, which it only accepts.
 *            Exactly as many as are held, since whatever stands behind the first 16 is taken for a secret. Mode Disabled needs them too
 *  clock     seconds since 1970 modulo 2^32: (uint32_t)time(NULL). With a ledger, its time modulo 2^32
 *  address   the client's, 4 bytes or 16. One that came by IPv4 has 4, also where a socket shows it as ::ffff:a.b.c.d: members of a
 *            fleet that differ there reject each other's cookies
 *  message   the datagram
 *  output    DNSCOOKIE_OPTION_SIZE bytes or more, and no part of the message's
 *
 * Answers a number, of a refusal (1 to 10, 101, 102) or a verdict (200 to 207), what the reply is, which option it carries, and the age.
 * If the reply carries an option, its 28 bytes are at the front of the output, to be put behind what else the data of the reply's OPT
 * record has. Every other byte of the output, and all of them where there is no option, are as they were. Mode Disabled looks at no
 * more of the message than its size and QR.
 */
dnscookie_answer dnscookie_respond(uint32_t mode, const uint8_t *secrets, size_t secrets_length, uint32_t clock,
                                   const uint8_t *address, size_t address_length, const uint8_t *message, size_t message_length,
                                   uint8_t *output, size_t output_length);

/*
 * A COOKIE body judged: for a name server that reads messages itself.
 *
 *  mode, secrets, clock, address   as above
 *  body                            of the first COOKIE option, behind its code and length. Without one there is nothing to judge: the
 *                                  verdict is Absent. Outside mode Disabled, which looks at no body, an empty one is refused by 10
 *
 * Answers a number, 2, 10, 101 or 102, or 200 or 202 to 207; and the age.
 */
dnscookie_judged dnscookie_judge(uint32_t mode, const uint8_t *secrets, size_t secrets_length, uint32_t clock,
                                 const uint8_t *address, size_t address_length, const uint8_t *body, size_t body_length);

/*
 * A fresh COOKIE option made.
 *
 *  secrets, clock, address, output   as above; it is made under the generating secret
 *  client                            the client cookie, 8 bytes
 *
 * Answers DNSCOOKIE_DONE, and the option is at the front of the output, every other byte of which is as it was. Or 1, 2, 102 or 103.
 */
uint32_t dnscookie_make(const uint8_t *secrets, size_t secrets_length, uint32_t clock, const uint8_t *address,
                        size_t address_length, const uint8_t *client, size_t client_length, uint8_t *output,
                        size_t output_length);

/*
 * The COOKIE option of a request found. The body is a part of the message, and is not copied.
 *
 *  message   the datagram
 *
 * Answers a number, DNSCOOKIE_DONE, DNSCOOKIE_ABSENT or 3 to 10; QDCOUNT; and the start and the end.
 */
dnscookie_found dnscookie_find(const uint8_t *message, size_t message_length);

/*
 * SipHash-2-4, as the eight bytes that a cookie has.
 *
 *  secret    16 bytes
 *  message   of any length
 *  output    DNSCOOKIE_HASH_SIZE bytes or more
 *
 * Answers DNSCOOKIE_DONE, and the hash is at the front of the output, every other byte of which is as it was. Or 102 or 107.
 */
uint32_t dnscookie_siphash24(const uint8_t *secret, size_t secret_length, const uint8_t *message, size_t message_length,
                             uint8_t *output, size_t output_length);

/*
 * The rollover ledger of one fleet. Its state is DNSCOOKIE_LEDGER_SIZE bytes that the caller keeps; they mean the same on every machine.
 * Only their form is looked at: bytes of the form that something altered are another ledger.
 *
 * A fleet has one state. Hold one lock from reading it until it is written back: of two steps on copies of one state both may be
 * accepted, and the later save erases the earlier. A journal of the accepted records, one behind the other, is what to keep:
 * step a copy of the state, append the record to that journal, and only then take the copy for the state.
 */

/* Kinds of steps, byte 0 of a record. */
enum dnscookie_steps {
    DNSCOOKIE_START = 0,  /* byte 1: how many members, 1 to 32; all are at stage 0 with this secret */
    DNSCOOKIE_OPEN = 1,   /* a rollover to this secret */
    DNSCOOKIE_LEARN = 2,  /* byte 1: the member, which goes from stage 0 to 1, and accepts this secret too */
    DNSCOOKIE_SWITCH = 3, /* from 1 to 2: makes with this secret, and accepts the other too */
    DNSCOOKIE_DROP = 4,   /* from 2 to 3: accepts this secret alone. When the last member drops, it is current and all are at 0 */
    DNSCOOKIE_CANCEL = 5  /* all are at 0, and this secret is forgotten */
};

/* Why a step is refused: document 01's numbers, in their order. */
enum dnscookie_step_refusals {
    DNSCOOKIE_STEP_KIND = 1,         /* no kind */
    DNSCOOKIE_STEP_TIME = 2,         /* a time above 281,474,976,710,655 */
    DNSCOOKIE_STEP_EARLIER = 3,      /* a time before the last accepted step's */
    DNSCOOKIE_STEP_AGAIN = 4,        /* START when started, OPEN when open */
    DNSCOOKIE_STEP_NOT_OPEN = 5,     /* any but START before START; LEARN, SWITCH, DROP or CANCEL with no rollover open */
    DNSCOOKIE_STEP_OTHER_SECRET = 6, /* OPEN with the current secret; LEARN, SWITCH, DROP or CANCEL with another than the rollover's */
    DNSCOOKIE_STEP_NO_MEMBER = 7,    /* START of 0 members or over 32; LEARN, SWITCH or DROP of a number that is no member's */
    DNSCOOKIE_STEP_OTHER_STAGE = 8,  /* LEARN not at stage 0, SWITCH not at 1, DROP not at 2 */
    DNSCOOKIE_STEP_OTHERS_APART = 9, /* SWITCH with a member at 0, DROP with one at 0 or 1, CANCEL with one at 2 or 3 */
    DNSCOOKIE_STEP_WAIT = 10         /* DROP less than 3,601 seconds after the last SWITCH */
};

/*
 * A fresh ledger, before START.
 *
 *  state   DNSCOOKIE_LEDGER_SIZE bytes, whatever they hold
 *
 * Answers DNSCOOKIE_DONE; or DNSCOOKIE_WRONG_LEDGER where they are not as many.
 */
uint32_t dnscookie_ledger_fresh(uint8_t *state, size_t state_length);

/*
 * A step offered.
 *
 *  state    as dnscookie_ledger_fresh or an earlier step left it
 *  record   DNSCOOKIE_RECORD_SIZE bytes: the kind; the member, or the count in START (OPEN and CANCEL do not look at it: 0); six zeros,
 *           which this version does not look at; the time, 8 bytes, big-endian; the secret, 16. Every step but START and OPEN names
 *           the secret of the open rollover
 *
 * Answers DNSCOOKIE_DONE for a step that is accepted, and the state is the ledger after it. Or a number of enum
 * dnscookie_step_refusals, 104 or 105, and the state is as it was.
 */
uint32_t dnscookie_ledger_step(uint8_t *state, size_t state_length, const uint8_t *record, size_t record_length);

/*
 * A member's secrets, for dnscookie_respond, dnscookie_judge and dnscookie_make. Ask again after each accepted step.
 *
 *  state    as above
 *  member   its number, from 0
 *  output   DNSCOOKIE_SECRETS_ROOM bytes or more
 *
 * Answers DNSCOOKIE_DONE and how many bytes were written to the front of the output: 16, one secret; or 32, the generating one and the
 * other. Hand on exactly so many, never the room. Every other byte of the output is as it was. Or answers 104, 107 or 108.
 */
dnscookie_written dnscookie_ledger_secrets(const uint8_t *state, size_t state_length, uint32_t member, uint8_t *output,
                                           size_t output_length);

/*
 * The line of a listing for one record that was offered, accepted or refused: its number, its kind, the answer, whether a rollover is
 * open then (0 or 1), and how many members are at stages 0, 1, 2 and 3, in decimal with one space between, and a line feed.
 *
 *  state    as the step left it
 *  number   of the record among those that are listed, from 1; refused ones count
 *  record   as it was offered
 *  answer   what dnscookie_ledger_step answered, 0 to 10
 *  output   DNSCOOKIE_LINE_ROOM bytes or more
 *
 * Answers DNSCOOKIE_DONE and how many bytes the line at the front of the output has; every other byte of it is as it was. Or 104, 105,
 * 106 or 107.
 */
dnscookie_written dnscookie_ledger_line(const uint8_t *state, size_t state_length, uint64_t number, const uint8_t *record,
                                        size_t record_length, uint32_t answer, uint8_t *output, size_t output_length);

#ifdef __cplusplus
}
#endif

#endif
