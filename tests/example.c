// A whole use of dnscookie.h: a member of an anycast fleet that takes its secrets from a ledger, and what a name server does with one
// datagram. Below them a story plays engineers and a resolver over loopback, so that all of it is run and compared (make example).
// docs/INTEGRATION.md explains it.
//
//     example JOURNAL     a file that is not there yet
#define _POSIX_C_SOURCE 200809L
#include <arpa/inet.h>
#include <dnscookie.h>
#include <errno.h>
#include <fcntl.h>
#include <inttypes.h>
#include <netinet/in.h>
#include <poll.h>
#include <stdarg.h>
#include <stdbool.h>
#include <stdio.h>
#include <stdlib.h>
#include <string.h>
#include <sys/socket.h>
#include <unistd.h>

static void die(const char *format, ...) {
    va_list arguments;
    va_start(arguments, format);
    fputs("example: ", stderr);
    vfprintf(stderr, format, arguments);
    fputc('\n', stderr);
    va_end(arguments);
    exit(1);
}

static void die_of(const char *call) { die("%s: %s", call, strerror(errno)); }

// Zeros that the compiler doesn't leave out, though nobody reads them.
static void wipe(void *bytes, size_t length) {
    volatile uint8_t *at = bytes;
    while (length--) *at++ = 0;
}

// ---- a member of a fleet

struct member {
    uint32_t number;                         // from 0
    uint32_t mode;                           // as it is configured
    int journal;                             // the fleet's: a file of records
    uint64_t records;                        // how many of them the ledger has
    uint8_t ledger[DNSCOOKIE_LEDGER_SIZE];   // that they give
    uint8_t secrets[DNSCOOKIE_SECRETS_ROOM]; // what the ledger gave last, and never anything else
    size_t secrets_length;                   // 16 or 32; 0 before START
};

// Asks the ledger again, as after every step that it takes: a secret that is remembered may be one that others don't accept any more.
static void ask_for_secrets(struct member *m) {
    wipe(m->secrets, sizeof m->secrets);
    dnscookie_written secrets = dnscookie_ledger_secrets(m->ledger, sizeof m->ledger, m->number, m->secrets, sizeof m->secrets);
    unsigned number = dnscookie_written_number(secrets);
    // The first record is START. Behind it everybody has secrets, and resolvers expect cookies: who has none is not to serve.
    if (number == DNSCOOKIE_NO_SECRETS && m->records > 0) die("the fleet has no member %" PRIu32, m->number);
    if (number != DNSCOOKIE_DONE && number != DNSCOOKIE_NO_SECRETS) die("the ledger is refused by %u", number);
    m->secrets_length = dnscookie_written_length(secrets);
}

static off_t place_of(uint64_t record) { return (off_t)(record * DNSCOOKIE_RECORD_SIZE); }

// The next record of the journal, if it is there whole. A shorter one was being written when its writer stopped: nobody acted on it,
// and the next that is written takes its place.
static bool next_record(const struct member *m, uint8_t record[DNSCOOKIE_RECORD_SIZE]) {
    ssize_t got = pread(m->journal, record, DNSCOOKIE_RECORD_SIZE, place_of(m->records));
    if (got < 0) die_of("pread, of the journal");
    return got == DNSCOOKIE_RECORD_SIZE;
}

// Takes the records that the ledger doesn't have yet. Each was accepted before it was written: a refusal says that this is another
// journal, or by other rules.
static void replay(struct member *m) {
    uint8_t record[DNSCOOKIE_RECORD_SIZE];
    while (next_record(m, record)) {
        uint32_t answer = dnscookie_ledger_step(m->ledger, sizeof m->ledger, record, sizeof record);
        if (answer != DNSCOOKIE_DONE) die("record %" PRIu64 " of the journal is refused by %" PRIu32, m->records + 1, answer);
        m->records++;
    }
    wipe(record, sizeof record);
    ask_for_secrets(m);
}

// Many may read the journal (F_RDLCK), or one write it (F_WRLCK).
static void lock_journal(const struct member *m, short type) {
    struct flock whole = {.l_type = type, .l_whence = SEEK_SET};
    while (fcntl(m->journal, F_SETLKW, &whole) < 0) {
        if (errno != EINTR) die_of("fcntl, of the journal");
    }
}

// At the start, and whenever a step was accepted through another member.
static void catch_up(struct member *m) {
    lock_journal(m, F_RDLCK);
    replay(m);
    lock_journal(m, F_UNLCK);
}

static void start_member(struct member *m, uint32_t number, uint32_t mode, const char *journal) {
    m->number = number;
    m->mode = mode;
    m->journal = open(journal, O_RDWR | O_CREAT, 0600); // secrets are in it
    if (m->journal < 0) die_of("open, of the journal");
    m->records = 0;
    if (dnscookie_ledger_fresh(m->ledger, sizeof m->ledger) != DNSCOOKIE_DONE) die("no fresh ledger");
    catch_up(m);
}

static void stop_member(struct member *m) {
    if (close(m->journal) < 0) die_of("close, of the journal");
    wipe(m, sizeof *m);
}

static void append(const struct member *m, const uint8_t record[DNSCOOKIE_RECORD_SIZE]) {
    ssize_t put = pwrite(m->journal, record, DNSCOOKIE_RECORD_SIZE, place_of(m->records));
    if (put < 0) die_of("pwrite, of the journal");
    if (put < DNSCOOKIE_RECORD_SIZE) die("the journal has no room for a record");
    if (fsync(m->journal) < 0) die_of("fsync, of the journal");
}

// Offers a step, and answers as the ledger does. A fleet has one ledger: under the lock this one is as new as the journal. An accepted
// step is on the disk before it is acted on, and the member makes and checks no cookie until it has its secrets by it.
static uint32_t offer(struct member *m, const uint8_t record[DNSCOOKIE_RECORD_SIZE]) {
    lock_journal(m, F_WRLCK);
    replay(m);
    uint8_t after[DNSCOOKIE_LEDGER_SIZE];
    memcpy(after, m->ledger, sizeof after);
    uint32_t answer = dnscookie_ledger_step(after, sizeof after, record, DNSCOOKIE_RECORD_SIZE);
    if (answer == DNSCOOKIE_DONE) {
        append(m, record);
        memcpy(m->ledger, after, sizeof after);
        m->records++;
        ask_for_secrets(m);
    }
    wipe(after, sizeof after);
    lock_journal(m, F_UNLCK);
    return answer;
}

// A step as the 32 bytes of a record.
static void write_record(uint8_t record[DNSCOOKIE_RECORD_SIZE], uint8_t kind, uint8_t member, uint64_t time,
                         const uint8_t secret[DNSCOOKIE_SECRET_SIZE]) {
    memset(record, 0, DNSCOOKIE_RECORD_SIZE);
    record[0] = kind;
    record[1] = member;
    for (int i = 0; i < 8; i++) record[8 + i] = (uint8_t)(time >> (56 - 8 * i));
    memcpy(record + 16, secret, DNSCOOKIE_SECRET_SIZE);
}

// ---- a name server: what it reads of a message itself

// Bytes of a message, and numbers in it.
enum { HEADER = 12, LONGEST_NAME = 255, QUESTION_FIXED = 4, RECORD_FIXED = 10, OPT_FIXED = 11, ANSWER = 16 };
enum { TYPE_A = 1, TYPE_OPT = 41, CLASS_IN = 1, RCODE_FORMERR = 1, RCODE_NOTIMP = 4, PAYLOAD = 1232 };

static unsigned number16(const uint8_t *at) { return (unsigned)(at[0] << 8 | at[1]); }

// Where the name that starts at a place ends; 0 where it is malformed, or is a question's and has a pointer.
static size_t end_of_name(const uint8_t *message, size_t length, size_t at, bool in_question) {
    size_t start = at;
    while (at < length && message[at] != 0) {
        if (message[at] >= 192) return !in_question && at + 2 <= length ? at + 2 : 0;
        if (message[at] >= 64) return 0;
        at += 1 + (size_t)message[at];
    }
    return at < length && at + 1 - start <= LONGEST_NAME ? at + 1 : 0;
}

// Where the question and the OPT record of a message are. The library tells neither: in mode Disabled it doesn't look, and a name may
// have any length for it.
struct parts {
    bool whole;          // it has RFC 1035's shape, and no more than one question
    size_t question_end; // HEADER where there is none to be repeated
    size_t answers;
    size_t opt; // 0: there is none
};

static struct parts read_parts(const uint8_t *message, size_t length) {
    const struct parts malformed = {.question_end = HEADER};
    struct parts p = {.whole = true, .question_end = HEADER, .answers = number16(message + 6)};
    size_t questions = number16(message + 4), records = p.answers + number16(message + 8) + number16(message + 10);
    size_t at = HEADER;
    if (questions > 1) return malformed;
    if (questions == 1) {
        at = end_of_name(message, length, at, true);
        if (at == 0 || at + QUESTION_FIXED > length) return malformed;
        p.question_end = at += QUESTION_FIXED;
    }
    for (; records > 0; records--) {
        size_t owner = at;
        at = end_of_name(message, length, at, false);
        if (at == 0 || at + RECORD_FIXED > length) return malformed;
        if (number16(message + at) == TYPE_OPT) p.opt = owner;
        at += RECORD_FIXED + (size_t)number16(message + at + 8);
    }
    return at == length ? p : malformed;
}

// ---- a name server: one datagram

// Every datagram has room for it: 512 bytes.
enum { LONGEST_REPLY = HEADER + LONGEST_NAME + QUESTION_FIXED + ANSWER + OPT_FIXED + DNSCOOKIE_OPTION_SIZE };

struct reply {
    size_t length;
    uint8_t bytes[LONGEST_REPLY];
};

static void put(struct reply *r, const void *bytes, size_t length) {
    if (length > sizeof r->bytes - r->length) die("a reply longer than its buffer");
    memcpy(r->bytes + r->length, bytes, length);
    r->length += length;
}

static void put16(struct reply *r, unsigned number) {
    const uint8_t bytes[] = {(uint8_t)(number >> 8), (uint8_t)number};
    put(r, bytes, sizeof bytes);
}

// The client's address as it is hashed. A socket for both families hands an IPv4 client over as ::ffff:a.b.c.d; its 16 bytes would make
// another cookie than the 4 do, and all members of a fleet must take the same.
static size_t client_address(const struct sockaddr_storage *from, uint8_t address[16]) {
    if (from->ss_family == AF_INET) {
        struct sockaddr_in four;
        memcpy(&four, from, sizeof four);
        memcpy(address, &four.sin_addr, 4);
        return 4;
    }
    if (from->ss_family != AF_INET6) return 0; // refused by 2
    struct sockaddr_in6 six;
    memcpy(&six, from, sizeof six);
    bool mapped = IN6_IS_ADDR_V4MAPPED(&six.sin6_addr);
    memcpy(address, six.sin6_addr.s6_addr + (mapped ? 12 : 0), mapped ? 4 : 16);
    return mapped ? 4 : 16;
}

// Resolving is not this example's task: every name has the address 192.0.2.1.
static const uint8_t address_record[ANSWER] = {0xc0, HEADER, 0, TYPE_A, 0, CLASS_IN, 0, 0, 0x0e, 0x10, 0, 4, 192, 0, 2, 1};

static bool has_answer(const uint8_t *message, size_t question_end) {
    const uint8_t *fixed = message + question_end - QUESTION_FIXED;
    return question_end > HEADER && number16(fixed) == TYPE_A && number16(fixed + 2) == CLASS_IN;
}

// The OPT record of a reply, with the high 8 bits of the RCODE. A name server that has other options puts them before this one.
static void put_opt(struct reply *r, unsigned rcode, const uint8_t *option, size_t option_length) {
    put(r, "", 1); // its owner is the root
    put16(r, TYPE_OPT);
    put16(r, PAYLOAD);
    put16(r, rcode >> 4 << 8); // and version 0
    put16(r, 0);               // flags
    put16(r, (unsigned)option_length); // RDLENGTH: of all options
    put(r, option, option_length);
}

// The RCODE of a reply. DNSCOOKIE_FORMERR, DNSCOOKIE_BADVERS and DNSCOOKIE_BADCOOKIE are RCODEs themselves.
static unsigned rcode_of(unsigned reply, const uint8_t *message, const struct parts *p) {
    if (reply == DNSCOOKIE_TRUNCATE) return 0;
    if (reply != DNSCOOKIE_SERVE) return reply;
    // What the library doesn't look at is the name server's own task: in mode Disabled the whole message, and OPCODE always.
    if (!p->whole) return RCODE_FORMERR;
    return (message[2] & 0x78) == 0 ? 0 : RCODE_NOTIMP;
}

static void build_reply(struct reply *r, const uint8_t *message, size_t length, unsigned reply, const uint8_t *option,
                        size_t option_length) {
    struct parts p = read_parts(message, length);
    unsigned rcode = rcode_of(reply, message, &p);
    bool answer = reply == DNSCOOKIE_SERVE && rcode == 0 && has_answer(message, p.question_end);
    // A request with an OPT has a reply with one (RFC 6891); a COOKIE option needs one, and an RCODE of more than 4 bits.
    bool opt = p.opt != 0 || option_length != 0 || rcode > 15;
    unsigned flags = 0x8000 | (message[2] & 0x79u) << 8; // QR; OPCODE and RD as they came
    if (answer) flags |= 0x0400;                         // AA
    if (reply == DNSCOOKIE_TRUNCATE) flags |= 0x0200;    // TC

    r->length = 0;
    put(r, message, 2); // the ID
    put16(r, flags | (rcode & 15));
    put16(r, p.question_end > HEADER); // QDCOUNT
    put16(r, answer);                  // ANCOUNT
    put16(r, 0);                       // NSCOUNT
    put16(r, opt);                     // ARCOUNT
    put(r, message + HEADER, p.question_end - HEADER);
    if (answer) put(r, address_record, sizeof address_record);
    if (opt) put_opt(r, rcode, option, option_length);
}

// The body of a name server's loop: receives a datagram and sends what is owed to it. What the library answered is for a log.
static dnscookie_answer serve_datagram(const struct member *m, int server, uint64_t now) {
    static const uint8_t unused[DNSCOOKIE_SECRET_SIZE];
    uint8_t message[65535], address[16], option[DNSCOOKIE_OPTION_SIZE];
    struct sockaddr_storage from;
    socklen_t from_length = sizeof from;
    ssize_t got;
    while ((got = recvfrom(server, message, sizeof message, 0, (struct sockaddr *)&from, &from_length)) < 0) {
        if (errno != EINTR) die_of("recvfrom");
    }
    size_t length = (size_t)got, address_length = client_address(&from, address);

    // Before START nobody in the fleet has a secret, so that no resolver expects a cookie of it: all are served as if there were none.
    // Mode Disabled asks for a secret too, and doesn't use it.
    bool started = m->secrets_length != 0;
    uint32_t mode = started ? m->mode : DNSCOOKIE_DISABLED;
    const uint8_t *secrets = started ? m->secrets : unused;
    size_t secrets_length = started ? m->secrets_length : sizeof unused;
    dnscookie_answer answer = dnscookie_respond(mode, secrets, secrets_length, (uint32_t)now, address, address_length, message, length,
                                                option, sizeof option);

    switch (dnscookie_answer_reply(answer)) {
    case DNSCOOKIE_SERVE:
    case DNSCOOKIE_TRUNCATE:
    case DNSCOOKIE_FORMERR:
    case DNSCOOKIE_BADVERS:
    case DNSCOOKIE_BADCOOKIE:
        break;
    case DNSCOOKIE_NO_REPLY:
        return answer;
    default: // DNSCOOKIE_CALLERS_FAULT
        // Nothing is known of the message then, not even that it is no response: nothing is sent.
        fprintf(stderr, "example: dnscookie_respond refuses the call by %u\n", dnscookie_answer_number(answer));
        return answer;
    }

    struct reply reply;
    size_t option_length = dnscookie_answer_option(answer) == DNSCOOKIE_NO_OPTION ? 0 : sizeof option;
    build_reply(&reply, message, length, dnscookie_answer_reply(answer), option, option_length);
    // A reply that can't be sent is lost, as a datagram may be: the loop goes on.
    if (sendto(server, reply.bytes, reply.length, 0, (struct sockaddr *)&from, from_length) != (ssize_t)reply.length) {
        fprintf(stderr, "example: sendto: %s\n", strerror(errno));
    }
    return answer;
}

// ---- the story: what is told of answers

static const char *step_name(unsigned kind) {
    static const char *const names[] = {"START", "OPEN", "LEARN", "SWITCH", "DROP", "CANCEL"};
    return kind < sizeof names / sizeof *names ? names[kind] : "no step";
}

static const char *step_refusal(unsigned kind, uint32_t answer) {
    switch (answer) {
    case DNSCOOKIE_STEP_KIND: return "there is no such step";
    case DNSCOOKIE_STEP_TIME: return "the time is too great";
    case DNSCOOKIE_STEP_EARLIER: return "the time is before the last step's";
    case DNSCOOKIE_STEP_AGAIN: return kind == DNSCOOKIE_START ? "the fleet is started" : "a rollover is open";
    case DNSCOOKIE_STEP_NOT_OPEN: return kind == DNSCOOKIE_OPEN ? "the fleet is not started" : "no rollover is open";
    case DNSCOOKIE_STEP_OTHER_SECRET: return kind == DNSCOOKIE_OPEN ? "this secret is current" : "another secret's rollover is open";
    case DNSCOOKIE_STEP_NO_MEMBER: return kind == DNSCOOKIE_START ? "a fleet has 1 to 32 members" : "there is no such member";
    case DNSCOOKIE_STEP_OTHER_STAGE: return "the member is at another stage";
    case DNSCOOKIE_STEP_OTHERS_APART: return kind == DNSCOOKIE_CANCEL ? "a member makes cookies with it" : "other members are not so far";
    case DNSCOOKIE_STEP_WAIT: return "cookies of the old secret are still good";
    default: return "the call was wrong";
    }
}

static const char *number_name(unsigned number) {
    switch (number) {
    case DNSCOOKIE_WRONG_SIZE: return "a message under 12 bytes";
    case DNSCOOKIE_RESPONSE: return "a response";
    case DNSCOOKIE_MANY_QUESTIONS: return "more than one question";
    case DNSCOOKIE_MALFORMED: return "malformed";
    case DNSCOOKIE_WRONG_OPT: return "an OPT that is not the one";
    case DNSCOOKIE_WRONG_VERSION: return "another EDNS version";
    case DNSCOOKIE_OPTION_PAST: return "an option past the OPT's data";
    case DNSCOOKIE_WRONG_COOKIE: return "a COOKIE of an illegal length";
    case DNSCOOKIE_IGNORED: return "ignored";
    case DNSCOOKIE_ABSENT: return "absent";
    case DNSCOOKIE_CLIENT_ONLY: return "a client cookie alone";
    case DNSCOOKIE_BAD_METHOD: return "bad, its method";
    case DNSCOOKIE_BAD_HASH: return "bad, its hash";
    case DNSCOOKIE_BAD_TIME: return "bad, its time";
    case DNSCOOKIE_GOOD_GENERATING: return "good";
    case DNSCOOKIE_GOOD_OTHER: return "good under the other secret";
    default: return "the call was wrong";
    }
}

static const char *reply_name(unsigned reply) {
    switch (reply) {
    case DNSCOOKIE_SERVE: return "serve";
    case DNSCOOKIE_FORMERR: return "FORMERR";
    case DNSCOOKIE_BADVERS: return "BADVERS";
    case DNSCOOKIE_BADCOOKIE: return "BADCOOKIE";
    case DNSCOOKIE_TRUNCATE: return "truncate";
    default: return "no reply";
    }
}

static const char *option_name(unsigned option) {
    return option == DNSCOOKIE_FRESH ? "a fresh option" : option == DNSCOOKIE_KEPT ? "the option that came" : "no option";
}

static void print_hex(const uint8_t *bytes, size_t length) {
    for (size_t i = 0; i < length; i++) printf("%02x", bytes[i]);
}

static void print_verdict(unsigned number, int32_t age) {
    printf("       %u, %s", number, number_name(number));
    if (dnscookie_is_good(number)) printf(", age %" PRId32, age);
}

// ---- the story: its places

enum { MEMBERS = 2 };

// RFC 9018's secrets and its first client, so that what is printed is the same each time. Real secrets are random: getrandom(2).
static const uint8_t secret_a[] = {0xe5, 0xe9, 0x73, 0xe5, 0xa6, 0xb2, 0xa4, 0x3f, 0x48, 0xe7, 0xdc, 0x84, 0x9e, 0x37, 0xbf, 0xcf};
static const uint8_t secret_b[] = {0xdd, 0x3b, 0xdf, 0x93, 0x44, 0xb6, 0x78, 0xb1, 0x85, 0xa6, 0xf5, 0xcb, 0x60, 0xfc, 0xa7, 0x15};
static const uint8_t secret_c[] = {0x44, 0x55, 0x36, 0xbc, 0xd2, 0x51, 0x32, 0x98, 0x07, 0x5a, 0x5d, 0x37, 0x96, 0x63, 0xc9, 0x62};
static const uint8_t client[DNSCOOKIE_CLIENT_SIZE] = {0x24, 0x64, 0xc4, 0xab, 0xcf, 0x10, 0xc9, 0x57};
static const uint64_t start = 1559731985; // 0x5cf79f11, the second of its first cookie

static struct member members[MEMBERS];
static int servers[MEMBERS], resolver; // sockets
static uint8_t cookie[40];             // the COOKIE body that the resolver has
static size_t cookie_length;

static int open_socket(void) {
    struct sockaddr_in any = {.sin_family = AF_INET, .sin_addr.s_addr = htonl(INADDR_LOOPBACK)}; // at a port of the system's choice
    int opened = socket(AF_INET, SOCK_DGRAM, 0);
    if (opened < 0) die_of("socket");
    if (bind(opened, (struct sockaddr *)&any, sizeof any) < 0) die_of("bind");
    return opened;
}

static void wait_for(int socket, bool comes) {
    struct pollfd one = {.fd = socket, .events = POLLIN};
    int ready;
    while ((ready = poll(&one, 1, comes ? 5000 : 200)) < 0) {
        if (errno != EINTR) die_of("poll");
    }
    if (ready != comes) die(comes ? "no datagram came" : "a datagram came that nobody should send");
}

static void tell(const char *line) { printf("\n%s\n", line); }

// ---- the story: engineers

static void print_line(const struct member *m, const uint8_t record[DNSCOOKIE_RECORD_SIZE]) {
    uint8_t line[DNSCOOKIE_LINE_ROOM];
    dnscookie_written text = dnscookie_ledger_line(m->ledger, sizeof m->ledger, m->records, record, DNSCOOKIE_RECORD_SIZE, DNSCOOKIE_DONE,
                                                   line, sizeof line);
    if (dnscookie_written_number(text) != DNSCOOKIE_DONE) die("no line of the journal: %u", dnscookie_written_number(text));
    printf("       %.*s", (int)dnscookie_written_length(text), (const char *)line);
}

// A step offered through a member, so many seconds after START. If it is accepted the others are told, and take it.
static void step(unsigned through, uint8_t kind, uint8_t member, int seconds, const uint8_t *secret) {
    uint8_t record[DNSCOOKIE_RECORD_SIZE];
    write_record(record, kind, member, start + (uint64_t)seconds, secret);
    uint32_t answer = offer(&members[through], record);
    printf("%5d  %s", seconds, step_name(kind));
    if (kind == DNSCOOKIE_START) printf(" of %u members", member);
    if (kind == DNSCOOKIE_LEARN || kind == DNSCOOKIE_SWITCH || kind == DNSCOOKIE_DROP) printf(" by member %u", member);
    printf(", secret %c, through member %u: ", secret == secret_a ? 'A' : secret == secret_b ? 'B' : 'C', through);
    if (answer == DNSCOOKIE_DONE) {
        puts("accepted");
        print_line(&members[through], record);
        for (size_t i = 0; i < MEMBERS; i++) catch_up(&members[i]);
    } else {
        printf("refused by %" PRIu32 ", %s\n", answer, step_refusal(kind, answer));
    }
}

// ---- the story: a resolver

enum { NO_OPT = -1 };

// A query for www.example.test, A. Its OPT has a COOKIE option where there are bytes for one.
static size_t build_query(uint8_t query[128], unsigned questions, int version, const uint8_t *body, size_t body_length) {
    static const char question[] = "\3www\7example\4test\0\0\1\0\1";
    static uint8_t id;
    bool opt = version != NO_OPT;
    const uint8_t header[HEADER] = {0x12, ++id, 1, 0, 0, (uint8_t)questions, 0, 0, 0, 0, 0, opt};
    uint8_t *at = query;
    memcpy(at, header, sizeof header);
    at += sizeof header;
    if (questions) {
        memcpy(at, question, sizeof question - 1);
        at += sizeof question - 1;
    }
    if (opt) {
        size_t data = body_length ? body_length + 4 : 0;
        const uint8_t fixed[OPT_FIXED] = {0, 0, TYPE_OPT, PAYLOAD >> 8, PAYLOAD & 255, 0, (uint8_t)version, 0, 0, 0, (uint8_t)data};
        memcpy(at, fixed, sizeof fixed);
        at += sizeof fixed;
        if (data) {
            memcpy(at, (const uint8_t[]){0, 10, 0, (uint8_t)body_length}, 4);
            memcpy(at + 4, body, body_length);
            at += data;
        }
    }
    return (size_t)(at - query);
}

static const char *rcode_name(unsigned rcode) {
    switch (rcode) {
    case 0: return "NOERROR";
    case 1: return "FORMERR";
    case 16: return "BADVERS";
    case 23: return "BADCOOKIE";
    default: return "another RCODE";
    }
}

// Says a reply, and takes its cookie.
static void read_reply(const uint8_t *reply, size_t length) {
    struct parts p = read_parts(reply, length);
    if (!p.whole) die("a reply that is malformed");
    const uint8_t *opt = reply + p.opt;
    unsigned rcode = (reply[3] & 15u) | (p.opt ? (unsigned)opt[5] << 4 : 0);
    printf("       %s%s, %zu answer%s", rcode_name(rcode), reply[2] & 2 ? ", TC" : "", p.answers, p.answers == 1 ? "" : "s");
    if (p.opt) printf(", OPT");
    if (p.opt && number16(opt + 9) == DNSCOOKIE_OPTION_SIZE) {
        cookie_length = number16(opt + 13);
        memcpy(cookie, opt + 15, cookie_length);
        printf(", COOKIE ");
        print_hex(cookie, DNSCOOKIE_CLIENT_SIZE);
        putchar(' ');
        print_hex(cookie + DNSCOOKIE_CLIENT_SIZE, cookie_length - DNSCOOKIE_CLIENT_SIZE);
    }
    putchar('\n');
}

// Sends a query to a member, has the member serve it so many seconds after START, and receives the reply.
static void ask(unsigned member, int seconds, const uint8_t *query, size_t length, bool replied) {
    struct sockaddr_in to;
    socklen_t to_length = sizeof to;
    uint8_t reply[512];
    if (getsockname(servers[member], (struct sockaddr *)&to, &to_length) < 0) die_of("getsockname");
    if (sendto(resolver, query, length, 0, (struct sockaddr *)&to, to_length) != (ssize_t)length) die_of("sendto, of the resolver");
    wait_for(servers[member], true);
    dnscookie_answer answer = serve_datagram(&members[member], servers[member], start + (uint64_t)seconds);

    printf("%5d  member %u is asked ", seconds, member);
    print_hex(query, length);
    putchar('\n');
    print_verdict(dnscookie_answer_number(answer), dnscookie_answer_age(answer));
    printf("; %s, %s\n", reply_name(dnscookie_answer_reply(answer)), option_name(dnscookie_answer_option(answer)));
    wait_for(resolver, replied);
    if (!replied) {
        puts("       nothing comes");
        return;
    }
    ssize_t got = recv(resolver, reply, sizeof reply, 0);
    if (got < 0) die_of("recv, of the resolver");
    if (got < HEADER) die("a reply shorter than a header");
    printf("       comes ");
    print_hex(reply, (size_t)got);
    putchar('\n');
    read_reply(reply, (size_t)got);
}

static void ask_with(unsigned member, int seconds, const uint8_t *body, size_t body_length) {
    uint8_t query[128];
    ask(member, seconds, query, build_query(query, 1, 0, body, body_length), true);
}

// ---- the story itself

// A name server may try this when it starts.
static void first_example(void) {
    const uint8_t address[] = {198, 51, 100, 100};
    uint8_t option[DNSCOOKIE_OPTION_SIZE];
    uint32_t answer = dnscookie_make(secret_a, sizeof secret_a, (uint32_t)start, address, sizeof address, client, sizeof client, option,
                                     sizeof option);
    if (answer != DNSCOOKIE_DONE) die("no option was made: %" PRIu32, answer);
    printf("       ");
    print_hex(option, sizeof option);
    putchar('\n');
}

static void before_start(void) {
    tell("Before START there are no secrets. Members serve as if cookies were Disabled, and the ledger accepts nothing but a START:");
    ask_with(0, -60, client, sizeof client);
    step(0, DNSCOOKIE_OPEN, 0, -50, secret_b);
    step(0, DNSCOOKIE_START, 33, -40, secret_a);
    step(0, DNSCOOKIE_START, MEMBERS, 0, secret_a);
    step(1, DNSCOOKIE_START, MEMBERS, 1, secret_c);
}

static void enabled(void) {
    uint8_t query[128], old[24], forged[24];
    tell("Mode Enabled. A resolver without cookies is served:");
    ask(0, 10, query, build_query(query, 1, NO_OPT, NULL, 0), true);
    tell("One that sends a client cookie is served, and gets a server cookie:");
    ask_with(0, 20, client, sizeof client);
    memcpy(old, cookie, sizeof old);
    tell("It comes back with it, and happens upon the other member:");
    ask_with(1, 30, cookie, cookie_length);
    tell("Half an hour later it is still good, and gets a fresh one:");
    ask_with(1, 1821, cookie, cookie_length);
    tell("The first cookie is good for 3,600 seconds, and no longer:");
    ask_with(0, 3620, old, sizeof old);
    ask_with(0, 3621, old, sizeof old);
    tell("The fresh cookie of that BADCOOKIE is good:");
    ask_with(0, 3622, cookie, cookie_length);
    tell("A forged one is not; nor is one of eight bytes, as another server may make it:");
    memcpy(forged, cookie, sizeof forged);
    forged[sizeof forged - 1] ^= 1;
    ask_with(0, 3630, forged, sizeof forged);
    ask_with(0, 3631, forged, 16);
}

static void refused(void) {
    uint8_t query[128];
    tell("A message that ends too early gets FORMERR, and nothing of it is repeated but its ID:");
    ask(0, 3640, query, build_query(query, 1, 0, client, sizeof client) - 1, true);
    tell("So does a COOKIE of nine bytes, in a message that can be read:");
    ask_with(0, 3641, cookie, 9);
    tell("EDNS version 1 gets BADVERS, for which the reply needs an OPT:");
    ask(0, 3642, query, build_query(query, 1, 1, client, sizeof client), true);
    tell("A response gets no reply, or two servers would never stop; nor does what is shorter than a header:");
    size_t length = build_query(query, 1, 0, client, sizeof client);
    query[2] |= 0x80;
    ask(0, 3643, query, length, false);
    ask(0, 3644, query, HEADER - 1, false);
}

static void enforced(void) {
    uint8_t query[128];
    tell("Mode Enforced. Who sends no cookie is told to come again by TCP:");
    for (size_t i = 0; i < MEMBERS; i++) members[i].mode = DNSCOOKIE_ENFORCED;
    ask(0, 4000, query, build_query(query, 1, NO_OPT, NULL, 0), true);
    ask(0, 4001, query, build_query(query, 1, 0, NULL, 0), true);
    tell("Who sends a client cookie alone gets BADCOOKIE and a server cookie, and comes again with it:");
    ask_with(0, 4002, client, sizeof client);
    ask_with(0, 4003, cookie, cookie_length);
    tell("Or asks for it with no question, and is served:");
    ask(1, 4004, query, build_query(query, 0, 0, client, sizeof client), true);
}

static void rollover(void) {
    uint8_t old[24];
    tell("A rollover from A to B. A second engineer, at the other member, tries to open one to C:");
    step(0, DNSCOOKIE_OPEN, 0, 5000, secret_b);
    step(1, DNSCOOKIE_OPEN, 0, 5001, secret_c);
    tell("Each member learns B, and none makes cookies with it before all know it:");
    step(0, DNSCOOKIE_LEARN, 0, 5010, secret_b);
    step(0, DNSCOOKIE_SWITCH, 0, 5011, secret_b);
    step(0, DNSCOOKIE_LEARN, 0, 5012, secret_b);
    step(1, DNSCOOKIE_LEARN, 1, 5009, secret_b);
    step(1, DNSCOOKIE_LEARN, 1, 5013, secret_c);
    step(1, DNSCOOKIE_LEARN, 2, 5014, secret_b);
    step(1, DNSCOOKIE_LEARN, 1, 5015, secret_b);
    step(0, DNSCOOKIE_SWITCH, 0, 5020, secret_b);
    tell("In the second of its SWITCH member 1 still makes a cookie with A:");
    ask_with(1, 5030, client, sizeof client);
    memcpy(old, cookie, sizeof old);
    step(1, DNSCOOKIE_SWITCH, 1, 5030, secret_b);
    tell("It is good at both members, which make cookies with B now; those are good too:");
    ask_with(1, 5040, old, sizeof old);
    ask_with(0, 5041, old, sizeof old);
    ask_with(1, 5042, cookie, cookie_length);
    tell("A can't be dropped while that cookie is good:");
    step(0, DNSCOOKIE_DROP, 0, 8630, secret_b);
    ask_with(0, 8630, old, sizeof old);
    step(0, DNSCOOKIE_DROP, 0, 8631, secret_b);
    tell("Now its time is over. Member 1 still accepts A, member 0 doesn't:");
    ask_with(1, 8631, old, sizeof old);
    ask_with(0, 8631, old, sizeof old);
    tell("The rollover can't be cancelled any more. The last DROP closes it:");
    step(1, DNSCOOKIE_CANCEL, 0, 8632, secret_b);
    step(1, DNSCOOKIE_DROP, 1, 8640, secret_b);
    step(1, DNSCOOKIE_OPEN, 0, 8650, secret_b);
}

// Lists the journal from its start, as a member that knows nothing yet replays it.
static void list_journal(const char *journal) {
    struct member m = {.number = 0};
    uint8_t record[DNSCOOKIE_RECORD_SIZE];
    m.journal = open(journal, O_RDONLY);
    if (m.journal < 0) die_of("open, of the journal");
    if (dnscookie_ledger_fresh(m.ledger, sizeof m.ledger) != DNSCOOKIE_DONE) die("no fresh ledger");
    while (next_record(&m, record)) {
        uint32_t answer = dnscookie_ledger_step(m.ledger, sizeof m.ledger, record, sizeof record);
        if (answer != DNSCOOKIE_DONE) die("a record of the journal is refused by %" PRIu32, answer);
        m.records++;
        print_line(&m, record);
    }
    stop_member(&m);
}

static void restarted(const char *journal) {
    const struct member *m = &members[1];
    tell("Member 1 starts again. The journal ends in half a record, as if power had failed; it isn't taken, and all is as before:");
    if (pwrite(m->journal, secret_c, sizeof secret_c, place_of(m->records)) != sizeof secret_c) die_of("pwrite, of half a record");
    stop_member(&members[1]);
    start_member(&members[1], 1, DNSCOOKIE_ENFORCED, journal);
    ask_with(1, 8660, cookie, cookie_length);
    tell("The next record takes its place:");
    step(1, DNSCOOKIE_OPEN, 0, 8700, secret_c);
    step(0, DNSCOOKIE_CANCEL, 0, 8710, secret_c);
    tell("The journal's listing:");
    list_journal(journal);
}

// A member whose socket is for both families.
static void both_families(void) {
    struct sockaddr_in6 six = {.sin6_family = AF_INET6};
    struct sockaddr_storage from = {0};
    uint8_t address[16];
    tell("To a socket for both families the resolver is ::ffff:127.0.0.1. By its 4 bytes the cookie is good, by 16 it is not:");
    if (inet_pton(AF_INET6, "::ffff:127.0.0.1", &six.sin6_addr) != 1) die("inet_pton");
    memcpy(&from, &six, sizeof six);
    size_t length = client_address(&from, address);
    const struct member *m = &members[0];
    uint32_t clock = (uint32_t)(start + 8720);
    dnscookie_judged by_4 = dnscookie_judge(m->mode, m->secrets, m->secrets_length, clock, address, length, cookie, cookie_length);
    dnscookie_judged by_16 = dnscookie_judge(m->mode, m->secrets, m->secrets_length, clock, six.sin6_addr.s6_addr, 16, cookie, cookie_length);
    print_verdict(dnscookie_judged_number(by_4), dnscookie_judged_age(by_4));
    putchar('\n');
    print_verdict(dnscookie_judged_number(by_16), dnscookie_judged_age(by_16));
    putchar('\n');
}

int main(int count, char **words) {
    if (count != 2) die("one argument is wanted: the name of a journal that is not there yet");
    const char *journal = words[1];
    if (access(journal, F_OK) == 0) die("%s is there already", journal);
    puts("Two members of a fleet and a resolver, over loopback. At the front stand seconds since START. Of a query: its bytes, what the");
    puts("library answers to the member, the bytes of the reply, what they say. Of an accepted step: its line in the journal's listing.");
    tell("RFC 9018's first example, made without a datagram, since its client is not on loopback:");
    first_example();
    for (uint32_t i = 0; i < MEMBERS; i++) {
        start_member(&members[i], i, DNSCOOKIE_ENABLED, journal);
        servers[i] = open_socket();
    }
    resolver = open_socket();

    before_start();
    enabled();
    refused();
    enforced();
    rollover();
    restarted(journal);
    both_families();

    for (size_t i = 0; i < MEMBERS; i++) {
        stop_member(&members[i]);
        if (close(servers[i]) < 0) die_of("close, of a server's socket");
    }
    if (close(resolver) < 0) die_of("close, of the resolver's socket");
    if (fflush(stdout) != 0) die_of("fflush");
    return 0;
}
