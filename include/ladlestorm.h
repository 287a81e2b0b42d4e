/* The top provider of one T.125 (MCS) domain, for a conference bridge written in C or C++. Link libladlestorm.a (x86-64 Linux).

   C11 or later, C++11 or later. The bridge keeps the domain in a struct of its own. The library has no memory, takes no lock and calls only memcpy and
   memset. A struct of any contents is taken. Each function promises its answer, the struct and the room for every input. One thread at a time may use a
   struct; two domains are two structs.

   Octets and rooms may be NULL where their length is 0. The struct may not be NULL. The struct, the octets and the rooms must not overlap. */
#ifndef LADLESTORM_H
#define LADLESTORM_H

#include <stddef.h>
#include <stdint.h>

/* The version. A new minor version only adds; with a new major version programs are compiled anew, and may have to change. */
#define LADLESTORM_VERSION_MAJOR 1
#define LADLESTORM_VERSION_MINOR 0
#define LADLESTORM_VERSION (LADLESTORM_VERSION_MAJOR * 1000 + LADLESTORM_VERSION_MINOR)

/* Limits, and a room for answers that never meets LADLESTORM_NO_ROOM in a domain that was started. */
#define LADLESTORM_CONNECTIONS 16 /* connections are 0 to 15 */
#define LADLESTORM_CHANNELS 128
#define LADLESTORM_USERS 64
#define LADLESTORM_TOKENS 64
#define LADLESTORM_MESSAGE 1024 /* octets of a message */
#define LADLESTORM_ROOM 17200

/* The octets of a list that has room for every cut of a trace of n octets, however it is torn. */
#define LADLESTORM_SALVAGE_LIST(n) (((size_t)(n) + 10) / 11 * 16)

#ifdef __cplusplus
extern "C" {
#define LADLESTORM_ASSERT(holds, text) static_assert(holds, text)
#define LADLESTORM_ALIGNMENT(type) alignof(type)
#else
#define LADLESTORM_ASSERT(holds, text) _Static_assert(holds, text)
#define LADLESTORM_ALIGNMENT(type) _Alignof(type)
#endif

/* The replies. Replies 1 to 10 leave the domain as it was. */
enum ladlestorm_reply {
    LADLESTORM_DONE = 0,
    LADLESTORM_IGNORED = 1,         /* ignored, as T.125 says */
    LADLESTORM_NOT_OPEN = 2,        /* connection above 15; loss of or message on one that is not open */
    LADLESTORM_OPEN_ALREADY = 3,    /* open: it is open */
    LADLESTORM_WRONG_LENGTH = 4,    /* a message of 0 octets or above 1,024 */
    LADLESTORM_BAD_ENCODING = 5,    /* RJum, diagnostic 4, is sent to the connection */
    LADLESTORM_MAY_NOT_GO_UP = 6,   /* RJum, diagnostic 2, is sent to the connection */
    LADLESTORM_NOT_SERVED = 7,      /* MCrq, MTrq, SDrq, USrq */
    LADLESTORM_TOO_LONG = 8,        /* a list above 64 ids, a number above 4 octets, or a fragmented length */
    LADLESTORM_NO_ROOM = 9,         /* what is to be written exceeds its room, and no room is touched */
    LADLESTORM_BAD_LIMIT = 10       /* start: a limit is out of range */
};

/* A reply in words, as the explained trace has them. */
static inline const char *ladlestorm_reply_name(uint32_t reply)
{
    static const char *const names[] = {"done", "ignored", "not open", "open already", "wrong length", "bad encoding", "may not go up", "not served",
        "too long", "no room", "bad limit"};
    return reply < sizeof names / sizeof names[0] ? names[reply] : "no such reply";
}

/* The domain. Id 0 marks a free place; what a place holds stands at the same index of the columns of its table. */
struct ladlestorm_domain {
    uint8_t channels, users, tokens; /* the limits */
    uint16_t links;                  /* the open connections: bit p for connection p */
    uint16_t user_ids[64];           /* users: ids, and their connections */
    uint8_t user_links[64];
    uint16_t channel_ids[128];       /* channels: ids, kinds, managers' places, admitted users, joined connections */
    uint8_t channel_kinds[128];
    uint8_t managers[128];
    uint64_t admitted[128];
    uint16_t joined[128];
    uint16_t token_ids[64];          /* tokens: ids, states, and who holds or is offered each */
    uint8_t token_states[64];
    uint64_t token_values[64];
};

/* What an event is answered with: the reply, and how many octets of the room are records to send. */
struct ladlestorm_answered {
    uint32_t reply;
    size_t sent;
};

/* How a trace is salvaged: the reply, and how many octets of the output and of the list are filled. */
struct ladlestorm_salvaged {
    uint32_t reply;
    size_t kept;
    size_t cuts;
};

LADLESTORM_ASSERT(sizeof(size_t) == 8, "x86-64 has lengths of 64 bits");
LADLESTORM_ASSERT(sizeof(struct ladlestorm_domain) == 2696, "the domain's size");
LADLESTORM_ASSERT(LADLESTORM_ALIGNMENT(struct ladlestorm_domain) == 8, "the domain's alignment");
LADLESTORM_ASSERT(offsetof(struct ladlestorm_domain, links) == 4, "links");
LADLESTORM_ASSERT(offsetof(struct ladlestorm_domain, user_ids) == 6, "user_ids");
LADLESTORM_ASSERT(offsetof(struct ladlestorm_domain, user_links) == 134, "user_links");
LADLESTORM_ASSERT(offsetof(struct ladlestorm_domain, channel_ids) == 198, "channel_ids");
LADLESTORM_ASSERT(offsetof(struct ladlestorm_domain, channel_kinds) == 454, "channel_kinds");
LADLESTORM_ASSERT(offsetof(struct ladlestorm_domain, managers) == 582, "managers");
LADLESTORM_ASSERT(offsetof(struct ladlestorm_domain, admitted) == 712, "admitted");
LADLESTORM_ASSERT(offsetof(struct ladlestorm_domain, joined) == 1736, "joined");
LADLESTORM_ASSERT(offsetof(struct ladlestorm_domain, token_ids) == 1992, "token_ids");
LADLESTORM_ASSERT(offsetof(struct ladlestorm_domain, token_states) == 2120, "token_states");
LADLESTORM_ASSERT(offsetof(struct ladlestorm_domain, token_values) == 2184, "token_values");
LADLESTORM_ASSERT(sizeof(struct ladlestorm_answered) == 16, "the answer's size");
LADLESTORM_ASSERT(offsetof(struct ladlestorm_answered, sent) == 8, "sent");
LADLESTORM_ASSERT(sizeof(struct ladlestorm_salvaged) == 24, "the size of salvaging's answer");
LADLESTORM_ASSERT(offsetof(struct ladlestorm_salvaged, kept) == 8, "kept");
LADLESTORM_ASSERT(offsetof(struct ladlestorm_salvaged, cuts) == 16, "cuts");

/* The functions of the archive that take octets or a room. Here no pointer may be NULL, also with length 0. Programs in C and C++ call the functions
   below, which have the same names without `raw` and take NULL with length 0. */
struct ladlestorm_answered ladlestorm_raw_lose(struct ladlestorm_domain *domain, uint32_t p, uint8_t *room, size_t room_length);
struct ladlestorm_answered ladlestorm_raw_message(
    struct ladlestorm_domain *domain, uint32_t p, const uint8_t *octets, size_t octets_length, uint8_t *room, size_t room_length);
struct ladlestorm_salvaged ladlestorm_raw_salvage(
    const uint8_t *trace, size_t trace_length, uint8_t *output, size_t output_length, uint8_t *list, size_t list_length);

/* Makes the domain: no connection open, nothing in use. The limits are 1 to 128 channels, 1 to 64 users, 1 to 64 tokens; one out of range
   gives LADLESTORM_BAD_LIMIT, and the struct stays as it is. Else LADLESTORM_DONE. */
uint32_t ladlestorm_start(struct ladlestorm_domain *domain, uint32_t channels, uint32_t users, uint32_t tokens);

/* Connection p opens: LADLESTORM_DONE, LADLESTORM_NOT_OPEN where p is above 15, LADLESTORM_OPEN_ALREADY. Nothing is sent. */
uint32_t ladlestorm_open(struct ladlestorm_domain *domain, uint32_t p);

/* Connection p is lost: its users leave together, and the others are told. LADLESTORM_DONE, LADLESTORM_NOT_OPEN or LADLESTORM_NO_ROOM.
   The first `sent` octets of the room are the records to send; the octets behind them stay. A record: 2 octets of length (what follows),
   version 1, connection, message; big-endian. */
static inline struct ladlestorm_answered ladlestorm_lose(struct ladlestorm_domain *domain, uint32_t p, uint8_t *room, size_t room_length)
{
    return ladlestorm_raw_lose(domain, p, room_length ? room : &domain->channels, room_length);
}

/* A message came on connection p: any octets. Every reply but LADLESTORM_OPEN_ALREADY and LADLESTORM_BAD_LIMIT can be given; the records as for
   `ladlestorm_lose`. */
static inline struct ladlestorm_answered ladlestorm_message(
    struct ladlestorm_domain *domain, uint32_t p, const uint8_t *octets, size_t octets_length, uint8_t *room, size_t room_length)
{
    return ladlestorm_raw_message(
        domain, p, octets_length ? octets : &domain->channels, octets_length, room_length ? room : &domain->channels, room_length);
}

/* The number of connections joined to channel c; 0 if it is not in use. */
uint32_t ladlestorm_audience(const struct ladlestorm_domain *domain, uint16_t c);

/* The users, the channels and the tokens in use. */
size_t ladlestorm_users(const struct ladlestorm_domain *domain);
size_t ladlestorm_channels(const struct ladlestorm_domain *domain);
size_t ladlestorm_tokens(const struct ladlestorm_domain *domain);

/* Salvages a torn trace; docs/TRACE.md has its frames and the rules for a good one. A good frame is kept. Where no good frame begins, octets are cut
   out up to the next place where a good frame begins that is followed by another good frame or by the end; if there is none, up to the end.

   LADLESTORM_DONE: the first `kept` octets of the output are the frames kept, in their order. The first `cuts` octets of the list are an entry of 16
   octets for each span cut out, in order: where in the trace it starts, and its length, 8 octets each, big-endian. The octets behind them stay in both.
   LADLESTORM_NO_ROOM exactly where the output or the list has too little room: `kept` and `cuts` are 0, and both are untouched. An output of
   `trace_length` octets and a list of LADLESTORM_SALVAGE_LIST(trace_length) never meet it.

   The kept and cut spans in their order are the trace; salvaging the output cuts nothing; nothing is cut exactly where the trace is good frames to its end.
   No domain is needed. The time is linear in the trace's length, however it is damaged. */
static inline struct ladlestorm_salvaged ladlestorm_salvage(
    const uint8_t *trace, size_t trace_length, uint8_t *output, size_t output_length, uint8_t *list, size_t list_length)
{
    uint8_t none = 0;
    return ladlestorm_raw_salvage(
        trace_length ? trace : &none, trace_length, output_length ? output : &none, output_length, list_length ? list : &none, list_length);
}

#undef LADLESTORM_ASSERT
#undef LADLESTORM_ALIGNMENT
#ifdef __cplusplus
}
#endif

#endif
