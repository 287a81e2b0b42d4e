/* A top provider written by hand in plain C, for the benchmark alone: the same limits, replies and records as the proved one (document 01). */
#ifndef PLAIN_H
#define PLAIN_H
typedef unsigned char octet;
typedef unsigned short u16;
typedef unsigned int u32;
typedef unsigned long long u64;
typedef unsigned long size;

enum { MAX_LINKS = 16, MAX_USERS = 64, MAX_CHANNELS = 128, MAX_TOKENS = 64, MAX_LIST = 64, MAX_MESSAGE = 1024 };

struct user { /* id 0: a free seat; admitted and inhibiting users are named by their seat, so users do not move */
    u16 id;
    octet link;
};
struct channel { /* in use: the first `channels` of the table, in any order */
    u16 id, joined;
    octet kind, manager;
    u64 admitted;
};
struct token { /* in use: the first `tokens` of the table; seats of holder (or giver) and recipient, or the inhibitors */
    u16 id;
    octet state, holder, recipient;
    u64 inhibitors;
};
struct plain {
    u16 open;
    octet max_channels, max_users, max_tokens;
    octet users, channels, tokens;
    struct user user[MAX_USERS];
    struct channel channel[MAX_CHANNELS];
    struct token token[MAX_TOKENS];
};

struct message { /* one that was read: its number, codes and ids in their order, and its list */
    u32 number, code;
    u16 id[3];
    u32 count;
    u16 list[MAX_LIST];
};

int plain_start(struct plain *d, u32 channels, u32 users, u32 tokens);
int plain_open(struct plain *d, u32 p);
int plain_lose(struct plain *d, u32 p, octet *out, size room, size *sent);
int plain_message(struct plain *d, u32 p, const octet *s, size n, octet *out, size room, size *sent);

int plain_read(const octet *s, size n, struct message *m); /* 0, or the refusal */
size plain_confirm(octet *s, u32 number, u32 result, u32 user, u32 token, u32 status);
int plain_write_confirm(octet *s, size room, u32 number, u32 result, u32 user, u32 token, u32 status, size *n);
#endif
