/* The plain provider: see plain.h. Decoding and encoding by hand, tables searched from the front, counts kept beside them. */
#include "plain.h"

void *memset(void *, int, size);

enum { DONE, IGNORED, NOT_OPEN, OPEN_ALREADY, WRONG_LENGTH, BAD_ENCODING, MAY_NOT_GO_UP, NOT_SERVED, TOO_LONG, NO_ROOM, BAD_LIMIT };
enum { EDrq = 1, DPum = 8, RJum = 9, AUrq = 10, DUrq = 12, CJrq = 14, CLrq = 16, CCrq = 17, CDrq = 19, CArq = 21, CErq = 23,
       TGrq = 29, TGcf, TIrq, TIcf, TVrq, TVin, TVrs, TVcf, TPrq, TPin, TRrq, TRcf, TTrq, TTcf };
enum { SUCCESSFUL, NO_SUCH_CHANNEL = 3, NO_SUCH_USER = 5, NOT_ADMITTED, OTHER_USER_ID, NOT_AVAILABLE = 9, NOT_POSSESSED, TOO_MANY_CHANNELS, TOO_MANY_TOKENS, TOO_MANY_USERS };
enum { STATIC, USER_ID, PRIVATE, ASSIGNED };
enum { FREE, GRABBED, INHIBITED, GIVING, GIVEN };
enum { NOT_IN_USE, SELF_GRABBED, OTHER_GRABBED, SELF_INHIBITED, OTHER_INHIBITED, SELF_RECIPIENT, SELF_GIVING, OTHER_GIVING };
enum { LOWEST = 1001 };

/* Reading. */

/* An id above the lowest of its kind. */
static inline int take_id(const octet **s, const octet *end, u32 low, u16 *id)
{
    if (end - *s < 2)
        return BAD_ENCODING;
    u32 v = (*s)[0] * 256u + (*s)[1] + low;
    if (v > 65535)
        return BAD_ENCODING;
    *id = (u16)v;
    *s += 2;
    return 0;
}

static inline int take_length(const octet **s, const octet *end, u32 *n)
{
    if (*s == end)
        return BAD_ENCODING;
    u32 o = *(*s)++;
    if (o < 128) {
        *n = o;
        return 0;
    }
    if (o >= 192)
        return TOO_LONG;
    if (*s == end)
        return BAD_ENCODING;
    *n = (o - 128) * 256 + *(*s)++;
    return *n < 128 ? BAD_ENCODING : 0;
}

static int take_list(const octet **s, const octet *end, u32 low, struct message *m)
{
    u32 n;
    int r = take_length(s, end, &n);
    if (r)
        return r;
    if (n > MAX_LIST)
        return TOO_LONG;
    for (u32 i = 0; i < n; i++)
        if ((r = take_id(s, end, low, &m->list[i])))
            return r;
    m->count = n;
    return 0;
}

/* An integer from 0 up in the fewest octets, of four at most. */
static int skip_number(const octet **s, const octet *end)
{
    u32 n;
    int r = take_length(s, end, &n);
    if (r)
        return r;
    if (n == 0)
        return BAD_ENCODING;
    if (n > 4)
        return TOO_LONG;
    if ((size)(end - *s) < n || (n > 1 && **s == 0))
        return BAD_ENCODING;
    *s += n;
    return 0;
}

/* The two bits left of the first octet, or a code that starts with them. */
static inline int take_code(const octet **s, const octet *end, u32 bits, u32 most, u32 *code)
{
    if (*s == end)
        return BAD_ENCODING;
    u32 w = ((*s)[-1] & 3u) << 8 | (*s)[0];
    *code = w >> (10 - bits);
    if (*code > most || (w & ((1u << (10 - bits)) - 1)))
        return BAD_ENCODING;
    ++*s;
    return 0;
}

static inline int no_code(const octet *s) { return s[-1] & 3 ? BAD_ENCODING : 0; }

int plain_read(const octet *s, size n, struct message *m)
{
    const octet *end = s + n;
    int r = 0;
    u32 k = *s++ >> 2;
    m->number = k;
    m->code = 0;
    m->count = 0;
    switch (k) {
    case AUrq:
        r = no_code(s);
        break;
    case EDrq:
        if (!(r = no_code(s)) && !(r = skip_number(&s, end)))
            r = skip_number(&s, end);
        break;
    case DPum:
        r = take_code(&s, end, 3, 4, &m->code);
        break;
    case RJum: {
        u32 size_of = 0;
        if (!(r = take_code(&s, end, 4, 13, &m->code)) && !(r = take_length(&s, end, &size_of))) {
            if ((size)(end - s) < size_of)
                r = BAD_ENCODING;
            else
                s += size_of;
        }
        break;
    }
    case DUrq:
        if (!(r = take_code(&s, end, 3, 4, &m->code)))
            r = take_list(&s, end, LOWEST, m);
        break;
    case CLrq:
        if (!(r = no_code(s)))
            r = take_list(&s, end, 0, m);
        break;
    case CJrq:
        if (!(r = no_code(s)) && !(r = take_id(&s, end, LOWEST, &m->id[0])))
            r = take_id(&s, end, 0, &m->id[1]);
        break;
    case CCrq:
        if (!(r = no_code(s)))
            r = take_id(&s, end, LOWEST, &m->id[0]);
        break;
    case CDrq:
    case CArq:
    case CErq:
        if (!(r = no_code(s)) && !(r = take_id(&s, end, LOWEST, &m->id[0])) && !(r = take_id(&s, end, LOWEST, &m->id[1])) && k != CDrq)
            r = take_list(&s, end, LOWEST, m);
        break;
    case TVrs:
        if (!(r = take_code(&s, end, 4, 15, &m->code)) && !(r = take_id(&s, end, LOWEST, &m->id[0])))
            r = take_id(&s, end, 1, &m->id[1]);
        break;
    default: /* TGrq, TIrq, TVrq, TPrq, TRrq, TTrq */
        if (!(r = no_code(s)) && !(r = take_id(&s, end, LOWEST, &m->id[0])) && !(r = take_id(&s, end, 1, &m->id[1])) && k == TVrq)
            r = take_id(&s, end, LOWEST, &m->id[2]);
        break;
    }
    if (r)
        return r;
    return s == end ? 0 : BAD_ENCODING;
}

/* Writing. */

static inline octet *put(octet *s, u32 v)
{
    s[0] = (octet)(v >> 8);
    s[1] = (octet)v;
    return s + 2;
}

/* A record's head; the message of n octets goes behind it. */
static inline octet *put_head(octet *s, u32 link, u32 n)
{
    s = put(s, n + 2);
    s[0] = 1;
    s[1] = (octet)link;
    return s + 2;
}

/* The number and a result; with a bit before the result where an OPTIONAL id may follow. */
static inline octet *put_result(octet *s, u32 number, u32 result)
{
    s[0] = (octet)(number << 2 | result >> 2);
    s[1] = (octet)(result << 6);
    return s + 2;
}

static inline octet *put_present(octet *s, u32 number, u32 present, u32 result)
{
    s[0] = (octet)(number << 2 | present << 1 | result >> 3);
    s[1] = (octet)(result << 5);
    return s + 2;
}

size plain_confirm(octet *s, u32 number, u32 result, u32 user, u32 token, u32 status)
{
    octet *at = put_result(s, number, result);
    at = put(at, user - LOWEST);
    at = put(at, token - 1);
    *at++ = (octet)(status << 5);
    return (size)(at - s);
}

/* The same with what a codec's caller may get wrong looked at: 8 a field out of range, 9 too little room. */
int plain_write_confirm(octet *s, size room, u32 number, u32 result, u32 user, u32 token, u32 status, size *n)
{
    if (number != TGcf && number != TIcf && number != TVcf && number != TRcf)
        return NOT_SERVED;
    if (result > 15 || user < LOWEST || user > 65535 || token < 1 || token > 65535 || status > 7)
        return TOO_LONG;
    if (room < 7)
        return NO_ROOM;
    *n = plain_confirm(s, number, result, user, token, status);
    return 0;
}

/* Tables. */

static inline int find_user(const struct plain *d, u32 id)
{
    for (int i = 0; i < MAX_USERS; i++)
        if (d->user[i].id == id)
            return i;
    return -1;
}

/* The seat of a user who is attached on p. */
static inline int attached(const struct plain *d, u32 p, u32 id)
{
    int i = find_user(d, id);
    return i >= 0 && d->user[i].link == p ? i : -1;
}

static inline struct channel *find_channel(struct plain *d, u32 id)
{
    for (u32 i = 0; i < d->channels; i++)
        if (d->channel[i].id == id)
            return &d->channel[i];
    return 0;
}

static inline struct token *find_token(struct plain *d, u32 id)
{
    for (u32 i = 0; i < d->tokens; i++)
        if (d->token[i].id == id)
            return &d->token[i];
    return 0;
}

static inline void drop_channel(struct plain *d, struct channel *c) { *c = d->channel[--d->channels]; }

static inline void drop_token(struct plain *d, struct token *t) { *t = d->token[--d->tokens]; }

static inline u64 seat(u32 i) { return 1ull << i; }

/* The lowest id from 1001 that is not in use. */
static u32 new_id(const struct plain *d)
{
    u64 used[3] = {0, 0, 0};
    for (u32 i = 0; i < d->channels; i++) {
        u32 k = d->channel[i].id - LOWEST;
        if (k < 192)
            used[k / 64] |= 1ull << k % 64;
    }
    u32 w = 0;
    while (~used[w] == 0)
        w++;
    return LOWEST + w * 64 + (u32)__builtin_ctzll(~used[w]);
}

static struct channel *add_channel(struct plain *d, u32 id, u32 kind, u32 joined)
{
    struct channel *c = &d->channel[d->channels++];
    c->id = (u16)id;
    c->kind = (octet)kind;
    c->joined = (u16)joined;
    c->manager = 0;
    c->admitted = 0;
    return c;
}

/* The connections of a set of seats. */
static u32 links_of(const struct plain *d, u64 seats)
{
    u32 m = 0;
    for (; seats; seats &= seats - 1)
        m |= 1u << d->user[__builtin_ctzll(seats)].link;
    return m;
}

static u32 status_of(const struct token *t, u32 i)
{
    if (!t)
        return NOT_IN_USE;
    switch (t->state) {
    case GRABBED:
        return t->holder == i ? SELF_GRABBED : OTHER_GRABBED;
    case INHIBITED:
        return t->inhibitors & seat(i) ? SELF_INHIBITED : OTHER_INHIBITED;
    case GIVING:
        if (t->holder == i)
            return SELF_GIVING; /* falls through */
    default:
        return t->recipient == i ? SELF_RECIPIENT : OTHER_GIVING;
    }
}

/* Tokens. */

static int confirm_token(u32 number, u32 result, u32 link, u32 user, u32 token, u32 status, octet *out, size *sent)
{
    plain_confirm(put_head(out, link, 7), number, result, user, token, status);
    *sent = 11;
    return DONE;
}

static int take_token(struct plain *d, u32 p, const struct message *m, u32 i, octet *out, size room, size *sent)
{
    u32 u = m->id[0], k = m->id[1], result = SUCCESSFUL;
    struct token *t = find_token(d, k);
    if (room < 11)
        return NO_ROOM;
    if (!t) {
        if (d->tokens >= d->max_tokens)
            result = TOO_MANY_TOKENS;
        else {
            t = &d->token[d->tokens++];
            t->id = (u16)k;
            t->state = m->number == TGrq ? GRABBED : INHIBITED;
            t->holder = (octet)i;
            t->inhibitors = seat(i);
        }
    } else if (m->number == TGrq) {
        if (t->state == INHIBITED && t->inhibitors == seat(i)) {
            t->state = GRABBED;
            t->holder = (octet)i;
        } else
            result = NOT_AVAILABLE;
    } else {
        if (t->state == GRABBED && t->holder == i) {
            t->state = INHIBITED;
            t->inhibitors = seat(i);
        } else if (t->state == INHIBITED)
            t->inhibitors |= seat(i);
        else
            result = NOT_AVAILABLE;
    }
    return confirm_token(m->number + 1, result, p, u, k, status_of(t, i), out, sent);
}

static int release_token(struct plain *d, u32 p, const struct message *m, u32 i, octet *out, size room, size *sent)
{
    u32 u = m->id[0], k = m->id[1], result = SUCCESSFUL;
    struct token *t = find_token(d, k);
    if (room < 11)
        return NO_ROOM;
    if (t && t->state == GRABBED && t->holder == i) {
        drop_token(d, t);
        t = 0;
    } else if (t && t->state == INHIBITED && t->inhibitors & seat(i)) {
        t->inhibitors &= ~seat(i);
        if (!t->inhibitors) {
            drop_token(d, t);
            t = 0;
        }
    } else if (t && t->state == GIVING && t->holder == i)
        t->state = GIVEN;
    else
        result = NOT_POSSESSED;
    return confirm_token(TRcf, result, p, u, k, status_of(t, i), out, sent);
}

static int offer_token(struct plain *d, u32 p, const struct message *m, u32 i, octet *out, size room, size *sent)
{
    u32 u = m->id[0], k = m->id[1], r = m->id[2];
    struct token *t = find_token(d, k);
    if (room < 11)
        return NO_ROOM;
    if (!t || t->state != GRABBED || t->holder != i)
        return confirm_token(TVcf, NOT_POSSESSED, p, u, k, status_of(t, i), out, sent);
    int j = find_user(d, r);
    if (j < 0)
        return confirm_token(TVcf, NO_SUCH_USER, p, u, k, SELF_GRABBED, out, sent);
    t->state = GIVING;
    t->recipient = (octet)j;
    octet *s = put_head(out, d->user[j].link, 7);
    *s++ = TVin << 2;
    s = put(s, u - LOWEST);
    s = put(s, k - 1);
    put(s, r - LOWEST);
    *sent = 11;
    return DONE;
}

static int answer_offer(struct plain *d, const struct message *m, u32 i, octet *out, size room, size *sent)
{
    u32 k = m->id[1];
    struct token *t = find_token(d, k);
    if (!t || (t->state != GIVING && t->state != GIVEN) || t->recipient != i)
        return IGNORED;
    if (t->state == GIVEN) {
        if (m->code == SUCCESSFUL) {
            t->state = GRABBED;
            t->holder = (octet)i;
        } else
            drop_token(d, t);
        return DONE;
    }
    if (room < 11)
        return NO_ROOM;
    u32 g = t->holder;
    t->state = GRABBED;
    if (m->code == SUCCESSFUL)
        t->holder = (octet)i;
    return confirm_token(TVcf, m->code, d->user[g].link, d->user[g].id, k, status_of(t, g), out, sent);
}

static int please_token(struct plain *d, const struct message *m, octet *out, size room, size *sent)
{
    struct token *t = find_token(d, m->id[1]);
    u64 who = 0;
    if (t)
        switch (t->state) {
        case GRABBED:
            who = seat(t->holder);
            break;
        case INHIBITED:
            who = t->inhibitors;
            break;
        case GIVING:
            who = seat(t->holder); /* falls through */
        default:
            who |= seat(t->recipient);
        }
    u32 links = links_of(d, who);
    size total = 9 * (size)__builtin_popcount(links);
    if (room < total)
        return NO_ROOM;
    for (; links; links &= links - 1) {
        out = put_head(out, (u32)__builtin_ctz(links), 5);
        *out++ = TPin << 2;
        out = put(out, m->id[0] - LOWEST);
        out = put(out, m->id[1] - 1u);
    }
    *sent = total;
    return DONE;
}

static int test_token(struct plain *d, u32 p, const struct message *m, u32 i, octet *out, size room, size *sent)
{
    if (room < 10)
        return NO_ROOM;
    octet *s = put_head(out, p, 6);
    *s++ = TTcf << 2;
    s = put(s, m->id[0] - LOWEST);
    s = put(s, m->id[1] - 1u);
    *s = (octet)(status_of(find_token(d, m->id[1]), i) << 5);
    *sent = 10;
    return DONE;
}

/* Users and channels. */

static int attach(struct plain *d, u32 p, octet *out, size room, size *sent)
{
    u32 result = d->users >= d->max_users ? TOO_MANY_USERS : d->channels >= d->max_channels ? TOO_MANY_CHANNELS : SUCCESSFUL;
    size total = result ? 6 : 8;
    if (room < total)
        return NO_ROOM;
    octet *s = put_present(put_head(out, p, (u32)total - 4), 11, !result, result);
    *sent = total;
    if (result)
        return DONE;
    u32 id = new_id(d);
    int i = find_user(d, 0);
    d->user[i].id = (u16)id;
    d->user[i].link = (octet)p;
    d->users++;
    add_channel(d, id, USER_ID, 0);
    put(s, id - LOWEST);
    return DONE;
}

static int join(struct plain *d, u32 p, const struct message *m, u32 i, octet *out, size room, size *sent)
{
    u32 asked = m->id[1], result = SUCCESSFUL, id = asked;
    struct channel *c = asked ? find_channel(d, asked) : 0;
    if (c) {
        if (c->kind == USER_ID && asked != m->id[0])
            result = OTHER_USER_ID;
        else if (c->kind == PRIVATE && c->manager != i && !(c->admitted & seat(i)))
            result = NOT_ADMITTED;
    } else if (asked >= LOWEST)
        result = NO_SUCH_CHANNEL;
    else if (d->channels >= d->max_channels)
        result = TOO_MANY_CHANNELS;
    size total = result ? 10 : 12;
    if (room < total)
        return NO_ROOM;
    if (!result) {
        if (c)
            c->joined |= (u16)(1u << p);
        else {
            if (!asked)
                id = new_id(d);
            add_channel(d, id, asked ? STATIC : ASSIGNED, 1u << p);
        }
    }
    octet *s = put_present(put_head(out, p, (u32)total - 4), 15, !result, result);
    s = put(s, m->id[0] - LOWEST);
    s = put(s, asked);
    if (!result)
        put(s, id);
    *sent = total;
    return DONE;
}

static inline int lapses(const struct channel *c) { return !c->joined && (c->kind == STATIC || c->kind == ASSIGNED); }

static int leave_channels(struct plain *d, u32 p, const struct message *m)
{
    int any = 0;
    for (u32 i = 0; i < m->count; i++) {
        struct channel *c = find_channel(d, m->list[i]);
        if (!c || !(c->joined >> p & 1))
            continue;
        any = 1;
        c->joined &= (u16)~(1u << p);
        if (lapses(c))
            drop_channel(d, c);
    }
    return any ? DONE : IGNORED;
}

static int convene(struct plain *d, u32 p, const struct message *m, u32 i, octet *out, size room, size *sent)
{
    u32 result = d->channels >= d->max_channels ? TOO_MANY_CHANNELS : SUCCESSFUL;
    size total = result ? 8 : 10;
    if (room < total)
        return NO_ROOM;
    octet *s = put_present(put_head(out, p, (u32)total - 4), 18, !result, result);
    s = put(s, m->id[0] - LOWEST);
    *sent = total;
    if (result)
        return DONE;
    u32 id = new_id(d);
    add_channel(d, id, PRIVATE, 0)->manager = (octet)i;
    put(s, id - LOWEST);
    return DONE;
}

/* CDin to some connections. */
static octet *put_ends(octet *s, u32 id, u32 links)
{
    for (; links; links &= links - 1) {
        s = put_head(s, (u32)__builtin_ctz(links), 3);
        *s++ = 20 << 2;
        s = put(s, id - LOWEST);
    }
    return s;
}

static int disband(struct plain *d, struct channel *c, octet *out, size room, size *sent)
{
    u32 links = links_of(d, c->admitted | seat(c->manager));
    size total = 7 * (size)__builtin_popcount(links);
    if (room < total)
        return NO_ROOM;
    put_ends(out, c->id, links);
    drop_channel(d, c);
    *sent = total;
    return DONE;
}

/* CAin or CEin: each connection hears of its own users. */
static int tell_listed(struct plain *d, const struct message *m, const octet *seats, u32 n, octet *out, size room, size *sent)
{
    u32 head = m->number == CArq ? 6 : 4, links = 0;
    u32 count[MAX_LINKS] = {0};
    for (u32 i = 0; i < n; i++) {
        u32 q = d->user[seats[i]].link;
        links |= 1u << q;
        count[q]++;
    }
    size total = (head + 4) * (size)__builtin_popcount(links) + 2 * n;
    if (room < total)
        return NO_ROOM;
    for (; links; links &= links - 1) {
        u32 q = (u32)__builtin_ctz(links);
        out = put_head(out, q, head + 2 * count[q]);
        *out++ = (octet)((m->number + 1) << 2);
        if (m->number == CArq)
            out = put(out, m->id[0] - LOWEST);
        out = put(out, m->id[1] - LOWEST);
        *out++ = (octet)count[q];
        for (u32 i = 0; i < n; i++)
            if (d->user[seats[i]].link == q)
                out = put(out, d->user[seats[i]].id - LOWEST);
    }
    *sent = total;
    return DONE;
}

static int change_admitted(struct plain *d, const struct message *m, struct channel *c, octet *out, size room, size *sent)
{
    octet seats[MAX_LIST];
    u32 n = 0;
    u64 set = 0;
    for (u32 i = 0; i < m->count; i++) {
        int j = find_user(d, m->list[i]);
        if (j < 0 || set & seat((u32)j) || (m->number == CErq && !(c->admitted & seat((u32)j))))
            continue;
        set |= seat((u32)j);
        seats[n++] = (octet)j;
    }
    if (!n)
        return IGNORED;
    int r = tell_listed(d, m, seats, n, out, room, sent);
    if (r)
        return r;
    if (m->number == CArq)
        c->admitted |= set;
    else {
        c->admitted &= ~set;
        c->joined &= (u16)links_of(d, c->admitted | seat(c->manager));
    }
    return DONE;
}

static int private_request(struct plain *d, const struct message *m, u32 i, octet *out, size room, size *sent)
{
    struct channel *c = find_channel(d, m->id[1]);
    if (!c || c->kind != PRIVATE || c->manager != i)
        return IGNORED;
    return m->number == CDrq ? disband(d, c, out, room, sent) : change_admitted(d, m, c, out, room, sent);
}

/* Leaving. */

static void sort(u16 *a, u32 n)
{
    for (u32 i = 1; i < n; i++) {
        u16 x = a[i];
        u32 j = i;
        for (; j && a[j - 1] > x; j--)
            a[j] = a[j - 1];
        a[j] = x;
    }
}

/* What the leavers make of the private channels that they managed, and of the offers made to them: the size of it. */
static size count_ends(struct plain *d, u64 gone, u32 live, u16 *ends, u32 *n)
{
    size total = 0;
    for (u32 i = 0; i < d->channels; i++) {
        struct channel *c = &d->channel[i];
        if (c->kind == PRIVATE && gone & seat(c->manager)) {
            ends[(*n)++] = c->id;
            total += 7 * (size)__builtin_popcount(links_of(d, c->admitted | seat(c->manager)) & live);
        }
    }
    sort(ends, *n);
    return total;
}

static u32 find_returns(struct plain *d, u64 gone, u16 *returns)
{
    u32 n = 0;
    for (u32 i = 0; i < d->tokens; i++) {
        struct token *t = &d->token[i];
        if (t->state == GIVING && gone & seat(t->recipient) && !(gone & seat(t->holder)))
            returns[n++] = t->id;
    }
    sort(returns, n);
    return n;
}

static void leave_tables(struct plain *d, u64 gone, u32 live)
{
    for (u32 i = 0; i < d->channels;) {
        struct channel *c = &d->channel[i];
        c->joined &= (u16)live;
        int ends = 0;
        if (c->kind == USER_ID)
            ends = gone >> find_user(d, c->id) & 1;
        else if (c->kind == PRIVATE) {
            ends = gone >> c->manager & 1;
            c->admitted &= ~gone;
            if (!ends && c->joined)
                c->joined &= (u16)links_of(d, c->admitted | seat(c->manager));
        } else
            ends = lapses(c);
        if (ends)
            drop_channel(d, c);
        else
            i++;
    }
    for (u32 i = 0; i < d->tokens;) {
        struct token *t = &d->token[i];
        int holder = gone >> t->holder & 1, recipient = gone >> t->recipient & 1, ends = 0;
        switch (t->state) {
        case GRABBED:
            ends = holder;
            break;
        case INHIBITED:
            ends = !(t->inhibitors &= ~gone);
            break;
        case GIVING:
            ends = holder && recipient;
            if (holder)
                t->state = GIVEN;
            else if (recipient)
                t->state = GRABBED;
            break;
        default:
            ends = recipient;
        }
        if (ends)
            drop_token(d, t);
        else
            i++;
    }
    for (; gone; gone &= gone - 1) {
        d->user[__builtin_ctzll(gone)].id = 0;
        d->users--;
    }
    d->open = (u16)live;
}

/* The listed users leave and the connections `live` remain. */
static int leave(struct plain *d, const u16 *list, u32 n, u64 gone, u32 live, u32 reason, octet *out, size room, size *sent)
{
    u16 ends[MAX_CHANNELS], returns[MAX_TOKENS];
    u32 ended = 0;
    size total = n ? (7 + 2 * (size)n) * (size)__builtin_popcount(live) : 0;
    total += count_ends(d, gone, live, ends, &ended);
    u32 returned = find_returns(d, gone, returns);
    total += 11 * (size)returned;
    if (room < total)
        return NO_ROOM;
    for (u32 m = n ? live : 0; m; m &= m - 1) {
        out = put_head(out, (u32)__builtin_ctz(m), 3 + 2 * n);
        *out++ = (octet)(13 << 2 | reason >> 1);
        *out++ = (octet)(reason << 7);
        *out++ = (octet)n;
        for (u32 i = 0; i < n; i++)
            out = put(out, list[i] - LOWEST);
    }
    for (u32 i = 0; i < ended; i++) {
        struct channel *c = find_channel(d, ends[i]);
        out = put_ends(out, c->id, links_of(d, c->admitted | seat(c->manager)) & live);
    }
    for (u32 i = 0; i < returned; i++) {
        u32 g = find_token(d, returns[i])->holder;
        size k;
        confirm_token(TVcf, NO_SUCH_USER, d->user[g].link, d->user[g].id, returns[i], SELF_GRABBED, out, &k);
        out += k;
    }
    leave_tables(d, gone, live);
    *sent = total;
    return DONE;
}

static int detach(struct plain *d, u32 p, const struct message *m, octet *out, size room, size *sent)
{
    u16 list[MAX_LIST];
    u32 n = 0;
    u64 gone = 0;
    for (u32 i = 0; i < m->count; i++) {
        int j = attached(d, p, m->list[i]);
        if (j < 0 || gone & seat((u32)j))
            continue;
        gone |= seat((u32)j);
        list[n++] = m->list[i];
    }
    return n ? leave(d, list, n, gone, d->open, m->code, out, room, sent) : IGNORED;
}

static int close_link(struct plain *d, u32 p, octet *out, size room, size *sent)
{
    u16 list[MAX_USERS];
    u32 n = 0;
    u64 gone = 0;
    for (u32 i = 0; i < MAX_USERS; i++)
        if (d->user[i].id && d->user[i].link == p) {
            gone |= seat(i);
            list[n++] = d->user[i].id;
        }
    sort(list, n);
    return leave(d, list, n, gone, d->open & ~(1u << p), 0, out, room, sent);
}

/* Events. */

static inline int is_open(const struct plain *d, u32 p) { return p < MAX_LINKS && d->open >> p & 1; }

int plain_start(struct plain *d, u32 channels, u32 users, u32 tokens)
{
    if (channels - 1 >= MAX_CHANNELS || users - 1 >= MAX_USERS || tokens - 1 >= MAX_TOKENS)
        return BAD_LIMIT;
    memset(d, 0, sizeof *d);
    d->max_channels = (octet)channels;
    d->max_users = (octet)users;
    d->max_tokens = (octet)tokens;
    return DONE;
}

int plain_open(struct plain *d, u32 p)
{
    if (p >= MAX_LINKS)
        return NOT_OPEN;
    if (d->open >> p & 1)
        return OPEN_ALREADY;
    d->open |= (u16)(1u << p);
    return DONE;
}

int plain_lose(struct plain *d, u32 p, octet *out, size room, size *sent)
{
    *sent = 0;
    return is_open(d, p) ? close_link(d, p, out, room, sent) : NOT_OPEN;
}

static int reject(int reply, u32 diagnostic, u32 p, const octet *s, size n, octet *out, size room, size *sent)
{
    u32 k = n < 16 ? (u32)n : 16;
    if (room < k + 7)
        return NO_ROOM;
    octet *at = put_result(put_head(out, p, k + 3), RJum, diagnostic);
    *at++ = (octet)k;
    for (u32 i = 0; i < k; i++)
        at[i] = s[i];
    *sent = k + 7;
    return reply;
}

static const u64 up = 1ull << 1 | 1ull << 2 | 1ull << 5 | 1ull << 8 | 1ull << 9 | 1ull << 10 | 1ull << 12 | 1ull << 14 | 1ull << 16 | 1ull << 17 | 1ull << 19 | 1ull << 21 |
    1ull << 23 | 1ull << 25 | 1ull << 27 | 1ull << 29 | 1ull << 31 | 1ull << 33 | 1ull << 35 | 1ull << 37 | 1ull << 39 | 1ull << 41;
static const u64 not_served = 1ull << 2 | 1ull << 5 | 1ull << 25 | 1ull << 27;

int plain_message(struct plain *d, u32 p, const octet *s, size n, octet *out, size room, size *sent)
{
    struct message m;
    *sent = 0;
    if (!is_open(d, p))
        return NOT_OPEN;
    if (n == 0 || n > MAX_MESSAGE)
        return WRONG_LENGTH;
    u32 k = *s >> 2;
    if (k > 42)
        return reject(BAD_ENCODING, 4, p, s, n, out, room, sent);
    if (!(up >> k & 1))
        return reject(MAY_NOT_GO_UP, 2, p, s, n, out, room, sent);
    if (not_served >> k & 1)
        return NOT_SERVED;
    int r = plain_read(s, n, &m);
    if (r == BAD_ENCODING)
        return reject(BAD_ENCODING, 4, p, s, n, out, room, sent);
    if (r)
        return r;
    switch (k) {
    case EDrq:
        return DONE;
    case DPum:
    case RJum:
        return close_link(d, p, out, room, sent);
    case AUrq:
        return attach(d, p, out, room, sent);
    case DUrq:
        return detach(d, p, &m, out, room, sent);
    case CLrq:
        return leave_channels(d, p, &m);
    }
    int i = attached(d, p, m.id[0]);
    if (i < 0)
        return IGNORED;
    u32 at = (u32)i;
    switch (k) {
    case CJrq:
        return join(d, p, &m, at, out, room, sent);
    case CCrq:
        return convene(d, p, &m, at, out, room, sent);
    case CDrq:
    case CArq:
    case CErq:
        return private_request(d, &m, at, out, room, sent);
    case TGrq:
    case TIrq:
        return take_token(d, p, &m, at, out, room, sent);
    case TVrq:
        return offer_token(d, p, &m, at, out, room, sent);
    case TVrs:
        return answer_offer(d, &m, at, out, room, sent);
    case TPrq:
        return please_token(d, &m, out, room, sent);
    case TRrq:
        return release_token(d, p, &m, at, out, room, sent);
    default:
        return test_token(d, p, &m, at, out, room, sent);
    }
}
