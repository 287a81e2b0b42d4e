/* The same events through the proved provider and through the plain one: every reply, count and octet sent is compared; then each is timed, and the stack that it touches is measured. */
#include "measuring.h"
#include "codec.h"
#include "ladlestorm.h"
#include "plain.h"

static struct ladlestorm_domain ours;
static struct plain plain;

enum { START = 3, ROOM = 17200, MOST = 20000 };
struct event {
    uint8_t kind, link;
    const uint8_t *octets;
    size_t length;
};
static struct event events[MOST];
static size_t count;
static uint8_t our_room[ROOM], plain_room[ROOM];
static volatile uint32_t sink;
static uint32_t rounds = 1000;

/* An event through each provider: the octets sent, and the reply in the last octet. */
static inline uint32_t by_ours(const struct event *e, size_t room)
{
    struct ladlestorm_answered a = {0, 0};
    switch (e->kind) {
    case 0: a.reply = ladlestorm_open(&ours, e->link); break;
    case 1: a = ladlestorm_lose(&ours, e->link, our_room, room); break;
    case 2: a = ladlestorm_message(&ours, e->link, e->octets, e->length, our_room, room); break;
    default: a.reply = ladlestorm_start(&ours, 128, 64, 64);
    }
    return (uint32_t)a.sent * 256 + a.reply;
}

static inline uint32_t by_plain(const struct event *e, size_t room)
{
    size sent = 0;
    int reply;
    switch (e->kind) {
    case 0: reply = plain_open(&plain, e->link); break;
    case 1: reply = plain_lose(&plain, e->link, plain_room, room, &sent); break;
    case 2: reply = plain_message(&plain, e->link, e->octets, e->length, plain_room, room, &sent); break;
    default: reply = plain_start(&plain, 128, 64, 64);
    }
    return (uint32_t)sent * 256 + (uint32_t)reply;
}

static size_t in_use(const uint16_t *ids, size_t n)
{
    size_t k = 0;
    for (size_t i = 0; i < n; i++)
        k += ids[i] != 0;
    return k;
}

static void fail(const char *what, size_t i)
{
    printf("event %zu: %s differs\n", i, what);
    exit(1);
}

/* Plays one event by both and compares the answers, every octet of the rooms, and what is in use. */
static void compare_one(size_t i, size_t room)
{
    uint32_t a = by_ours(&events[i], room), b = by_plain(&events[i], room);
    if (a != b) {
        printf("reply %u, sent %u; plain: reply %u, sent %u\n", a % 256, a / 256, b % 256, b / 256);
        fail("the answer", i);
    }
    if (memcmp(our_room, plain_room, ROOM))
        fail("the room", i);
    if (ours.links != plain.open || in_use(ours.user_ids, 64) != plain.users || in_use(ours.channel_ids, 128) != plain.channels || in_use(ours.token_ids, 64) != plain.tokens)
        fail("what is in use", i);
}

/* Every event with each room it could fail to fit in: one octet too little, which leaves all as it was, then enough. */
static void compare(void)
{
    size_t octets = 0, replies[12] = {0};
    for (size_t i = 0; i < count; i++) {
        struct ladlestorm_domain before = ours;
        struct plain kept = plain;
        memset(our_room, 0x5A, ROOM);
        memset(plain_room, 0x5A, ROOM);
        uint32_t a = by_ours(&events[i], ROOM);
        ours = before;
        plain = kept;
        memset(our_room, 0x5A, ROOM);
        if (a / 256 > 0)
            compare_one(i, a / 256 - 1);
        compare_one(i, ROOM);
        octets += a / 256;
        replies[a % 256]++;
    }
    printf("compared: %zu events, %zu octets sent, no difference; replies", count, octets);
    for (int r = 0; r < 12; r++)
        printf(" %d:%zu", r, replies[r]);
    printf("\n");
}

/* The frames of a file, behind the start of a fresh domain. */
static void load(const char *path)
{
    FILE *f = fopen(path, "rb");
    if (!f) {
        perror(path);
        exit(1);
    }
    static uint8_t store[1u << 22];
    static size_t filled;
    uint8_t *s = store + filled;
    size_t n = fread(s, 1, sizeof store - filled, f), i = 0;
    fclose(f);
    filled += n;
    events[count++] = (struct event){START, 0, 0, 0};
    while (i + 5 <= n && count < MOST) {
        size_t k = s[i] * 256u + s[i + 1];
        if (k < 3 || i + 2 + k > n || s[i + 2] != 1 || s[i + 3] > 2)
            break;
        events[count++] = (struct event){s[i + 3], s[i + 4], s + i + 5, k - 3};
        i += 2 + k;
    }
}

static const uint8_t grab[] = {0x74, 0x00, 0x06, 0x00, 0x00};
static const uint8_t first_grab[] = {0x74, 0x00, 0x00, 0x00, 0x00};    /* TGrq by 1001 for token 1 */
static const uint8_t first_release[] = {0x9C, 0x00, 0x00, 0x00, 0x00}; /* TRrq */
static uint8_t detach[131] = {0x30, 0x00, 0x40};                       /* DUrq of 64 ids */
static uint8_t room[16];
static struct message plain_last;

static void our_mix(void) { for (size_t i = 0; i < count; i++) sink = by_ours(&events[i], ROOM); }
static void plain_mix(void) { for (size_t i = 0; i < count; i++) sink = by_plain(&events[i], ROOM); }

static void our_grab(void) { for (uint32_t i = 0; i < rounds; i++) read_message(grab, sizeof grab); sink = heard.number; }
static void plain_grab(void) { for (uint32_t i = 0; i < rounds; i++) plain_read(grab, sizeof grab, &plain_last); sink = plain_last.number; }
static void our_detach(void) { for (uint32_t i = 0; i < rounds; i++) read_message(detach, sizeof detach); sink = heard.number; }
static void plain_detach(void) { for (uint32_t i = 0; i < rounds; i++) plain_read(detach, sizeof detach, &plain_last); sink = plain_last.number; }

/* TGcf token-not-available by 1007, otherGrabbed, each for another token. */
static void our_write(void) { for (uint32_t i = 0; i < rounds; i++) sink = write_confirm(room, sizeof room, 30, 9, 1007, i + 1, 2); }
static void plain_write(void)
{
    for (uint32_t i = 0; i < rounds; i++) {
        size n = 0;
        int r = plain_write_confirm(room, sizeof room, 30, 9, 1007, i + 1, 2, &n);
        sink = r ? 64 + (uint32_t)r : (uint32_t)n;
    }
}

/* The same works once, for their stack without the loop's own: the whole of what is timed, with the calls that choose the way. */
static void our_grab_once(void) { read_message(grab, sizeof grab); sink = heard.number; }
static void plain_grab_once(void) { plain_read(grab, sizeof grab, &plain_last); sink = plain_last.number; }
static void our_detach_once(void) { read_message(detach, sizeof detach); sink = heard.number; }
static void plain_detach_once(void) { plain_read(detach, sizeof detach, &plain_last); sink = plain_last.number; }
static void our_write_once(void) { sink = write_confirm(room, sizeof room, 30, 9, 1007, 1, 2); }
static void plain_write_once(void)
{
    size n = 0;
    int r = plain_write_confirm(room, sizeof room, 30, 9, 1007, 1, 2, &n);
    sink = r ? 64 + (uint32_t)r : (uint32_t)n;
}

/* A domain with one user, who grabs a token and releases it. */
static const uint8_t attach[] = {0x28}; /* AUrq */
static const struct event passing[] = {{START, 0, 0, 0}, {0, 0, 0, 0}, {2, 0, attach, 1}, {2, 0, first_grab, 5}, {2, 0, first_release, 5}};

static void our_pass(void)
{
    uint32_t sum = 0;
    for (int i = 0; i < 3; i++)
        sum += by_ours(&passing[i], ROOM);
    for (uint32_t k = 0; k < rounds; k++)
        sum += by_ours(&passing[3], ROOM) + by_ours(&passing[4], ROOM);
    sink = sum;
}

static void plain_pass(void)
{
    uint32_t sum = 0;
    for (int i = 0; i < 3; i++)
        sum += by_plain(&passing[i], ROOM);
    for (uint32_t k = 0; k < rounds; k++)
        sum += by_plain(&passing[3], ROOM) + by_plain(&passing[4], ROOM);
    sink = sum;
}

enum { MOST_TRIES = 6000 };

static int by_time(const void *x, const void *y)
{
    double a = *(const double *)x, b = *(const double *)y;
    return (a > b) - (a < b);
}

/* The time that one try in a hundred stays below: the least of all may be a slip of the clock. */
static double quick(double *times, int tries)
{
    qsort(times, (size_t)tries, sizeof *times, by_time);
    return times[tries / 100];
}

/* The time of each, of many tries taken in turn so that both meet the same machine; and the stack that f1 and g1 touch. */
static void report(const char *name, void (*f)(void), void (*g)(void), size_t each, int tries, void (*f1)(void), void (*g1)(void))
{
    static double ours_at[MOST_TRIES], plain_at[MOST_TRIES];
    rounds = 1000;
    if (!each)
        each = rounds;
    f();
    uint32_t x = sink;
    g();
    if (x != sink) {
        printf("%s: what is answered last differs\n", name);
        exit(1);
    }
    for (int i = 0; i < tries; i++) {
        ours_at[i] = once(f);
        plain_at[i] = once(g);
    }
    double a = quick(ours_at, tries) / (double)each, b = quick(plain_at, tries) / (double)each;
    rounds = 1;
    printf("%-28s %9.1f %12.0f %7zu %9.1f %12.0f %7zu %7.2f\n", name, a, 1e9 / a, touched(f1), b, 1e9 / b, touched(g1), a / b);
}

/* Cycles of the clock of the processor. */
static inline uint64_t cycles(void) { return __builtin_ia32_rdtsc(); }

/* The share of each message, open and loss in the mix: the least cycles of each event over many tries, without those of an empty reading of the clock.
   Now the one and now the other goes first: the first finds the event's octets far from the processor. */
static void shares(double ns)
{
    static uint64_t a[MOST], b[MOST];
    uint64_t none = ~0ull;
    memset(a, 0xFF, sizeof a);
    memset(b, 0xFF, sizeof b);
    for (int i = 0; i < 1000; i++) {
        uint64_t t = cycles(), u = cycles() - t;
        none = u < none ? u : none;
    }
    for (int k = 0; k < 120; k++)
        for (size_t i = 0; i < count; i++)
            for (int turn = 0; turn < 2; turn++) {
                uint64_t *least = (k + turn) % 2 ? &a[i] : &b[i], t = cycles();
                sink = (k + turn) % 2 ? by_ours(&events[i], ROOM) : by_plain(&events[i], ROOM);
                t = cycles() - t;
                *least = t < *least ? t : *least;
            }
    double of_ours[67] = {0}, of_plain[67] = {0};
    size_t many[67] = {0};
    for (size_t i = 0; i < count; i++) {
        int k = events[i].kind != 2 ? 64 + events[i].kind % 3 : events[i].length ? events[i].octets[0] / 4 : 66;
        many[k]++;
        of_ours[k] += (double)(a[i] > none ? a[i] - none : 0) * ns;
        of_plain[k] += (double)(b[i] > none ? b[i] - none : 0) * ns;
    }
    printf("by message number (64 open or start, 65 loss, 66 no octets): events, proved ns, plain ns, ratio, all the proved ns\n");
    for (int k = 0; k < 67; k++)
        if (many[k] >= 20)
            printf("%4d %5zu %9.1f %9.1f %7.2f %9.0f\n", k, many[k], of_ours[k] / (double)many[k], of_plain[k] / (double)many[k], of_ours[k] / of_plain[k], of_ours[k]);
}

/* How long a cycle of that clock takes. */
static double cycle_ns(void)
{
    struct timespec s, t;
    clock_gettime(CLOCK_MONOTONIC, &s);
    uint64_t a = cycles();
    do
        clock_gettime(CLOCK_MONOTONIC, &t);
    while ((t.tv_sec - s.tv_sec) * 1e9 + (t.tv_nsec - s.tv_nsec) < 2e7);
    return ((t.tv_sec - s.tv_sec) * 1e9 + (t.tv_nsec - s.tv_nsec)) / (double)(cycles() - a);
}

/* The numbers of the served messages. */
static const uint64_t served = 1ull << 1 | 1ull << 8 | 1ull << 9 | 1ull << 10 | 1ull << 12 | 1ull << 14 | 1ull << 16 | 1ull << 17 | 1ull << 19 | 1ull << 21 | 1ull << 23 |
    1ull << 29 | 1ull << 31 | 1ull << 33 | 1ull << 35 | 1ull << 37 | 1ull << 39 | 1ull << 41;

/* The values of a message before its list: a code, then ids; EDrq's two numbers the plain one only looks at, and of RJum it keeps the code. */
static int same_values(const struct message *m)
{
    static const uint8_t codes[64] = {[8] = 1, [9] = 1, [12] = 1, [35] = 1}, ids[64] = {[14] = 2, [17] = 1, [19] = 2, [21] = 2, [23] = 2, [29] = 2, [31] = 2, [33] = 3, [35] = 2, [37] = 2, [39] = 2, [41] = 2};
    uint32_t c = codes[m->number];
    if (c && m->code != heard.values[0])
        return 0;
    for (uint32_t i = 0; i < ids[m->number]; i++)
        if (m->id[i] != heard.values[c + i])
            return 0;
    return 1;
}

/* What both read of each served message of the trace is the same. */
static void compare_reading(void)
{
    size_t read = 0;
    for (size_t i = 0; i < count; i++) {
        const struct event *e = &events[i];
        uint32_t k = e->length ? e->octets[0] / 4u : 0;
        if (e->kind != 2 || e->length == 0 || e->length > 1024 || !(served >> k & 1))
            continue;
        struct message m;
        read_message(e->octets, e->length);
        if ((uint32_t)plain_read(e->octets, e->length, &m) != heard.refusal)
            fail("the refusal of reading", i);
        if (heard.refusal)
            continue;
        read++;
        if (m.number != heard.number || !same_values(&m) || (k != 9 && (m.count != heard_count() || memcmp(m.list, heard.list, 2 * m.count))))
            fail("what is read", i);
    }
    printf("compared: %zu messages read, no difference\n", read);
}

/* What both write of the confirms of a token's requests is the same: fields in range and beyond, rooms long enough and too short, every octet. */
static void compare_writing(void)
{
    static const uint32_t numbers[] = {30, 32, 36, 40}, users[] = {0, 1000, 1001, 1007, 65535, 65536, ~0u}, tokens[] = {0, 1, 256, 65535, 65536, ~0u};
    static const size_t rooms[] = {0, 6, 7, 16};
    size_t written = 0;
    for (int n = 0; n < 4; n++)
        for (uint32_t result = 0; result < 18; result++)
            for (int u = 0; u < 7; u++)
                for (int k = 0; k < 6; k++)
                    for (uint32_t status = 0; status < 10; status++)
                        for (int r = 0; r < 4; r++, written++) {
                            uint8_t a[16], b[16];
                            size size_of = 0;
                            memset(a, 0x5A, sizeof a);
                            memset(b, 0x5A, sizeof b);
                            uint32_t x = write_confirm(a, rooms[r], numbers[n], result, users[u], tokens[k], status);
                            int y = plain_write_confirm(b, rooms[r], numbers[n], result, users[u], tokens[k], status, &size_of);
                            if (x != (y ? 64 + (uint32_t)y : (uint32_t)size_of) || memcmp(a, b, sizeof a))
                                fail("what is written", written);
                        }
    printf("compared: %zu confirms written, no difference\n", written);
}

/* The works by name, for bench/instructions: one of them, its rounds or the whole mix so often, and nothing else. Answers the events of a round. */
static size_t work(const char *name, uint32_t times)
{
    static const struct {
        const char *name;
        void (*once)(void);
    } works[] = {
        {"ours mix", our_mix}, {"plain mix", plain_mix}, {"ours pass", our_pass}, {"plain pass", plain_pass}, {"ours TGrq", our_grab},
        {"plain TGrq", plain_grab}, {"ours DUrq", our_detach}, {"plain DUrq", plain_detach}, {"ours TGcf", our_write}, {"plain TGcf", plain_write},
    };
    for (size_t i = 0; i < sizeof works / sizeof *works; i++)
        if (!strcmp(works[i].name, name)) {
            rounds = i < 2 ? rounds : times;
            for (uint32_t k = i < 2 ? times : 1; k > 0; k--)
                works[i].once();
            return i < 2 ? count : 1;
        }
    return 0;
}

int main(int argc, char **argv)
{
    int only = argc > 3 && !strcmp(argv[1], "work");
    for (int i = only ? 4 : 1; i < argc; i++)
        load(argv[i]);
    for (size_t i = 0; i < 64; i++)
        detach[4 + 2 * i] = (uint8_t)i;
    if (only) {
        printf("%zu\n", work(argv[2], (uint32_t)atoi(argv[3])));
        return 0;
    }
    compare();
    compare_reading();
    compare_writing();
    printf("%-28s %9s %12s %7s %9s %12s %7s %7s\n", "", "proved ns", "a second", "stack", "plain ns", "a second", "stack", "ratio");
    report("an event of the mix", our_mix, plain_mix, count, MOST_TRIES, our_mix, plain_mix);
    report("a grab and a release", our_pass, plain_pass, 0, 3000, our_pass, plain_pass);
    report("read TGrq", our_grab, plain_grab, 0, 3000, our_grab_once, plain_grab_once);
    report("read DUrq of 64 ids", our_detach, plain_detach, 0, 3000, our_detach_once, plain_detach_once);
    report("write TGcf, checked", our_write, plain_write, 0, 3000, our_write_once, plain_write_once);
    shares(cycle_ns());
    return 0;
}
