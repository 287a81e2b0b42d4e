/* The edges of what C may pass: connections of any number, NULL with length 0, lengths above 32 bits, damaged messages beside memory that may not be touched.
   In C11 and in C++17.

   edges [slow]: with `slow` 4 GiB of octets that are no frames are salvaged too, which takes 20 seconds. */
#if !defined _GNU_SOURCE
#define _GNU_SOURCE
#endif
#include <stdio.h>
#include <string.h>
#include <sys/mman.h>
#include <unistd.h>
#include "ladlestorm.h"
#include "linecard.h"

static struct ladlestorm_domain domain, before;
static uint8_t room[LADLESTORM_ROOM];
static unsigned long checks, failures;

static void expect(const char *what, unsigned long given, unsigned long wanted)
{
    checks++;
    if (given != wanted && failures++ < 20)
        fprintf(stderr, "%s: wanted %lu, given %lu\n", what, wanted, given);
}

/* AUrq, CJrq of channel 7 and TGrq of token 1, the last two by user 1001. */
static const uint8_t attach[] = {0x28}, join[] = {0x38, 0x00, 0x00, 0x00, 0x07}, grab[] = {0x74, 0x00, 0x00, 0x00, 0x00};

/* A domain with connection 2 open and user 1001 on it. */
static void begin(void)
{
    expect("start", ladlestorm_start(&domain, 128, 64, 64), LADLESTORM_DONE);
    expect("open 2", ladlestorm_open(&domain, 2), LADLESTORM_DONE);
    expect("attach", ladlestorm_message(&domain, 2, attach, sizeof attach, room, sizeof room).reply, LADLESTORM_DONE);
    expect("users", ladlestorm_users(&domain), 1);
    before = domain;
}

static void unchanged(const char *what) { expect(what, memcmp(&domain, &before, sizeof domain) != 0, 0); }

/* Connection 2 is open: a connection above 15 is never taken for it. */
static void connections(void)
{
    static const uint32_t above[] = {16, 17, 18, 31, 32, 34, 64, 127, 128, 130, 254, 255, 256, 257, 258, 271, 272, 512, 514, 65535, 65536, 65538, 0x01000002,
        0x7fffffff, 0x80000000, 0x80000002, 0xffffff02, 0xfffffffe, 0xffffffff};
    struct ladlestorm_answered a;
    size_t i;
    uint32_t p;
    begin();
    for (i = 0; i < sizeof above / sizeof above[0]; i++) {
        p = above[i];
        expect("open above 15", ladlestorm_open(&domain, p), LADLESTORM_NOT_OPEN);
        a = ladlestorm_lose(&domain, p, room, sizeof room);
        expect("loss above 15", a.reply, LADLESTORM_NOT_OPEN);
        expect("sent at a loss above 15", a.sent, 0);
        a = ladlestorm_message(&domain, p, grab, sizeof grab, room, sizeof room);
        expect("message above 15", a.reply, LADLESTORM_NOT_OPEN);
        expect("sent at a message above 15", a.sent, 0);
        unchanged("a connection above 15 changed the domain");
    }
    for (p = 0; p < LADLESTORM_CONNECTIONS; p++) {
        expect("message before open", ladlestorm_message(&domain, p, attach, sizeof attach, room, sizeof room).reply, p == 2 ? LADLESTORM_DONE : LADLESTORM_NOT_OPEN);
        expect("open", ladlestorm_open(&domain, p), p == 2 ? LADLESTORM_OPEN_ALREADY : LADLESTORM_DONE);
        expect("open again", ladlestorm_open(&domain, p), LADLESTORM_OPEN_ALREADY);
        a = ladlestorm_message(&domain, p, attach, sizeof attach, room, sizeof room);
        expect("message", a.reply, LADLESTORM_DONE);
        expect("the record's connection", room[3], p);
    }
    expect("the open connections", domain.links, 0xffff);
    for (p = 0; p < LADLESTORM_CONNECTIONS; p++)
        expect("loss", ladlestorm_lose(&domain, p, room, sizeof room).reply, LADLESTORM_DONE);
    expect("users at the end", ladlestorm_users(&domain), 0);
}

static void nothing(void)
{
    static const uint8_t good[] = {0, 3, 1, 0, 7}, torn[] = {0xff, 0, 3, 1, 0, 7};
    uint8_t kept[8], list[16];
    struct ladlestorm_answered a;
    struct ladlestorm_salvaged s;
    begin();
    expect("no octets", ladlestorm_message(&domain, 2, NULL, 0, room, sizeof room).reply, LADLESTORM_WRONG_LENGTH);
    expect("no octets and no room", ladlestorm_message(&domain, 2, NULL, 0, NULL, 0).reply, LADLESTORM_WRONG_LENGTH);
    expect("no octets at a connection above 15", ladlestorm_message(&domain, 258, NULL, 0, NULL, 0).reply, LADLESTORM_NOT_OPEN);
    a = ladlestorm_message(&domain, 2, grab, sizeof grab, NULL, 0);
    expect("a message without room", a.reply, LADLESTORM_NO_ROOM);
    expect("sent without room", a.sent, 0);
    expect("a loss of no connection without room", ladlestorm_lose(&domain, 3, NULL, 0).reply, LADLESTORM_NOT_OPEN);
    unchanged("no octets or no room changed the domain");
    expect("open 3", ladlestorm_open(&domain, 3), LADLESTORM_DONE);
    before = domain;
    expect("a loss that is told, without room", ladlestorm_lose(&domain, 2, NULL, 0).reply, LADLESTORM_NO_ROOM);
    unchanged("a loss without room changed the domain");
    a = ladlestorm_lose(&domain, 3, NULL, 0);
    expect("a loss that nobody is told of, without room", a.reply, LADLESTORM_DONE);
    expect("sent of it", a.sent, 0);

    s = ladlestorm_salvage(NULL, 0, NULL, 0, NULL, 0);
    expect("salvage of nothing", s.reply, LADLESTORM_DONE);
    expect("kept and cut of nothing", s.kept + s.cuts, 0);
    s = ladlestorm_salvage(good, sizeof good, kept, sizeof kept, NULL, 0);
    expect("salvage without a list", s.reply, LADLESTORM_DONE);
    expect("kept without a list", s.kept, sizeof good);
    expect("salvage without an output", ladlestorm_salvage(good, sizeof good, NULL, 0, list, sizeof list).reply, LADLESTORM_NO_ROOM);
    expect("salvage of a cut without a list", ladlestorm_salvage(torn, sizeof torn, kept, sizeof kept, NULL, 0).reply, LADLESTORM_NO_ROOM);
    s = ladlestorm_salvage(torn, 1, NULL, 0, list, sizeof list);
    expect("salvage of a cut without an output", s.reply, LADLESTORM_DONE);
    expect("cut without an output", s.cuts, 16);
    expect("the line card with nothing", ladlestorm_message_number(NULL, 0), 68);
}

/* Memory of this size that is not there until it is used; NULL where the machine has none. */
static uint8_t *mapped(size_t size)
{
    void *at = mmap(NULL, size, PROT_READ | PROT_WRITE, MAP_PRIVATE | MAP_ANONYMOUS | MAP_NORESERVE, -1, 0);
    return at == MAP_FAILED ? NULL : (uint8_t *)at;
}

/* A trace of 2^32 and 2^20 octets, all good frames: 16 frames in 1 MiB, which is mapped again and again. An output of 2^20 octets is too short for it. */
static int long_trace(void)
{
    const size_t piece = (size_t)1 << 20, size = (size_t)1 << 16, pieces = 4097;
    uint8_t *all = mapped(pieces * piece), *output = mapped(piece);
    int file = memfd_create("frames", 0);
    struct ladlestorm_salvaged s;
    size_t i;
    if (!all || !output || file < 0 || ftruncate(file, (off_t)piece))
        return 0;
    for (i = 0; i < pieces; i++)
        if (mmap(all + i * piece, piece, PROT_READ | PROT_WRITE, MAP_SHARED | MAP_FIXED, file, 0) == MAP_FAILED)
            return 0;
    for (i = 0; i < piece; i += size) {
        static const uint8_t head[] = {0xff, 0xfe, 1, 2, 7};
        memcpy(all + i, head, sizeof head);
    }
    s = ladlestorm_salvage(all, piece, output, piece, NULL, 0);
    expect("salvage of 16 frames", s.reply, LADLESTORM_DONE);
    expect("kept of 16 frames", s.kept, piece);
    memset(output, 0, piece);
    s = ladlestorm_salvage(all, pieces * piece, output, piece, NULL, 0);
    expect("salvage of 2^32 and 2^20 into 2^20", s.reply, LADLESTORM_NO_ROOM);
    expect("kept of it", s.kept + s.cuts, 0);
    for (i = 0; i < piece && !output[i];)
        i++;
    expect("its output is untouched", i, piece);
    munmap(all, pieces * piece);
    munmap(output, piece);
    close(file);
    return 1;
}

/* Lengths whose low 32 bits alone say something else. 1 where they were tried. */
static int long_lengths(int slow)
{
    const size_t above = (size_t)1 << 32;
    uint8_t list[16], *large = mapped(above + 4096);
    struct ladlestorm_answered a;
    struct ladlestorm_salvaged s;
    if (!large)
        return 0;
    begin();
    a = ladlestorm_message(&domain, 2, join, sizeof join, large, above);
    expect("a room of 2^32", a.reply, LADLESTORM_DONE);
    expect("sent into it", a.sent > 5, 1);
    expect("its record", large[0] * 256ul + large[1] + 2, a.sent);
    a = ladlestorm_message(&domain, 2, grab, sizeof grab, large, above + 5);
    expect("a room of 2^32 and 5", a.reply, LADLESTORM_DONE);
    expect("sent into it", a.sent > 5, 1);
    memset(large, 0, 64);
    large[0] = attach[0];
    before = domain;
    a = ladlestorm_message(&domain, 2, large, above + 1, room, sizeof room);
    expect("a message of 2^32 and 1", a.reply, LADLESTORM_WRONG_LENGTH);
    unchanged("it changed the domain");
    expect("the line card with 2^32 and 1", ladlestorm_message_number(large, above + 1), 68);
    expect("open 1", ladlestorm_open(&domain, 1), LADLESTORM_DONE);
    a = ladlestorm_lose(&domain, 2, large, above);
    expect("a loss with a room of 2^32", a.reply, LADLESTORM_DONE);
    expect("sent of it", a.sent > 0, 1);
    s = ladlestorm_salvage(attach, sizeof attach, large, above, large + above, 4096);
    expect("salvage into 2^32", s.reply, LADLESTORM_DONE);
    expect("kept", s.kept, 0);
    expect("cut", s.cuts, 16);
    if (slow) {
        memset(large, 0, 64);
        s = ladlestorm_salvage(large, above + 7, NULL, 0, list, sizeof list);
        expect("salvage of 2^32 and 7", s.reply, LADLESTORM_DONE);
        expect("cut of it", s.cuts, 16);
        expect("the cut's length", list[11] * 256ul * 256 * 256 * 256 + list[15], above + 7);
    }
    munmap(large, above + 4096);
    return long_trace();
}

static uint64_t seed = 17;

static uint32_t dice(uint32_t below)
{
    seed = seed * 6364136223846793005u + 1442695040888963407u;
    return (uint32_t)(seed >> 33) % below;
}

/* The end of some writable pages: what lies behind may be neither read nor written. */
static uint8_t *fenced(size_t pages)
{
    size_t page = (size_t)sysconf(_SC_PAGESIZE);
    uint8_t *at = mapped((pages + 1) * page);
    if (!at || mprotect(at + pages * page, page, PROT_NONE))
        return NULL;
    return at + pages * page;
}

/* Messages that are damaged, cut short or too long: each ends where memory ends, and so do the room and the struct. */
static unsigned long damaged(void)
{
    static const struct {
        uint8_t first, length;
    } served[] = {{0x28, 1}, {0x28, 1}, {0x28, 1}, {0x38, 5}, {0x44, 3}, {0x4c, 5}, {0x54, 8}, {0x5c, 8}, {0x74, 5}, {0x7c, 5}, {0x84, 7}, {0x8c, 6}, {0x94, 5},
        {0x9c, 5}, {0xa4, 5}, {0x30, 5}, {0x40, 4}, {0x04, 5}};
    uint8_t *octets_end = fenced(1), *room_end = fenced(8), *struct_end = fenced(1);
    struct ladlestorm_domain *d;
    unsigned long events = 0, replies[LADLESTORM_BAD_LIMIT + 1] = {0};
    if (!octets_end || !room_end || !struct_end)
        return 0;
    d = (struct ladlestorm_domain *)(void *)(struct_end - sizeof *d);
    expect("start", ladlestorm_start(d, 128, 64, 64), LADLESTORM_DONE);
    for (; events < 100000; events++) {
        size_t kind = dice(sizeof served / sizeof served[0]), length = dice(4) ? served[kind].length : dice(20) ? 1 + dice(12) : dice(1100);
        size_t short_room = dice(10) ? LADLESTORM_ROOM : dice(64), i;
        uint8_t *octets = octets_end - length;
        struct ladlestorm_answered a;
        if (dice(40) == 0)
            ladlestorm_open(d, dice(6));
        if (dice(400) == 0)
            ladlestorm_lose(d, dice(6), room_end - LADLESTORM_ROOM, LADLESTORM_ROOM);
        for (i = 0; i < length; i++)
            octets[i] = (uint8_t)(dice(12) ? i % 2 ? 0 : dice(4) : dice(256));
        if (length && dice(20))
            octets[0] = served[kind].first;
        a = ladlestorm_message(d, dice(6), octets, length, room_end - short_room, short_room);
        expect("a reply that is listed", a.reply <= LADLESTORM_NO_ROOM, 1);
        expect("sent within the room", a.sent <= short_room, 1);
        expect("no octets is reply 4, or 2", length || a.reply == LADLESTORM_WRONG_LENGTH || a.reply == LADLESTORM_NOT_OPEN, 1);
        if (a.reply <= LADLESTORM_BAD_LIMIT)
            replies[a.reply]++;
    }
    expect("damaged messages are refused", replies[LADLESTORM_BAD_ENCODING] > 1000, 1);
    expect("some are served", replies[LADLESTORM_DONE] > 1000, 1);
    expect("some find no room", replies[LADLESTORM_NO_ROOM] > 100, 1);
    return events;
}

static void words(void)
{
    static const char *const wanted[] = {"done", "ignored", "not open", "open already", "wrong length", "bad encoding", "may not go up", "not served",
        "too long", "no room", "bad limit", "no such reply"};
    static const uint32_t none[] = {11, 12, 255, 256, 258, 65536, 0xffffffff};
    uint32_t i;
    for (i = 0; i <= LADLESTORM_BAD_LIMIT; i++)
        expect("the name of a reply", strcmp(ladlestorm_reply_name(i), wanted[i]) != 0, 0);
    for (i = 0; i < sizeof none / sizeof none[0]; i++)
        expect("the name of no reply", strcmp(ladlestorm_reply_name(none[i]), wanted[11]) != 0, 0);
    expect("the version", LADLESTORM_VERSION, LADLESTORM_VERSION_MAJOR * 1000 + LADLESTORM_VERSION_MINOR);
}

int main(int count, char **arguments)
{
    int tried, slow = count == 2 && strcmp(arguments[1], "slow") == 0;
    unsigned long events;
    words();
    connections();
    nothing();
    tried = long_lengths(slow);
    events = damaged();
    printf("edges: %lu checks, %lu damaged messages, lengths above 32 bits %s; %lu failures\n", checks, events, tried ? "tried" : "not tried for want of memory", failures);
    return failures != 0 || events == 0;
}
