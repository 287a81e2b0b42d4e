/* Salvaging from C.

   salvage cases CASES LINES          the cases of cases.py: the answer and both rooms whole
   salvage hand                       cases by hand, with each room one octet short
   salvage damage SEED COUNT TRACE..  damaged copies of these traces: V1 to V5 (below, at each check), by a reader of frames of its own
   salvage speed                      64 MiB of each of some kinds of octets: MB a second */
#define _POSIX_C_SOURCE 200809L
#include <inttypes.h>
#include <stdarg.h>
#include <stdio.h>
#include <stdlib.h>
#include <string.h>
#include <time.h>

#include "ladlestorm.h"

enum { BLANK = 0xAA, GUARD = 0x55, GUARDS = 32 };

static void fail(const char *format, ...) {
    va_list words;
    va_start(words, format);
    fprintf(stderr, "salvage: ");
    vfprintf(stderr, format, words);
    fprintf(stderr, "\n");
    va_end(words);
    exit(1);
}

/* A room of just so many octets, each BLANK before, between octets that nobody may touch. */
struct room {
    uint8_t *all, *octets;
    size_t length;
};

static struct room room_of(size_t length) {
    struct room r = {malloc(length + 2 * GUARDS), NULL, length};
    if (!r.all) fail("no memory");
    memset(r.all, GUARD, length + 2 * GUARDS);
    r.octets = r.all + GUARDS;
    memset(r.octets, BLANK, length);
    return r;
}

static int all_are(const uint8_t *octets, size_t length, uint8_t octet) {
    for (size_t i = 0; i < length; i++)
        if (octets[i] != octet) return 0;
    return 1;
}

static void check_guards(struct room r, const char *where) {
    if (!all_are(r.all, GUARDS, GUARD) || !all_are(r.octets + r.length, GUARDS, GUARD)) fail("%s: written outside a room", where);
}

/* Salvages into two rooms. The answer comes back into memory between two numbers that must stay. */
static struct ladlestorm_salvaged salvage(const uint8_t *trace, size_t length, struct room out, struct room list, const char *where) {
    static struct {
        uint64_t before;
        struct ladlestorm_salvaged answer;
        uint64_t after;
    } held;
    struct room copy = room_of(length);
    if (length) memcpy(copy.octets, trace, length);
    memset(&held, BLANK, sizeof held);
    held.before = held.after = 0x0123456789ABCDEF;
    held.answer = ladlestorm_salvage(copy.octets, length, out.octets, out.length, list.octets, list.length);
    if (held.before != 0x0123456789ABCDEF || held.after != 0x0123456789ABCDEF) fail("%s: written beside the answer", where);
    if (length && memcmp(copy.octets, trace, length)) fail("%s: the trace is changed", where);
    check_guards(copy, where);
    check_guards(out, where);
    check_guards(list, where);
    if (held.answer.reply == LADLESTORM_NO_ROOM) {
        if (held.answer.kept || held.answer.cuts) fail("%s: lengths with a refusal", where);
        if (!all_are(out.octets, out.length, BLANK) || !all_are(list.octets, list.length, BLANK)) fail("%s: a refusal touched a room", where);
    } else {
        if (held.answer.reply != LADLESTORM_DONE) fail("%s: reply %" PRIu32, where, held.answer.reply);
        if (held.answer.kept > out.length || held.answer.cuts > list.length || held.answer.cuts % 16) fail("%s: lengths", where);
        if (!all_are(out.octets + held.answer.kept, out.length - held.answer.kept, BLANK)) fail("%s: octets behind the frames", where);
        if (!all_are(list.octets + held.answer.cuts, list.length - held.answer.cuts, BLANK)) fail("%s: octets behind the list", where);
    }
    free(copy.all);
    return held.answer;
}

static uint64_t number(const uint8_t *octets) {
    uint64_t n = 0;
    for (int i = 0; i < 8; i++) n = n << 8 | octets[i];
    return n;
}

/* ---- the cases of cases.py */

static void expect_hex(FILE *lines, const uint8_t *octets, size_t length, int end, size_t which) {
    static const char digits[] = "0123456789ABCDEF";
    for (size_t i = 0; i < length; i++)
        if (getc(lines) != digits[octets[i] >> 4] || getc(lines) != digits[octets[i] & 15]) fail("case %zu: octet %zu of a room", which, i);
    if (getc(lines) != end) fail("case %zu: the end of a room", which);
}

static void play_cases(const char *cases_name, const char *lines_name) {
    FILE *cases = fopen(cases_name, "rb"), *lines = fopen(lines_name, "rb");
    if (!cases || !lines) fail("cannot open %s or %s", cases_name, lines_name);
    uint8_t head[6];
    static uint8_t trace[65536];
    size_t count = 0;
    char where[32];
    for (; fread(head, 1, 6, cases) == 6; count++) {
        size_t length = head[0] * 256 + head[1];
        if (fread(trace, 1, length, cases) != length) fail("case %zu is cut off", count);
        snprintf(where, sizeof where, "case %zu", count);
        struct room out = room_of(head[2] * 256 + head[3]), list = room_of(head[4] * 256 + head[5]);
        struct ladlestorm_salvaged a = salvage(trace, length, out, list, where);
        unsigned reply;
        size_t kept, cuts;
        if (fscanf(lines, "%u %zu %zu", &reply, &kept, &cuts) != 3 || getc(lines) != ' ') fail("no line for case %zu", count);
        if (a.reply != reply || a.kept != kept || a.cuts != cuts)
            fail("case %zu: %" PRIu32 " %zu %zu, expected %u %zu %zu", count, a.reply, a.kept, a.cuts, reply, kept, cuts);
        expect_hex(lines, out.octets, out.length, ' ', count);
        expect_hex(lines, list.octets, list.length, '\n', count);
        free(out.all);
        free(list.all);
    }
    if (getc(lines) != EOF || count == 0) fail("%s: %zu cases, and a line more", lines_name, count);
    printf("salvage from C: %zu cases, all rooms equal\n", count);
    fclose(cases);
    fclose(lines);
}

/* ---- cases by hand */

#define A "0003010002"
#define B "000401020228"
#define C "0003010102"
#define Z8 "0000000000000000"

/* A trace, what is kept of it, and start and length of each span cut out. */
static const struct {
    const char *name, *trace, *kept;
    size_t cuts, spans[3][2];
} hand[] = {
    {"empty", "", "", 0, {{0}}},
    {"one octet", "00", "", 1, {{0, 1}}},
    {"a frame", A, A, 0, {{0}}},
    {"octet, frame", "FF" A, A, 1, {{0, 1}}},
    {"frame, octet", A "FF", A, 1, {{5, 1}}},
    {"octet, frame, octet", "FF" A "FF", "", 1, {{0, 7}}},
    {"octet, two frames, octet", "FF" A B "FF", A B, 2, {{0, 1}, {12, 1}}},
    {"two zeros between frames", A "0000" B C, A B C, 1, {{5, 2}}},
    {"zeros", Z8 Z8 Z8, "", 1, {{0, 24}}},
    {"zeros before and behind frames", Z8 A C Z8, A C, 2, {{0, 8}, {18, 8}}},
    {"a length past the end", "000B01020228" A, A, 1, {{0, 6}}},
    {"a length past the end, last", A "000B01020228", A, 1, {{5, 6}}},
    {"a length that takes in the next frame", "000901020228" A, "000901020228" A, 0, {{0}}},
    {"a frame expected, damage behind", A A "FF" B B, A A B B, 1, {{10, 1}}},
    {"a lone frame between two damaged places", A "FF" B "FF" C, A C, 1, {{5, 8}}},
    {"a frame cut off", A "000301", A, 1, {{5, 3}}},
    {"version 2", "0003020002" A, A, 1, {{0, 5}}},
    {"kind 3", "0003010302" A, A, 1, {{0, 5}}},
    {"an open with an octet", "000401000228" A, A, 1, {{0, 6}}},
    {"a loss with an octet", "000401010228" A, A, 1, {{0, 6}}},
    {"a message with no octets, connection 255", "00030102FF", "00030102FF", 0, {{0}}},
    {"three damaged places", "FF" A A "FE" B B "FD", A A B B, 3, {{0, 1}, {11, 1}, {24, 1}}},
};

static size_t octets_of(const char *hex, uint8_t *octets) {
    size_t n = strlen(hex) / 2;
    for (size_t i = 0; i < n; i++) {
        unsigned octet;
        if (sscanf(hex + 2 * i, "%2x", &octet) != 1) fail("%s", hex);
        octets[i] = (uint8_t)octet;
    }
    return n;
}

static void play_hand(void) {
    size_t runs = 0;
    for (size_t k = 0; k < sizeof hand / sizeof *hand; k++) {
        uint8_t trace[128], kept[128], list[48];
        size_t length = octets_of(hand[k].trace, trace), keeps = octets_of(hand[k].kept, kept), cuts = 16 * hand[k].cuts;
        for (size_t i = 0; i < 2 * hand[k].cuts; i++)
            for (int j = 0; j < 8; j++) list[8 * i + j] = (uint8_t)((uint64_t)hand[k].spans[i / 2][i % 2] >> (56 - 8 * j));
        /* Each room by -1, 0, 1 and more octets than it takes; 9 exactly where one is short. */
        static const int more[] = {-1, 0, 1, 15, 40};
        for (size_t i = 0; i < 5; i++)
            for (size_t j = 0; j < 5; j++) {
                if ((more[i] < 0 && keeps == 0) || (more[j] < 0 && cuts == 0)) continue;
                struct room out = room_of(keeps + more[i]), lists = room_of(cuts + more[j]);
                struct ladlestorm_salvaged a = salvage(trace, length, out, lists, hand[k].name);
                if ((a.reply == LADLESTORM_NO_ROOM) != (more[i] < 0 || more[j] < 0)) fail("%s: reply %" PRIu32, hand[k].name, a.reply);
                if (a.reply == LADLESTORM_DONE) {
                    if (a.kept != keeps || memcmp(out.octets, kept, keeps)) fail("%s: the frames kept", hand[k].name);
                    if (a.cuts != cuts || memcmp(lists.octets, list, cuts)) fail("%s: the list", hand[k].name);
                }
                free(out.all);
                free(lists.all);
                runs++;
            }
    }
    /* The most cuts that a trace can have take just the list that never meets 9, in arrays by the header's macro. */
    static uint8_t trace[11 * 1000 + 1], out[sizeof trace], list[LADLESTORM_SALVAGE_LIST(sizeof trace)];
    for (size_t i = 0; i < 1000; i++) octets_of("FF" A A, trace + 11 * i);
    trace[11000] = 0xFF;
    struct ladlestorm_salvaged a = ladlestorm_salvage(trace, sizeof trace, out, sizeof out, list, sizeof list);
    if (a.reply != LADLESTORM_DONE || a.kept != 10000 || a.cuts != sizeof list) fail("the most cuts: %" PRIu32 " %zu %zu", a.reply, a.kept, a.cuts);
    a = ladlestorm_salvage(trace, sizeof trace, out, sizeof out, list, sizeof list - 1);
    if (a.reply != LADLESTORM_NO_ROOM || a.kept || a.cuts) fail("the most cuts, one octet short: %" PRIu32, a.reply);
    printf("salvage from C: %zu cases by hand in %zu rooms\n", sizeof hand / sizeof *hand, runs);
}

/* ---- damage */

static uint64_t seed;

static size_t below(size_t n) {
    seed ^= seed << 13;
    seed ^= seed >> 7;
    seed ^= seed << 17;
    return (size_t)((seed * 0x2545F4914F6CDD1D >> 16) % n);
}

/* The size of the good frame at the front of so many octets, 0 where there is none. */
static size_t good(const uint8_t *s, size_t there) {
    if (there < 5) return 0;
    size_t length = s[0] * 256u + s[1];
    int right = length >= 3 && 2 + length <= there && s[2] == 1 && (s[3] == 2 || (s[3] < 2 && length == 3));
    return right ? 2 + length : 0;
}

static int resumes(const uint8_t *s, size_t there) {
    size_t size = good(s, there);
    return size && (size == there || good(s + size, there - size));
}

static int is_trace(const uint8_t *s, size_t there) {
    while (there) {
        size_t size = good(s, there);
        if (!size) return 0;
        s += size, there -= size;
    }
    return 1;
}

enum { MOST = 1 << 18 };

/* One damage: octets changed, lost, put in, doubled or cleared, or the end lost. */
static size_t damage(uint8_t *s, size_t n) {
    static const size_t sizes[] = {1, 1, 1, 2, 3, 5, 16, 64, 500};
    size_t at = below(n + 1), size = sizes[below(9)];
    if (size > n - at) size = n - at;
    if (n + 500 > MOST) return n;
    switch (below(7)) {
    case 0: case 1:
        if (at < n) s[at] ^= (uint8_t)(1u << below(8));
        return n;
    case 2:
        memmove(s + at, s + at + size, n - at - size);
        return n - size;
    case 3:
        memmove(s + at + size, s + at, n - at);
        for (size_t i = 0; i < size; i++) s[at + i] = (uint8_t)below(256);
        return n + size;
    case 4:
        memmove(s + at + size, s + at, n - at);
        return n + size;
    case 5:
        memset(s + at, 0, size);
        return n;
    default:
        return below(8) ? n : at;
    }
}

/* What was seen so far: cuts, the most of them in one trace, traces with none. */
static size_t cuts_seen, most_cuts, whole_seen;

static void check_salvaged(const uint8_t *trace, size_t n, const char *where) {
    struct room out = room_of(n), list = room_of(LADLESTORM_SALVAGE_LIST(n));
    struct ladlestorm_salvaged a = salvage(trace, n, out, list, where);
    if (a.reply != LADLESTORM_DONE) fail("%s: 9 in rooms that suffice (V5)", where);
    /* V1, V2: in order the spans are the trace; each frame is good; a cut starts where none begins and goes to the first place to go on from. */
    size_t at = 0, kept = 0;
    for (size_t k = 0; k <= a.cuts / 16; k++) {
        size_t start = n, size = 0, frames = 0;
        if (k < a.cuts / 16) start = number(list.octets + 16 * k), size = number(list.octets + 16 * k + 8);
        if (start < at || start > n || size > n - start) fail("%s: entry %zu lies outside (V1)", where, k);
        for (; at < start; frames++) {
            size_t frame = good(trace + at, n - at);
            if (!frame || frame > start - at) fail("%s: octet %zu: a frame kept is not good (V2)", where, at);
            if (frame > a.kept - kept || memcmp(trace + at, out.octets + kept, frame)) fail("%s: octet %zu is not kept (V1)", where, at);
            at += frame, kept += frame;
        }
        if (k == a.cuts / 16) break;
        if (size == 0 || (k > 0 && frames < 2)) fail("%s: entry %zu: an empty cut, or fewer than 2 frames before it (V1)", where, k);
        if (good(trace + at, n - at)) fail("%s: octet %zu: a good frame is cut (V2)", where, at);
        for (size_t i = 1; i < size; i++)
            if (resumes(trace + at + i, n - at - i)) fail("%s: octet %zu: the cut goes on (V2)", where, at + i);
        at += size;
        if (at < n && !resumes(trace + at, n - at)) fail("%s: octet %zu: the cut ends (V2)", where, at);
    }
    if (at != n || kept != a.kept) fail("%s: octets are missing (V1)", where);
    /* V3 */
    struct room again = room_of(a.kept), none = room_of(0);
    struct ladlestorm_salvaged b = salvage(out.octets, a.kept, again, none, where);
    if (b.reply != LADLESTORM_DONE || b.kept != a.kept || b.cuts) fail("%s: salvaged again, something is cut (V3)", where);
    if (a.kept && memcmp(again.octets, out.octets, a.kept)) fail("%s: salvaged again, it differs (V3)", where);
    /* V4 */
    if (is_trace(trace, n) != (a.cuts == 0)) fail("%s: nothing cut, or something (V4)", where);
    /* 9 exactly where a room is short */
    free(out.all), free(list.all);
    out = room_of(a.kept), list = room_of(a.cuts);
    struct room short_out = room_of(a.kept ? a.kept - 1 : 0), short_list = room_of(a.cuts ? a.cuts - 1 : 0);
    if (a.kept && salvage(trace, n, short_out, list, where).reply != LADLESTORM_NO_ROOM) fail("%s: an output one octet short", where);
    if (a.cuts && salvage(trace, n, out, short_list, where).reply != LADLESTORM_NO_ROOM) fail("%s: a list one octet short", where);
    if (salvage(trace, n, out, list, where).reply != LADLESTORM_DONE) fail("%s: rooms that just suffice", where);
    free(out.all), free(list.all), free(again.all), free(none.all), free(short_out.all), free(short_list.all);
    cuts_seen += a.cuts / 16;
    if (a.cuts / 16 > most_cuts) most_cuts = a.cuts / 16;
    whole_seen += a.cuts == 0;
}

static void play_damage(uint64_t first, size_t count, char **names, int files) {
    static uint8_t whole[MOST], torn[MOST];
    size_t runs = 0;
    seed = first * 2 + 0x9E3779B97F4A7C15;
    for (int f = 0; f < files; f++) {
        FILE *file = fopen(names[f], "rb");
        if (!file) fail("cannot open %s", names[f]);
        size_t length = fread(whole, 1, sizeof whole, file);
        fclose(file);
        if (length == sizeof whole) fail("%s is too long", names[f]);
        for (size_t i = 0; i < count; i++, runs++) {
            /* Some frames of it, from one on. */
            size_t from = 0, n;
            for (size_t skip = below(300); skip && from + 1000 < length; skip--) from += good(whole + from, length - from);
            n = length - from;
            if (n > 400 && below(4)) n = 400 + below(n - 400) / 8;
            memcpy(torn, whole + from, n);
            for (size_t d = (size_t)1 << below(6); d > 1; d--) n = damage(torn, n);
            char where[64];
            snprintf(where, sizeof where, "damage %zu of trace %d", i, f);
            check_salvaged(torn, n, where);
        }
    }
    printf("salvage from C: %zu damaged traces, %zu cuts, at most %zu in one, nothing cut of %zu: V1 to V5 hold\n", runs, cuts_seen, most_cuts, whole_seen);
}

/* ---- speed */

static void measure(void) {
    enum { SIZE = 64 << 20 };
    static const struct {
        const char *name, *unit;
    } kinds[] = {
        {"frames of 5 octets", A}, {"zeros", "00"}, {"octets 01", "01"}, {"lone frames", "FF" A}, {"as many cuts as can be", "FF" A A}, {"random octets", ""},
    };
    uint8_t *trace = malloc(SIZE), *out = malloc(SIZE), *list = malloc(LADLESTORM_SALVAGE_LIST(SIZE));
    if (!trace || !out || !list) fail("no memory");
    memset(out, 0, SIZE);
    memset(list, 0, LADLESTORM_SALVAGE_LIST(SIZE));
    seed = 1;
    for (size_t k = 0; k < sizeof kinds / sizeof *kinds; k++) {
        uint8_t unit[16];
        size_t n = octets_of(kinds[k].unit, unit);
        for (size_t i = 0; i < SIZE; i++) trace[i] = n ? unit[i % n] : (uint8_t)below(256);
        struct timespec from, to;
        clock_gettime(CLOCK_PROCESS_CPUTIME_ID, &from);
        struct ladlestorm_salvaged a = ladlestorm_salvage(trace, SIZE, out, SIZE, list, LADLESTORM_SALVAGE_LIST(SIZE));
        clock_gettime(CLOCK_PROCESS_CPUTIME_ID, &to);
        double seconds = (double)(to.tv_sec - from.tv_sec) + (double)(to.tv_nsec - from.tv_nsec) / 1e9;
        if (a.reply != LADLESTORM_DONE) fail("%s: reply %" PRIu32, kinds[k].name, a.reply);
        printf("%-24s kept %8zu cuts %7zu  %7.0f MB/s\n", kinds[k].name, a.kept, a.cuts / 16, SIZE / 1e6 / seconds);
    }
    free(trace), free(out), free(list);
}

int main(int count, char **words) {
    if (count == 4 && !strcmp(words[1], "cases"))
        play_cases(words[2], words[3]);
    else if (count == 2 && !strcmp(words[1], "hand"))
        play_hand();
    else if (count >= 5 && !strcmp(words[1], "damage"))
        play_damage(strtoull(words[2], NULL, 10), strtoul(words[3], NULL, 10), words + 4, count - 4);
    else if (count == 2 && !strcmp(words[1], "speed"))
        measure();
    else
        fail("see the top of salvage.c");
    return 0;
}
