/* Plays stored traces through the library, and compares every reply, count and octet sent with what the trace program printed.

   replay [-s] TRACE PRINTED ..: TRACE has the frames, PRINTED the lines; with -s each line is followed by one of the octets sent. The room is cleared
   with a mark before each frame, and the octets behind the records must keep it; a refused event must leave the struct as it was. */
#include <stdio.h>
#include <stdlib.h>
#include <string.h>
#include "ladlestorm.h"

enum { MARK = 0xA5 };

static struct ladlestorm_domain domain, before;
static uint8_t room[LADLESTORM_ROOM];
static unsigned long frames, octets_compared, failures;

struct text {
    unsigned char *octets;
    size_t length;
};

static struct text contents(const char *name)
{
    struct text t = {(unsigned char *)malloc(1 << 20), 0};
    FILE *f = fopen(name, "rb");
    if (!f || !t.octets) {
        fprintf(stderr, "cannot read %s\n", name);
        exit(2);
    }
    t.length = fread(t.octets, 1, 1 << 20, f);
    fclose(f);
    return t;
}

static void fails(const char *trace, unsigned long frame, const char *what)
{
    failures++;
    if (failures <= 10)
        fprintf(stderr, "%s, frame %lu: %s\n", trace, frame, what);
}

/* The frame at the front: its size, or 0 where it is bad. */
static size_t frame_size(const unsigned char *s, size_t left)
{
    size_t size;
    if (left < 5)
        return 0;
    size = 2 + (size_t)s[0] * 256 + s[1];
    if (size < 5 || size > left || s[2] != 1 || s[3] > 2 || (s[3] != 2 && size != 5))
        return 0;
    return size;
}

static struct ladlestorm_answered play(const unsigned char *s, size_t size)
{
    struct ladlestorm_answered a = {11, 0};
    if (size == 0)
        return a;
    if (s[3] == 0)
        a.reply = ladlestorm_open(&domain, s[4]);
    else if (s[3] == 1)
        a = ladlestorm_lose(&domain, s[4], room, sizeof room);
    else
        a = ladlestorm_message(&domain, s[4], s + 5, size - 5, room, sizeof room);
    return a;
}

/* What the trace program prints of one frame. */
static size_t printed(char *line, struct ladlestorm_answered a, int shows)
{
    size_t n = (size_t)sprintf(line, "%u %zu %zu %zu %zu\n", (unsigned)a.reply, a.sent, ladlestorm_users(&domain), ladlestorm_channels(&domain), ladlestorm_tokens(&domain));
    size_t i;
    if (shows) {
        for (i = 0; i < a.sent; i++)
            n += (size_t)sprintf(line + n, "%02X", room[i]);
        line[n++] = '\n';
    }
    return n;
}

static int kept(struct ladlestorm_answered a)
{
    size_t i;
    for (i = a.sent; i < sizeof room; i++)
        if (room[i] != MARK)
            return 0;
    return 1;
}

static void replay(const char *trace, const char *stored, int shows)
{
    static char line[2 * LADLESTORM_ROOM + 100];
    struct text in = contents(trace), out = contents(stored);
    size_t at = 0, told = 0;
    unsigned long frame = 0;
    if (ladlestorm_start(&domain, 128, 64, 64) != LADLESTORM_DONE)
        fails(trace, 0, "no domain");
    while (at < in.length) {
        size_t size = frame_size(in.octets + at, in.length - at), n;
        struct ladlestorm_answered a;
        memset(room, MARK, sizeof room);
        before = domain;
        a = play(in.octets + at, size);
        frame++;
        n = printed(line, a, shows);
        if (told + n > out.length || memcmp(line, out.octets + told, n) != 0) {
            fails(trace, frame, "another line than the trace program's");
            break;
        }
        if (!kept(a))
            fails(trace, frame, "an octet behind the records was written");
        if (a.reply != LADLESTORM_DONE && memcmp(&domain, &before, sizeof domain) != 0)
            fails(trace, frame, "a refused event changed the domain");
        told += n;
        octets_compared += shows ? a.sent : 0;
        if (size == 0)
            break;
        at += size;
    }
    if (told != out.length)
        fails(trace, frame, "the trace program printed more");
    frames += frame;
    printf("%s: %lu frames\n", trace, frame);
    free(in.octets);
    free(out.octets);
}

int main(int argc, char **argv)
{
    int i = 1, shows = 0;
    while (i + 1 < argc) {
        if (strcmp(argv[i], "-s") == 0) {
            shows = 1;
            i++;
            continue;
        }
        replay(argv[i], argv[i + 1], shows);
        i += 2;
    }
    printf("%lu frames, %lu octets sent compared, %lu failures\n", frames, octets_compared, failures);
    return failures != 0;
}
