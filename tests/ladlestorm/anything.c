/* Structs of any contents, any octets and any room: what the promises say of every one of them, and that nothing beside the struct and the room is written. */
#include <stdio.h>
#include <string.h>
#include "ladlestorm.h"

enum { MARK = 0xA5, AROUND = 64, EVENTS = 200000 };

static struct {
    uint8_t before[AROUND];
    struct ladlestorm_domain domain;
    uint8_t between[AROUND];
    uint8_t room[LADLESTORM_ROOM];
    uint8_t after[AROUND];
} kept;

static uint64_t seed = 125;
static unsigned long failures, answers[12];

static uint32_t dice(uint32_t below)
{
    seed = seed * 6364136223846793005u + 1442695040888963407u;
    return (uint32_t)(seed >> 33) % below;
}

/* Few ids, so that they meet; any kind, place and state. */
static void scramble(void)
{
    uint8_t *octets = (uint8_t *)&kept.domain;
    size_t i;
    for (i = 0; i < sizeof kept.domain; i++)
        octets[i] = (uint8_t)(dice(4) ? dice(6) : dice(256));
    for (i = 0; i < 64; i++) {
        kept.domain.user_ids[i] = (uint16_t)(dice(2) ? 1001 + dice(8) : dice(65536));
        kept.domain.token_ids[i] = (uint16_t)dice(8);
    }
    for (i = 0; i < 128; i++)
        kept.domain.channel_ids[i] = (uint16_t)(dice(2) ? 1001 + dice(16) : dice(12));
    kept.domain.links = (uint16_t)(dice(65536) | (dice(4) ? 0x3F : 0));
}

/* A message: often one that is served, with ids that may be there. */
static size_t message(uint8_t *octets)
{
    static const uint8_t served[] = {0x28, 0x30, 0x38, 0x40, 0x44, 0x4C, 0x54, 0x5C, 0x74, 0x7C, 0x84, 0x8C, 0x94, 0x9C, 0xA4, 0x20, 0x24};
    size_t length = 1 + dice(dice(8) ? 10 : 1100), i;
    octets[0] = (uint8_t)(dice(8) ? served[dice(sizeof served)] : dice(256));
    for (i = 1; i < length; i++)
        octets[i] = (uint8_t)(dice(8) ? dice(4) : dice(256));
    return dice(50) ? length : 0;
}

static int marked(const uint8_t *octets, size_t n)
{
    size_t i;
    for (i = 0; i < n; i++)
        if (octets[i] != MARK)
            return 0;
    return 1;
}

static void expect(int holds, const char *what)
{
    if (!holds && failures++ < 10)
        fprintf(stderr, "%s\n", what);
}

static void turn(void)
{
    static uint8_t octets[1200];
    static struct ladlestorm_domain was;
    size_t length = message(octets), room = dice(4) ? LADLESTORM_ROOM : dice(200);
    uint32_t p = dice(8) ? dice(6) : dice(2) ? dice(256) : dice(6) + 256 * dice(1 << 24);
    uint32_t kind = dice(8);
    struct ladlestorm_answered a = {0, 0};
    if (dice(30) == 0)
        scramble();
    memset(kept.room, MARK, sizeof kept.room);
    was = kept.domain;
    if (kind == 0)
        a.reply = ladlestorm_open(&kept.domain, p);
    else if (kind == 1)
        a = ladlestorm_lose(&kept.domain, p, kept.room, room);
    else
        a = ladlestorm_message(&kept.domain, p, octets, length, kept.room, room);
    expect(a.reply <= LADLESTORM_NO_ROOM, "a reply that is not listed");
    expect(p < LADLESTORM_CONNECTIONS || a.reply == LADLESTORM_NOT_OPEN, "a connection above 15 was taken");
    expect(a.sent <= room, "more sent than there is room");
    expect(marked(kept.room + a.sent, sizeof kept.room - a.sent), "an octet behind the records was written");
    expect(marked(kept.before, AROUND) && marked(kept.between, AROUND) && marked(kept.after, AROUND), "an octet beside the struct or the room was written");
    expect(a.reply == LADLESTORM_DONE || memcmp(&was, &kept.domain, sizeof was) == 0, "a refused event changed the domain");
    expect(ladlestorm_users(&kept.domain) <= 64 && ladlestorm_channels(&kept.domain) <= 128 && ladlestorm_tokens(&kept.domain) <= 64, "a count above its table");
    expect(ladlestorm_audience(&kept.domain, (uint16_t)dice(1020)) <= LADLESTORM_CONNECTIONS, "an audience above the connections");
    answers[a.reply < 11 ? a.reply : 11]++;
}

int main(void)
{
    int i;
    memset(&kept, MARK, sizeof kept);
    scramble();
    for (i = 0; i < EVENTS; i++)
        turn();
    printf("%d events on structs of any contents; replies 0 to 9:", EVENTS);
    for (i = 0; i < 10; i++)
        printf(" %lu", answers[i]);
    printf("; %lu failures\n", failures);
    return failures != 0;
}
