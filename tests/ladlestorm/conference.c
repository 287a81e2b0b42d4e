/* A small conference by the library: the lecturer grabs the pen, offers it to a listener and drops off; the listener still gets it. */
#include <stdio.h>
#include "ladlestorm.h"

enum { LECTURER = 0, LISTENER = 1 };

static struct ladlestorm_domain domain;
static uint8_t room[LADLESTORM_ROOM];

/* What the bridge would write to its connections: each record's message goes to the record's connection. */
static void deliver(size_t sent)
{
    size_t at = 0;
    while (at < sent) {
        size_t size = (size_t)room[at] * 256 + room[at + 1], i;
        printf("    to %d:", room[at + 3]);
        for (i = 4; i < size + 2; i++)
            printf(" %02X", room[at + i]);
        printf("\n");
        at += size + 2;
    }
}

static void told(const char *what, uint32_t reply, size_t sent)
{
    printf("%s: reply %u; %zu users, %zu channels, %zu tokens in use; %u on channel 7\n", what, (unsigned)reply, ladlestorm_users(&domain),
        ladlestorm_channels(&domain), ladlestorm_tokens(&domain), (unsigned)ladlestorm_audience(&domain, 7));
    deliver(sent);
}

static void hears(const char *what, uint32_t p, const uint8_t *octets, size_t length)
{
    struct ladlestorm_answered a = ladlestorm_message(&domain, p, octets, length, room, sizeof room);
    told(what, a.reply, a.sent);
}

#define HEARS(what, p, ...) do { const uint8_t octets[] = {__VA_ARGS__}; hears(what, p, octets, sizeof octets); } while (0)

int main(void)
{
    struct ladlestorm_answered a;
    told("start, 200 channels", ladlestorm_start(&domain, 200, 64, 64), 0);
    told("start", ladlestorm_start(&domain, 128, 64, 64), 0);
    told("the lecturer's line opens", ladlestorm_open(&domain, LECTURER), 0);
    told("the listener's line opens", ladlestorm_open(&domain, LISTENER), 0);
    HEARS("the lecturer attaches: AUrq", LECTURER, 0x28);
    HEARS("the listener attaches: AUrq", LISTENER, 0x28);
    HEARS("the lecturer joins channel 7: CJrq", LECTURER, 0x38, 0x00, 0x00, 0x00, 0x07);
    HEARS("the listener joins channel 7: CJrq", LISTENER, 0x38, 0x00, 0x01, 0x00, 0x07);
    HEARS("the lecturer grabs the pen: TGrq 1", LECTURER, 0x74, 0x00, 0x00, 0x00, 0x00);
    HEARS("the listener would have it: TGrq 1", LISTENER, 0x74, 0x00, 0x01, 0x00, 0x00);
    HEARS("the lecturer offers it: TVrq 1 to 1002", LECTURER, 0x84, 0x00, 0x00, 0x00, 0x00, 0x00, 0x01);
    a = ladlestorm_lose(&domain, LECTURER, room, 4);
    told("the lecturer drops off, with room for 4 octets", a.reply, a.sent);
    a = ladlestorm_lose(&domain, LECTURER, room, sizeof room);
    told("the lecturer drops off", a.reply, a.sent);
    HEARS("the listener asks for its status: TTrq 1", LISTENER, 0xA4, 0x00, 0x01, 0x00, 0x00);
    HEARS("the listener accepts: TVrs successful 1", LISTENER, 0x8C, 0x00, 0x00, 0x01, 0x00, 0x00);
    HEARS("the listener asks for its status: TTrq 1", LISTENER, 0xA4, 0x00, 0x01, 0x00, 0x00);
    HEARS("the listener releases it: TRrq 1", LISTENER, 0x9C, 0x00, 0x01, 0x00, 0x00);
    return 0;
}
