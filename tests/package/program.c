/* Built from an installed prefix, by what pkg-config says, as C11 and as C++17: a user attaches, and the line card names the message. */
#include <ladlestorm.h>
#include <linecard.h>
#include <stdio.h>

static struct ladlestorm_domain domain;
static uint8_t room[LADLESTORM_ROOM];

int main(void)
{
    static const uint8_t attach[] = {0x28}; /* AUrq */
    struct ladlestorm_answered a;
    if (ladlestorm_start(&domain, LADLESTORM_CHANNELS, LADLESTORM_USERS, LADLESTORM_TOKENS) != LADLESTORM_DONE || ladlestorm_open(&domain, 2) != LADLESTORM_DONE)
        return 1;
    a = ladlestorm_message(&domain, 2, attach, sizeof attach, room, sizeof room);
    printf("version %d.%d, message %u: reply %s, %zu octets sent, %zu user; on connection 258: %s; no octets: %s\n", LADLESTORM_VERSION_MAJOR,
        LADLESTORM_VERSION_MINOR, (unsigned)ladlestorm_message_number(attach, sizeof attach), ladlestorm_reply_name(a.reply), a.sent, ladlestorm_users(&domain),
        ladlestorm_reply_name(ladlestorm_message(&domain, 258, attach, sizeof attach, room, sizeof room).reply),
        ladlestorm_reply_name(ladlestorm_message(&domain, 2, NULL, 0, NULL, 0).reply));
    return 0;
}
