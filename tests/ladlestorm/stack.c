/* The stack that the library touches over whole traces. Linked with -z now: else the first call of memcpy has the dynamic linker's own 2.5 KB counted
   too. */
#include "measuring.h"
#include "ladlestorm.h"

enum { TRACE = 1 << 20 };

static struct ladlestorm_domain domain;
static uint8_t room[LADLESTORM_ROOM], trace[TRACE];
static size_t length;

static void play(void)
{
    size_t at = 0, size;
    ladlestorm_start(&domain, LADLESTORM_CHANNELS, LADLESTORM_USERS, LADLESTORM_TOKENS);
    for (; at + 5 <= length; at += 2 + size) {
        uint8_t kind = trace[at + 3], p = trace[at + 4];
        size = (size_t)trace[at] * 256 + trace[at + 1];
        if (size < 3 || length - at - 2 < size)
            break;
        if (kind == 0)
            ladlestorm_open(&domain, p);
        else if (kind == 1)
            ladlestorm_lose(&domain, p, room, sizeof room);
        else
            ladlestorm_message(&domain, p, trace + at + 5, size - 3, room, sizeof room);
    }
}

int main(int count, char **names)
{
    size_t most = 0;
    for (int i = 1; i < count; i++) {
        FILE *file = fopen(names[i], "rb");
        if (!file)
            return 1;
        length = fread(trace, 1, sizeof trace, file);
        fclose(file);
        size_t depth = touched(play);
        if (most < depth)
            most = depth;
    }
    printf("stack: at most %zu octets over %d traces\n", most, count - 1);
    return most < 4096 ? 0 : 1;
}
