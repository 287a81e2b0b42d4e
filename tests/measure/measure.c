/* Times reading and writing a token message, and a grab and a release by the provider, with the stack that they touch. Least processor time of many tries. */
#include "measuring.h"
#include "codec.h"
#include "ladlestorm.h"

static const uint8_t grab[] = {0x74, 0x00, 0x06, 0x00, 0x00};
static const uint8_t first_grab[] = {0x74, 0x00, 0x00, 0x00, 0x00};    /* TGrq by 1001 for token 1 */
static const uint8_t first_release[] = {0x9C, 0x00, 0x00, 0x00, 0x00}; /* TRrq */
static const uint8_t confirm[] = {0x7A, 0x40, 0x00, 0x06, 0x00, 0x00, 0x40};
static uint8_t detach[131] = {0x30, 0x00, 0x40}; /* DUrq of 64 ids, all 1001 */
static const uint8_t attach[] = {0x28}; /* AUrq */
static uint8_t room[64];
static struct ladlestorm_domain domain;
static volatile uint32_t sink;
static uint32_t rounds = 1000;

static void reads(const uint8_t *octets, size_t length) { for (uint32_t i = 0; i < rounds; i++) read_message(octets, length); }
static void read_grab(void) { reads(grab, sizeof grab); }
static void read_confirm(void) { reads(confirm, sizeof confirm); }
static void read_detach(void) { reads(detach, sizeof detach); }

/* TGcf token-not-available, otherGrabbed, each for another token. */
static void write_confirms(void) { for (uint32_t i = 0; i < rounds; i++) sink = write_confirm(room, 16, 30, 9, 1007, i + 1, 2); }

/* The user grabs the token and releases it. */
static void pass(void)
{
    size_t sum = 0;
    for (uint32_t i = 0; i < rounds; i++) {
        sum += ladlestorm_message(&domain, 0, first_grab, sizeof first_grab, room, sizeof room).sent;
        sum += ladlestorm_message(&domain, 0, first_release, sizeof first_release, room, sizeof room).sent;
    }
    sink = (uint32_t)sum;
}

/* A domain with one user on connection 0. */
static void begin(void)
{
    ladlestorm_start(&domain, 128, 64, 64);
    ladlestorm_open(&domain, 0);
    ladlestorm_message(&domain, 0, attach, sizeof attach, room, sizeof room);
}

static double best(void (*f)(void))
{
    double least = 1e300;
    for (int i = 0; i < 300; i++) {
        double t = once(f);
        if (t < least)
            least = t;
    }
    return least / rounds;
}

static void report(const char *name, void (*f)(void))
{
    rounds = 1000;
    double ns = best(f);
    rounds = 1;
    printf("%-28s %8.1f ns  %6zu octets of stack\n", name, ns, touched(f));
}

int main(void)
{
    report("read TGrq", read_grab);
    report("read TGcf", read_confirm);
    report("read DUrq of 64 ids", read_detach);
    report("write TGcf", write_confirms);
    begin();
    report("grab and release", pass);
    return 0;
}
