/* Asks the line card's question of messages whose answers document 01 states, and of one message for each refusal. */
#include <stdio.h>
#include <string.h>
#include "linecard.h"

struct asked {
    const char *name;
    uint32_t answer;
    size_t length;
    const uint8_t octets[20];
};

static const struct asked table[] = {
    {"P1 AUrq", 10, 1, {0x28}},
    {"P1 AUrq with a padding bit", 64 + 5, 1, {0x29}},
    {"P2 AUcf successful", 11, 4, {0x2E, 0x00, 0x00, 0x06}},
    {"P3 AUcf too-many-users", 11, 2, {0x2D, 0xA0}},
    {"P4 CJrq", 14, 5, {0x38, 0x00, 0x06, 0x03, 0xEB}},
    {"P5 CJrq of 65535", 14, 5, {0x38, 0xFC, 0x16, 0x03, 0xEB}},
    {"P5 CJrq above it", 64 + 5, 5, {0x38, 0xFC, 0x17, 0x03, 0xEB}},
    {"P6 TGcf", 30, 7, {0x7A, 0x40, 0x00, 0x06, 0x00, 0x00, 0x40}},
    {"no octets", 64 + 4, 0, {0}},
    {"number 43", 64 + 5, 1, {0xAC}},
    {"number 63", 64 + 5, 1, {0xFC}},
    {"PDin is not covered, whatever follows", 64 + 7, 2, {0x00, 0xFF}},
    {"SDrq is not covered", 64 + 7, 10, {0x64, 0x02, 0xBC, 0x00, 0x05, 0x60, 0x03, 0x4D, 0x43, 0x53}},
    {"CLrq of 65 ids", 64 + 8, 2, {0x40, 0x41}},
    {"CLrq of 128 ids", 64 + 8, 3, {0x40, 0x80, 0x80}},
    {"CLrq of 64 in the long form", 64 + 5, 3, {0x40, 0x80, 0x40}},
    {"CLrq with a fragmented length", 64 + 8, 2, {0x40, 0xC1}},
    {"EDrq with a number of 5 octets", 64 + 8, 9, {0x04, 0x05, 1, 0, 0, 0, 0, 0x01, 0x00}},
    {"EDrq 0, 0", 1, 5, {0x04, 0x01, 0x00, 0x01, 0x00}},
    {"EDrq with an octet too many", 64 + 5, 6, {0x04, 0x01, 0x00, 0x01, 0x00, 0x00}},
    {"DPum reason 4", 8, 2, {0x22, 0x00}},
    {"DPum reason 5", 64 + 5, 2, {0x22, 0x80}},
    {"RJum diagnostic 13", 9, 3, {0x27, 0x40, 0x00}},
    {"RJum diagnostic 14", 64 + 5, 3, {0x27, 0x80, 0x00}},
};

/* RJum with a string of `n` octets: 2 octets of head, 2 of length, the string. */
static uint32_t reject_of(size_t n)
{
    static uint8_t m[1100];
    memset(m, 0x5A, sizeof m);
    m[0] = 0x25;
    m[1] = 0x00;
    m[2] = (uint8_t)(0x80 | n / 256);
    m[3] = (uint8_t)(n % 256);
    return ladlestorm_message_number(m, n + 4);
}

static int compare(const char *name, uint32_t wanted, uint32_t given)
{
    if (wanted == given)
        return 0;
    printf("%s: wanted %u, given %u\n", name, (unsigned)wanted, (unsigned)given);
    return 1;
}

int main(void)
{
    int passed = 0, failed = 0;
    for (size_t i = 0; i < sizeof table / sizeof table[0]; i++) {
        int wrong = compare(table[i].name, table[i].answer, ladlestorm_message_number(table[i].octets, table[i].length));
        failed += wrong;
        passed += !wrong;
    }
    int wrong = compare("RJum of 1,024 octets", 9, reject_of(1020));
    failed += wrong;
    passed += !wrong;
    wrong = compare("RJum of 1,025 octets", 64 + 4, reject_of(1021));
    failed += wrong;
    passed += !wrong;
    printf("%d passed, %d failed\n", passed, failed);
    return failed != 0;
}
