/* A message read and written as the provider does it, by the functions of crates/test_codec_c: what one way does not take goes by the next. For one source
   file a program. */
#ifndef CODEC_H
#define CODEC_H
#include <stddef.h>
#include <stdint.h>

uint32_t ladlestorm_test_read_fast(const uint8_t *octets, size_t length, uint16_t values[3], uint16_t list[64]);
uint32_t ladlestorm_test_read_any(const uint8_t *octets, size_t length, uint32_t values[6], uint16_t list[64]);
uint32_t ladlestorm_test_write_fast(uint8_t *room, size_t length, uint32_t number, uint32_t result, uint32_t user, uint32_t token, uint32_t status);
uint32_t ladlestorm_test_write_any(uint8_t *room, size_t length, uint32_t number, uint32_t result, uint32_t user, uint32_t token, uint32_t status);

enum { NOT_READ = 64 };

/* The message that was read last: its number and values, its list, and the refusal; where it lists ids, the third value counts them. */
static struct {
    uint32_t number, refusal;
    uint16_t values[3], list[64];
    uint32_t any[6];
} heard;

/* DUrq, CLrq, CArq and CErq list ids: how many the message read last has. */
static inline int lists(uint32_t number) { return number == 12 || number == 16 || number == 21 || number == 23; }

static inline uint32_t heard_count(void) { return lists(heard.number) ? heard.values[2] : 0; }

/* By the table of messages: apart, so that the short ways do not pay for it. */
static __attribute__((noinline)) void read_by_table(const uint8_t *octets, size_t length)
{
    uint32_t count = ladlestorm_test_read_any(octets, length, heard.any, heard.list);
    heard.number = heard.any[0];
    heard.refusal = heard.any[5];
    for (int i = 0; i < 3; i++)
        heard.values[i] = (uint16_t)heard.any[i + 1];
    if (lists(heard.number))
        heard.values[2] = (uint16_t)count;
}

static inline void read_message(const uint8_t *octets, size_t length)
{
    heard.refusal = 0;
    heard.number = ladlestorm_test_read_fast(octets, length, heard.values, heard.list);
    if (heard.number == NOT_READ)
        read_by_table(octets, length);
}

/* How many octets a confirm of a token's request takes, or 64 and the refusal. */
static inline uint32_t write_confirm(uint8_t *room, size_t length, uint32_t number, uint32_t result, uint32_t user, uint32_t token, uint32_t status)
{
    uint32_t n = ladlestorm_test_write_fast(room, length, number, result, user, token, status);
    return n ? n : ladlestorm_test_write_any(room, length, number, result, user, token, status);
}
#endif
