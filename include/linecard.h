/* The line card's one question, for a program written in C or C++. Link liblinecard.a (x86-64 Linux). C11 or later, C++11 or later. */
#ifndef LINECARD_H
#define LINECARD_H

#include <stddef.h>
#include <stdint.h>

/* The version, as in ladlestorm.h. */
#define LADLESTORM_VERSION_MAJOR 1
#define LADLESTORM_VERSION_MINOR 0
#define LADLESTORM_VERSION (LADLESTORM_VERSION_MAJOR * 1000 + LADLESTORM_VERSION_MINOR)

#ifdef __cplusplus
extern "C" {
static_assert(sizeof(size_t) == 8, "x86-64 has lengths of 64 bits");
#else
_Static_assert(sizeof(size_t) == 8, "x86-64 has lengths of 64 bits");
#endif

/* The archive's function. Here the pointer may not be NULL, also with length 0. Programs in C and C++ call the one below. */
uint32_t ladlestorm_raw_message_number(const uint8_t *octets, size_t length);

/* The number (0 to 42) of the domain message that the octets hold, read whole by aligned PER; or 64 plus the refusal:
   68 no octets or above 1,024; 69 bad encoding; 71 a message that is not covered; 72 a list above 64 ids, a number above 4 octets or a
   fragmented length. With length 0 the octets may be NULL. */
static inline uint32_t ladlestorm_message_number(const uint8_t *octets, size_t length)
{
    uint8_t none = 0;
    return ladlestorm_raw_message_number(length ? octets : &none, length);
}

#ifdef __cplusplus
}
#endif

#endif
