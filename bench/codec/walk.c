/* A plain walk of a message's AVPs, groups too: what the least work on its octets takes. It reads each header, sees that
 * the AVP lies within what holds it, and adds up codes and lengths. Prints processor microseconds a message, of the least
 * of twenty rounds of 50,000, for the two messages of main.rt.txt. */
#include <stdint.h>
#include <stdio.h>
#include <string.h>
#include <time.h>

enum { ROUNDS = 20, MESSAGES = 50000 };

static const char DWR[] =
    "0100003880000118000000000000000100000001"
    "0000010840000011612e6578616d706c65000000000001284000000f6578616d706c6500";

static const char CCR[] =
    "010000bcc0000110000000040000000700000007000001074000000c63313b31"
    "0000010840000011632e6578616d706c65000000000001284000000f6578616d706c6500"
    "0000011b4000000f6578616d706c6500000001024000000c00000004000001cd4000000b78407900"
    "000001a04000000c000000010000019f4000000c00000000"
    "000001bb40000020000001c24000000c00000000000001bc4000000b31303000"
    "000001b540000018000001a140000010000000000000003c";

static uint32_t be32(const uint8_t *p) {
    return (uint32_t)p[0] << 24 | (uint32_t)p[1] << 16 | (uint32_t)p[2] << 8 | p[3];
}

static int is_group(uint32_t code) {
    switch (code) {
    case 260: case 430: case 431: case 437: case 443: case 446: case 456: case 458:
        return 1;
    default:
        return 0;
    }
}

/* The sum of codes and lengths, or 0 where an AVP is broken. */
static uint64_t walk(const uint8_t *octets, size_t size) {
    uint64_t sum = 1;
    while (size > 0) {
        if (size < 8)
            return 0;
        uint32_t code = be32(octets);
        size_t header = octets[4] & 0x80 ? 12 : 8;
        size_t length = be32(octets + 4) & 0xffffff;
        if (length < header || length > size)
            return 0;
        sum += code + length;
        if (is_group(code)) {
            uint64_t inner = walk(octets + header, length - header);
            if (inner == 0)
                return 0;
            sum += inner;
        }
        size_t padded = (length + 3) / 4 * 4;
        if (padded > size)
            padded = size;
        octets += padded;
        size -= padded;
    }
    return sum;
}

static uint64_t spent(void) {
    struct timespec t;
    clock_gettime(CLOCK_PROCESS_CPUTIME_ID, &t);
    return (uint64_t)t.tv_sec * 1000000000 + (uint64_t)t.tv_nsec;
}

static void measure(const char *name, const char *hex) {
    static uint8_t octets[4096];
    size_t size = strlen(hex) / 2;
    for (size_t i = 0; i < size; i++) {
        unsigned octet;
        sscanf(hex + 2 * i, "%2x", &octet);
        octets[i] = (uint8_t)octet;
    }
    uint64_t least = UINT64_MAX;
    uint64_t sum = 0;
    for (int round = 0; round < ROUNDS; round++) {
        uint64_t start = spent();
        for (int i = 0; i < MESSAGES; i++) {
            const uint8_t *volatile seen = octets;
            sum += walk(seen + 20, size - 20);
        }
        uint64_t took = spent() - start;
        if (took < least)
            least = took;
    }
    least /= MESSAGES;
    printf("%-4s %6zu %6s %6llu.%03llu\n", name, size, sum ? "walk" : "fault",
           (unsigned long long)(least / 1000), (unsigned long long)(least % 1000));
}

int main(void) {
    measure("DWR", DWR);
    measure("CCR", CCR);
    return 0;
}
