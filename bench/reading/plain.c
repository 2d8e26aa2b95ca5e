/* What `dbench read` prints, in plain C and without a check: decodes hexadecimal, cuts messages by their length, walks the
 * AVPs and prints them as they lie there. bench/read runs it beside dbench. */
#include <stdint.h>
#include <stdio.h>
#include <string.h>
#include <unistd.h>

enum { TEXT = 65536, ROOM = 1 << 20 };

static char out[ROOM];
static size_t made;

static void flush(void) {
    for (size_t at = 0; at < made;) {
        ssize_t took = write(1, out + at, made - at);
        if (took <= 0)
            _exit(1);
        at += (size_t)took;
    }
    made = 0;
}

static uint32_t be32(const uint8_t *p) {
    return (uint32_t)p[0] << 24 | (uint32_t)p[1] << 16 | (uint32_t)p[2] << 8 | p[3];
}

static uint32_t be24(const uint8_t *p) {
    return (uint32_t)p[0] << 16 | (uint32_t)p[1] << 8 | p[2];
}

static void put(const char *text) {
    size_t size = strlen(text);
    memcpy(out + made, text, size);
    made += size;
}

static void put_number(uint32_t n) {
    char digits[10];
    int count = 0;
    do {
        digits[count++] = (char)('0' + n % 10);
        n /= 10;
    } while (n != 0);
    while (count > 0)
        out[made++] = digits[--count];
}

static void put_hex(const uint8_t *octets, size_t size) {
    static const char digits[] = "0123456789abcdef";
    for (size_t i = 0; i < size; i++) {
        out[made++] = digits[octets[i] >> 4];
        out[made++] = digits[octets[i] & 15];
    }
}

static void put_avp(const uint8_t *avp, size_t length) {
    size_t header = avp[4] & 0x80 ? 12 : 8;
    put("  ");
    put_number(be32(avp));
    if (header == 12) {
        out[made++] = '/';
        put_number(be32(avp + 8));
    }
    out[made++] = ' ';
    out[made++] = avp[4] & 0x80 ? 'V' : '-';
    out[made++] = avp[4] & 0x40 ? 'M' : '-';
    out[made++] = avp[4] & 0x20 ? 'P' : '-';
    out[made++] = ' ';
    put_number((uint32_t)length);
    out[made++] = ' ';
    put_hex(avp + header, length - header);
    out[made++] = '\n';
}

static void put_message(const uint8_t *octets, size_t size) {
    if (made + 8 * size + 256 > ROOM)
        flush();
    put("message ");
    put_number(be24(octets + 5));
    out[made++] = ' ';
    for (int i = 0; i < 4; i++)
        out[made++] = octets[4] & 0x80 >> i ? "RPET"[i] : '-';
    put(" app ");
    put_number(be32(octets + 8));
    put(" hop ");
    put_number(be32(octets + 12));
    put(" end ");
    put_number(be32(octets + 16));
    put(" length ");
    put_number(be24(octets + 1));
    out[made++] = '\n';
    for (size_t at = 20; at + 8 <= size;) {
        size_t length = be24(octets + at + 5);
        if (length < 8 || at + length > size)
            break;
        put_avp(octets + at, length);
        at += (length + 3) / 4 * 4;
    }
    put("octets ");
    put_hex(octets, size);
    out[made++] = '\n';
}

static int digit(int c) {
    return c >= '0' && c <= '9' ? c - '0' : c >= 'a' && c <= 'f' ? c - 'a' + 10 : c >= 'A' && c <= 'F' ? c - 'A' + 10 : -1;
}

int main(void) {
    static char text[TEXT];
    static uint8_t octets[4096 + TEXT / 2];
    size_t held = 0;
    int half = -1;
    ssize_t count;
    while ((count = read(0, text, TEXT)) > 0) {
        for (ssize_t i = 0; i < count; i++) {
            int d = digit(text[i]);
            if (d < 0)
                continue;
            if (half < 0) {
                half = d;
            } else {
                octets[held++] = (uint8_t)(half << 4 | d);
                half = -1;
            }
        }
        size_t at = 0;
        while (held - at >= 20 && held - at >= be24(octets + at + 1)) {
            size_t size = be24(octets + at + 1);
            if (size < 20)
                return 1;
            put_message(octets + at, size);
            at += size;
        }
        memmove(octets, octets + at, held - at);
        held -= at;
    }
    flush();
    return 0;
}
