/* What bench/codec stands beside: a plain reader of the same frames, with no proof and no answers.

   It takes each load apart element by element down to its fields, tests that no element passes the
   end of the one around it, and counts the octets of fields that an identifier may have. */
#include <stddef.h>
#include <stdint.h>
#include <stdio.h>
#include <stdlib.h>

static uint64_t fields, letters;

static int is_letter(uint8_t octet)
{
    return (octet >= 'a' && octet <= 'z') || (octet >= 'A' && octet <= 'Z')
        || (octet >= '0' && octet <= '9') || octet == '.' || octet == '-' || octet == '_';
}

/* Reads elements up to the end; answers whether they fill it. */
static int read_elements(const uint8_t *at, const uint8_t *end, int depth)
{
    while (at < end) {
        if (end - at < 2)
            return 0;
        uint8_t tag = *at++;
        size_t length = *at++;
        if (length > 0x80) {
            size_t octets = length - 0x80;
            length = 0;
            if (octets > 3 || (size_t)(end - at) < octets)
                return 0;
            for (; octets > 0; octets--)
                length = length << 8 | *at++;
        }
        if ((size_t)(end - at) < length)
            return 0;
        if (tag & 0x20 || (depth == 1 && tag == 0x81)) {
            if (!read_elements(at, at + length, depth + 1))
                return 0;
        } else {
            fields++;
            for (size_t i = 0; i < length; i++)
                letters += is_letter(at[i]);
        }
        at += length;
    }
    return 1;
}

int main(void)
{
    uint8_t head[4], *frame = malloc(1 << 18);
    uint64_t whole = 0;
    while (frame && fread(head, 1, 4, stdin) == 4) {
        size_t length = (size_t)head[0] << 24 | head[1] << 16 | head[2] << 8 | head[3];
        if (length > 1 << 18 || fread(frame, 1, length, stdin) != length)
            return 1;
        whole += read_elements(frame, frame + length, 0);
    }
    printf("%llu frames read whole, %llu fields, %llu letters\n", (unsigned long long)whole,
           (unsigned long long)fields, (unsigned long long)letters);
    return 0;
}
