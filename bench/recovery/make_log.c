// Prints a log of so many records of 1 KiB: `make_log RECORDS >FILE`. It has an encoder of its own; the sums are zlib's.
#include <stdint.h>
#include <stdio.h>
#include <stdlib.h>
#include <string.h>
#include <zlib.h>

enum { SIZE = 1024, BODY = 918, FRONT = 88 };

static unsigned char bytes[SIZE];

static void put(int at, int width, uint64_t number) {
    for (int k = 0; k < width; k++) bytes[at + k] = number >> 8 * (width - 1 - k);
}

// All but the queue offset, the place and the sum of the whole record, which differ from one record to the next.
static void put_fixed(void) {
    put(0, 4, SIZE);
    put(4, 4, 0xDAA320A7);
    put(40, 8, 1000);                 // born
    put(48, 8, 0x7F00000100000000);   // born host
    put(56, 8, 2000);                 // store
    put(64, 8, 0x7F00000100002A9F);   // store host
    put(84, 4, BODY);
    for (int k = 0; k < BODY; k++) bytes[FRONT + k] = k % 251;
    put(8, 4, crc32(0, bytes + FRONT, BODY) & 0x7FFFFFFF);
    int at = FRONT + BODY;
    bytes[at] = 1;                    // the topic
    bytes[at + 1] = 'T';
    put(at + 2, 2, 14);               // the properties
    memcpy(bytes + at + 4, "SEAL\001", 5);
}

int main(int words, char **word) {
    uint64_t records = words > 1 ? strtoull(word[1], NULL, 10) : 0;
    put_fixed();
    for (uint64_t k = 0; k < records; k++) {
        put(20, 8, k);
        put(28, 8, k * SIZE);
        memcpy(bytes + SIZE - 9, "00000000\002", 9);
        char digits[9];
        snprintf(digits, sizeof digits, "%08lX", crc32(0, bytes, SIZE));
        memcpy(bytes + SIZE - 9, digits, 8);
        if (fwrite(bytes, SIZE, 1, stdout) != 1) return 1;
    }
    return 0;
}
