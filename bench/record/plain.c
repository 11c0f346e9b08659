// The sums and the copies that encoding and testing a record with a body of 1 KiB can't do without, by zlib and memcpy:
// to encode, one copy of the body and the sums of what stands before and behind it; to test, the sums of the body and of
// the record. The body's own sum is taken once, before, and joined with the two. It prints a sum.
#include <stdio.h>
#include <string.h>
#include <zlib.h>

enum { BODY = 1024, RECORD = 1130, TIMES = 1048576 };

static unsigned char body[BODY], record[RECORD];

int main(void) {
    for (int at = 0; at < BODY; at++) body[at] = at % 251;
    uLong sum = crc32(0, body, BODY), shift = crc32_combine_gen(BODY), all = 0;
    for (int turn = 0; turn < TIMES; turn++) {
        memcpy(record + 88, body, BODY);
        record[0] = sum;
        uLong joined = crc32_combine_op(crc32(0, record, 88), sum, shift);
        all += crc32(joined, record + 88 + BODY, RECORD - 88 - BODY);
        all += crc32(0, record + 88, BODY);
        all += crc32(0, record, RECORD);
    }
    printf("%lu\n", all);
    return 0;
}
