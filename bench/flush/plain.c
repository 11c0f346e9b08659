// The same work as main.txt by the system's calls alone: 2,000 times a write of 1 KiB behind the last one and a sync of
// the data, in the file `flush_bench_plain` of the current folder.
#include <fcntl.h>
#include <string.h>
#include <unistd.h>

int main(void) {
    char piece[1024];
    memset(piece, 'a', sizeof piece);
    int file = open("flush_bench_plain", O_CREAT | O_TRUNC | O_RDWR, 0644);
    if (file < 0) return 1;
    for (off_t turn = 0; turn < 2000; turn++) {
        if (pwrite(file, piece, sizeof piece, turn * 1024) != sizeof piece) return 1;
        if (fdatasync(file)) return 1;
    }
    return 0;
}
