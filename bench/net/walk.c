// The same round trips over loopback: one process, one thread, two ends that don't wait, by turns. Prints the size, round trips of a run,
// megaoctets a second both ways, and nanoseconds of a round trip, the least of some runs.
#include <arpa/inet.h>
#include <errno.h>
#include <fcntl.h>
#include <netinet/tcp.h>
#include <stdio.h>
#include <stdlib.h>
#include <string.h>
#include <sys/socket.h>
#include <time.h>
#include <unistd.h>

enum { RUNS = 10, TRIPS = 2000, PIECE = 4096 };

static void fail(const char *what) { perror(what); exit(1); }

static void pair(int ends[2]) {
    struct sockaddr_in at = {.sin_family = AF_INET, .sin_addr.s_addr = htonl(INADDR_LOOPBACK)};
    socklen_t len = sizeof at;
    int listener = socket(AF_INET, SOCK_STREAM, 0), one = 1;
    if (bind(listener, (struct sockaddr *)&at, len) || listen(listener, 1) || getsockname(listener, (struct sockaddr *)&at, &len)) fail("listen");
    ends[0] = socket(AF_INET, SOCK_STREAM, 0);
    if (connect(ends[0], (struct sockaddr *)&at, len)) fail("connect");
    ends[1] = accept(listener, NULL, NULL);
    close(listener);
    for (int k = 0; k < 2; k++) {
        fcntl(ends[k], F_SETFL, O_NONBLOCK);
        setsockopt(ends[k], IPPROTO_TCP, TCP_NODELAY, &one, sizeof one);
    }
}

// Reads until nothing is there, and then writes what is owed, as `pump` does. Answers how many octets came.
static long turn(int end, long *owed, long size, int echoes, long *left) {
    static char room[PIECE];
    long came = 0;
    for (;;) {
        ssize_t count = read(end, room, sizeof room);
        if (count <= 0) { if (count == 0 || errno != EAGAIN) fail("read"); break; }
        came += count;
        if (echoes) *owed += count;
        else if ((*left -= count) == 0) { *owed += size; *left = size; }
    }
    while (*owed > 0) {
        memset(room, 7, sizeof room);
        ssize_t count = write(end, room, *owed < PIECE ? *owed : PIECE);
        if (count < 0) { if (errno != EAGAIN) fail("write"); break; }
        *owed -= count;
    }
    return came;
}

static long trip(long size) {
    int ends[2];
    pair(ends);
    long came = 0, owed[2] = {size, 0}, left = size;
    struct timespec a, b;
    clock_gettime(CLOCK_MONOTONIC, &a);
    while (came < size * TRIPS) {
        came += turn(ends[0], &owed[0], size, 0, &left);
        turn(ends[1], &owed[1], size, 1, &left);
    }
    clock_gettime(CLOCK_MONOTONIC, &b);
    close(ends[0]);
    close(ends[1]);
    return ((b.tv_sec - a.tv_sec) * 1000000000L + (b.tv_nsec - a.tv_nsec)) / TRIPS;
}

int main(void) {
    long sizes[] = {56, 1024, 4096};
    for (int k = 0; k < 3; k++) {
        long least = 1L << 62;
        for (int n = 0; n < RUNS; n++) { long t = trip(sizes[k]); if (t < least) least = t; }
        printf("%ld %d %ld %ld\n", sizes[k], TRIPS, 2 * sizes[k] * 1000 / least, least);
    }
}
