/* Octets of a request and of its answer over TCP on loopback, with so many requests outstanding: a process that asks and one that
   answers, one connection, blocking calls. Prints how many requests were answered, the seconds, and the processor seconds of both.

   pingpong OUTSTANDING SECONDS REQUEST-LENGTH ANSWER-LENGTH */
#include <arpa/inet.h>
#include <netinet/in.h>
#include <netinet/tcp.h>
#include <stdio.h>
#include <stdlib.h>
#include <string.h>
#include <sys/resource.h>
#include <sys/socket.h>
#include <sys/wait.h>
#include <time.h>
#include <unistd.h>

static unsigned char room[65536], out[65536];

static double now(void) {
    struct timespec t;
    clock_gettime(CLOCK_MONOTONIC, &t);
    return t.tv_sec + t.tv_nsec / 1e9;
}

static double used(int who) {
    struct rusage r;
    getrusage(who, &r);
    return r.ru_utime.tv_sec + r.ru_stime.tv_sec + (r.ru_utime.tv_usec + r.ru_stime.tv_usec) / 1e6;
}

static int put(int fd, const unsigned char *from, size_t n) {
    while (n) {
        ssize_t done = write(fd, from, n);
        if (done <= 0) return 0;
        from += done;
        n -= done;
    }
    return 1;
}

/* Messages of one length come, and as many of another length go out. How many came; 0 at the end. */
static size_t turn(int fd, size_t *held, size_t in, size_t length) {
    ssize_t got = read(fd, room + *held, sizeof room - *held);
    if (got <= 0) return 0;
    *held += got;
    size_t count = *held / in;
    memmove(room, room + count * in, *held - count * in);
    *held -= count * in;
    for (size_t left = count; left;) {
        size_t some = left < sizeof out / length ? left : sizeof out / length;
        if (!put(fd, out, some * length)) return 0;
        left -= some;
    }
    return count ? count : (size_t)-1;
}

int main(int argc, char **argv) {
    if (argc != 5) return 2;
    size_t outstanding = atol(argv[1]), request = atol(argv[3]), answer = atol(argv[4]), held = 0, answered = 0;
    double seconds = atof(argv[2]);
    int on = 1, listener = socket(AF_INET, SOCK_STREAM, 0);
    struct sockaddr_in at = {.sin_family = AF_INET, .sin_addr.s_addr = htonl(INADDR_LOOPBACK)};
    socklen_t size = sizeof at;
    if (bind(listener, (struct sockaddr *)&at, size) || listen(listener, 1) || getsockname(listener, (struct sockaddr *)&at, &size)) return 3;
    memset(out, 1, sizeof out);
    pid_t server = fork();
    if (server == 0) {
        int fd = accept(listener, 0, 0);
        setsockopt(fd, IPPROTO_TCP, TCP_NODELAY, &on, sizeof on);
        while (turn(fd, &held, request, answer)) {
        }
        _exit(0);
    }
    int fd = socket(AF_INET, SOCK_STREAM, 0);
    if (connect(fd, (struct sockaddr *)&at, size)) return 3;
    setsockopt(fd, IPPROTO_TCP, TCP_NODELAY, &on, sizeof on);
    double began = now(), until = began + seconds;
    for (size_t i = 0; i < outstanding; i++)
        if (!put(fd, out, request)) return 3;
    while (now() < until) {
        size_t count = turn(fd, &held, answer, request);
        if (!count) return 3;
        if (count != (size_t)-1) answered += count;
    }
    double took = now() - began;
    close(fd);
    waitpid(server, 0, 0);
    printf("%zu %.3f %.3f\n", answered, took, used(RUSAGE_SELF) + used(RUSAGE_CHILDREN));
    return 0;
}
