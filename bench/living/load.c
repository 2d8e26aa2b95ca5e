/* Charging clients, as cheap as they can be: each is a peer of its own over TCP on loopback, with its share of the requests that are
   outstanding, each of which belongs to a session of its own. A session is an Initial, Updates and a Termination, each of which but the
   first tells one unit as used; then the next one begins. One process, one thread. Prints how many requests were answered, all with
   2001, the seconds, and the processor seconds.

   load PORT PEERS OUTSTANDING SECONDS UPDATES */
#include <arpa/inet.h>
#include <netinet/in.h>
#include <netinet/tcp.h>
#include <poll.h>
#include <stdio.h>
#include <stdlib.h>
#include <string.h>
#include <sys/resource.h>
#include <sys/socket.h>
#include <time.h>
#include <unistd.h>

enum { MAX_PEERS = 64, MAX_SLOTS = 4096, ROOM = 65536, REQUEST = 0x80, PROXIABLE = 0x40 };

/* One connection: octets that came and octets that are to go. */
struct peer {
    int fd;
    char host[32];
    unsigned char in[ROOM], out[ROOM];
    size_t held, due;
};

/* A session that is charged: how often this slot began one, and the number of its next request. */
struct slot {
    unsigned round, number;
};

static struct peer peers[MAX_PEERS];
static struct slot slots[MAX_SLOTS];
static unsigned updates;

static double now(void) {
    struct timespec t;
    clock_gettime(CLOCK_MONOTONIC, &t);
    return t.tv_sec + t.tv_nsec / 1e9;
}

static void fail(const char *why) {
    fprintf(stderr, "load: %s\n", why);
    exit(3);
}

static void put32(unsigned char *at, unsigned value) {
    value = htonl(value);
    memcpy(at, &value, 4);
}

static unsigned get32(const unsigned char *at) {
    unsigned value;
    memcpy(&value, at, 4);
    return ntohl(value);
}

/* An AVP with the M bit; where it ends. */
static unsigned char *avp(unsigned char *at, unsigned code, const void *data, size_t length) {
    put32(at, code);
    put32(at + 4, 0x40000000u | (unsigned)(length + 8));
    memcpy(at + 8, data, length);
    memset(at + 8 + length, 0, -length & 3);
    return at + 8 + ((length + 3) & ~(size_t)3);
}

static unsigned char *text(unsigned char *at, unsigned code, const char *data) {
    return avp(at, code, data, strlen(data));
}

static unsigned char *number(unsigned char *at, unsigned code, unsigned value) {
    unsigned char data[4];
    put32(data, value);
    return avp(at, code, data, 4);
}

/* Units of a service: 437 or 446 around one CC-Service-Specific-Units. */
static unsigned char *units(unsigned char *at, unsigned code) {
    unsigned char inner[16], one[8] = {0, 0, 0, 0, 0, 0, 0, 1};
    avp(inner, 417, one, 8);
    return avp(at, code, inner, 16);
}

static unsigned char *header(unsigned char *at, unsigned char flags, unsigned command, unsigned application, unsigned id) {
    put32(at + 4, (unsigned)flags << 24 | command);
    put32(at + 8, application);
    put32(at + 12, id);
    put32(at + 16, id);
    return at + 20;
}

static size_t close_message(unsigned char *from, unsigned char *to) {
    put32(from, 1u << 24 | (unsigned)(to - from));
    return to - from;
}

static unsigned char *origin(unsigned char *at, const struct peer *peer) {
    return text(text(at, 264, peer->host), 296, "example");
}

static void put_cer(struct peer *peer) {
    static const unsigned char address[6] = {0, 1, 127, 0, 0, 1};
    unsigned char *from = peer->out + peer->due, *at = header(from, REQUEST, 257, 0, 1);
    at = number(avp(origin(at, peer), 257, address, 6), 266, 0);
    put32(at, 269);
    put32(at + 4, 12);
    memcpy(at + 8, "load", 4);
    at = number(at + 12, 258, 4);
    peer->due += close_message(from, at);
}

/* The next request of a slot. */
static void put_ccr(struct peer *peer, unsigned place) {
    struct slot *slot = &slots[place];
    char session[64];
    char account_id[16];
    unsigned char account[32], *inner, *from = peer->out + peer->due, *at = header(from, REQUEST | PROXIABLE, 272, 4, place << 16 | slot->number);
    unsigned kind = slot->number == 0 ? 1 : slot->number <= updates ? 2 : 3;
    snprintf(session, sizeof session, "%s;%u;%u", peer->host, place, slot->round);
    at = text(origin(text(at, 263, session), peer), 283, "example");
    at = text(number(at, 258, 4), 461, "dbench@example");
    at = number(number(at, 416, kind), 415, slot->number);
    snprintf(account_id, sizeof account_id, "%u", 100 + place);
    inner = text(number(account, 450, 0), 444, account_id);
    at = avp(at, 443, account, inner - account);
    if (kind != 3) at = units(at, 437);
    if (kind != 1) at = units(at, 446);
    peer->due += close_message(from, at);
}

static unsigned result_of(const unsigned char *message, size_t length) {
    for (size_t at = 20; at + 12 <= length; at += ((get32(message + at + 4) & 0xffffff) + 3) & ~3u)
        if (get32(message + at) == 268) return get32(message + at + 8);
    return 0;
}

static void flush(struct peer *peer) {
    size_t done = 0;
    while (done < peer->due) {
        ssize_t some = write(peer->fd, peer->out + done, peer->due - done);
        if (some <= 0) fail("the server closed a connection");
        done += some;
    }
    peer->due = 0;
}

/* Takes what came of a connection, and answers each answer with the next request of its slot; how many came. */
static size_t take(struct peer *peer) {
    ssize_t got = read(peer->fd, peer->in + peer->held, ROOM - peer->held);
    size_t count = 0, at = 0;
    if (got <= 0) fail("the server closed a connection");
    peer->held += got;
    while (peer->held - at >= 20) {
        const unsigned char *message = peer->in + at;
        size_t length = get32(message) & 0xffffff;
        if (peer->held - at < length) break;
        if (result_of(message, length) != 2001) fail("an answer was not 2001");
        if ((get32(message + 4) & 0xffffff) == 272) {
            unsigned place = get32(message + 12) >> 16;
            struct slot *slot = &slots[place];
            if (++slot->number == updates + 2) *slot = (struct slot){slot->round + 1, 0};
            if (peer->due + 1024 > ROOM) flush(peer);
            put_ccr(peer, place);
            count++;
        }
        at += length;
    }
    memmove(peer->in, peer->in + at, peer->held - at);
    peer->held -= at;
    flush(peer);
    return count;
}

static void join(struct peer *peer, unsigned place, unsigned port) {
    struct sockaddr_in at = {.sin_family = AF_INET, .sin_port = htons(port), .sin_addr.s_addr = htonl(INADDR_LOOPBACK)};
    int on = 1;
    snprintf(peer->host, sizeof peer->host, "c%u.example", place);
    peer->fd = socket(AF_INET, SOCK_STREAM, 0);
    if (connect(peer->fd, (struct sockaddr *)&at, sizeof at)) fail("no connection");
    setsockopt(peer->fd, IPPROTO_TCP, TCP_NODELAY, &on, sizeof on);
    put_cer(peer);
    flush(peer);
    take(peer);
}

int main(int argc, char **argv) {
    if (argc != 6) return 2;
    unsigned port = atoi(argv[1]), count = atoi(argv[2]), outstanding = atoi(argv[3]);
    double seconds = atof(argv[4]);
    struct pollfd polled[MAX_PEERS];
    size_t answered = 0;
    updates = atoi(argv[5]);
    if (!count || count > MAX_PEERS || outstanding > MAX_SLOTS || (outstanding + count - 1) / count > ROOM / 512) return 2;
    for (unsigned i = 0; i < count; i++) {
        join(&peers[i], i, port);
        polled[i] = (struct pollfd){.fd = peers[i].fd, .events = POLLIN};
    }
    double began = now(), until = began + seconds;
    for (unsigned i = 0; i < outstanding; i++) put_ccr(&peers[i % count], i);
    for (unsigned i = 0; i < count; i++) flush(&peers[i]);
    while (now() < until) {
        poll(polled, count, 100);
        for (unsigned i = 0; i < count; i++)
            if (polled[i].revents) answered += take(&peers[i]);
    }
    double took = now() - began;
    struct rusage r;
    getrusage(RUSAGE_SELF, &r);
    printf("%zu %f %f\n", answered, took, r.ru_utime.tv_sec + r.ru_stime.tv_sec + (r.ru_utime.tv_usec + r.ru_stime.tv_usec) / 1e6);
    return 0;
}
