/* The least that a server with a thread for each connection does, as a yardstick for `serve`:
 *
 *     bare PORT WIRE SLOTS
 *
 * WIRE has the bytes of one play (interleaved frames and reports), SLOTS how many of them go out in
 * each slot of 40 ms, a number a line. Whatever is asked for is answered: SETUP by a session, PLAY
 * by those bytes, slot by slot, from the next slot on. No request is checked, nothing is booked,
 * and no frame is put together: each slot is one send from the file's bytes. Like `serve`, each
 * connection has a thread and an epoll of its own, and waits for its next slot or for bytes from
 * its client. Runs until it is stopped.
 */
#include <arpa/inet.h>
#include <errno.h>
#include <netinet/tcp.h>
#include <pthread.h>
#include <stdio.h>
#include <stdlib.h>
#include <string.h>
#include <sys/epoll.h>
#include <time.h>
#include <unistd.h>

#define SLOT_NS 40000000LL
#define STACK (256 * 1024)
#define HEAD 8192

static char *wire;
static long *ends; /* how many bytes of the play have gone out after each slot */
static long slots;

static void fail(const char *what) {
    perror(what);
    exit(2);
}

static char *read_file(const char *name) {
    FILE *file = fopen(name, "rb");
    if (!file) fail(name);
    fseek(file, 0, SEEK_END);
    long size = ftell(file);
    rewind(file);
    char *text = malloc(size + 1);
    if (!text || fread(text, 1, size, file) != (size_t)size) fail(name);
    text[size] = 0;
    fclose(file);
    return text;
}

static void read_slots(const char *name) {
    char *text = read_file(name), *next = text, *end;
    ends = malloc(sizeof *ends * strlen(text));
    for (long sum = 0;; slots++) {
        sum += strtol(next, &end, 10);
        if (end == next) break;
        ends[slots] = sum;
        next = end;
    }
    free(text);
}

static long long now_ns(void) {
    struct timespec time;
    clock_gettime(CLOCK_MONOTONIC, &time);
    return time.tv_sec * 1000000000LL + time.tv_nsec;
}

struct connection {
    int socket, poll;
    char head[HEAD + 1];
    int filled;
    long slot; /* the next slot, or -1 while nothing plays */
    long sent; /* bytes of the play */
    long long begun;
};

static void answer(struct connection *it) {
    static const char body[] = "v=0\r\nm=video 0 RTP/AVP 32\r\na=control:video\r\n";
    char reply[512], fields[128] = "";
    const char *number = strstr(it->head, "CSeq:");
    int describes = !strncmp(it->head, "DESCRIBE", 8);
    if (!strncmp(it->head, "SETUP", 5))
        strcpy(fields, "Transport: RTP/AVP/TCP;unicast;interleaved=0-1\r\nSession: 1\r\n");
    if (describes) sprintf(fields, "Content-Length: %zu\r\n", sizeof body - 1);
    int size = sprintf(reply, "RTSP/1.0 200 OK\r\nCSeq: %d\r\n%s\r\n%s",
                       number ? atoi(number + 5) : 0, fields, describes ? body : "");
    if (write(it->socket, reply, size) != size) fail("reply");
    if (!strncmp(it->head, "PLAY", 4)) {
        it->slot = it->sent = 0;
        it->begun = now_ns();
    }
}

/* Reads what has come, and answers each request; 0 at the end of the connection. */
static int read_requests(struct connection *it) {
    ssize_t got = read(it->socket, it->head + it->filled, HEAD - it->filled);
    if (got < 0) return errno == EAGAIN || errno == EINTR;
    if (got == 0) return 0;
    it->filled += got;
    it->head[it->filled] = 0;
    for (char *end; (end = strstr(it->head, "\r\n\r\n"));) {
        int leaves = !strncmp(it->head, "TEARDOWN", 8);
        answer(it);
        if (leaves) return 0;
        it->filled -= end + 4 - it->head;
        memmove(it->head, end + 4, it->filled + 1);
    }
    return it->filled < HEAD;
}

/* Sends what is due by now; 0 if the client is gone. */
static int send_due(struct connection *it) {
    long due = (now_ns() - it->begun) / SLOT_NS;
    if (due == it->slot) return 1;
    it->slot = due < slots ? due : slots;
    long size = ends[it->slot - 1] - it->sent;
    ssize_t took = send(it->socket, wire + it->sent, size, MSG_NOSIGNAL);
    if (took < 0 && errno != EAGAIN) return 0;
    it->sent += took < 0 ? 0 : took;
    if (it->slot == slots && it->sent == ends[slots - 1]) it->slot = -1;
    return 1;
}

/* Milliseconds, rounded up, to the next slot; -1 while nothing plays. */
static int wait_for(struct connection *it) {
    if (it->slot < 0) return -1;
    long long left = it->begun + (it->slot + 1) * SLOT_NS - now_ns();
    return left < 0 ? 0 : (left + 999999) / 1000000;
}

static void *serve(void *given) {
    struct connection *it = given;
    struct epoll_event event = {.events = EPOLLIN | EPOLLOUT | EPOLLRDHUP | EPOLLET};
    int one = 1;
    setsockopt(it->socket, IPPROTO_TCP, TCP_NODELAY, &one, sizeof one);
    it->poll = epoll_create1(EPOLL_CLOEXEC);
    if (it->poll < 0 || epoll_ctl(it->poll, EPOLL_CTL_ADD, it->socket, &event)) fail("epoll");
    for (;;) {
        int came = epoll_wait(it->poll, &event, 1, wait_for(it));
        if (came > 0 && (event.events & EPOLLIN) && !read_requests(it)) break;
        if (it->slot >= 0 && !send_due(it)) break;
    }
    close(it->poll);
    close(it->socket);
    free(it);
    return NULL;
}

int main(int count, char **words) {
    if (count != 4) return 2;
    wire = read_file(words[2]);
    read_slots(words[3]);
    int listener = socket(AF_INET, SOCK_STREAM, 0), one = 1;
    struct sockaddr_in at = {.sin_family = AF_INET, .sin_port = htons(atoi(words[1]))};
    at.sin_addr.s_addr = htonl(INADDR_LOOPBACK);
    setsockopt(listener, SOL_SOCKET, SO_REUSEADDR, &one, sizeof one);
    if (bind(listener, (struct sockaddr *)&at, sizeof at) || listen(listener, 512)) fail("listen");
    pthread_attr_t attributes;
    pthread_attr_init(&attributes);
    pthread_attr_setstacksize(&attributes, STACK);
    pthread_attr_setdetachstate(&attributes, PTHREAD_CREATE_DETACHED);
    for (;;) {
        struct connection *it = calloc(1, sizeof *it);
        it->slot = -1;
        it->socket = accept4(listener, NULL, NULL, SOCK_NONBLOCK | SOCK_CLOEXEC);
        pthread_t thread;
        if (it->socket < 0 || pthread_create(&thread, &attributes, serve, it)) fail("accept");
    }
}
