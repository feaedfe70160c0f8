// Asks a service on 127.0.0.1 through many connections, and measures how long each reply takes. For load.py.
//
//   load ask PORT THREADS AHEAD < PLAN       each client sends its requests, AHEAD at a time, once all clients have a session
//   load flood PORT SECONDS < PLAN           each client sends its requests again and again, and connects again once it is closed
//
// PLAN has 32-bit numbers in the order of this machine: how many clients there are, and for each how many requests begin its session and how many follow, and
// then for each request its length and its bytes. A `status` that begins a session is sent until the run is finished.
//
// `ask` prints "ready" once all clients have a session, and waits for one more byte. Then it prints the seconds, the replies, the median, the 99th percentile and
// the greatest of the times in microseconds, and how many replies weren't OK. The clients leave at the end of the input. `flood` prints the connections that it
// made, the replies, and the connections that the service closed.
#include <arpa/inet.h>
#include <errno.h>
#include <netinet/tcp.h>
#include <pthread.h>
#include <stdint.h>
#include <stdio.h>
#include <stdlib.h>
#include <string.h>
#include <sys/epoll.h>
#include <sys/socket.h>
#include <time.h>
#include <unistd.h>

#define MOST_THREADS 64

typedef struct { const char *bytes; uint32_t length; } request;

typedef struct {
    request *requests;
    uint32_t logins, count;
    // The next request, how many replies are awaited, and when they were asked for.
    uint32_t next, awaited;
    double since;
    // The first line of a reply as far as it came, and how many lines follow it.
    char head[32];
    uint32_t head_length, lines_left;
    int socket, is_connected;
    // The times of its replies.
    float *taken;
    uint32_t replies;
} client;

static client *clients;
static uint32_t client_count;
static int port, thread_count, ahead;
static pthread_barrier_t barrier;
static long failed, connections, replies, closed;

static void fail(const char *what) {
    fprintf(stderr, "load: %s: %s\n", what, strerror(errno));
    exit(1);
}

static double microseconds(void) {
    struct timespec time;
    clock_gettime(CLOCK_MONOTONIC, &time);
    return time.tv_sec * 1e6 + time.tv_nsec / 1e3;
}

static uint32_t read_number(FILE *plan) {
    uint32_t number;
    if (fread(&number, sizeof number, 1, plan) != 1) fail("the plan is too short");
    return number;
}

static void read_client(FILE *plan, client *it) {
    it->logins = read_number(plan);
    it->count = it->logins + read_number(plan);
    it->requests = calloc(it->count, sizeof(request));
    it->taken = calloc(it->count, sizeof(float));
    for (uint32_t i = 0; i < it->count; i++) {
        it->requests[i].length = read_number(plan);
        char *bytes = malloc(it->requests[i].length);
        if (fread(bytes, 1, it->requests[i].length, plan) != it->requests[i].length) fail("the plan is too short");
        it->requests[i].bytes = bytes;
    }
}

static void read_plan(void) {
    client_count = read_number(stdin);
    clients = calloc(client_count, sizeof(client));
    for (uint32_t i = 0; i < client_count; i++) read_client(stdin, &clients[i]);
}

// Begins a connection. In a flood it doesn't wait for it.
static void begin(client *it, int flags) {
    struct sockaddr_in address = {.sin_family = AF_INET, .sin_port = htons(port), .sin_addr.s_addr = htonl(INADDR_LOOPBACK)};
    int one = 1;
    it->socket = socket(AF_INET, SOCK_STREAM | flags, 0);
    if (it->socket < 0) fail("socket");
    setsockopt(it->socket, IPPROTO_TCP, TCP_NODELAY, &one, sizeof one);
    if (connect(it->socket, (struct sockaddr *)&address, sizeof address) && errno != EINPROGRESS) fail("connect");
    it->next = it->awaited = it->head_length = it->lines_left = 0;
    it->is_connected = !flags;
    connections++;
}

// Sends so many requests, or those that are left. Returns whether they were sent as a whole.
static int put(client *it, uint32_t most) {
    static _Thread_local char joined[1 << 16];
    uint32_t length = 0;
    it->since = microseconds();
    for (; it->awaited < most && it->next < it->count; it->awaited++) {
        request *next = &it->requests[it->next++];
        if (length + next->length > sizeof joined) {
            if (send(it->socket, joined, length, MSG_NOSIGNAL) != length) return 0;
            length = 0;
        }
        if (next->length > sizeof joined) {
            if (send(it->socket, next->bytes, next->length, MSG_NOSIGNAL) != next->length) return 0;
            continue;
        }
        memcpy(joined + length, next->bytes, next->length);
        length += next->length;
    }
    return send(it->socket, joined, length, MSG_NOSIGNAL) == length;
}

// Takes in the first line of a reply.
static void take_head(client *it) {
    it->head[it->head_length] = 0;
    it->head_length = 0;
    if (!strncmp(it->head, "OK ", 3)) it->lines_left = atoi(it->head + 3);
    else __atomic_fetch_add(&failed, 1, __ATOMIC_RELAXED);
}

// Takes in bytes of replies.
static void take(client *it, const char *bytes, ssize_t count) {
    for (ssize_t i = 0; i < count; i++) {
        if (bytes[i] != '\n') {
            if (!it->lines_left && it->head_length < sizeof it->head - 1) it->head[it->head_length++] = bytes[i];
            if (!it->lines_left) continue;
            const char *end = memchr(bytes + i, '\n', count - i);
            if (!end) return;
            i = end - bytes;
        }
        if (it->lines_left) it->lines_left--;
        else take_head(it);
        if (!it->lines_left) it->awaited--;
    }
}

// Begins a session with the first requests, one after the other.
static void log_in(client *it) {
    static char bytes[1 << 16];
    begin(it, 0);
    while (it->next < it->logins) {
        int is_status = it->requests[it->next].length == 7 && !memcmp(it->requests[it->next].bytes, "status\n", 7);
        if (!put(it, 1)) fail("send");
        while (it->awaited) {
            ssize_t count = recv(it->socket, bytes, sizeof bytes - 1, 0);
            if (count <= 0) fail("a login was not answered");
            bytes[count] = 0;
            take(it, bytes, count);
        }
        if (is_status && !strstr(bytes, "finished")) {
            it->next--;
            usleep(20000);
        }
    }
}

static void ask_more(client *it) {
    if (it->next < it->count && !put(it, ahead)) fail("send");
}

// Asks with every client of this thread until all replies came.
static void *ask(void *first) {
    static _Thread_local char bytes[1 << 16];
    struct epoll_event found[64], event = {.events = EPOLLIN};
    int poll = epoll_create1(0);
    uint32_t left = 0;
    pthread_barrier_wait(&barrier);
    for (uint32_t i = (uintptr_t)first; i < client_count; i += thread_count, left++) {
        event.data.ptr = &clients[i];
        epoll_ctl(poll, EPOLL_CTL_ADD, clients[i].socket, &event);
        ask_more(&clients[i]);
    }
    while (left) {
        int count = epoll_wait(poll, found, 64, -1);
        for (int i = 0; i < count; i++) {
            client *it = found[i].data.ptr;
            ssize_t got = recv(it->socket, bytes, sizeof bytes, 0);
            if (got <= 0) fail("a connection was closed");
            take(it, bytes, got);
            if (it->awaited) continue;
            it->taken[it->replies++] = microseconds() - it->since;
            ask_more(it);
            if (!it->awaited) {
                epoll_ctl(poll, EPOLL_CTL_DEL, it->socket, NULL);
                left--;
            }
        }
    }
    pthread_barrier_wait(&barrier);
    return NULL;
}

static int compare(const void *a, const void *b) {
    float x = *(const float *)a, y = *(const float *)b;
    return (x > y) - (x < y);
}

static void report(double seconds) {
    uint32_t count = 0, asked = 0;
    for (uint32_t i = 0; i < client_count; i++) {
        count += clients[i].replies;
        asked += clients[i].count - clients[i].logins;
    }
    float *all = malloc(count * sizeof(float));
    count = 0;
    for (uint32_t i = 0; i < client_count; i++) {
        memcpy(all + count, clients[i].taken, clients[i].replies * sizeof(float));
        count += clients[i].replies;
    }
    qsort(all, count, sizeof(float), compare);
    printf("%.6f %u %.1f %.1f %.1f %ld\n", seconds, asked, all[count / 2], all[(uint64_t)count * 99 / 100], all[count - 1], failed);
}

static int ask_all(void) {
    static pthread_t threads[MOST_THREADS];
    for (uint32_t i = 0; i < client_count; i++) log_in(&clients[i]);
    if (failed) fail("a request that begins a session was not accepted");
    printf("ready\n");
    fflush(stdout);
    if (getchar() == EOF) fail("nobody says when to begin");
    pthread_barrier_init(&barrier, NULL, thread_count + 1);
    for (int i = 0; i < thread_count; i++) pthread_create(&threads[i], NULL, ask, (void *)(uintptr_t)i);
    pthread_barrier_wait(&barrier);
    double begun = microseconds();
    pthread_barrier_wait(&barrier);
    report((microseconds() - begun) / 1e6);
    fflush(stdout);
    while (getchar() != EOF) {}
    return 0;
}

// Connects, or connects again.
static void flood_again(int poll, client *it) {
    struct epoll_event event = {.events = EPOLLIN | EPOLLOUT, .data.ptr = it};
    begin(it, SOCK_NONBLOCK);
    epoll_ctl(poll, EPOLL_CTL_ADD, it->socket, &event);
}

// Sends or receives what it can. Returns whether the connection goes on.
static int flood_step(int poll, client *it) {
    static char bytes[1 << 16];
    struct epoll_event event = {.events = EPOLLIN, .data.ptr = it};
    if (!it->is_connected) {
        int error;
        socklen_t length = sizeof error;
        getsockopt(it->socket, SOL_SOCKET, SO_ERROR, &error, &length);
        if (error) return 0;
        it->is_connected = 1;
        epoll_ctl(poll, EPOLL_CTL_MOD, it->socket, &event);
        return put(it, it->count);
    }
    ssize_t count = recv(it->socket, bytes, sizeof bytes, 0);
    if (count <= 0) return count < 0 && errno == EAGAIN;
    uint32_t before = it->awaited;
    take(it, bytes, count);
    replies += before - it->awaited;
    if (it->awaited) return 1;
    it->next = 0;
    return put(it, it->count);
}

static int flood(double seconds) {
    struct epoll_event found[64];
    double end = microseconds() + seconds * 1e6;
    int poll = epoll_create1(0);
    for (uint32_t i = 0; i < client_count; i++) flood_again(poll, &clients[i]);
    while (microseconds() < end) {
        int count = epoll_wait(poll, found, 64, 100);
        for (int i = 0; i < count; i++) {
            client *it = found[i].data.ptr;
            if (flood_step(poll, it)) continue;
            close(it->socket);
            closed++;
            flood_again(poll, it);
        }
    }
    printf("%ld %ld %ld\n", connections, replies, closed);
    return 0;
}

int main(int count, char **words) {
    if (count < 4) return 2;
    port = atoi(words[2]);
    read_plan();
    if (!strcmp(words[1], "flood")) return flood(atof(words[3]));
    thread_count = atoi(words[3]);
    ahead = count > 4 ? atoi(words[4]) : 1;
    return thread_count < 1 || thread_count > MOST_THREADS || ahead < 1 ? 2 : ask_all();
}
