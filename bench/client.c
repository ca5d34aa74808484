/* client PORT PATH COUNT [CLIENTS]: so many GETs of a path; client PORT @FILE [CLIENTS]: a POST to /interchanges of each line of a
   file. One connection a request, one after the other, or that many of them open at a time. Prints the seconds that a request took in
   the hundred that took least, or of all if several are open; how many were not answered 200; and a hash of all bytes that came. */
#include <arpa/inet.h>
#include <fcntl.h>
#include <poll.h>
#include <stdio.h>
#include <stdlib.h>
#include <string.h>
#include <sys/socket.h>
#include <time.h>
#include <unistd.h>

static unsigned long hash = 14695981039346656037ul;
static long others;
static struct sockaddr_in address;
static double least = -1, begun;
static long asked;

static double now(void) {
    struct timespec time;
    clock_gettime(CLOCK_MONOTONIC, &time);
    return time.tv_sec + time.tv_nsec / 1e9;
}

/* Ends a request; every hundred of them are timed together. */
static void count_request(void) {
    if (++asked % 100 != 0) return;
    double spent = (now() - begun) / 100;
    if (least < 0 || spent < least) least = spent;
    begun = now();
}

static void fail(const char *why) {
    perror(why);
    exit(3);
}

static void exchange(const char *request, size_t length) {
    static char answer[1 << 16];
    int connection = socket(AF_INET, SOCK_STREAM, 0);
    if (connection < 0 || connect(connection, (struct sockaddr *)&address, sizeof address) != 0) fail("connect");
    for (size_t sent = 0; sent < length;) {
        ssize_t more = write(connection, request + sent, length - sent);
        if (more <= 0) fail("write");
        sent += more;
    }
    char front[12] = "";
    size_t come = 0;
    ssize_t got;
    for (; (got = read(connection, answer, sizeof answer)) > 0; come += got) {
        for (ssize_t i = 0; i < got && come + i < sizeof front; i++) front[come + i] = answer[i];
        for (ssize_t i = 0; i < got; i++) hash = (hash ^ (unsigned char)answer[i]) * 1099511628211ul;
    }
    if (memcmp(front + 9, "200", 3) != 0) others++;
    if (got < 0) fail("read");
    close(connection);
    count_request();
}

enum { MOST_CLIENTS = 1000 };
static struct { size_t come; char front[12]; unsigned long hash; } open_ones[MOST_CLIENTS];
static struct pollfd polled[MOST_CLIENTS];

/* Opens a connection as that one of the clients, and sends its request, which a new connection takes whole. */
static void begin(long client, const char *request, size_t length) {
    int connection = socket(AF_INET, SOCK_STREAM, 0);
    if (connection < 0 || connect(connection, (struct sockaddr *)&address, sizeof address) != 0) fail("connect");
    if (write(connection, request, length) != (ssize_t)length) fail("write");
    fcntl(connection, F_SETFL, O_NONBLOCK);
    polled[client] = (struct pollfd){ .fd = connection, .events = POLLIN };
    open_ones[client].come = 0;
    open_ones[client].hash = hash;
}

/* Reads what came for that one of the clients; whether its response has ended. */
static int has_ended(long client) {
    static char answer[1 << 16];
    ssize_t got;
    while ((got = read(polled[client].fd, answer, sizeof answer)) > 0)
        for (ssize_t i = 0; i < got; i++, open_ones[client].come++) {
            if (open_ones[client].come < sizeof open_ones[client].front) open_ones[client].front[open_ones[client].come] = answer[i];
            open_ones[client].hash = (open_ones[client].hash ^ (unsigned char)answer[i]) * 1099511628211ul;
        }
    return got == 0;
}

/* The requests: GETs of a path, so many, or a POST of each line of a file. */
static FILE *file;
static const char *path;
static long gets;
static char request[(1 << 20) + 256];

/* Writes the next request; its length, or 0 if there is none. */
static size_t next_request(void) {
    static char line[1 << 20];
    if (!file)
        return gets-- > 0 ? snprintf(request, sizeof request, "GET %s HTTP/1.1\r\nHost: 127.0.0.1\r\n\r\n", path) : 0;
    if (!fgets(line, sizeof line, file)) return 0;
    size_t length = strcspn(line, "\n");
    return snprintf(request, sizeof request, "POST /interchanges HTTP/1.1\r\nHost: 127.0.0.1\r\nContent-Length: %zu\r\n\r\n%.*s", length,
        (int)length, line);
}

/* All requests, that many of them open at a time. The hash is the sum of those of the responses, which come in any order. */
static void exchange_together(long most) {
    unsigned long sum = 0;
    long clients = 0, left, ended = 0;
    size_t length;
    begun = now();
    for (; clients < most && (length = next_request()); clients++) begin(clients, request, length);
    for (left = clients; left > 0;) {
        if (poll(polled, clients, -1) < 0) fail("poll");
        for (long client = 0; client < clients; client++) {
            if (polled[client].fd < 0 || !polled[client].revents || !has_ended(client)) continue;
            if (memcmp(open_ones[client].front + 9, "200", 3) != 0) others++;
            sum += open_ones[client].hash;
            close(polled[client].fd);
            polled[client].fd = -1;
            ended++;
            if ((length = next_request())) begin(client, request, length);
            else left--;
        }
    }
    least = (now() - begun) / ended;
    hash = sum;
}

int main(int count, char **words) {
    if (count < 3) return 2;
    address = (struct sockaddr_in){ .sin_family = AF_INET, .sin_port = htons(atoi(words[1])), .sin_addr = { htonl(INADDR_LOOPBACK) } };
    path = words[2];
    int counted = *path == '@' ? 3 : 4;
    if (count < counted) return 2;
    if (counted == 4) gets = atol(words[3]);
    else if (!(file = fopen(path + 1, "r"))) fail("open");
    begun = now();
    if (count > counted)
        exchange_together(atol(words[counted]) < MOST_CLIENTS ? atol(words[counted]) : MOST_CLIENTS);
    else
        for (size_t length; (length = next_request());) exchange(request, length);
    printf("%.9f %ld %016lx\n", least, others, hash);
    return 0;
}
