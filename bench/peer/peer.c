/* peer COMMAND DB, or peer serve DB PORT COUNT, over a store that `office init` made. `deliver` takes a stream from the
   standard input, `own` does so too and leaves the store alone, `report` prints the yard, `opened` opens the store and no
   more, `rows` reads all its rows besides, and `serve` is HTTP, one connection at a time. */
#include <netinet/in.h>
#include <stdio.h>
#include <stdlib.h>
#include <string.h>
#include <strings.h>
#include <sys/socket.h>
#include <unistd.h>
#include "peer.h"

static void write_all(int to, const char *at, size_t length) {
    while (length > 0) {
        ssize_t written = write(to, at, length);
        if (written <= 0) die("write");
        at += written;
        length -= written;
    }
}

static int deliver_all(struct office *office) {
    struct buffer input = { 0 };
    struct cutter cutter = { 0 };
    size_t from = 0;
    for (;;) {
        size_t length;
        while ((length = cut(&cutter, input.at + from, input.length - from))) {
            deliver(office, (struct text){ input.at + from, length });
            append(&office->answer, "\n", 1);
            write_all(1, office->answer.at, office->answer.length);
            from += length;
        }
        memmove(input.at, input.at + from, input.length - from);
        input.length -= from;
        from = 0;
        reserve(&input, 4096);
        ssize_t got = read(0, input.at + input.length, 4096);
        if (got <= 0) return got < 0;
        input.length += got;
    }
}

/* ---- HTTP */

static void respond(int connection, struct buffer *response, int status, const char *phrase, const char *type, struct buffer *body) {
    char head[256];
    response->length = 0;
    append(response, head, snprintf(head, sizeof head,
        "HTTP/1.1 %d %s\r\nContent-Type: %s\r\nContent-Length: %zu\r\nConnection: close\r\n\r\n", status, phrase, type, body->length));
    append(response, body->at, body->length);
    write_all(connection, response->at, response->length);
}

/* How long the head and the body of a request are, or 0 if more has to be read. */
static size_t head_length(struct buffer *request, size_t *body) {
    reserve(request, 1);
    request->at[request->length] = 0;
    char *end = strstr(request->at, "\r\n\r\n");
    if (!end) return 0;
    char *length = strcasestr(request->at, "\r\nContent-Length:");
    *body = length && length < end ? strtoul(length + 17, NULL, 10) : 0;
    return end + 4 - request->at;
}

static void serve_one(struct office *office, int connection, struct buffer *request, struct buffer *response) {
    size_t body = 0, head = 0;
    request->length = 0;
    while (!(head = head_length(request, &body)) || request->length < head + body) {
        reserve(request, 8192);
        ssize_t got = read(connection, request->at + request->length, 8192);
        if (got <= 0) return;
        request->length += got;
    }
    struct buffer *answer = &office->answer;
    answer->length = 0;
    if (strncmp(request->at, "GET /yard ", 10) == 0) {
        yard_report(&office->yard, answer);
        respond(connection, response, 200, "OK", "text/plain", answer);
    } else if (strncmp(request->at, "POST /interchanges ", 19) == 0) {
        const char *what = deliver(office, (struct text){ request->at + head, body });
        int status = strcmp(what, "waiting") == 0 ? 202 : strcmp(what, "clash") == 0 ? 409 : strcmp(what, "refused") == 0 ? 400 : 200;
        respond(connection, response, status, status == 200 ? "OK" : status == 202 ? "Accepted" : status == 409 ? "Conflict" : "Bad Request",
            "application/json", answer);
    } else {
        append_word(answer, "{\"answer\":\"none\"}");
        respond(connection, response, 404, "Not Found", "application/json", answer);
    }
}

int serve(struct office *office, int port, long count) {
    struct sockaddr_in address = { .sin_family = AF_INET, .sin_port = htons(port), .sin_addr = { htonl(INADDR_LOOPBACK) } };
    int listener = socket(AF_INET, SOCK_STREAM, 0), yes = 1;
    struct buffer request = { 0 }, response = { 0 };
    setsockopt(listener, SOL_SOCKET, SO_REUSEADDR, &yes, sizeof yes);
    if (bind(listener, (struct sockaddr *)&address, sizeof address) != 0 || listen(listener, 128) != 0) die("cannot listen");
    printf("listening 127.0.0.1:%d\n", port);
    fflush(stdout);
    for (long served = 0; served < count; served++) {
        int connection = accept(listener, NULL, NULL);
        if (connection < 0) continue;
        serve_one(office, connection, &request, &response);
        close(connection);
    }
    printf("served %ld\n", count);
    return 0;
}

int main(int count, char **words) {
    static struct office office;
    const char *command = count > 2 ? words[1] : "";
    if (count < 3) die("peer deliver|own|report|opened|rows DB, or peer serve DB PORT COUNT");
    open_store(&office, words[2], strcmp(command, "own") != 0);
    if (strcmp(command, "deliver") == 0 || strcmp(command, "own") == 0) return deliver_all(&office);
    if (strcmp(command, "serve") == 0 && count == 5) return serve(&office, atoi(words[3]), atol(words[4]));
    if (strcmp(command, "rows") == 0) read_all_rows(&office);
    if (strcmp(command, "report") == 0) yard_report(&office.yard, &office.answer);
    write_all(1, office.answer.at, office.answer.length);
    return 0;
}
