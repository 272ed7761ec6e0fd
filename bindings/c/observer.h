/* A server of the observer's page, for a program that looks at its own node between two steps. It is on the loopback, it
 * answers GET and nothing else, and its address has a token. It never waits: observer_serve reads and writes what can be read
 * and written at once, so the thread of a desk calls it between two steps, and needs no lock. Define _GNU_SOURCE before. */
#ifndef OBSERVER_H
#define OBSERVER_H

#include <arpa/inet.h>
#include <netinet/in.h>
#include <stdbool.h>
#include <stdint.h>
#include <stdio.h>
#include <stdlib.h>
#include <string.h>
#include <sys/random.h>
#include <sys/socket.h>
#include <time.h>
#include <unistd.h>

/* How many clients are served at once, how many bytes a request has at most, and how many seconds a client may take. */
enum { OBSERVER_PLACES = 32, OBSERVER_MOST = 8192 };
#define OBSERVER_PATIENCE 2.0

typedef struct observer_client {
    int socket; /* or -1: the place is free */
    double until;
    char request[OBSERVER_MOST + 1];
    size_t read;
    char *answer; /* null until the request is whole */
    size_t length, written;
} observer_client;

typedef struct observer {
    int socket;
    uint16_t port;
    char token[33];
    observer_client clients[OBSERVER_PLACES];
} observer;

/* Writes what is asked for by a path behind the token, and returns its type, or null if there is no such thing. The query is
 * what was behind the question mark. */
typedef const char *observer_writer(void *world, FILE *to, const char *path, const char *query);

static inline double observer_now(void) {
    struct timespec now;
    clock_gettime(CLOCK_MONOTONIC, &now);
    return (double)now.tv_sec + (double)now.tv_nsec / 1e9;
}

/* Begins to listen. With port 0 the system chooses one. It returns false if it cannot. */
static inline bool observer_open(observer *o, uint16_t port) {
    struct sockaddr_in at = {.sin_family = AF_INET, .sin_port = htons(port)};
    socklen_t size = sizeof at;
    unsigned char secret[16];
    at.sin_addr.s_addr = htonl(INADDR_LOOPBACK);
    for (int k = 0; k < OBSERVER_PLACES; k++) o->clients[k] = (observer_client){.socket = -1};
    o->socket = socket(AF_INET, SOCK_STREAM | SOCK_NONBLOCK | SOCK_CLOEXEC, 0);
    if (o->socket < 0 || bind(o->socket, (struct sockaddr *)&at, sizeof at) != 0 || listen(o->socket, 16) != 0 ||
        getsockname(o->socket, (struct sockaddr *)&at, &size) != 0 || getrandom(secret, sizeof secret, 0) != sizeof secret) {
        if (o->socket >= 0) close(o->socket);
        return false;
    }
    o->port = ntohs(at.sin_port);
    for (int k = 0; k < 16; k++) snprintf(o->token + 2 * k, 3, "%02x", secret[k]);
    return true;
}

static inline void observer_drop(observer_client *c) {
    close(c->socket);
    free(c->answer);
    c->answer = NULL;
    c->socket = -1;
}

static inline void observer_close(observer *o) {
    for (int k = 0; k < OBSERVER_PLACES; k++)
        if (o->clients[k].socket >= 0) observer_drop(&o->clients[k]);
    close(o->socket);
}

/* The value of a field of a query, or null. It ends at an '&' or at the end. */
static inline const char *observer_field(const char *query, const char *name) {
    size_t length = strlen(name);
    while (query != NULL && *query != '\0') {
        if (strncmp(query, name, length) == 0 && query[length] == '=') return query + length + 1;
        query = strchr(query, '&');
        if (query != NULL) query++;
    }
    return NULL;
}

/* Makes the answer: its head, and then the body. */
static inline void observer_answer(observer_client *c, const char *status, const char *type, const char *body, size_t length) {
    FILE *to = open_memstream(&c->answer, &c->length);
    if (to == NULL) return;
    fprintf(to,
        "HTTP/1.1 %s\r\nContent-Type: %s\r\nContent-Length: %zu\r\n%sContent-Security-Policy: default-src 'none'; "
        "style-src 'unsafe-inline'; script-src 'unsafe-inline'; connect-src 'self'; base-uri 'none'; form-action 'none'; "
        "frame-ancestors 'none'\r\nCache-Control: no-store\r\nX-Content-Type-Options: nosniff\r\n"
        "Referrer-Policy: no-referrer\r\nConnection: close\r\n\r\n",
        status, type, length, strncmp(status, "405", 3) == 0 ? "Allow: GET\r\n" : "");
    fwrite(body, 1, length, to);
    fclose(to);
}

static inline void observer_refuse(observer_client *c, const char *status) {
    observer_answer(c, status, "text/plain; charset=utf-8", status, strlen(status));
}

/* What is behind the token of a target, or null. The time that it takes does not depend on where the token is wrong. */
static inline char *observer_path(const observer *o, char *target) {
    unsigned char wrong = 0;
    if (strlen(target) < 34 || target[0] != '/' || target[33] != '/') return NULL;
    for (int k = 0; k < 32; k++) wrong |= (unsigned char)(target[k + 1] ^ o->token[k]);
    return wrong == 0 ? target + 34 : NULL;
}

/* Answers a request that has come whole. */
static inline void observer_request(const observer *o, observer_client *c, observer_writer *write, void *world) {
    char *end = strstr(c->request, "\r\n"), *target = c->request + 4, *last;
    if (end == NULL || strlen(c->request) != c->read) {
        observer_refuse(c, "400 Bad Request");
        return;
    }
    *end = '\0';
    last = strrchr(c->request, ' ');
    if (last == NULL || (strcmp(last, " HTTP/1.1") != 0 && strcmp(last, " HTTP/1.0") != 0)) {
        observer_refuse(c, "400 Bad Request");
        return;
    }
    *last = '\0';
    if (strncmp(c->request, "GET ", 4) != 0) {
        observer_refuse(c, "405 Method Not Allowed");
        return;
    }
    char *query = strchr(target, '?'), *path, *body = NULL;
    if (query != NULL) *query++ = '\0';
    path = observer_path(o, target);
    size_t length = 0;
    FILE *to = path == NULL ? NULL : open_memstream(&body, &length);
    const char *type = to == NULL ? NULL : write(world, to, path, query == NULL ? "" : query);
    if (to != NULL) fclose(to);
    if (type == NULL) observer_refuse(c, "404 Not Found");
    else observer_answer(c, "200 OK", type, body, length);
    free(body);
}

/* Takes a client in, or turns it away if there are too many. */
static inline bool observer_accept(observer *o) {
    static const char busy[] = "HTTP/1.1 503 Service Unavailable\r\nContent-Length: 0\r\nRetry-After: 1\r\nConnection: close\r\n\r\n";
    int socket = accept4(o->socket, NULL, NULL, SOCK_NONBLOCK | SOCK_CLOEXEC);
    if (socket < 0) return false;
    for (int k = 0; k < OBSERVER_PLACES; k++)
        if (o->clients[k].socket < 0) {
            o->clients[k] = (observer_client){.socket = socket, .until = observer_now() + OBSERVER_PATIENCE};
            return true;
        }
    ssize_t told = send(socket, busy, sizeof busy - 1, MSG_NOSIGNAL);
    (void)told;
    close(socket);
    return true;
}

/* Reads what has come. Once that is a request, or too much, there is an answer. */
static inline void observer_read(const observer *o, observer_client *c, observer_writer *write, void *world) {
    ssize_t count = recv(c->socket, c->request + c->read, OBSERVER_MOST - c->read, 0);
    if (count == 0) observer_drop(c);
    if (count <= 0) return;
    c->read += (size_t)count;
    c->request[c->read] = '\0';
    if (memmem(c->request, c->read, "\r\n\r\n", 4) != NULL) observer_request(o, c, write, world);
    else if (c->read == OBSERVER_MOST) observer_refuse(c, "431 Request Header Fields Too Large");
    if (c->answer != NULL) c->until = observer_now() + OBSERVER_PATIENCE;
}

/* Writes what can be written. Then the client is read to its end, within its time: else its answer might be lost. */
static inline void observer_write(observer_client *c) {
    char rest[4096];
    ssize_t count;
    if (c->written < c->length) {
        count = send(c->socket, c->answer + c->written, c->length - c->written, MSG_NOSIGNAL);
        if (count > 0) c->written += (size_t)count;
        if (c->written == c->length) shutdown(c->socket, SHUT_WR);
        return;
    }
    count = recv(c->socket, rest, sizeof rest, 0);
    if (count == 0) observer_drop(c);
}

/* Serves all clients as far as that needs no waiting. */
static inline void observer_serve(observer *o, observer_writer *write, void *world) {
    while (observer_accept(o)) {}
    for (int k = 0; k < OBSERVER_PLACES; k++) {
        observer_client *c = &o->clients[k];
        if (c->socket < 0) continue;
        if (observer_now() > c->until) observer_drop(c);
        else if (c->answer == NULL) observer_read(o, c, write, world);
        else observer_write(c);
    }
}

#endif
