/*
 * The least that a server of a given build can cost here: it reads what comes, and sends one answer for each read.
 *
 *     gcc -O2 -pthread benches/floor.c -o /tmp/floor && /tmp/floor threads|yields|looks|epoll ADDRESS
 *
 * threads: a thread for each connection. yields: each thread yields before it reads. looks: each looks twenty times before
 * it sleeps. epoll: four threads, each of which waits for all its connections. Nothing of HTTP is read: one read is one request.
 */
#define _GNU_SOURCE
#include <arpa/inet.h>
#include <netinet/tcp.h>
#include <pthread.h>
#include <sched.h>
#include <stdint.h>
#include <stdio.h>
#include <stdlib.h>
#include <string.h>
#include <sys/epoll.h>
#include <sys/socket.h>
#include <unistd.h>

enum build { THREADS, YIELDS, LOOKS, EPOLL };

static const char *const BUILDS[] = {"threads", "yields", "looks", "epoll"};

static const char ANSWER[] = "HTTP/1.1 200 OK\r\nServer: tiny-http (Rust)\r\nDate: Thu, 26 Nov 2026 16:00:00 GMT\r\n"
                             "Content-Type: text/plain; charset=UTF-8\r\nContent-Length: 11\r\n\r\nhello world";

static enum build build;

static void send_small_pieces_at_once(int fd) {
    int on = 1;
    setsockopt(fd, IPPROTO_TCP, TCP_NODELAY, &on, sizeof on);
}

static ssize_t read_request(int fd, char *buf, size_t room) {
    if (build == YIELDS)
        sched_yield();
    for (int look = 0; build == LOOKS && look < 20; look++) {
        ssize_t n = recv(fd, buf, room, MSG_DONTWAIT);
        if (n >= 0)
            return n;
    }
    return recv(fd, buf, room, 0);
}

static void *serve_one(void *arg) {
    int fd = (int)(intptr_t)arg;
    char buf[16384];
    while (read_request(fd, buf, sizeof buf) > 0)
        send(fd, ANSWER, sizeof ANSWER - 1, MSG_NOSIGNAL);
    close(fd);
    return NULL;
}

static void *serve_all(void *arg) {
    int epoll = (int)(intptr_t)arg;
    struct epoll_event events[64];
    char buf[16384];
    for (;;) {
        int count = epoll_wait(epoll, events, 64, -1);
        for (int i = 0; i < count; i++) {
            int fd = events[i].data.fd;
            if (recv(fd, buf, sizeof buf, 0) > 0)
                send(fd, ANSWER, sizeof ANSWER - 1, MSG_NOSIGNAL);
            else
                close(fd);
        }
    }
    return NULL;
}

static void start(void *(*run)(void *), int fd) {
    pthread_t thread;
    if (pthread_create(&thread, NULL, run, (void *)(intptr_t)fd) != 0)
        exit(1);
    pthread_detach(thread);
}

static int listen_at(char *address) {
    char *colon = strrchr(address, ':');
    struct sockaddr_in at = {.sin_family = AF_INET};
    if (colon == NULL)
        return -1;
    *colon = 0;
    at.sin_port = htons((uint16_t)atoi(colon + 1));
    int fd = socket(AF_INET, SOCK_STREAM, 0), on = 1;
    setsockopt(fd, SOL_SOCKET, SO_REUSEADDR, &on, sizeof on);
    if (inet_pton(AF_INET, address, &at.sin_addr) != 1 || bind(fd, (void *)&at, sizeof at) != 0 || listen(fd, 1024) != 0)
        return -1;
    return fd;
}

int main(int count, char **words) {
    int epolls[4], next = 0;
    while (count == 3 && build <= EPOLL && strcmp(words[1], BUILDS[build]) != 0)
        build++;
    if (count != 3 || build > EPOLL) {
        fprintf(stderr, "usage: floor threads|yields|looks|epoll ADDRESS\n");
        return 2;
    }
    int listener = listen_at(words[2]);
    if (listener < 0) {
        fprintf(stderr, "floor: cannot listen\n");
        return 1;
    }
    for (int i = 0; build == EPOLL && i < 4; i++)
        start(serve_all, epolls[i] = epoll_create1(0));
    for (;;) {
        int fd = accept(listener, NULL, NULL);
        send_small_pieces_at_once(fd);
        if (build == EPOLL) {
            struct epoll_event event = {.events = EPOLLIN, .data.fd = fd};
            epoll_ctl(epolls[next++ % 4], EPOLL_CTL_ADD, fd, &event);
        } else {
            start(serve_one, fd);
        }
    }
}
