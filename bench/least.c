/*
 * What the system itself takes for a datagram, to hold beside what bench/load.py prints of a server.
 *
 *     cc -O2 -o /tmp/least bench/least.c && /tmp/least
 *
 * Datagrams of 1,328 bytes go over loopback, 20 and 60 in each millisecond, to a process that does
 * nothing but take them: by recvfrom alone, which waits; or by epoll_wait (edge-triggered) and recvfrom
 * until it would block, as the server asks its sockets. Then as many go out as fast as they can. A row has
 * the processor time of that process, the system's nearly all, for each datagram.
 */
#define _GNU_SOURCE
#include <arpa/inet.h>
#include <fcntl.h>
#include <netinet/in.h>
#include <signal.h>
#include <stdio.h>
#include <stdlib.h>
#include <sys/epoll.h>
#include <sys/resource.h>
#include <sys/socket.h>
#include <sys/wait.h>
#include <time.h>
#include <unistd.h>

enum { COUNT = 120000, SIZE = 1328, ROOM = 4 << 20 };

static double seconds(void) {
    struct timespec t;
    clock_gettime(CLOCK_MONOTONIC, &t);
    return t.tv_sec + t.tv_nsec * 1e-9;
}

static double spent(void) {
    struct rusage u;
    getrusage(RUSAGE_SELF, &u);
    return u.ru_utime.tv_sec + u.ru_stime.tv_sec + (u.ru_utime.tv_usec + u.ru_stime.tv_usec) * 1e-6;
}

/* A socket on loopback with a port of its own. */
static int bound(struct sockaddr_in *at) {
    int it = socket(AF_INET, SOCK_DGRAM, 0), room = ROOM;
    socklen_t len = sizeof *at;
    *at = (struct sockaddr_in){.sin_family = AF_INET, .sin_addr.s_addr = htonl(INADDR_LOOPBACK)};
    setsockopt(it, SOL_SOCKET, SO_RCVBUF, &room, sizeof room);
    if (it < 0 || bind(it, (void *)at, sizeof *at) || getsockname(it, (void *)at, &len)) {
        perror("least");
        exit(1);
    }
    return it;
}

/* Sends them, so many a millisecond or, for 0, as fast as they go, and then some of one byte. */
static void send_all(struct sockaddr_in to, int rate) {
    static char packet[SIZE];
    int it = socket(AF_INET, SOCK_DGRAM, 0);
    double began = seconds();
    for (int i = 0; i < COUNT; i++) {
        while (rate && seconds() - began < i / (rate * 1000.0)) {
        }
        sendto(it, packet, SIZE, 0, (void *)&to, sizeof to);
    }
    for (int i = 0; i < 50; i++) {
        usleep(10000);
        sendto(it, packet, 1, 0, (void *)&to, sizeof to);
    }
}

/* Takes datagrams until one of a byte comes, and says how many. */
static int take_all(int it, int by_epoll) {
    char packet[2000];
    struct epoll_event event = {.events = EPOLLIN | EPOLLET}, ready[128];
    int poll = epoll_create1(0), taken = 0;
    if (by_epoll) {
        fcntl(it, F_SETFL, O_NONBLOCK);
        epoll_ctl(poll, EPOLL_CTL_ADD, it, &event);
    }
    for (;;) {
        struct sockaddr_in from;
        socklen_t len = sizeof from;
        ssize_t got = recvfrom(it, packet, sizeof packet, 0, (void *)&from, &len);
        if (got == 1) {
            return taken;
        }
        if (got > 1) {
            taken++;
        } else {
            epoll_wait(poll, ready, 128, 1);
        }
    }
}

static void receive(int by_epoll, int rate) {
    struct sockaddr_in at;
    int it = bound(&at);
    pid_t other = fork();
    if (other == 0) {
        send_all(at, rate);
        _exit(0);
    }
    double before = spent();
    int taken = take_all(it, by_epoll);
    double took = spent() - before;
    printf("in, by %s, %d a ms: %.2f us (%d of %d came)\n", by_epoll ? "epoll_wait and recvfrom" : "recvfrom", rate, took * 1e6 / taken, taken, COUNT);
    fflush(stdout);
    kill(other, SIGKILL);
    waitpid(other, NULL, 0);
    close(it);
}

static void send_out(void) {
    struct sockaddr_in at;
    int it = bound(&at);
    pid_t other = fork();
    if (other == 0) {
        take_all(it, 0);
        _exit(0);
    }
    double before = spent();
    send_all(at, 0);
    printf("out, by sendto: %.2f us\n", (spent() - before) * 1e6 / COUNT);
    kill(other, SIGKILL);
    waitpid(other, NULL, 0);
}

int main(void) {
    for (int by_epoll = 0; by_epoll < 2; by_epoll++) {
        receive(by_epoll, 20);
        receive(by_epoll, 60);
    }
    send_out();
    return 0;
}
