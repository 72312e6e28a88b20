/* What the sends of a live server cost by themselves: one process writes each unit of a broadcast of 4 Mbit/s to each of N loopback
   connections as it comes, in pieces of at most so many bytes, and another one reads them. It does nothing else: no queue, no poll.

       gcc -O2 -o /tmp/floor bench/floor.c && /tmp/floor 100 15 16384

   The words: connections, seconds, the longest piece. It prints the writer's processor time for each delivered GB. */
#define _GNU_SOURCE
#include <arpa/inet.h>
#include <netinet/in.h>
#include <netinet/tcp.h>
#include <stdio.h>
#include <stdlib.h>
#include <sys/epoll.h>
#include <sys/resource.h>
#include <sys/socket.h>
#include <sys/wait.h>
#include <time.h>
#include <unistd.h>

enum { PICTURE = 19500, PICTURE_MS = 40, SOUND = 400, SOUND_MS = 24, STEP_MS = 4 };

static void fail(const char *what) {
    perror(what);
    exit(1);
}

static double processor_seconds(void) {
    struct rusage used;
    getrusage(RUSAGE_SELF, &used);
    return used.ru_utime.tv_sec + used.ru_stime.tv_sec + (used.ru_utime.tv_usec + used.ru_stime.tv_usec) / 1e6;
}

/* Reads all that comes over so many connections, until each is closed. */
static void read_all(const struct sockaddr_in *at, int connections) {
    static char bytes[65536];
    int poll = epoll_create1(0), live = connections;
    for (int i = 0; i < connections; i++) {
        int s = socket(AF_INET, SOCK_STREAM, 0);
        if (connect(s, (const struct sockaddr *)at, sizeof *at)) fail("connect");
        struct epoll_event event = {.events = EPOLLIN, .data = {.fd = s}};
        epoll_ctl(poll, EPOLL_CTL_ADD, s, &event);
    }
    while (live > 0) {
        struct epoll_event events[64];
        int count = epoll_wait(poll, events, 64, -1);
        for (int i = 0; i < count; i++) {
            if (read(events[i].data.fd, bytes, sizeof bytes) <= 0) {
                close(events[i].data.fd);
                live--;
            }
        }
    }
}

int main(int argc, char **words) {
    if (argc != 4) {
        fprintf(stderr, "floor CONNECTIONS SECONDS LONGEST-PIECE\n");
        return 2;
    }
    int connections = atoi(words[1]), seconds = atoi(words[2]), longest = atoi(words[3]), one = 1;
    if (connections < 1 || seconds < 1 || longest < 1) {
        fprintf(stderr, "floor: each word is a number above 0\n");
        return 2;
    }
    struct sockaddr_in at = {.sin_family = AF_INET, .sin_addr.s_addr = htonl(INADDR_LOOPBACK)};
    socklen_t length = sizeof at;
    int listener = socket(AF_INET, SOCK_STREAM, 0);
    if (bind(listener, (struct sockaddr *)&at, length) || listen(listener, 512)) fail("listen");
    getsockname(listener, (struct sockaddr *)&at, &length);
    if (fork() == 0) {
        read_all(&at, connections);
        return 0;
    }
    int *links = calloc(connections, sizeof *links);
    for (int i = 0; i < connections; i++) {
        links[i] = accept(listener, 0, 0);
        setsockopt(links[i], IPPROTO_TCP, TCP_NODELAY, &one, sizeof one);
    }
    static char unit[PICTURE];
    long sent = 0, sends = 0;
    double before = processor_seconds();
    struct timespec due;
    clock_gettime(CLOCK_MONOTONIC, &due);
    for (int ms = 0; ms < seconds * 1000; ms += STEP_MS) {
        int size = ms % PICTURE_MS == 0 ? PICTURE : ms % SOUND_MS == 0 ? SOUND : 0;
        for (int i = 0; size > 0 && i < connections; i++) {
            for (int done = 0; done < size;) {
                int piece = size - done < longest ? size - done : longest;
                int took = write(links[i], unit + done, piece);
                if (took <= 0) fail("write");
                done += took;
                sent += took;
                sends++;
            }
        }
        due.tv_nsec += STEP_MS * 1000000L;
        if (due.tv_nsec >= 1000000000L) {
            due.tv_nsec -= 1000000000L;
            due.tv_sec++;
        }
        clock_nanosleep(CLOCK_MONOTONIC, TIMER_ABSTIME, &due, 0);
    }
    double took = processor_seconds() - before;
    printf("%.3f GB in %ld sends: %.2f CPU seconds, %.2f a GB, %.1f microseconds a send\n", sent / 1e9, sends, took, took / (sent / 1e9),
           took / sends * 1e6);
    for (int i = 0; i < connections; i++) close(links[i]);
    wait(0);
    return 0;
}
