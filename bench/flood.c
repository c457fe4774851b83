// What workers.py asks with: queries to a server at 127.0.0.1 as fast as they are answered, by many a call of the system.
//
//     flood PORT SECONDS THREADS SOCKETS WINDOW FILE
//
// Each thread has so many sockets, of which each has so many queries on their way. FILE has messages with their lengths
// ahead, in two octets. It prints how many were sent, how many replies came, how many were given up after 50 milliseconds
// without any, and the seconds.
#define _GNU_SOURCE
#include <arpa/inet.h>
#include <errno.h>
#include <pthread.h>
#include <stdio.h>
#include <stdlib.h>
#include <string.h>
#include <sys/socket.h>
#include <time.h>
#include <unistd.h>
enum { BATCH = 32 };
static int port, sockets, window;
static double seconds;
static unsigned char *messages[4096];
static int lengths[4096], count;
static double now(void) { struct timespec t; clock_gettime(CLOCK_MONOTONIC, &t); return t.tv_sec + t.tv_nsec / 1e9; }
struct told { long sent, got, given_up; };
static void *run(void *arg) {
    struct told *told = arg;
    int fd[256], out[256]; double last[256];
    struct sockaddr_in at = {.sin_family = AF_INET, .sin_port = htons(port)};
    inet_pton(AF_INET, "127.0.0.1", &at.sin_addr);
    for (int i = 0; i < sockets; i++) {
        fd[i] = socket(AF_INET, SOCK_DGRAM | SOCK_NONBLOCK, 0);
        int room = 4 << 20; setsockopt(fd[i], SOL_SOCKET, SO_RCVBUF, &room, sizeof room);
        if (connect(fd[i], (struct sockaddr *)&at, sizeof at)) { perror("connect"); exit(1); }
        out[i] = 0; last[i] = now();
    }
    static __thread unsigned char buffers[BATCH][1500];
    struct mmsghdr in[BATCH], go[BATCH]; struct iovec inv[BATCH], gov[BATCH];
    memset(in, 0, sizeof in); memset(go, 0, sizeof go);
    for (int i = 0; i < BATCH; i++) {
        inv[i].iov_base = buffers[i]; inv[i].iov_len = 1500;
        in[i].msg_hdr.msg_iov = &inv[i]; in[i].msg_hdr.msg_iovlen = 1;
        go[i].msg_hdr.msg_iov = &gov[i]; go[i].msg_hdr.msg_iovlen = 1;
    }
    double start = now(), t = start; int next = 0;
    while (t - start < seconds) {
        for (int i = 0; i < sockets; i++) {
            int n = recvmmsg(fd[i], in, BATCH, 0, NULL);
            if (n > 0) { told->got += n; out[i] -= n; if (out[i] < 0) out[i] = 0; last[i] = t; }
            else if (out[i] && t - last[i] > 0.05) { told->given_up += out[i]; out[i] = 0; last[i] = t; }
            int free_ = window - out[i]; if (free_ > BATCH) free_ = BATCH;
            if (free_ < window / 4) continue;
            for (int k = 0; k < free_; k++) { gov[k].iov_base = messages[next]; gov[k].iov_len = lengths[next]; next = (next + 1) % count; }
            n = sendmmsg(fd[i], go, free_, 0);
            if (n > 0) { if (!out[i]) last[i] = t; out[i] += n; told->sent += n; }
        }
        t = now();
    }
    return NULL;
}
int main(int argc, char **argv) {
    if (argc != 7) { fprintf(stderr, "usage: flood PORT SECONDS THREADS SOCKETS WINDOW FILE\n"); return 2; }
    port = atoi(argv[1]); seconds = atof(argv[2]); int threads = atoi(argv[3]); sockets = atoi(argv[4]); window = atoi(argv[5]);
    FILE *f = fopen(argv[6], "rb"); unsigned char l[2];
    while (count < 4096 && fread(l, 1, 2, f) == 2) { int n = l[0] * 256 + l[1]; messages[count] = malloc(n); lengths[count] = n; if (fread(messages[count++], 1, n, f) != (size_t)n) return 1; }
    pthread_t t[16]; struct told told[16] = {0};
    double start = now();
    for (int i = 0; i < threads; i++) pthread_create(&t[i], NULL, run, &told[i]);
    long sent = 0, got = 0, up = 0;
    for (int i = 0; i < threads; i++) { pthread_join(t[i], NULL); sent += told[i].sent; got += told[i].got; up += told[i].given_up; }
    printf("%ld %ld %ld %f\n", sent, got, up, now() - start);
}
