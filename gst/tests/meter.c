/* SPDX-License-Identifier: Apache-2.0
 *
 * Sends lines of RTP, PCMU in packets of 20 ms, and measures how long each takes to come back.
 *
 *     meter LINES SECONDS TO FROM [LOSS]
 *
 * Line k is sent to port TO + 2k of this machine and heard at FROM + 2k. LOSS packets of a thousand aren't sent. The k-th packet that comes
 * back on a line is taken for the k-th that was sent, which holds where as many came back as were sent. It prints, over all lines, how many
 * were sent, left out and came back, and the distribution of the times in microseconds, the first second of each line left out. */
#define _GNU_SOURCE
#include <arpa/inet.h>
#include <poll.h>
#include <stdint.h>
#include <stdio.h>
#include <stdlib.h>
#include <string.h>
#include <sys/socket.h>
#include <time.h>
#include <unistd.h>

enum { MOST = 64, SAMPLES = 160, HEAD = 12, PERIOD_NS = 20000000, WARM = 50 };

struct line {
    int out, in;
    struct sockaddr_in to;
    int64_t *sent; /* when each packet was sent */
    int next, count, heard;
};

static int64_t now(void)
{
    struct timespec time;
    clock_gettime(CLOCK_MONOTONIC, &time);
    return time.tv_sec * 1000000000LL + time.tv_nsec;
}

static void put16(uint8_t *at, uint32_t value)
{
    at[0] = (uint8_t)(value >> 8);
    at[1] = (uint8_t)value;
}

static void put32(uint8_t *at, uint32_t value)
{
    put16(at, value >> 16);
    put16(at + 2, value);
}

static void open_line(struct line *line, int to, int from, int packets)
{
    struct sockaddr_in here = {.sin_family = AF_INET, .sin_port = htons((uint16_t)from), .sin_addr.s_addr = htonl(INADDR_LOOPBACK)};
    int room = 1 << 20;
    line->out = socket(AF_INET, SOCK_DGRAM, 0);
    line->in = socket(AF_INET, SOCK_DGRAM | SOCK_NONBLOCK, 0);
    setsockopt(line->in, SOL_SOCKET, SO_RCVBUF, &room, sizeof room);
    if (bind(line->in, (struct sockaddr *)&here, sizeof here)) {
        perror("bind");
        exit(1);
    }
    line->to = here;
    line->to.sin_port = htons((uint16_t)to);
    line->sent = calloc((size_t)packets, sizeof *line->sent);
}

static void send_one(struct line *line, int number, int lost)
{
    uint8_t packet[HEAD + SAMPLES];
    memset(packet, 0, HEAD);
    packet[0] = 0x80;
    put16(packet + 2, (uint32_t)line->next);
    put32(packet + 4, (uint32_t)line->next * SAMPLES);
    put32(packet + 8, 0x1000u + (uint32_t)number);
    for (int k = 0; k < SAMPLES; k++)
        packet[HEAD + k] = (uint8_t)(rand() >> 7);
    if (!lost) {
        line->sent[line->count++] = now();
        sendto(line->out, packet, sizeof packet, 0, (struct sockaddr *)&line->to, sizeof line->to);
    }
    line->next++;
}

static void hear(struct line *line, int64_t *took, int *count)
{
    uint8_t packet[2048];
    ssize_t size;
    while ((size = recv(line->in, packet, sizeof packet, 0)) >= HEAD) {
        int which = line->heard++;
        if (which >= WARM && which < line->count)
            took[(*count)++] = now() - line->sent[which];
    }
}

static int by_size(const void *a, const void *b)
{
    int64_t x = *(const int64_t *)a, y = *(const int64_t *)b;
    return (x > y) - (x < y);
}

int main(int argc, char **argv)
{
    static struct line lines[MOST];
    static struct pollfd polled[MOST];
    int count = argc > 4 ? atoi(argv[1]) : 0, packets = count ? atoi(argv[2]) * 50 : 0, loss = argc > 5 ? atoi(argv[5]) : 0;
    int sent = 0, lost = 0, heard = 0, timed = 0;
    if (count < 1 || count > MOST || packets < 1) {
        fputs("usage: meter LINES SECONDS TO FROM [LOSS]\n", stderr);
        return 2;
    }
    int64_t *took = calloc((size_t)count * (size_t)packets + 1000, sizeof *took);
    for (int k = 0; k < count; k++) {
        open_line(&lines[k], atoi(argv[3]) + 2 * k, atoi(argv[4]) + 2 * k, packets);
        polled[k] = (struct pollfd){lines[k].in, POLLIN, 0};
    }
    int64_t began = now(), end = began + (int64_t)packets * PERIOD_NS + 1000000000LL;
    for (int next = 0; now() < end;) {
        int64_t due = next < packets * count ? began + (int64_t)next * (PERIOD_NS / count) : end, left = due - now();
        if (left <= 0) {
            int drop = next / count >= WARM && rand() % 1000 < loss;
            send_one(&lines[next % count], next % count, drop);
            sent += !drop, lost += drop, next++;
            left = 0;
        }
        struct timespec wait = {0, left < 1000000000 ? left : 999999999};
        if (ppoll(polled, (nfds_t)count, &wait, 0) > 0)
            for (int k = 0; k < count; k++)
                if (polled[k].revents)
                    hear(&lines[k], took, &timed);
    }
    for (int k = 0; k < count; k++)
        heard += lines[k].heard;
    qsort(took, (size_t)timed, sizeof *took, by_size);
    printf("sent %d, left out %d, came back %d", sent, lost, heard);
    if (timed)
        printf("; us: least %.0f, middle %.0f, 9 of 10 %.0f, 99 of 100 %.0f, 999 of 1,000 %.0f, longest %.0f", took[0] / 1e3, took[timed / 2] / 1e3, took[(int64_t)timed * 9 / 10] / 1e3,
               took[(int64_t)timed * 99 / 100] / 1e3, took[(int64_t)timed * 999 / 1000] / 1e3, took[timed - 1] / 1e3);
    puts("");
    return 0;
}
