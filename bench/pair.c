/* A bare pair of loops over sendto and recvfrom: what a datagram there and back costs by itself. Each
   datagram begins with the number of its call. Sockets never wait. */
#include "echo.h"
#include <arpa/inet.h>
#include <fcntl.h>
#include <netinet/in.h>
#include <sys/socket.h>

#define MOST_DATAGRAM 65507

/* A call whose answer doesn't come within so many nanoseconds is asked again. */
#define PATIENCE 100000000u

static char buffer[MOST_DATAGRAM];

static int open_socket(unsigned port)
{
    struct sockaddr_in at = {.sin_family = AF_INET, .sin_port = htons((uint16_t)port)};
    int room = 1 << 22;
    int fd = socket(AF_INET, SOCK_DGRAM, 0);
    at.sin_addr.s_addr = htonl(INADDR_LOOPBACK);
    if (fd < 0 || bind(fd, (struct sockaddr *)&at, sizeof at))
        fail("bind");
    setsockopt(fd, SOL_SOCKET, SO_RCVBUF, &room, sizeof room);
    setsockopt(fd, SOL_SOCKET, SO_SNDBUF, &room, sizeof room);
    fcntl(fd, F_SETFL, O_NONBLOCK);
    return fd;
}

static void serve(const struct words *words)
{
    int fd = open_socket(words->port);
    uint64_t end = nanos() + (uint64_t)(words->seconds * 1e9);
    for (;;) {
        struct sockaddr_in from;
        socklen_t len = sizeof from;
        ssize_t got = recvfrom(fd, buffer, sizeof buffer, 0, (struct sockaddr *)&from, &len);
        if (got < 0) {
            if (nanos() > end)
                return;
            continue;
        }
        while (sendto(fd, buffer, (size_t)got, 0, (struct sockaddr *)&from, len) < 0
               && errno == EAGAIN) {
        }
    }
}

static void load(const struct words *words)
{
    struct sockaddr_in to = {.sin_family = AF_INET, .sin_port = htons((uint16_t)words->port)};
    static uint64_t asked[MOST_PENDING];
    int fd = open_socket(0);
    uint64_t began = nanos(), now = began;
    uint64_t end = began + (uint64_t)(words->seconds * 1e9);
    to.sin_addr.s_addr = htonl(INADDR_LOOPBACK);
    for (uint64_t call = 0; call < words->pending; call++) {
        asked[call] = nanos();
        memcpy(buffer, &call, sizeof call);
        sendto(fd, buffer, words->size, 0, (struct sockaddr *)&to, sizeof to);
    }
    uint64_t heard = nanos();
    while (now < end) {
        ssize_t got = recvfrom(fd, buffer, sizeof buffer, 0, NULL, NULL);
        now = nanos();
        if (got < 0) {
            if (now - heard < PATIENCE)
                continue;
            for (uint64_t call = 0; call < words->pending; call++) {
                memcpy(buffer, &call, sizeof call);
                sendto(fd, buffer, words->size, 0, (struct sockaddr *)&to, sizeof to);
            }
            lost += words->pending;
            heard = now;
            continue;
        }
        uint64_t call;
        memcpy(&call, buffer, sizeof call);
        if (call >= words->pending)
            continue;
        heard = now;
        count_call(asked[call], now);
        asked[call] = now;
        sendto(fd, buffer, words->size, 0, (struct sockaddr *)&to, sizeof to);
    }
    tell(words, began, now);
}

int main(int count, char **given)
{
    struct words words = read_words(count, given);
    if (words.serves)
        serve(&words);
    else
        load(&words);
    return 0;
}
