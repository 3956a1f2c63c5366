/* Echoes over ZeroMQ, a DEALER that asks and a ROUTER that answers, over TCP. */
#include "echo.h"
#include <zmq.h>

static void name(char *text, size_t room, unsigned port)
{
    snprintf(text, room, "tcp://127.0.0.1:%u", port);
}

static void serve(const struct words *words)
{
    char at[64];
    void *context = zmq_ctx_new();
    void *socket = zmq_socket(context, ZMQ_ROUTER);
    int patience = 100;
    uint64_t end = nanos() + (uint64_t)(words->seconds * 1e9);
    name(at, sizeof at, words->port);
    if (zmq_bind(socket, at))
        fail("zmq_bind");
    zmq_setsockopt(socket, ZMQ_RCVTIMEO, &patience, sizeof patience);
    while (nanos() < end) {
        zmq_msg_t who, message;
        zmq_msg_init(&who);
        zmq_msg_init(&message);
        if (zmq_msg_recv(&who, socket, 0) >= 0 && zmq_msg_recv(&message, socket, 0) >= 0) {
            zmq_msg_send(&who, socket, ZMQ_SNDMORE);
            zmq_msg_send(&message, socket, 0);
        }
        zmq_msg_close(&who);
        zmq_msg_close(&message);
    }
    _exit(0);
}

static char message[MOST_BYTES];

static void ask(void *socket, uint64_t call, unsigned size)
{
    memcpy(message, &call, sizeof call);
    if (zmq_send(socket, message, size, 0) < 0)
        fail("zmq_send");
}

static void load(const struct words *words)
{
    static uint64_t asked[MOST_PENDING];
    static char answer[MOST_BYTES];
    char at[64];
    void *context = zmq_ctx_new();
    void *socket = zmq_socket(context, ZMQ_DEALER);
    int patience = 5000;
    name(at, sizeof at, words->port);
    zmq_setsockopt(socket, ZMQ_RCVTIMEO, &patience, sizeof patience);
    if (zmq_connect(socket, at))
        fail("zmq_connect");
    /* The first call waits for the connection. */
    ask(socket, 0, words->size);
    if (zmq_recv(socket, answer, sizeof answer, 0) < 0)
        fail("zmq_recv");
    uint64_t began = nanos(), now = began;
    uint64_t end = began + (uint64_t)(words->seconds * 1e9);
    for (uint64_t call = 0; call < words->pending; call++) {
        asked[call] = nanos();
        ask(socket, call, words->size);
    }
    while (now < end) {
        uint64_t call;
        if (zmq_recv(socket, answer, sizeof answer, 0) < 0)
            fail("zmq_recv");
        memcpy(&call, answer, sizeof call);
        now = nanos();
        count_call(asked[call], now);
        asked[call] = now;
        ask(socket, call, words->size);
    }
    tell(words, began, now);
    fflush(stdout);
    _exit(0);
}

int main(int count, char **given)
{
    struct words words = read_words(count, given);
    if (words.serves)
        serve(&words);
    else
        load(&words);
    return 0;
}
