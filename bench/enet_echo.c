/* Echoes over ENet, each message a reliable packet on one channel of one peer. */
#include "echo.h"
#include <enet/enet.h>

static ENetAddress address_of(unsigned port)
{
    ENetAddress address = {.port = (enet_uint16)port};
    enet_address_set_host_ip(&address, "127.0.0.1");
    return address;
}

static void serve(const struct words *words)
{
    ENetAddress address = address_of(words->port);
    ENetHost *host = enet_host_create(&address, 8, 1, 0, 0);
    ENetEvent event;
    uint64_t end = nanos() + (uint64_t)(words->seconds * 1e9);
    if (!host)
        fail("enet_host_create");
    while (nanos() < end) {
        int some = 0;
        while (enet_host_service(host, &event, 0) > 0 && some++ < 256) {
            if (event.type == ENET_EVENT_TYPE_RECEIVE) {
                ENetPacket *back = enet_packet_create(event.packet->data,
                    event.packet->dataLength, ENET_PACKET_FLAG_RELIABLE);
                enet_peer_send(event.peer, 0, back);
                enet_packet_destroy(event.packet);
            }
        }
        enet_host_flush(host);
    }
    enet_host_destroy(host);
}

static char message[MOST_BYTES];

static void ask(ENetPeer *peer, uint64_t call, unsigned size)
{
    memcpy(message, &call, sizeof call);
    enet_peer_send(peer, 0, enet_packet_create(message, size, ENET_PACKET_FLAG_RELIABLE));
}

static void load(const struct words *words)
{
    static uint64_t asked[MOST_PENDING];
    ENetAddress address = address_of(words->port);
    ENetHost *host = enet_host_create(NULL, 1, 1, 0, 0);
    ENetPeer *peer = host ? enet_host_connect(host, &address, 1, 0) : NULL;
    ENetEvent event;
    if (!peer || enet_host_service(host, &event, 5000) <= 0
        || event.type != ENET_EVENT_TYPE_CONNECT)
        fail("enet_host_connect");
    uint64_t began = nanos(), now = began;
    uint64_t end = began + (uint64_t)(words->seconds * 1e9);
    for (uint64_t call = 0; call < words->pending; call++) {
        asked[call] = nanos();
        ask(peer, call, words->size);
    }
    while (now < end) {
        int some = 0;
        while (enet_host_service(host, &event, 0) > 0 && some++ < 256) {
            if (event.type == ENET_EVENT_TYPE_DISCONNECT)
                fail("the peer left");
            if (event.type != ENET_EVENT_TYPE_RECEIVE)
                continue;
            uint64_t call;
            memcpy(&call, event.packet->data, sizeof call);
            enet_packet_destroy(event.packet);
            now = nanos();
            count_call(asked[call], now);
            asked[call] = now;
            ask(peer, call, words->size);
        }
        enet_host_flush(host);
        now = nanos();
    }
    tell(words, began, now);
    enet_peer_reset(peer);
    enet_host_destroy(host);
}

int main(int count, char **given)
{
    struct words words = read_words(count, given);
    if (enet_initialize())
        fail("enet_initialize");
    if (words.serves)
        serve(&words);
    else
        load(&words);
    enet_deinitialize();
    return 0;
}
