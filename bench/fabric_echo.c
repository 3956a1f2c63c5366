/* Echoes over libfabric's reliable datagrams on UDP (provider udp;ofi_rxd). The client's first message
   is its address, by which the server answers. */
#include "echo.h"
#include <rdma/fabric.h>
#include <rdma/fi_cm.h>
#include <rdma/fi_domain.h>
#include <rdma/fi_endpoint.h>

#define VERSION FI_VERSION(1, 9)

static struct fi_info *info;
static struct fid_fabric *fabric;
static struct fid_domain *domain;
static struct fid_ep *end;
static struct fid_cq *queue;
static struct fid_av *addresses;

static void must(long answer, const char *what)
{
    if (answer < 0) {
        fprintf(stderr, "failed: %s: %s\n", what, fi_strerror((int)-answer));
        exit(2);
    }
}

static void open_end(unsigned port, int serves)
{
    struct fi_info *hints = fi_allocinfo();
    struct fi_cq_attr queue_attr = {.format = FI_CQ_FORMAT_MSG, .size = 4096};
    struct fi_av_attr av_attr = {.type = FI_AV_TABLE, .count = 16};
    char service[16];
    snprintf(service, sizeof service, "%u", port);
    hints->caps = FI_MSG;
    hints->mode = FI_CONTEXT;
    hints->ep_attr->type = FI_EP_RDM;
    hints->addr_format = FI_SOCKADDR_IN;
    hints->fabric_attr->prov_name = strdup("udp;ofi_rxd");
    must(fi_getinfo(VERSION, "127.0.0.1", service, serves ? FI_SOURCE : 0, hints, &info),
         "fi_getinfo");
    must(fi_fabric(info->fabric_attr, &fabric, NULL), "fi_fabric");
    must(fi_domain(fabric, info, &domain, NULL), "fi_domain");
    must(fi_cq_open(domain, &queue_attr, &queue, NULL), "fi_cq_open");
    must(fi_av_open(domain, &av_attr, &addresses, NULL), "fi_av_open");
    must(fi_endpoint(domain, info, &end, NULL), "fi_endpoint");
    must(fi_ep_bind(end, &queue->fid, FI_SEND | FI_RECV), "fi_ep_bind");
    must(fi_ep_bind(end, &addresses->fid, 0), "fi_ep_bind");
    must(fi_enable(end), "fi_enable");
}

/* A place for one message, and whether it is on its way out. */
struct place {
    struct fi_context context;
    int sends;
    char *bytes;
    size_t len;
    int waits;
};

static struct place places[2 * MOST_PENDING];

static void post(struct place *place)
{
    long answer;
    place->sends = 0;
    do {
        answer = fi_recv(end, place->bytes, MOST_BYTES, NULL, FI_ADDR_UNSPEC, &place->context);
        if (answer == -FI_EAGAIN)
            fi_cq_read(queue, NULL, 0);
    } while (answer == -FI_EAGAIN);
    must(answer, "fi_recv");
}

/* Whether it went; what didn't is tried again. */
static int give(struct place *place, fi_addr_t to)
{
    long answer = fi_send(end, place->bytes, place->len, NULL, to, &place->context);
    if (answer == -FI_EAGAIN)
        return 0;
    must(answer, "fi_send");
    place->sends = 1;
    place->waits = 0;
    return 1;
}

static void make_places(unsigned count)
{
    for (unsigned i = 0; i < count; i++)
        if (!(places[i].bytes = malloc(MOST_BYTES)))
            fail("malloc");
}

static struct place *next(size_t *len)
{
    struct fi_cq_msg_entry entry;
    long got = fi_cq_read(queue, &entry, 1);
    if (got == -FI_EAGAIN)
        return NULL;
    must(got, "fi_cq_read");
    *len = entry.len;
    return (struct place *)entry.op_context;
}

static void serve(const struct words *words)
{
    unsigned count = 128;
    uint64_t until = nanos() + (uint64_t)(words->seconds * 1e9);
    fi_addr_t client = FI_ADDR_UNSPEC;
    open_end(words->port, 1);
    make_places(count);
    for (unsigned i = 0; i < count; i++)
        post(&places[i]);
    while (nanos() < until) {
        size_t len;
        struct place *place = next(&len);
        if (place && place->sends) {
            post(place);
        } else if (place && client == FI_ADDR_UNSPEC) {
            if (fi_av_insert(addresses, place->bytes, 1, &client, 0, NULL) != 1)
                fail("fi_av_insert");
            post(place);
        } else if (place) {
            place->len = len;
            place->waits = !give(place, client);
        }
        for (unsigned i = 0; i < count; i++)
            if (places[i].waits)
                give(&places[i], client);
    }
    _exit(0);
}

static void load(const struct words *words)
{
    static uint64_t asked[MOST_PENDING];
    static struct place out[MOST_PENDING];
    struct place hello = {.bytes = malloc(256), .len = 256};
    fi_addr_t server;
    open_end(words->port, 0);
    make_places(words->pending);
    if (fi_av_insert(addresses, info->dest_addr, 1, &server, 0, NULL) != 1)
        fail("fi_av_insert");
    must(fi_getname(&end->fid, hello.bytes, &hello.len), "fi_getname");
    while (!give(&hello, server)) {
        size_t len;
        next(&len);
    }
    uint64_t began = nanos(), now = began;
    uint64_t until = began + (uint64_t)(words->seconds * 1e9);
    for (uint64_t call = 0; call < words->pending; call++) {
        post(&places[call]);
        out[call].bytes = calloc(1, MOST_BYTES);
        out[call].len = words->size;
        memcpy(out[call].bytes, &call, sizeof call);
        out[call].waits = 1;
        asked[call] = nanos();
    }
    while (now < until) {
        size_t len;
        struct place *place = next(&len);
        now = nanos();
        if (place && !place->sends) {
            uint64_t call;
            memcpy(&call, place->bytes, sizeof call);
            count_call(asked[call], now);
            asked[call] = now;
            out[call].waits = 1;
            post(place);
        }
        for (unsigned call = 0; call < words->pending; call++)
            if (out[call].waits)
                give(&out[call], server);
    }
    tell(words, began, now);
    fflush(stdout);
    _exit(0);
}

int main(int count, char **given)
{
    struct words words = read_words(count, given);
    if (words.serves)
        serve(&words);
    else
        load(&words);
    return 0;
}
