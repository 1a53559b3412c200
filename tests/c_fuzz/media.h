/*
 * media.h - the media of machine.c: what disks ask of them, whether they may, and how they answer. Where something is not as it must
 * be, the program says so and ends with status 1.
 */
#ifndef MEDIA_H
#define MEDIA_H

#include "driver.h"

enum { PORTS = 4, SECTORS = 64, MOST_SECTORS = 8, REQUESTS = 512 };

/* A request that was not answered yet, and whether something may have ended it: then its answer may be refused. */
typedef struct {
    gef_event event;
    int is_stale;
} request;

static request requests[REQUESTS];
static size_t request_count;
static int is_honest;      /* the guest keeps to the rules */
static uint32_t line;      /* what the last event said of the interrupt line */
static uint32_t has_disk;  /* bit n: a disk is at port n */
static uint32_t is_in;     /* bit n: what is at port n is plugged in */
static uint32_t is_ending; /* bit n: something ends all that is under way at port n, also what its disk asks for until the guest knows */

/* Bytes and ranges are of the request that is out, and of no other number. */
static void check_other(const gef_event *event) {
    static uint8_t bytes[512];
    gef_request it = event->u.medium.request;
    size_t len = 7;
    gef_range range;
    gef_status status = gef_machine_stored(&machine, &it, 0, bytes, sizeof bytes, &len);
    if (event->kind == GEF_EVENT_LOAD && status != GEF_NOT_OUT) fail("bytes of a load", status);
    if (event->kind == GEF_EVENT_DISCARD && status == GEF_OK) fail("bytes of a discard", status);
    status = gef_machine_discarded(&machine, &it, 0, &range);
    if (event->kind != GEF_EVENT_DISCARD && status != GEF_NOT_OUT) fail("ranges of another kind", status);
    it.number--;
    status = gef_machine_stored(&machine, &it, 0, bytes, sizeof bytes, &len);
    if (status == GEF_OK || (event->kind == GEF_EVENT_STORE && status != GEF_NOT_OUT)) fail("bytes of an earlier number", status);
    status = gef_machine_discarded(&machine, &it, 0, &range);
    if (status != GEF_NOT_OUT) fail("ranges of an earlier number", status);
    if (event->kind == GEF_EVENT_LOAD && len != 7) fail("a refused call wrote a length", (unsigned long)len);
}

/* The bytes of a store, in two pieces, are those of its sectors. */
static void check_store(const gef_event *event) {
    static uint8_t bytes[2048 * 512], wanted[512];
    size_t whole = 512 * (size_t)event->u.medium.count, cut = pick((uint32_t)whole + 1), len = 0, rest = 0, at;
    must("stored", gef_machine_stored(&machine, &event->u.medium.request, 0, bytes, cut, &len));
    must("stored", gef_machine_stored(&machine, &event->u.medium.request, cut, bytes + cut, sizeof bytes - cut, &rest));
    if (len != cut || len + rest != whole) fail("a store has other bytes than its sectors", (unsigned long)(len + rest));
    for (at = 0; at < event->u.medium.count && is_honest; at++) {
        fill_sector(wanted, event->port, event->u.medium.lba + at, 0);
        if (memcmp(bytes + 512 * at, wanted, 512)) fail("a store brought other bytes", (unsigned long)(event->u.medium.lba + at));
    }
}

static void check_discard(const gef_event *event) {
    gef_range range;
    gef_status status;
    size_t at = 0;
    while ((status = gef_machine_discarded(&machine, &event->u.medium.request, at++, &range)) == GEF_OK)
        if (range.lba >= SECTORS || !range.count || range.count > SECTORS - range.lba) fail("a discard of other sectors", at);
    if (status != GEF_NOTHING) fail("discarded", (unsigned long)status);
}

/* A store or a discard is out until it is answered, as long as its disk is there. */
static int is_out_for_good(const gef_event *event) {
    return event->kind == GEF_EVENT_STORE || event->kind == GEF_EVENT_DISCARD;
}

/* Whether two requests of a disk may not be out at once: they share a sector, unless both are loads. A discard is out alone. */
static int are_apart(const gef_event *one, const gef_event *other) {
    uint64_t lba = one->u.medium.lba, from = other->u.medium.lba;
    if (one->kind == GEF_EVENT_LOAD && other->kind == GEF_EVENT_LOAD) return 1;
    if (other->kind == GEF_EVENT_DISCARD) return 0;
    return lba >= from + other->u.medium.count || from >= lba + one->u.medium.count;
}

/* A load or a store has no request in its way, also none whose command ended. */
static void check_apart(const gef_event *event) {
    size_t at;
    for (at = 0; at < request_count; at++) {
        const gef_event *other = &requests[at].event;
        if (other->port != event->port || other->u.medium.request.disk != event->u.medium.request.disk) continue;
        if (requests[at].is_stale && !is_out_for_good(other)) continue;
        if (!are_apart(event, other)) fail("two requests of one sector", at);
    }
}

/* A disk asks its medium. */
static void ask(const gef_event *event) {
    uint64_t lba = event->u.medium.lba;
    uint32_t count = event->u.medium.count;
    int has_sectors = event->kind == GEF_EVENT_LOAD || event->kind == GEF_EVENT_STORE;
    if (event->port >= PORTS || !(has_disk & is_in & 1u << event->port)) fail("a request of no disk", event->port);
    if (has_sectors && (!count || count > 2048 || lba >= SECTORS || count > SECTORS - lba)) fail("a request of other sectors", count);
    if (has_sectors) check_apart(event);
    if (event->kind == GEF_EVENT_STORE) check_store(event);
    if (event->kind == GEF_EVENT_DISCARD) check_discard(event);
    check_other(event);
    if (request_count == REQUESTS) requests[pick(REQUESTS)] = requests[--request_count]; /* one is never answered */
    requests[request_count].event = *event;
    requests[request_count].is_stale = !is_honest || is_ending >> event->port & 1;
    request_count++;
}

static void outdate(uint32_t ports) {
    size_t at;
    for (at = 0; at < request_count; at++)
        if (ports >> requests[at].event.port & 1) requests[at].is_stale = 1;
}

/* Answers that are refused leave a request out. */
static void answer_wrongly(const gef_event *event) {
    static uint8_t bytes[512];
    const gef_request *it = &event->u.medium.request;
    int is_load = event->kind == GEF_EVENT_LOAD;
    gef_status status = is_load ? gef_machine_answer_done(&machine, it) : gef_machine_answer_loaded(&machine, it, bytes, 512);
    if (status != GEF_OTHER_KIND) fail("an answer of another kind", status);
    status = gef_machine_answer_failed(&machine, it, 3, event->u.medium.lba);
    if (status != GEF_BAD_ERROR) fail("an unknown error", status);
    if (event->u.medium.count) status = gef_machine_answer_failed(&machine, it, GEF_ABRT, event->u.medium.lba + event->u.medium.count);
    if (event->u.medium.count && status != GEF_OTHER_SECTOR) fail("another sector", status);
    if (is_load && event->u.medium.count > 1) status = gef_machine_answer_loaded(&machine, it, bytes, 512);
    if (is_load && event->u.medium.count > 1 && status != GEF_OTHER_LENGTH) fail("another length", status);
    if (event->kind != GEF_EVENT_STORE) return;
    status = gef_machine_answer_failed(&machine, it, GEF_UNC, event->u.medium.lba);
    if (status != GEF_OTHER_KIND) fail("an error of loads", status);
}

static gef_status answer_well(const gef_event *event) {
    static uint8_t bytes[2048 * 512];
    gef_status status;
    size_t at;
    if (event->kind != GEF_EVENT_LOAD) {
        CALL(status, gef_machine_answer_done(&machine, &event->u.medium.request));
        return status;
    }
    for (at = 0; at < event->u.medium.count; at++) fill_sector(bytes + 512 * at, event->port, event->u.medium.lba + at, 0);
    CALL(status, gef_machine_answer_loaded(&machine, &event->u.medium.request, bytes, 512 * (size_t)event->u.medium.count));
    return status;
}

/* Whether an answer may be refused like this. */
static int may_be_gone(const request *it, gef_status status) {
    return it->is_stale && (status == GEF_OTHER_DISK || (status == GEF_NOT_OUT && !is_out_for_good(&it->event)));
}

/* A request is answered, by an error or not, and then once more: nobody waits for that. */
static void answer(size_t number, int is_error) {
    request it = requests[number];
    uint32_t error = it.event.kind == GEF_EVENT_LOAD ? GEF_UNC : GEF_ABRT;
    uint8_t byte;
    size_t len;
    gef_status status;
    requests[number] = requests[--request_count];
    if (!it.is_stale && !pick(4)) answer_wrongly(&it.event);
    if (is_error)
        CALL(status, gef_machine_answer_failed(&machine, &it.event.u.medium.request, error, it.event.u.medium.lba));
    else
        status = answer_well(&it.event);
    if (status != GEF_OK && !may_be_gone(&it, status)) fail("an answer", status);
    if (it.event.kind == GEF_EVENT_STORE && gef_machine_stored(&machine, &it.event.u.medium.request, 0, &byte, 1, &len) == GEF_OK)
        fail("bytes of a store that was answered", (unsigned long)number);
    if (pick(8)) return;
    status = answer_well(&it.event);
    if (status != GEF_NOT_OUT && status != GEF_OTHER_DISK) fail("an answer that comes twice", status);
}

#endif
