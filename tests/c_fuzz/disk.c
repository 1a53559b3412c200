/*
 * Two disks by FISes (gef_disk) behind a multiplier (gef_pm), and a host that has all tags of both under way. Media answer late, in any
 * order. Each read that ends has brought the bytes of its sectors, and each store has those that were written.
 *
 *     disk refused           plays a scene again and again, and refuses memory once each time. A call that says so is made again;
 *                            each command must end as if it had been given.
 *     disk random SECONDS    plays scenes of any reads and writes
 *
 * Link it with -Wl,--wrap=malloc,--wrap=realloc, and build it with the sanitizers. Status 1 where something is not so.
 */
#include <time.h>
#include "basics.h"
#include "refusing.h"

enum { PORTS = 2, TAGS = 32, SECTORS = 256, MOST_SECTORS = 40, ROOM = 512 * MOST_SECTORS };

static gef_pm pm;
static gef_disk disks[PORTS];

/* Each sector has its bytes from the start on and for good. */
static void fill(uint8_t *bytes, uint32_t port, uint64_t lba, uint32_t count) {
    uint32_t at;
    for (at = 0; at < count; at++) fill_sector(bytes + 512 * at, port, lba + at, 0);
}

/* ---- the host ----------------------------------------------------------------------------------------------------- */

typedef struct {
    int is_busy, is_write;
    uint32_t lba, count, moved;
} command;

static command commands[PORTS][TAGS];
static uint8_t brought[PORTS][TAGS][ROOM];
static uint32_t tag_of[PORTS]; /* of the last DMA Setup */
static int is_waiting[PORTS];  /* for the answer to a command */
static unsigned long ended;

/* FISes that the host has to send. */
static struct {
    size_t len;
    uint8_t fis[GEF_FIS_ROOM];
} outbox[64];
static size_t first, last;

static uint8_t *say(size_t len) {
    if (last - first == 64) fail("the host has too much to say", last);
    outbox[last % 64].len = len;
    memset(outbox[last % 64].fis, 0, len);
    return outbox[last++ % 64].fis;
}

static void issue(unsigned port, unsigned tag, int is_write, uint32_t lba, uint32_t count) {
    uint8_t *fis = say(20);
    command it = {1, 0, 0, 0, 0};
    it.is_write = is_write;
    it.lba = lba;
    it.count = count;
    commands[port][tag] = it;
    is_waiting[port] = 1;
    queued_fis(fis, tag, is_write ? 0x61 : 0x60, lba, count);
    fis[1] = (uint8_t)(0x80 | port);
}

/* The next bytes of a write, as many as a Data FIS has. */
static void send_data(unsigned port) {
    command *it = &commands[port][tag_of[port]];
    uint32_t left = 512 * it->count - it->moved, len = left < 8192 ? left : 8192;
    uint8_t bytes[ROOM], *fis = say(4 + len);
    if (!it->is_busy || !it->is_write || !len) fail("Data are asked for nothing", tag_of[port]);
    fill(bytes, port, it->lba, it->count);
    fis[0] = 0x46;
    fis[1] = (uint8_t)port;
    memcpy(fis + 4, bytes + it->moved, len);
    it->moved += len;
}

static void take_data(unsigned port, const uint8_t *bytes, size_t len) {
    command *it = &commands[port][tag_of[port]];
    if (!it->is_busy || it->is_write || len > 512 * it->count - it->moved) fail("Data of nothing", tag_of[port]);
    memcpy(brought[port][tag_of[port]] + it->moved, bytes, len);
    it->moved += (uint32_t)len;
}

static void end(unsigned port, unsigned tag) {
    command *it = &commands[port][tag];
    uint8_t bytes[ROOM];
    if (!it->is_busy || it->moved != 512 * it->count) fail("a command ended early", tag);
    fill(bytes, port, it->lba, it->count);
    if (!it->is_write && memcmp(bytes, brought[port][tag], 512 * it->count)) fail("a read brought other bytes", tag);
    it->is_busy = 0;
    ended++;
}

static void hear(const uint8_t *fis, size_t len) {
    unsigned port = fis[1] & 15, tag;
    if (port == 15) return;
    if (port >= PORTS) fail("a FIS of no port", port);
    if (fis[0] != 0x46 && fis[0] != 0x39 && fis[2] & 1 && fis[0] != 0x41) fail("an error", fis[3]);
    if (fis[0] == 0x34) is_waiting[port] = 0;
    if (fis[0] == 0x46) take_data(port, fis + 4, len - 4);
    if (fis[0] == 0x39) send_data(port);
    if (fis[0] == 0x41) {
        tag_of[port] = fis[4] & 31;
        if (fis[1] & 0x80) send_data(port);
    }
    for (tag = 0; tag < TAGS && fis[0] == 0xA1; tag++)
        if (dword_at(fis + 4) >> tag & 1) end(port, tag);
}

/* ---- media -------------------------------------------------------------------------------------------------------- */

static struct {
    unsigned port;
    gef_event event;
} requests[2 * PORTS * TAGS];
static size_t request_count;

static void ask(unsigned port, const gef_event *event) {
    static uint8_t bytes[ROOM], wanted[ROOM];
    size_t len = 0;
    if (event->u.medium.lba + event->u.medium.count > SECTORS || event->u.medium.count > MOST_SECTORS) fail("other sectors", port);
    if (event->kind == GEF_EVENT_STORE) {
        must("stored", gef_disk_stored(&disks[port], &event->u.medium.request, 0, bytes, sizeof bytes, &len));
        fill(wanted, port, event->u.medium.lba, event->u.medium.count);
        if (len != 512 * (size_t)event->u.medium.count || memcmp(bytes, wanted, len)) fail("a store of other bytes", port);
    }
    if (request_count == sizeof requests / sizeof *requests) fail("too many requests", request_count);
    requests[request_count].port = port;
    requests[request_count++].event = *event;
}

static void answer(size_t number) {
    uint8_t bytes[ROOM];
    unsigned port = requests[number].port;
    gef_event event = requests[number].event;
    gef_status status;
    size_t len;
    requests[number] = requests[--request_count];
    fill(bytes, port, event.u.medium.lba, event.u.medium.count);
    if (event.kind == GEF_EVENT_LOAD)
        CALL(status, gef_disk_answer_loaded(&disks[port], &event.u.medium.request, bytes, 512 * (size_t)event.u.medium.count));
    else
        CALL(status, gef_disk_answer_done(&disks[port], &event.u.medium.request));
    must("an answer", status);
    if (gef_disk_answer_done(&disks[port], &event.u.medium.request) != GEF_NOT_OUT) fail("an answer that comes twice", port);
    if (event.kind == GEF_EVENT_STORE && gef_disk_stored(&disks[port], &event.u.medium.request, 0, bytes, sizeof bytes, &len) != GEF_NOT_OUT)
        fail("bytes of a store that was answered", port);
}

/* ---- what moves --------------------------------------------------------------------------------------------------- */

/* FISes that wait for their place. */
static struct {
    size_t len;
    uint8_t fis[GEF_FIS_ROOM];
} up[PORTS];

static int move_at(unsigned port) {
    static uint8_t fis[GEF_FIS_ROOM];
    size_t len;
    gef_event event;
    gef_status status;
    int has_moved = 0;
    if (gef_pm_to_device(&pm, (uint8_t)port, fis, sizeof fis, &len) == GEF_OK) {
        CALL(status, gef_disk_from_host(&disks[port], fis, len));
        must("from host", status);
        has_moved = 1;
    }
    CALL(status, gef_disk_next(&disks[port], &event));
    must("next", status);
    if (event.kind) ask(port, &event);
    if (!up[port].len) {
        CALL(status, gef_disk_to_host(&disks[port], up[port].fis, GEF_FIS_ROOM, &up[port].len));
        if (status != GEF_NOTHING) must("to host", status);
    }
    if (!up[port].len) return has_moved || event.kind;
    CALL(status, gef_pm_from_device(&pm, (uint8_t)port, up[port].fis, up[port].len));
    if (status == GEF_FULL) return has_moved || event.kind;
    must("from device", status);
    up[port].len = 0;
    return 1;
}

static int move(void) {
    static uint8_t fis[GEF_FIS_ROOM];
    uint8_t from;
    size_t len;
    unsigned port;
    gef_status status;
    int has_moved = 0;
    if (first < last) {
        CALL(status, gef_pm_from_host(&pm, outbox[first % 64].fis, outbox[first % 64].len));
        if (status != GEF_FULL) must("down", status);
        if (status == GEF_OK) first++, has_moved = 1;
    }
    for (port = 0; port < PORTS; port++) has_moved |= move_at(port);
    CALL(status, gef_pm_to_host(&pm, fis, sizeof fis, &len, &from));
    if (status == GEF_NOTHING) return has_moved;
    must("to host", status);
    hear(fis, len);
    return 1;
}

static void settle(void) {
    while (move()) continue;
}

static void settle_all(void) {
    for (settle(); request_count; settle()) answer(pick((uint32_t)request_count));
}

/* ---- scenes ------------------------------------------------------------------------------------------------------- */

static void write_register(unsigned port, uint8_t number, uint32_t value) {
    multiplier_fis(say(20), port, number, value);
    settle();
}

static void begin(void) {
    gef_disk_profile profile = {"ANY DISK", "1", "1", SECTORS, 0, 512, 1, TAGS, 0, GEF_LEAST_LIMIT};
    gef_status status;
    unsigned port;
    first = last = request_count = 0;
    memset(commands, 0, sizeof commands);
    memset(up, 0, sizeof up);
    CALL(status, gef_pm_new(&pm, PORTS));
    must("new", status);
    for (port = 0; port < PORTS; port++) {
        CALL(status, gef_disk_new(&disks[port], &profile));
        must("disk", status);
        must("plug", gef_disk_plug(&disks[port]));
        must("plug", gef_pm_plug(&pm, (uint8_t)port));
    }
    for (port = 0; port < PORTS; port++) {
        write_register(port, 2, 0);
        write_register(port, 1, 0xFFFFFFFFu);
    }
}

static void finish(void) {
    unsigned port, tag;
    settle_all();
    for (port = 0; port < PORTS; port++) {
        for (tag = 0; tag < TAGS; tag++)
            if (commands[port][tag].is_busy) fail("a command did not end", tag);
        must("free", gef_disk_free(&disks[port]));
    }
    must("free", gef_pm_free(&pm));
}

/* So many acts: a command with a free tag, a move, an answer. */
static void scene(unsigned acts) {
    unsigned port, tag;
    begin();
    for (; acts; acts--) {
        port = pick(PORTS);
        tag = pick(TAGS);
        switch (pick(4)) {
        case 0:
            if (!commands[port][tag].is_busy && !is_waiting[port] && last - first < 8)
                issue(port, tag, (int)pick(2), pick(SECTORS - MOST_SECTORS), 1 + pick(MOST_SECTORS));
            break;
        case 1:
            if (request_count) answer(pick((uint32_t)request_count));
            break;
        default: move(); break;
        }
    }
    finish();
}

static void play_refused(void) {
    unsigned long all, whole;
    refused = asked = ended = 0;
    state = 7;
    scene(400);
    all = asked;
    whole = ended;
    if (!whole) fail("nothing ended", 0);
    for (refused = 1; refused <= all; refused++) {
        asked = ended = 0;
        state = 7;
        scene(400);
        if (!ended) fail("another end where an allocation was refused", refused);
    }
    printf("%lu allocations refused, one at a time; %lu commands each\n", all, whole);
}

static void play_random(double seconds) {
    clock_t until = clock() + (clock_t)(seconds * CLOCKS_PER_SEC);
    unsigned long scenes = 0;
    do {
        scene(4000);
        scenes++;
    } while (clock() < until);
    printf("%lu scenes, %lu commands ended\n", scenes, ended);
    if (!ended) fail("nothing ended", scenes);
}

int main(int count, char **words) {
    if (count == 2 && !strcmp(words[1], "refused")) {
        play_refused();
    } else if (count == 3 && !strcmp(words[1], "random")) {
        play_random(strtod(words[2], 0));
    } else {
        return 2;
    }
    return 0;
}
