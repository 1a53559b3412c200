/*
 * A guest that keeps to the rules at its disks, beside others that do not, and an interpreter of all that passes the door (account.h).
 *
 *     account SECONDS [SEED]
 *     account lies            tells the interpreter of each kind of lie once; each must be noticed
 *
 * Lists of acts on a machine of one disk, or of four ports behind a multiplier: two disks that are used as a driver does, by queued,
 * DMA and PIO commands, with the write cache on and off; at a third port any commands; at the fourth a device that lies. Another processor
 * writes over what commands have in memory while the machine reads it. Media keep what
 * they were last told to, answer late, in any order, or by an error. Disks are pulled and plugged in, ports and the link are reset,
 * errors are recovered from, and the machine is saved and restored, now and again to an earlier moment. Build it with the
 * sanitizers. Status 1 where a sentence does not hold.
 */
#define _POSIX_C_SOURCE 200809L
#include <sys/wait.h>
#include <time.h>
#include <unistd.h>
#include "counted.h"

#define SLOT_BYTES 0x2000
#include "account.h"
#include "device.h"

enum { REQUESTS = 256, WILD_DISK = 2, LIAR = 3, GAP = 64 };
enum { SDE = 4, DEC = 2 }; /* of PxFBS: a device has an error; to clear it */

typedef struct {
    gef_event event;
    unsigned long asked;
    int is_stale;              /* something ended it, perhaps: its answer may be refused */
    uint32_t version[SECTORS]; /* of a store */
} request;

/* All that is not the machine's. */
static struct {
    request requests[REQUESTS];
    size_t count;
    uint32_t medium[PORTS][SECTORS];             /* versions */
    uint32_t busy;                               /* slots */
    uint32_t is_ready, is_in, is_alone, cache_on; /* ports: at work; plugged in; with a command that is not queued; its new cache */
    uint32_t is_quiet;                            /* ports where no queued command begins now */
    uint32_t failed_lba[PORTS];                  /* where a load or store failed last */
    unsigned ports;
    uint64_t tags[PORTS]; /* bit n: the queued command in slot n may be the one that failed */
} guest;

static uint32_t has_disk; /* bit n: a disk is at port n */
static unsigned long errors_seen, logs_seen, restores_seen, goings_back, lists_seen, races_seen;

/* What a machine or a medium might do wrong. Where one is set, it happens now and then. */
enum lie {
    NONE, OTHER_BYTE, ELSEWHERE, WRITTEN_TWICE, NOT_WRITTEN, ENDS_EARLY, STORES_OTHERS, STORES_BESIDE, STORE_NOT_DONE, FLUSH_NOT_DONE,
    MEDIUM_FORGETS, LOADED_BEFORE, LIES
};
static enum lie lie;

static int tells(enum lie it) {
    return lie == it && !pick(10);
}

/* ---- media ---------------------------------------------------------------------------------------------------------- */

static void ask(const gef_event *event) {
    static uint8_t bytes[2048 * 512];
    uint32_t count = event->u.medium.count, at;
    request *it = &guest.requests[guest.count];
    size_t len = 0;
    if (guest.count == REQUESTS) fail("too many requests", REQUESTS);
    it->event = *event;
    it->asked = tells(LOADED_BEFORE) ? 0 : account_asked();
    it->is_stale = !(guest.is_ready >> event->port & 1) || account.is_wild >> event->port & 1;
    guest.count++;
    if (event->kind != GEF_EVENT_LOAD && event->kind != GEF_EVENT_STORE) return;
    if (!count || event->u.medium.lba >= SECTORS || count > SECTORS - event->u.medium.lba) fail("a request past the end", count);
    if (event->kind != GEF_EVENT_STORE) return;
    must("stored", gef_machine_stored(&machine, &event->u.medium.request, 0, bytes, sizeof bytes, &len));
    if (len != 512 * (size_t)count) fail("a store has other bytes", (unsigned long)len);
    if (tells(STORES_OTHERS)) bytes[pick(512 * count)] ^= 4;
    for (at = 0; at < count && !(account.is_wild >> event->port & 1); at++)
        it->version[at] = account_storing(event->port, (uint32_t)event->u.medium.lba + at + tells(STORES_BESIDE), bytes + 512 * at);
}

/* The medium has the first sectors of a store. */
static void keep(const request *it, uint32_t count) {
    uint32_t at;
    for (at = 0; at < count && !tells(MEDIUM_FORGETS); at++) guest.medium[it->event.port][it->event.u.medium.lba + at] = it->version[at];
}

static gef_status answer_load(const request *it) {
    static uint8_t bytes[2048 * 512];
    uint32_t port = it->event.port, lba = (uint32_t)it->event.u.medium.lba, at;
    gef_status status;
    for (at = 0; at < it->event.u.medium.count; at++) fill_sector(bytes + 512 * at, port, lba + at, guest.medium[port][lba + at]);
    status = gef_machine_answer_loaded(&machine, &it->event.u.medium.request, bytes, 512 * (size_t)it->event.u.medium.count);
    for (at = 0; at < it->event.u.medium.count && status == GEF_OK; at++) account_loaded(port, lba + at, guest.medium[port][lba + at], it->asked);
    return status;
}

static gef_status answer_done(const request *it) {
    uint32_t at;
    gef_status status;
    if (it->event.kind == GEF_EVENT_STORE) keep(it, it->event.u.medium.count);
    status = gef_machine_answer_done(&machine, &it->event.u.medium.request);
    if (status != GEF_OK) return status;
    if (it->event.kind == GEF_EVENT_FLUSH && !tells(FLUSH_NOT_DONE)) account_flushed(it->event.port, it->asked);
    for (at = 0; at < it->event.u.medium.count && it->event.kind == GEF_EVENT_STORE && !tells(STORE_NOT_DONE); at++)
        account_stored(it->event.port, (uint32_t)it->event.u.medium.lba + at, it->version[at]);
    return status;
}

/* Commands at these ports are lost: the guest does not wait for them any more. */
static void lose(uint32_t ports) {
    size_t at;
    guest.is_ready &= ~ports;
    lose_commands(ports);
    for (at = 0; at < guest.count; at++)
        if (ports >> guest.requests[at].event.port & 1) guest.requests[at].is_stale = 1;
}

/* A request fails at one of its sectors; a store has done those before it. */
static gef_status answer_failed(const request *it) {
    uint32_t port = it->event.port, count = it->event.u.medium.count, before = count ? pick(count) : 0;
    uint32_t lba = (uint32_t)it->event.u.medium.lba + (it->event.kind == GEF_EVENT_FLUSH ? 0 : before);
    unsigned slot;
    guest.tags[port] = 0;
    guest.failed_lba[port] = lba;
    for (slot = 0; slot < SLOTS; slot++) {
        const command *one = &account.commands[slot];
        if (one->is_open && one->port == port && one->is_queued) guest.tags[port] |= (uint64_t)1 << slot;
    }
    if (it->event.kind == GEF_EVENT_STORE) keep(it, before);
    lose(1u << port);
    errors_seen++;
    return gef_machine_answer_failed(&machine, &it->event.u.medium.request, it->event.kind == GEF_EVENT_LOAD ? GEF_UNC : GEF_ABRT,
                                     it->event.kind == GEF_EVENT_FLUSH ? 0 : lba);
}

static void answer(size_t number, int may_fail) {
    request it = guest.requests[number];
    gef_status status;
    guest.requests[number] = guest.requests[--guest.count];
    if (may_fail && !it.is_stale && !pick(150))
        status = answer_failed(&it);
    else
        status = it.event.kind == GEF_EVENT_LOAD ? answer_load(&it) : answer_done(&it);
    if (status != GEF_OK && !(it.is_stale && (status == GEF_NOT_OUT || status == GEF_OTHER_DISK))) fail("an answer", status);
}

/* ---- what is to be done --------------------------------------------------------------------------------------------- */

/* Tells the interpreter of bytes that were written. */
static void tell_written(uint64_t at, size_t len) {
    if (at >= DATA && tells(OTHER_BYTE)) memory[at + pick((uint32_t)len)] ^= 1;
    if (at >= DATA && tells(NOT_WRITTEN)) return;
    if (tells(WRITTEN_TWICE)) account_lent(at, memory + at, len);
    account_lent(tells(ELSEWHERE) && at >= DATA ? at + SLOT_BYTES / 2 : at, memory + at, len);
}

static void do_event(const gef_event *event) {
    switch (event->kind) {
    case GEF_EVENT_READ_GUEST:
        read_guest(event);
        if (event->u.read.at <= MEMORY && event->u.read.len <= MEMORY - event->u.read.at)
            account_supplied(event->u.read.at, memory + event->u.read.at, event->u.read.len);
        break;
    case GEF_EVENT_WRITE_GUEST:
        write_guest(event);
        if (event->u.write.at > MEMORY || event->u.write.len > MEMORY - event->u.write.at) fail("a write past the memory", event->u.write.at);
        tell_written(event->u.write.at, event->u.write.len);
        break;
    case GEF_EVENT_TO_DEVICE: hear(event->port); break;
    case GEF_EVENT_BEGINS:
        if (has_device >> event->port & 1) send_signature(event->port);
        break;
    case GEF_EVENT_NOTHING:
    case GEF_EVENT_AGAIN:
    case GEF_EVENT_LINE:
    case GEF_EVENT_MESSAGE: break;
    default: ask(event); break;
    }
}

static int has_status; /* the guest may read registers */

/* Does one thing. The guest looks at its registers only when all that a FIS brings is written. */
static int step(void) {
    gef_event event;
    must("next", gef_machine_next(&machine, &event));
    do_event(&event);
    has_status = event.kind != GEF_EVENT_WRITE_GUEST && event.kind != GEF_EVENT_AGAIN;
    return event.kind != GEF_EVENT_NOTHING;
}

static void see_ends(void) {
    uint32_t left, slot;
    if (!has_status) return;
    left = read_register(SACT) | read_register(CI);
    if (tells(ENDS_EARLY)) left &= ~(1u << pick(SLOTS));
    for (slot = 0; slot < SLOTS; slot++) {
        const command *it = &account.commands[slot];
        uint32_t port = 1u << it->port;
        if (!it->is_open || left >> slot & 1) continue;
        if (!it->is_queued && guest.is_alone & port) {
            guest.is_alone &= ~port;
            if (!it->is_read && !it->is_write && !it->is_flush && !it->is_lost) account.cache = (account.cache & ~port) | (guest.cache_on & port);
        }
    }
    account_saw(left);
    guest.busy &= left;
}

/* ---- the guest's commands ------------------------------------------------------------------------------------------- */

/* The bytes of a command lie in one to three pieces. */
static unsigned put_places(unsigned slot, uint32_t bytes, uint32_t *at) {
    unsigned entries = 1 + pick(3), number;
    uint32_t from = data_of(slot), left = bytes;
    for (number = 0; number < entries && left; number++) {
        uint32_t len = number + 1 == entries ? left : 2 + 2 * pick(left / 2);
        put_entry(slot, number, from, len);
        at[number] = from;
        at[number + 4] = len;
        from += len + GAP;
        left -= len;
    }
    return number;
}

static void put_bytes(const uint32_t *at, unsigned entries, const uint8_t *bytes) {
    unsigned number;
    for (number = 0; number < entries; number++) {
        if (bytes) memcpy(memory + at[number], bytes, at[number + 4]);
        else memset(memory + at[number], 0xEE, at[number + 4]);
        if (bytes) bytes += at[number + 4];
    }
}

static void put_fis(uint8_t *fis, unsigned slot, uint8_t code, uint32_t lba, uint32_t count, int lasts) {
    if (code == 0x60 || code == 0x61) {
        queued_fis(fis, slot, code, lba, count);
        if (lasts) fis[7] |= 0x80;
        return;
    }
    plain_fis(fis, code, 0, (uint8_t)lba, (uint8_t)count);
}

/* A read or a write of a few sectors. */
static void move_sectors(unsigned slot, unsigned port, uint8_t code, int is_write) {
    uint8_t fis[20], bytes[MOST_BYTES];
    uint32_t count = 1 + pick(MOST), lba = pick(SECTORS - count), at[8], byte, version = is_write ? ++account.version : 0;
    unsigned entries = put_places(slot, 512 * count, at);
    for (byte = 0; byte < count; byte++) fill_sector(bytes + 512 * byte, port, lba + byte, version);
    put_bytes(at, entries, is_write ? bytes : 0);
    put_fis(fis, slot, code, lba, count, (int)pick(2));
    put_command(slot, port, fis, is_write, entries);
    guest.busy |= 1u << slot;
    account_issued(slot, port, version);
    issue(slot, port, (code & 0xFE) == 0x60);
}

static void order(unsigned slot, unsigned port, uint8_t code, uint8_t features) {
    uint8_t fis[20];
    put_fis(fis, slot, code, 0, 0, 0);
    fis[3] = features;
    put_command(slot, port, fis, 0, 0);
    guest.busy |= 1u << slot;
    account_issued(slot, port, 0);
    issue(slot, port, 0);
}

static unsigned commands_at(unsigned port) {
    unsigned slot, count = 0;
    for (slot = 0; slot < SLOTS; slot++) count += account.commands[slot].is_open && account.commands[slot].port == port;
    return count;
}

static void begin_any(unsigned slot, unsigned port) {
    static const uint8_t reads[6] = {0x25, 0xC8, 0x24, 0x20, 0x29, 0xC4}, writes[7] = {0x35, 0x3D, 0xCA, 0x34, 0x30, 0x39, 0xC5};
    if (guest.busy >> slot & 1 || !(guest.is_ready >> port & 1) || guest.is_alone >> port & 1) return;
    if (!pick(60)) guest.is_quiet ^= 1u << port;
    if (!(guest.is_quiet >> port & 1)) {
        int is_write = (int)pick(2);
        move_sectors(slot, port, is_write ? 0x61 : 0x60, is_write);
    } else if (!commands_at(port)) {
        guest.is_alone |= 1u << port;
        switch (pick(5)) {
        case 0:
        case 1: move_sectors(slot, port, reads[pick(6)], 0); break;
        case 2:
        case 3: move_sectors(slot, port, writes[pick(7)], 1); break;
        default:
            if (pick(2)) {
                order(slot, port, pick(2) ? 0xEA : 0xE7, 0);
            } else {
                int is_on = (int)pick(2);
                guest.cache_on = (guest.cache_on & ~(1u << port)) | (uint32_t)is_on << port;
                order(slot, port, 0xEF, is_on ? 0x02 : 0x82);
            }
        }
    }
}

/* Any command at a wild port, with places of its own. */
static void begin_wild(unsigned slot, unsigned port) {
    static const uint8_t codes[16] = {0x60, 0x61, 0x60, 0x61, 0x25, 0x35, 0xC8, 0xCA, 0x20, 0x30, 0xEC, 0x2F, 0x47, 0xEF, 0xEA, 0x06};
    uint8_t fis[20];
    uint32_t at[8];
    unsigned entries;
    if (guest.busy >> slot & 1) return;
    entries = put_places(slot, 2 + 2 * pick(2000), at);
    put_bytes(at, entries, 0);
    put_fis(fis, pick(32), codes[pick(16)], pick(SECTORS + 2), pick(10), (int)pick(2));
    if (!pick(4)) fis[pick(20)] = (uint8_t)pick(256);
    put_command(slot, port, fis, (int)pick(2), entries);
    guest.busy |= 1u << slot;
    account_issued(slot, port, 0);
    issue(slot, port, (fis[2] & 0xFE) == 0x60);
}

/*
 * Another processor writes over what a command has in memory, while the machine may be reading it: of a command of a wild port flags and
 * length of its header, its FIS, an entry of its table, or bytes; of a write at another port its bytes.
 */
static void race(unsigned slot) {
    const command *it = &account.commands[slot];
    uint8_t *header = memory + LIST + 32 * slot, *fis = memory + TABLES + TABLE * slot;
    unsigned what = is_wild(it) ? pick(4) : 3;
    if (!it->is_open || (!is_wild(it) && !it->is_write)) return;
    if (what == 0) header[0] = (uint8_t)pick(256), header[2] = (uint8_t)pick(ENTRIES + 1);
    if (what == 1) fis[2 + pick(18)] = (uint8_t)pick(256);
    if (what == 2) put_entry(slot, pick(3), data_of(slot) + 2 * pick(SLOT_BYTES / 4), 2 + 2 * pick(SLOT_BYTES / 4));
    if (what == 3) memory[data_of(slot) + pick(SLOT_BYTES)] ^= (uint8_t)(1 + pick(255));
    races_seen++;
}

/* ---- recovery ------------------------------------------------------------------------------------------------------- */

/* An order or a page in slot 0, with nothing beside it. Whether it ends: what a wild port does may stop the controller. */
static int ask_alone(unsigned port, uint8_t code, uint8_t features, uint8_t lba, uint8_t count, uint32_t bytes) {
    account_issued(0, port, 0);
    plain(port, code, features, lba, count, bytes, 0);
    while (guest.count && read_register(CI) & 1) {
        answer(pick((uint32_t)guest.count), 0);
        settle();
    }
    if (read_register(CI) & 1 && !guest.ports) fail("an order does not end", code);
    see_ends();
    return !account.commands[0].is_open;
}

/* The disk is told its mode, and what it must know for READ and WRITE MULTIPLE. */
static void prepare(unsigned port) {
    int is_on = (int)pick(2);
    ask_alone(port, 0xC6, 0, 0, 8, 0);
    if (!ask_alone(port, 0xEF, is_on ? 0x02 : 0x82, 0, 0, 0)) guest.is_ready &= ~(1u << port);
    account.cache = (account.cache & ~(1u << port)) | (uint32_t)is_on << port;
}

/* All begins anew. */
static void recover(void) {
    unsigned port;
    lose(0xFFFF);
    reset_link();
    forget_commands(0xFFFF);
    guest.busy = guest.is_alone = 0;
    memset(guest.tags, 0, sizeof guest.tags);
    write_register(IS, 0xFFFFFFFFu);
    bring_up(guest.ports);
    for (port = 0; port < PORTS; port++)
        if (guest.is_in & has_disk & ~account.is_wild & 1u << port) {
            guest.is_ready |= 1u << port;
            prepare(port);
        }
}

/* The log of the last queued error tells which command failed, and where. Whether it came. */
static int read_log(unsigned port) {
    const uint8_t *log = memory + data_of(0);
    uint32_t lba;
    if (read_register(CI) & 1) return 0;
    guest.is_ready |= 1u << port; /* what it asks for from now on counts */
    if (!ask_alone(port, 0x2F, 0, 0x10, 1, 512)) return 0;
    lba = log[4] | (uint32_t)log[5] << 8;
    if (log[0] & 0x80 || !(guest.tags[port] >> (log[0] & 31) & 1)) fail("a log tells of another command", log[0]);
    if (lba != guest.failed_lba[port]) fail("a log tells of another sector", lba);
    logs_seen++;
    guest.tags[port] = 0;
    return 1;
}

/* With FIS-based switching one device is recovered, and the others go on. */
static void recover_device(void) {
    uint32_t fbs = read_register(FBS), port = fbs >> 16 & 15;
    int was_queued;
    if (!(fbs & SDE) || port >= PORTS) return;
    was_queued = !(account.is_wild >> port & 1) && guest.tags[port];
    write_register(FBS, 1u | DEC | port << 8);
    write_register(IS, 0xFFFFFFFFu);
    settle();
    forget_commands(1u << port);
    guest.is_alone &= ~(1u << port);
    guest.busy &= read_register(SACT) | read_register(CI);
    if (account.is_wild >> port & 1 || !(guest.is_in >> port & 1)) return;
    if (!was_queued || read_log(port)) guest.is_ready |= 1u << port;
    else lose(1u << port);
}

static void recover_any(void) {
    settle();
    see_ends();
    if (is_command_based || !(read_register(FBS) & SDE)) {
        if (is_command_based || !pick(20)) recover();
    } else {
        recover_device();
    }
}

/* ---- pulled, reset, saved --------------------------------------------------------------------------------------------- */

/* A disk that is pulled stays at hand, and a store that it asked for is still out. */
static void pull_or_plug(unsigned port) {
    guest.tags[port] = 0;
    if (guest.is_in >> port & 1) {
        lose(1u << port);
        must("pull", gef_machine_pull(&machine, (uint8_t)port));
    } else {
        must("plug", gef_machine_plug(&machine, (uint8_t)port));
    }
    guest.is_in ^= 1u << port;
}

/* The device behind a port is reset by the multiplier. Its commands are gone. */
static void reset_port(unsigned port) {
    lose(1u << port);
    guest.tags[port] = 0;
    settle();
    if (read_register(CI) & 1) return;
    write_multiplier(port, 2, 1);
    open_port(port);
}

static void restore(const uint8_t *bytes, size_t len) {
    must("free", gef_machine_free(&machine));
    must("restore", gef_machine_restore(&machine, bytes, len));
    restores_seen++;
}

/* What a moment was, with all that is not the machine's. */
static struct {
    uint8_t *bytes, memory[MEMORY];
    size_t len;
    unsigned char guest[sizeof guest], account[sizeof account];
    uint32_t version;
} moment;

static void save_moment(void) {
    free(moment.bytes);
    moment.bytes = state_of(&moment.len);
    memcpy(moment.memory, memory, MEMORY);
    memcpy(moment.guest, &guest, sizeof guest);
    memcpy(moment.account, &account, sizeof account);
}

static void go_back(void) {
    uint32_t version = account.version;
    if (!moment.bytes) return;
    restore(moment.bytes, moment.len);
    memcpy(memory, moment.memory, MEMORY);
    memcpy(&guest, moment.guest, sizeof guest);
    memcpy(&account, moment.account, sizeof account);
    account.version = version; /* no version comes twice */
    goings_back++;
}

static void save_or_go_back(void) {
    uint8_t *bytes;
    size_t len;
    if (!has_status) return; /* what is lent would be written twice */
    switch (pick(3)) {
    case 0: save_moment(); break;
    case 1: go_back(); break;
    default:
        bytes = state_of(&len);
        restore(bytes, len);
        free(bytes);
    }
}

/* ---- lists ------------------------------------------------------------------------------------------------------------ */

static void begin(unsigned ports) {
    gef_disk_profile profile = {"ANY DISK", "1", "1", SECTORS, 0, 512, 1, 32, 1, GEF_LEAST_LIMIT};
    unsigned port, all = ports ? ports : 1;
    memset(&guest, 0, sizeof guest);
    memset(memory, 0, MEMORY);
    free(moment.bytes);
    moment.bytes = 0;
    guest.ports = ports;
    has_disk = has_device = 0;
    has_status = 1;
    begin_account(ports ? 1u << WILD_DISK | 1u << LIAR : 0);
    must("new", gef_machine_new(&machine, (uint8_t)ports, 0));
    for (port = 0; port < all; port++) {
        if (ports && port == LIAR) must("put", gef_machine_put_device(&machine, (uint8_t)port));
        else must("put", gef_machine_put_disk(&machine, (uint8_t)port, &profile));
        *(ports && port == LIAR ? &has_device : &has_disk) |= 1u << port;
        must("plug", gef_machine_plug(&machine, (uint8_t)port));
        guest.is_in |= 1u << port;
    }
    must("power", gef_machine_power_on(&machine));
    bring_up(ports);
    recover();
}

static void act(void) {
    unsigned disks = guest.ports ? 2 : 1, port = pick(disks), slot = 1 + pick(SLOTS - 1);
    uint8_t fis[GEF_FIS_ROOM];
    uint32_t waits = (guest.is_in & ((1u << disks) - 1)) & ~guest.is_ready;
    if (waits && !pick(40)) recover_any();
    if (!guest.is_ready && !pick(200)) recover();
    switch (pick(1000) ? pick(9) : 9 + pick(5)) {
    case 0:
    case 1:
    case 2: begin_any(slot, port); break;
    case 3:
    case 4:
        if (guest.count) answer(pick((uint32_t)guest.count), 1);
        break;
    case 5:
        if (guest.ports && !pick(4)) begin_wild(slot, pick(2) ? WILD_DISK : LIAR);
        if (guest.ports && !pick(4)) offer(LIAR, fis, any_fis(fis));
        if (!pick(4)) race(slot);
        break;
    case 9:
        if (guest.ports || guest.is_in) pull_or_plug(port);
        else must("plug", gef_machine_plug(&machine, 0)), guest.is_in = 1;
        break;
    case 10: recover(); break;
    case 11:
        if (guest.ports) reset_port(port);
        break;
    case 12: save_or_go_back(); break;
    case 13: write_register(IS, 0xFFFFFFFFu); break;
    default: step(); break;
    }
    see_ends();
}

static void play(unsigned ports, int by_commands) {
    unsigned at;
    is_command_based = by_commands;
    begin(ports);
    for (at = 0; at < 20000; at++) act();
    settle();
    see_ends();
    must("free", gef_machine_free(&machine));
    lists_seen++;
}

/* Each lie is noticed. */
static int play_lies(void) {
    int kind, status, at, missed = 0;
    for (kind = NONE + 1; kind < LIES; kind++) {
        pid_t child = fork();
        if (!child) {
            lie = (enum lie)kind;
            for (at = 0; at < 20; at++) play(PORTS, 0);
            exit(0);
        }
        if (child < 0 || waitpid(child, &status, 0) != child || !WIFEXITED(status) || WEXITSTATUS(status) != 1) {
            printf("lie %d is not noticed\n", kind);
            missed = 1;
        }
    }
    return missed;
}

int main(int count, char **words) {
    clock_t until;
    if (count == 2 && !strcmp(words[1], "lies")) return play_lies();
    if (count != 2 && count != 3) return 2;
    if (count == 3) state ^= strtoull(words[2], 0, 10) * 0x9E3779B97F4A7C15u;
    until = clock() + (clock_t)(strtod(words[1], 0) * CLOCKS_PER_SEC);
    do {
        play(0, (int)pick(2));
        play(PORTS, (int)pick(2));
    } while (clock() < until);
    printf("%lu lists, %lu calls of a machine; %lu reads, %lu writes and %lu flushes were seen to end, %lu bytes were brought\n", lists_seen,
           calls_seen, ended_reads, ended_writes, ended_flushes, bytes_brought);
    printf("%lu bytes were fetched again; another processor wrote %lu times; %lu errors, %lu logs; restored %lu times, %lu times to an earlier moment\n",
           fetched_again, races_seen, errors_seen, logs_seen, restores_seen, goings_back);
    if (!ended_reads || !ended_writes || !ended_flushes || !logs_seen || !goings_back) fail("nothing ended", lists_seen);
    return 0;
}
