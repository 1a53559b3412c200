/*
 * Makes calls from bytes, in any order, and looks after each that answers and lengths are what the header says.
 *
 *     fuzz SECONDS [FILE..]
 *
 * Plays each file, and then for so many seconds lists of calls that a generator makes. Status 1 where an answer is none
 * that the header allows; the input lies in fuzz-failed then. Build it with the sanitizers.
 */
#include <stdio.h>
#include <stdlib.h>
#include <string.h>
#include <time.h>
#include "gefsunk.h"

enum { LONGEST = 4096 };

static const uint8_t *input;
static size_t left;

static uint8_t next(void) {
    if (left == 0) return 0;
    left--;
    return *input++;
}

/* A FIS: one of the usual types and lengths, or any bytes. Its storage ends where it ends, so that a sanitizer sees. */
static uint8_t *fis_of(size_t *len) {
    static const uint8_t types[8] = {0x27, 0x34, 0xA1, 0x39, 0x41, 0x5F, 0x46, 0x00};
    static const uint8_t lengths[8] = {20, 20, 8, 4, 28, 20, 132, 64};
    uint8_t kind = next(), *fis;
    size_t at;
    *len = kind & 0x80 ? next() : lengths[kind & 7];
    fis = malloc(*len ? *len : 1);
    if (!fis) exit(2);
    for (at = 0; at < *len; at++) fis[at] = next();
    if (!(kind & 0x80)) fis[0] = types[kind & 7];
    if (kind & 0x40 && *len > 2) {
        fis[1] = 0x8F;
        fis[2] = 0xE8;
    }
    return fis;
}

static int allowed(gef_status status, uint32_t answers) {
    return (unsigned)status < 32 && (answers >> status & 1);
}

#define BIT(status) (1u << (status))

/* Those from 27 on, whose bits begin with that. */
#define AFTER(status) (1u << ((status) - GEF_PLUGGED_IN))

/* The same with statuses from 27 on, for a handle that is open. */
static int after(gef_status status, uint32_t answers, uint32_t open, uint32_t later) {
    return status < GEF_PLUGGED_IN ? allowed(status, answers) : open && status <= GEF_BAD_STATE && later >> (status - GEF_PLUGGED_IN) & 1;
}

/* Whether the answer of a call that frees is right; the handle is closed then. */
static int freed(gef_status status, int *is_open) {
    if (status != (*is_open ? GEF_OK : GEF_CLOSED)) return 0;
    *is_open = 0;
    return 1;
}

/* Whether a text has no byte that was there before, and comes where the room just holds it with its 0, but in none shorter. */
static int is_just(const uint8_t *fis, size_t len, const char *text, char before) {
    char room[GEF_TEXT_ROOM];
    size_t need = strlen(text) + 1;
    if (strchr(text, before) || gef_fis_text(fis, len, room, need) != GEF_OK || strcmp(room, text)) return 0;
    return gef_fis_text(fis, len, room, need - 1) == GEF_TOO_SHORT;
}

/* One call; 0 where its answer is none that the header allows. */
static int call(gef_pm *pm, int *is_open) {
    static uint8_t room[GEF_FIS_ROOM];
    char text[GEF_TEXT_ROOM];
    uint8_t what = next(), port = next() & 0x1F, from = 0xFF;
    uint32_t value, closed = *is_open ? 0 : BIT(GEF_CLOSED), open = *is_open ? ~0u : 0;
    size_t len = 0, room_len = next() & 1 ? sizeof room : next();
    gef_status status = GEF_OK;
    uint8_t *fis;
    int is_right;
    switch (what % 12) {
    case 0:
        status = room_len & 1 ? gef_pm_new_with_port_0_open(pm, port, what / 12) : gef_pm_new(pm, port);
        if (*is_open) return status == GEF_OPEN;
        *is_open = status == GEF_OK;
        return allowed(status, BIT(GEF_OK) | BIT(GEF_BAD_PORTS)) && (status == GEF_OK) == (port >= 1 && port <= 15);
    case 1:
        if (port & 0x1C) return 1;
        return freed(gef_pm_free(pm), is_open);
    case 2:
        status = gef_pm_plug(pm, port);
        return allowed(status, closed | (open & (BIT(GEF_OK) | BIT(GEF_NO_PORT) | BIT(GEF_ALREADY_THERE))));
    case 3:
        status = gef_pm_unplug(pm, port);
        return allowed(status, closed | (open & (BIT(GEF_OK) | BIT(GEF_NO_PORT) | BIT(GEF_NOT_THERE))));
    case 4:
    case 5:
        fis = fis_of(&len);
        status = gef_pm_from_host(pm, fis, len);
        free(fis);
        return allowed(status, closed | (open & (BIT(GEF_OK) | BIT(GEF_BAD_LENGTH) | BIT(GEF_FULL) | BIT(GEF_DROPPED))));
    case 6:
    case 7:
        fis = fis_of(&len);
        status = gef_pm_from_device(pm, port, fis, len);
        free(fis);
        return allowed(status, closed | (open & (BIT(GEF_OK) | BIT(GEF_NO_PORT) | BIT(GEF_NOT_THERE) | BIT(GEF_BAD_LENGTH)
                                                 | BIT(GEF_FULL) | BIT(GEF_DROPPED))));
    case 8:
        status = gef_pm_to_host(pm, room, room_len, &len, &from);
        if (status == GEF_OK && (len < 4 || len > room_len || from != (room[1] & 15))) return 0;
        return allowed(status, closed | (open & (BIT(GEF_OK) | BIT(GEF_TOO_SHORT) | BIT(GEF_NOTHING))));
    case 9:
        status = gef_pm_to_device(pm, port, room, room_len, &len);
        if (status == GEF_OK && (len < 4 || len > room_len || room[1] & 15)) return 0;
        return allowed(status, closed | (open & (BIT(GEF_OK) | BIT(GEF_NO_PORT) | BIT(GEF_TOO_SHORT) | BIT(GEF_NOTHING))));
    case 10:
        status = gef_pm_read(pm, port & 15, next(), &value);
        return allowed(status, closed | (open & (BIT(GEF_OK) | BIT(GEF_NO_PORT) | BIT(GEF_NO_REGISTER))));
    default:
        fis = fis_of(&len);
        room_len = room_len > sizeof text ? sizeof text : room_len;
        memset(text, 1, sizeof text);
        status = gef_fis_text(fis, len, text, room_len);
        is_right = !room_len || (strlen(text) < room_len && (status != GEF_OK || is_just(fis, len, text, 1)));
        free(fis);
        if (!is_right) return 0;
        return allowed(status, BIT(GEF_OK) | BIT(GEF_BAD_LENGTH) | BIT(GEF_WRONG_LENGTH) | BIT(GEF_TOO_SHORT))
            && (status != GEF_TOO_SHORT || room_len < GEF_TEXT_ROOM);
    }
}

/* ---- what disks ask ------------------------------------------------------------------------------------------------ */

/* Some events of a handle, of which one is answered. */
typedef struct {
    gef_event kept[4];
    unsigned count;
} asked;

static const gef_event *one_of(asked *events) {
    static gef_event none;
    return events->count ? &events->kept[next() % (events->count < 4 ? events->count : 4)] : &none;
}

/* A request as it was asked, or one byte besides. */
static gef_request request_of(const gef_event *event) {
    gef_request it = event->u.medium.request;
    uint8_t kind = next();
    if (kind < 0x20) ((uint8_t *)&it)[next() % sizeof it] ^= kind;
    return it;
}

/* A profile: mostly one that a disk can have. */
static gef_disk_profile any_profile(void) {
    static const char *const texts[4] = {"DISK", "", "01234567890123456789012345678901234567890", "\x01"};
    gef_disk_profile it = {"DISK", "1", "1", 64, 0, 512, 1, 32, 1, GEF_LEAST_LIMIT};
    uint8_t kind = next();
    it.trim = kind & 1;
    it.depth = 1 + (kind >> 1 & 31);
    if (kind & 0x40) it.sectors = 1 + next();
    if (!(kind & 0x80)) return it;
    it.model = texts[next() & 3];
    it.serial = texts[next() & 3];
    it.firmware = texts[next() & 3];
    it.sectors = (uint64_t)next() << (next() & 63);
    it.physical = next() & 1 ? 4096 : 512u + next();
    it.rotation = next();
    it.depth = next();
    it.limit = (uint32_t)next() << 16;
    return it;
}

static int is_text(const char *text, size_t most) {
    size_t at;
    for (at = 0; text[at]; at++)
        if (text[at] < 0x20 || text[at] > 0x7E || at == most) return 0;
    return 1;
}

/* Which refusals a profile can have; none of them means that the disk is made. */
static uint32_t faults(const gef_disk_profile *it) {
    uint32_t bits = 0;
    if (!is_text(it->model, 40) || !is_text(it->serial, 20) || !is_text(it->firmware, 8)) bits |= BIT(GEF_BAD_TEXT - 16);
    if (!it->sectors || it->sectors > 281474976710655u) bits |= BIT(GEF_BAD_SECTORS - 16);
    if (!it->depth || it->depth > 32) bits |= BIT(GEF_BAD_DEPTH - 16);
    if (it->rotation > 1 && (it->rotation < 1025 || it->rotation > 65534)) bits |= BIT(GEF_BAD_ROTATION - 16);
    if (it->physical != 512 && it->physical != 4096) bits |= BIT(GEF_BAD_PHYSICAL - 16);
    if (it->limit < GEF_LEAST_LIMIT) bits |= BIT(GEF_BAD_LIMIT - 16);
    return bits;
}

/* Whether a disk of this profile is made, or refused for what is wrong with it. */
static int made(gef_status status, const gef_disk_profile *it) {
    uint32_t bits = faults(it);
    return bits ? status >= GEF_BAD_SECTORS && status <= GEF_BAD_LIMIT && bits >> (status - 16) & 1 : status == GEF_OK;
}

/* Whether a request of a disk is one that the header allows. */
static int is_request(const gef_event *event) {
    uint64_t lba = event->u.medium.lba;
    uint32_t count = event->u.medium.count;
    if (event->kind < GEF_EVENT_LOAD || event->kind > GEF_EVENT_DISCARD) return 0;
    return event->kind >= GEF_EVENT_FLUSH || (count >= 1 && count <= 2048 && lba + count <= 281474976710655u);
}

/* ---- answers to disks ---------------------------------------------------------------------------------------------- */

static uint8_t bytes_of_sectors[2048 * 512];

/* Either of both handles calls, the one that is no null pointer. */
#define OF_EITHER(name, ...) (machine ? gef_machine_##name(machine, __VA_ARGS__) : gef_disk_##name(disk, __VA_ARGS__))

/* An answer to a request of a disk, or a look at it; 0 where what comes of it is none that the header allows. */
static int answer(gef_disk *disk, gef_machine *machine, asked *events, uint32_t closed, uint32_t open) {
    uint32_t other_disk = machine ? AFTER(GEF_OTHER_DISK) : 0, others = other_disk | AFTER(GEF_NOT_OUT) | AFTER(GEF_OTHER_KIND);
    const gef_event *event = one_of(events);
    gef_request request = request_of(event);
    uint8_t kind = next(), other;
    size_t len = 0, room = next() & 1 ? sizeof bytes_of_sectors : next();
    uint32_t good = closed | (open & BIT(GEF_OK));
    gef_range range;
    gef_status status;
    switch (kind % 6) {
    case 0:
        len = kind & 0x80 ? room : 512 * (size_t)event->u.medium.count;
        status = OF_EITHER(answer_loaded, &request, bytes_of_sectors, len);
        return after(status, good, open, others | AFTER(GEF_OTHER_LENGTH));
    case 1:
    case 2:
        status = OF_EITHER(answer_done, &request);
        return after(status, good, open, others);
    case 3:
        other = kind & 0x80 ? next() : GEF_ABRT;
        status = OF_EITHER(answer_failed, &request, other, event->u.medium.lba + (kind >> 6 & 1));
        return after(status, good, open, others | AFTER(GEF_BAD_ERROR) | AFTER(GEF_OTHER_SECTOR));
    case 4:
        other = next();
        status = OF_EITHER(stored, &request, other, bytes_of_sectors, room, &len);
        return len <= room && after(status, good, open, others);
    default:
        other = next() & 3;
        status = OF_EITHER(discarded, &request, other, &range);
        return after(status, good | (open & BIT(GEF_NOTHING)), open, other_disk | AFTER(GEF_NOT_OUT));
    }
}

/* ---- a disk -------------------------------------------------------------------------------------------------------- */

/* One call on a disk; 0 where its answer is none that the header allows. */
static int call_disk(gef_disk *disk, int *is_open, asked *events) {
    static uint8_t room[GEF_FIS_ROOM];
    uint8_t what = next(), kind = next();
    uint32_t closed = *is_open ? 0 : BIT(GEF_CLOSED), open = *is_open ? ~0u : 0;
    size_t len = 0, room_len = next() & 1 ? sizeof room : next();
    gef_disk_profile profile;
    gef_event event;
    gef_status status;
    uint8_t *fis;
    switch (what % 10) {
    case 0:
        profile = any_profile();
        status = gef_disk_new(disk, &profile);
        if (*is_open) return status == GEF_OPEN;
        *is_open = status == GEF_OK;
        return made(status, &profile);
    case 1:
        if (kind & 0x1C) return 1;
        return freed(gef_disk_free(disk), is_open);
    case 2: return allowed(gef_disk_plug(disk), closed | (open & BIT(GEF_OK)));
    case 3:
    case 4:
        fis = fis_of(&len);
        status = gef_disk_from_host(disk, fis, len);
        free(fis);
        return allowed(status, closed | (open & (BIT(GEF_OK) | BIT(GEF_BAD_LENGTH) | BIT(GEF_DROPPED))));
    case 5:
        status = gef_disk_to_host(disk, room, room_len, &len);
        if (status == GEF_OK && (len < 4 || len > room_len || room[1] & 15)) return 0;
        return allowed(status, closed | (open & (BIT(GEF_OK) | BIT(GEF_TOO_SHORT) | BIT(GEF_NOTHING))));
    case 6:
    case 7:
        status = gef_disk_next(disk, &event);
        if (status == GEF_OK && event.kind) events->kept[events->count++ % 4] = event;
        return allowed(status, closed | (open & BIT(GEF_OK))) && (status != GEF_OK || !event.kind || is_request(&event));
    default: return answer(disk, 0, events, closed, open);
    }
}

/* ---- a machine ----------------------------------------------------------------------------------------------------- */

/* The guest's memory: its command list, its received area and its tables lie anywhere in it. */
static uint8_t memory[0x4000];

static uint32_t value_of(uint8_t kind) {
    static const uint32_t values[8] = {0, 1, 0x11, 0x10, 0x20011, 0x301, 0xFFFFFFFFu, 0x400};
    uint32_t value = values[kind & 7];
    if (kind & 8) value = 1u << (next() & 31);
    if (kind & 16) value = next() | (uint32_t)next() << 8;
    return value;
}

/* A command in a slot: header, FIS and one entry of its table, most of it as it should be. */
static void put_command(uint8_t slot) {
    static const uint8_t codes[8] = {0x60, 0x61, 0xEC, 0x2F, 0xE8, 0x06, 0xEA, 0x35};
    uint8_t *header = memory + 0x400 + 32 * (slot & 31), *table = memory + 0x1000 + 256 * (slot & 31);
    uint8_t port = next() & 15, code = next();
    memset(header, 0, 32);
    header[0] = 5 | (code & 0x40);
    header[1] = (uint8_t)(port << 4);
    header[2] = next() & 1;
    header[9] = (uint8_t)(0x10 + (slot & 31));
    memset(table, 0, 20);
    table[0] = 0x27;
    table[1] = 0x80 | port;
    table[2] = codes[code & 7];
    table[3] = 1;
    table[4] = next();
    table[7] = 0x40;
    table[12] = table[2] == 0x60 || table[2] == 0x61 ? (uint8_t)(slot << 3) : 1;
    table[0x81] = 0x30;
    table[0x8C] = 0xFF;
    table[0x8D] = 1;
    if (code & 0x80) table[next() & 0x8F] = next();
}

/* A read of any width has the bytes that reads of dwords have. */
static int wide_read(gef_machine *machine, uint32_t offset, uint32_t width, int is_open) {
    uint32_t place, i, is_width = width == 1 || width == 2 || width == 4 || width == 8;
    uint64_t value = 2, wanted = 0, half[2] = {0, 0};
    gef_status status = gef_machine_read(machine, offset, width, &value);
    if (!is_open || !is_width) return status == (is_open ? GEF_BAD_WIDTH : GEF_CLOSED) && value == 2;
    if (gef_machine_read(machine, offset & ~7u, 4, &half[0]) || gef_machine_read(machine, (offset & ~7u) + 4, 4, &half[1])) return 0;
    for (i = 0; i < width && (offset & 7) + width <= 8; i++) {
        place = (offset & 7) + i;
        wanted |= (half[place >> 2] >> 8 * (place & 3) & 0xFF) << 8 * i;
    }
    return status == GEF_OK && value == wanted;
}

/* A write of registers. */
static int any_write(gef_machine *machine, uint8_t kind, uint32_t closed, uint32_t open) {
    static const uint16_t offsets[16] = {0x100, 0x104, 0x108, 0x10C, 0x110, 0x114, 0x118, 0x118,
                                         0x12C, 0x130, 0x134, 0x138, 0x138, 0x13C, 0x140, 4};
    uint32_t at = next(), width = kind & 0x40 ? next() % 10u : 4u;
    uint64_t value;
    int is_width = width == 1 || width == 2 || width == 4 || width == 8;
    gef_status status;
    at = at & 0xE0 ? offsets[at & 15] : at << (kind & 3);
    value = (uint64_t)value_of(next()) << (kind & 0x40 ? kind & 0x1F : 0);
    status = gef_machine_write(machine, at, width, value);
    return allowed(status, closed | (open & (is_width ? BIT(GEF_OK) : BIT(GEF_BAD_WIDTH))));
}

/* What is to be done is asked for, and done at once where it is of the guest's memory. */
static int next_of(gef_machine *machine, asked *events, uint32_t closed, uint32_t open) {
    static uint8_t room[8192];
    gef_event event;
    gef_status status = gef_machine_next(machine, &event);
    size_t len = 0;
    if (!allowed(status, closed | (open & BIT(GEF_OK)))) return 0;
    if (status != GEF_OK) return 1;
    switch (event.kind) {
    case GEF_EVENT_READ_GUEST:
        if (event.u.read.at > sizeof memory || event.u.read.len > sizeof memory - event.u.read.at)
            return gef_machine_no_memory(machine, &event.u.read.wanted) == GEF_OK;
        return gef_machine_supply(machine, &event.u.read.wanted, memory + event.u.read.at, event.u.read.len) == GEF_OK;
    case GEF_EVENT_WRITE_GUEST:
        if (gef_machine_lent(machine, room, sizeof room, &len) != GEF_OK || len != event.u.write.len) return 0;
        if (event.u.write.at <= sizeof memory && len <= sizeof memory - event.u.write.at) memcpy(memory + event.u.write.at, room, len);
        return 1;
    case GEF_EVENT_NOTHING:
    case GEF_EVENT_AGAIN:
    case GEF_EVENT_MESSAGE: return 1;
    case GEF_EVENT_LINE: return event.u.up <= 1;
    case GEF_EVENT_TO_DEVICE:
    case GEF_EVENT_BEGINS: return event.port < 15;
    default:
        events->kept[events->count++ % 4] = event;
        return event.port < 15 && is_request(&event);
    }
}

/* What is at the ports. */
static int call_ports(gef_machine *machine, uint8_t kind, uint32_t closed, uint32_t open) {
    static uint8_t room[GEF_FIS_ROOM];
    gef_disk_profile profile;
    uint8_t port = next() & 0x1F, *fis;
    size_t len = 0, room_len = kind & 0x40 ? next() : sizeof room;
    uint32_t usual = closed | (open & (BIT(GEF_OK) | BIT(GEF_NO_PORT)));
    gef_status status;
    switch (kind % 8) {
    case 0:
        profile = any_profile();
        status = gef_machine_put_disk(machine, port, &profile);
        if (allowed(status, closed | (open & (BIT(GEF_NO_PORT) | BIT(GEF_ALREADY_THERE))))) return 1;
        return open && made(status, &profile);
    case 1: return allowed(gef_machine_put_device(machine, port), usual | (open & BIT(GEF_ALREADY_THERE)));
    case 2:
        status = gef_machine_plug(machine, port);
        return after(status, usual | (open & (BIT(GEF_NOT_THERE) | BIT(GEF_SPENT))), open, AFTER(GEF_PLUGGED_IN));
    case 3: return allowed(gef_machine_power_on(machine), closed | (open & BIT(GEF_OK)));
    case 4: return allowed(gef_machine_pull(machine, port), usual | (open & BIT(GEF_NOT_THERE)));
    case 5:
        if (kind & 0x30) return 1;
        return allowed(gef_machine_remove(machine, port), usual | (open & BIT(GEF_NOT_THERE)));
    case 6:
        status = gef_machine_take_frame(machine, port, room, room_len, &len);
        if (status == GEF_OK && (len < 4 || len > room_len || room[1] & 15)) return 0;
        return allowed(status, closed | (open & (BIT(GEF_OK) | BIT(GEF_TOO_SHORT) | BIT(GEF_NOTHING))));
    default:
        fis = fis_of(&len);
        status = gef_machine_offer(machine, port, fis, len);
        free(fis);
        return allowed(status, closed | (open & (BIT(GEF_OK) | BIT(GEF_BAD_LENGTH) | BIT(GEF_FULL))));
    }
}

/* One call on a machine; 0 where its answer is none that the header allows. */
static int call_machine(gef_machine *machine, int *is_open, asked *events) {
    static uint8_t room[8192];
    uint8_t what = next(), kind = next(), ports;
    uint32_t closed = *is_open ? 0 : BIT(GEF_CLOSED), open = *is_open ? ~0u : 0;
    size_t len = 0, room_len = kind & 1 ? sizeof room : kind;
    gef_wanted wanted = {kind % 3u, kind % 34u, next(), 0};
    gef_status status;
    switch (what % 12) {
    case 0:
        ports = next() & 0x1F;
        status = gef_machine_new(machine, ports, kind & 1);
        if (*is_open) return status == GEF_OPEN;
        *is_open = status == GEF_OK;
        return status == (ports > 15 ? GEF_BAD_PORTS : GEF_OK);
    case 1:
        if (kind & 0x1C) return 1;
        return freed(gef_machine_free(machine), is_open);
    case 2: return wide_read(machine, (uint32_t)next() << (kind & 3), next() % 10u, *is_open);
    case 3: return any_write(machine, kind, closed, open);
    case 4:
    case 5: return call_ports(machine, kind, closed, open);
    case 6:
    case 7: return next_of(machine, events, closed, open);
    case 8:
        status = gef_machine_lent(machine, room, room_len, &len);
        if (status == GEF_OK && (!len || len > room_len)) return 0;
        return allowed(status, closed | (open & (BIT(GEF_OK) | BIT(GEF_NOTHING) | BIT(GEF_TOO_SHORT))));
    case 9:
        status = kind & 0x80 ? gef_machine_no_memory(machine, &wanted) : gef_machine_supply(machine, &wanted, room, room_len);
        return after(status, closed | (open & BIT(GEF_OK)), open, AFTER(GEF_NOT_WANTED));
    case 10: return answer(0, machine, events, closed, open);
    default: put_command(kind); return 1;
    }
}

/* ---- handles and pointers ------------------------------------------------------------------------------------------ */

/* A handle of another kind is found out, and stays as it was. */
static int crossed(gef_pm *pm, gef_disk *disk, gef_machine *machine) {
    gef_pm as_pm;
    gef_disk as_disk;
    gef_machine as_machine;
    uint64_t value;
    memcpy(&as_pm, disk, sizeof as_pm);
    memcpy(&as_disk, machine, sizeof as_disk);
    memcpy(&as_machine, pm, sizeof as_machine);
    if (gef_pm_plug(&as_pm, 0) != GEF_CLOSED || gef_pm_free(&as_pm) != GEF_CLOSED) return 0;
    if (gef_disk_plug(&as_disk) != GEF_CLOSED || gef_disk_free(&as_disk) != GEF_CLOSED) return 0;
    if (gef_machine_read(&as_machine, 0, 4, &value) != GEF_CLOSED || gef_machine_free(&as_machine) != GEF_CLOSED) return 0;
    memcpy(disk, &as_pm, sizeof *disk);
    memcpy(machine, &as_disk, sizeof *machine);
    memcpy(pm, &as_machine, sizeof *pm);
    return 1;
}

/* What calls said that each had one null pointer. */
static int are_null(const char *of, const gef_status *said, size_t count) {
    size_t at;
    for (at = 0; at < count; at++)
        if (said[at] != GEF_NULL) return printf("call %u of %s with a null pointer: %s\n", (unsigned)at, of, gef_status_text(said[at])), 0;
    return 1;
}

static int nulls_of_pm(void) {
    gef_pm pm = GEF_PM_CLOSED;
    uint8_t bytes[GEF_FIS_ROOM] = {0}, port;
    char text[GEF_TEXT_ROOM];
    uint32_t value;
    size_t len;
    const gef_status said[] = {
        gef_pm_new(0, 1), gef_pm_new_with_port_0_open(0, 1, 1), gef_pm_free(0), gef_pm_plug(0, 0), gef_pm_unplug(0, 0),
        gef_pm_from_host(0, bytes, 20), gef_pm_from_host(&pm, 0, 0), gef_pm_from_device(0, 0, bytes, 20),
        gef_pm_from_device(&pm, 0, 0, 20), gef_pm_to_host(0, bytes, sizeof bytes, &len, &port),
        gef_pm_to_host(&pm, 0, 0, &len, &port), gef_pm_to_host(&pm, bytes, sizeof bytes, 0, &port),
        gef_pm_to_host(&pm, bytes, sizeof bytes, &len, 0), gef_pm_to_device(0, 0, bytes, sizeof bytes, &len),
        gef_pm_to_device(&pm, 0, 0, 0, &len), gef_pm_to_device(&pm, 0, bytes, sizeof bytes, 0), gef_pm_read(0, 0, 0, &value),
        gef_pm_read(&pm, 0, 0, 0), gef_pm_dropped(0, &value), gef_pm_dropped(&pm, 0), gef_fis_text(0, 0, text, 1),
        gef_fis_text(bytes, 20, 0, 0),
    };
    return are_null("a multiplier", said, sizeof said / sizeof *said);
}

/* Profiles that lack a text each, in the order of the texts. */
static gef_disk_profile textless(unsigned text) {
    gef_disk_profile profile = {"A", "B", "C", 1, 0, 512, 0, 32, 0, GEF_LEAST_LIMIT};
    if (text == 0) profile.model = 0;
    if (text == 1) profile.serial = 0;
    if (text == 2) profile.firmware = 0;
    return profile;
}

static int nulls_of_disk(void) {
    gef_disk disk = GEF_DISK_CLOSED;
    const gef_disk_profile model = textless(0), serial = textless(1), firmware = textless(2), whole = textless(3);
    gef_request request = {0};
    gef_event event;
    gef_range range;
    uint8_t bytes[GEF_FIS_ROOM] = {0};
    size_t len;
    const gef_status said[] = {
        gef_disk_new(0, &whole), gef_disk_new(&disk, 0), gef_disk_new(&disk, &model), gef_disk_new(&disk, &serial),
        gef_disk_new(&disk, &firmware), gef_disk_free(0), gef_disk_plug(0), gef_disk_from_host(0, bytes, 20),
        gef_disk_from_host(&disk, 0, 0), gef_disk_to_host(0, bytes, sizeof bytes, &len), gef_disk_to_host(&disk, 0, 0, &len),
        gef_disk_to_host(&disk, bytes, sizeof bytes, 0), gef_disk_next(0, &event), gef_disk_next(&disk, 0),
        gef_disk_answer_loaded(0, &request, bytes, 512), gef_disk_answer_loaded(&disk, 0, bytes, 512),
        gef_disk_answer_loaded(&disk, &request, 0, 0), gef_disk_answer_done(0, &request), gef_disk_answer_done(&disk, 0),
        gef_disk_answer_failed(0, &request, GEF_ABRT, 0), gef_disk_answer_failed(&disk, 0, GEF_ABRT, 0),
        gef_disk_stored(0, &request, 0, bytes, 0, &len), gef_disk_stored(&disk, 0, 0, bytes, 0, &len),
        gef_disk_stored(&disk, &request, 0, 0, 0, &len), gef_disk_stored(&disk, &request, 0, bytes, 0, 0),
        gef_disk_discarded(0, &request, 0, &range), gef_disk_discarded(&disk, 0, 0, &range),
        gef_disk_discarded(&disk, &request, 0, 0),
    };
    return are_null("a disk", said, sizeof said / sizeof *said);
}

static int nulls_of_machine(void) {
    gef_machine machine = GEF_MACHINE_CLOSED;
    const gef_disk_profile model = textless(0), serial = textless(1), firmware = textless(2), whole = textless(3);
    gef_wanted wanted = {1, 0, 0, 0};
    gef_event event;
    uint8_t bytes[GEF_FIS_ROOM] = {0};
    uint64_t value;
    size_t len;
    const gef_status said[] = {
        gef_machine_new(0, 0, 0), gef_machine_free(0), gef_machine_read(0, 0, 4, &value), gef_machine_read(&machine, 0, 4, 0),
        gef_machine_write(0, 0, 4, 0), gef_machine_put_disk(0, 0, &whole), gef_machine_put_disk(&machine, 0, 0),
        gef_machine_put_disk(&machine, 0, &model), gef_machine_put_disk(&machine, 0, &serial),
        gef_machine_put_disk(&machine, 0, &firmware), gef_machine_put_device(0, 0), gef_machine_plug(0, 0), gef_machine_power_on(0),
        gef_machine_pull(0, 0), gef_machine_remove(0, 0), gef_machine_next(0, &event), gef_machine_next(&machine, 0),
        gef_machine_lent(0, bytes, sizeof bytes, &len), gef_machine_lent(&machine, 0, 0, &len),
        gef_machine_lent(&machine, bytes, 0, 0), gef_machine_supply(0, &wanted, bytes, 1),
        gef_machine_supply(&machine, 0, bytes, 0), gef_machine_supply(&machine, &wanted, 0, 0), gef_machine_no_memory(0, &wanted),
        gef_machine_no_memory(&machine, 0), gef_machine_take_frame(0, 0, bytes, sizeof bytes, &len),
        gef_machine_take_frame(&machine, 0, 0, 0, &len), gef_machine_take_frame(&machine, 0, bytes, sizeof bytes, 0),
        gef_machine_offer(0, 0, bytes, 20), gef_machine_offer(&machine, 0, 0, 0), gef_machine_state_size(0, &len),
        gef_machine_state_size(&machine, 0), gef_machine_save(0, bytes, sizeof bytes, &len), gef_machine_save(&machine, 0, 0, &len),
        gef_machine_save(&machine, bytes, sizeof bytes, 0), gef_machine_restore(0, bytes, 8), gef_machine_restore(&machine, 0, 0),
    };
    return are_null("a machine", said, sizeof said / sizeof *said);
}

static int nulls_of_media(void) {
    gef_machine machine = GEF_MACHINE_CLOSED;
    gef_request request = {0};
    gef_range range;
    uint8_t bytes[512] = {0};
    size_t len;
    const gef_status said[] = {
        gef_machine_answer_loaded(0, &request, bytes, 512), gef_machine_answer_loaded(&machine, 0, bytes, 512),
        gef_machine_answer_loaded(&machine, &request, 0, 0), gef_machine_answer_done(0, &request),
        gef_machine_answer_done(&machine, 0), gef_machine_answer_failed(0, &request, GEF_ABRT, 0),
        gef_machine_answer_failed(&machine, 0, GEF_ABRT, 0), gef_machine_stored(0, &request, 0, bytes, 0, &len),
        gef_machine_stored(&machine, 0, 0, bytes, 0, &len), gef_machine_stored(&machine, &request, 0, 0, 0, &len),
        gef_machine_stored(&machine, &request, 0, bytes, 0, 0), gef_machine_discarded(0, &request, 0, &range),
        gef_machine_discarded(&machine, 0, 0, &range), gef_machine_discarded(&machine, &request, 0, 0),
    };
    return are_null("the media of a machine", said, sizeof said / sizeof *said);
}

/* A null pointer is found out by each call that has one, each alone, even where a length is 0. */
static int nulls(void) {
    return nulls_of_pm() && nulls_of_disk() && nulls_of_machine() && nulls_of_media();
}

/* Plays a list of calls; 0 where one answers what it may not. */
static int play(const uint8_t *bytes, size_t len) {
    gef_pm pm = GEF_PM_CLOSED;
    gef_disk disk = GEF_DISK_CLOSED;
    gef_machine machine = GEF_MACHINE_CLOSED;
    int pm_open = 0, disk_open = 0, machine_open = 0, fits = 1;
    static asked of_disk, of_machine;
    of_disk.count = of_machine.count = 0;
    memset(memory, 0, sizeof memory);
    input = bytes;
    left = len;
    while (left && fits) {
        uint8_t kind = *input;
        if (kind >= 0x80) next();
        if (kind >= 0xC0)
            fits = call_machine(&machine, &machine_open, &of_machine);
        else if (kind >= 0x80)
            fits = kind & 0x1F ? call_disk(&disk, &disk_open, &of_disk) : crossed(&pm, &disk, &machine);
        else
            fits = call(&pm, &pm_open);
    }
    gef_pm_free(&pm);
    gef_disk_free(&disk);
    gef_machine_free(&machine);
    return fits;
}

static int play_file(const char *name) {
    static uint8_t bytes[LONGEST];
    FILE *file = fopen(name, "rb");
    size_t len;
    if (!file) {
        perror(name);
        return 0;
    }
    len = fread(bytes, 1, sizeof bytes, file);
    fclose(file);
    if (play(bytes, len)) return 1;
    printf("%s: an answer that the header does not allow\n", name);
    return 0;
}

int main(int count, char **words) {
    static uint8_t bytes[LONGEST];
    uint32_t state = 2463534242u;
    unsigned long lists = 0;
    time_t end;
    int word;
    FILE *file;
    if (count < 2) return 2;
    if (!nulls()) return 1;
    for (word = 2; word < count; word++)
        if (!play_file(words[word])) return 1;
    end = time(0) + atoi(words[1]);
    while (time(0) < end) {
        size_t len, at;
        state ^= state << 13, state ^= state >> 17, state ^= state << 5;
        len = state % LONGEST;
        for (at = 0; at < len; at++) {
            state ^= state << 13, state ^= state >> 17, state ^= state << 5;
            bytes[at] = (uint8_t)(state >> 24);
        }
        if (len > 3) bytes[0] = 0, bytes[1] = (uint8_t)(1 + bytes[1] % 15);
        lists++;
        if (!play(bytes, len)) {
            file = fopen("fuzz-failed", "wb");
            if (file) fwrite(bytes, 1, len, file), fclose(file);
            printf("list %lu: an answer that the header does not allow; see fuzz-failed\n", lists);
            return 1;
        }
    }
    printf("%lu lists of calls\n", lists);
    return 0;
}
