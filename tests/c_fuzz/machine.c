/*
 * A guest that drives a machine (gef_machine).
 *
 *     machine refused           plays a scene again and again, and refuses memory once each time: at the first allocation, at the
 *                               second, and so on. A call that says so is made again; guest and media must end as if it had
 *                               been given. Then all memory is refused before each event: that is told.
 *     machine errors            plays a list in which a disk asks for sectors between the error of another command and the FIS that
 *                               says so: they are wanted no more then, but a store is out until it is answered.
 *     machine power             has power come to the disks while the bytes of a read are written: the rest of them comes.
 *     machine random SECONDS    plays lists of acts, while disks are pulled, plugged in and removed, and media answer late, in any
 *                               order, wrongly or never. In half of the lists the guest keeps to the rules: each sector has bytes
 *                               of its own, which each read that ends must have brought, to its places and nowhere else. In the
 *                               others it writes any register and any memory, and nothing may fail but what the header names. At any
 *                               moment the machine is saved, freed and restored, and goes on. States of which some bytes are
 *                               others are refused, or give a machine that is played with any answers.
 *
 * Link it with -Wl,--wrap=malloc,--wrap=realloc, and build it with the sanitizers. Status 1 where something is not so.
 */
#include <stdlib.h>
#include <time.h>
#include "counted.h"
#include "refusing.h"

#define SLOT_BYTES 0x2000
#include "driver.h"
#include "media.h"
#include "device.h"

/* ---- events ------------------------------------------------------------------------------------------------------- */

static int may_be_written(uint64_t at, size_t len);

static gef_event next_event(void) {
    gef_event event;
    gef_status status;
    CALL(status, gef_machine_next(&machine, &event));
    must("next", status);
    return event;
}

/* What an event says is done. */
static void do_event(const gef_event *event) {
    switch (event->kind) {
    case GEF_EVENT_READ_GUEST: read_guest(event); break;
    case GEF_EVENT_WRITE_GUEST:
        if (is_honest && !may_be_written(event->u.write.at, event->u.write.len)) fail("a write elsewhere", (unsigned long)event->u.write.at);
        write_guest(event);
        break;
    case GEF_EVENT_LINE:
        if (event->u.up == line || event->u.up > 1) fail("a line that stays", event->u.up);
        line = event->u.up;
        break;
    case GEF_EVENT_TO_DEVICE: hear(event->port); break;
    case GEF_EVENT_BEGINS:
        if (event->port >= PORTS || !((has_disk | has_device) & is_in & 1u << event->port)) fail("nothing begins anew", event->port);
        if (has_device >> event->port & 1) send_signature(event->port);
        break;
    case GEF_EVENT_NOTHING:
    case GEF_EVENT_AGAIN:
    case GEF_EVENT_MESSAGE: break;
    default:
        if (event->kind > GEF_EVENT_DISCARD) fail("an unknown event", event->kind);
        ask(event);
        break;
    }
}

static int step(void) {
    gef_event event = next_event();
    do_event(&event);
    return event.kind != GEF_EVENT_NOTHING;
}

/* All requests are answered, until nothing is asked any more. */
static void settle_all(void) {
    settle();
    while (request_count) {
        answer(0, 0);
        settle();
    }
}

#define NAME 0x5000C50012345678u /* the world wide name of each disk */

static void put(unsigned port, int is_device) {
    gef_disk_profile profile = {"ANY DISK", "1", "1", SECTORS, NAME, 512, 1, 32, 1, GEF_LEAST_LIMIT};
    gef_status status;
    if (is_device)
        status = gef_machine_put_device(&machine, (uint8_t)port);
    else
        CALL(status, gef_machine_put_disk(&machine, (uint8_t)port, &profile));
    must("put", status);
    if (is_device) has_device |= 1u << port;
    else has_disk |= 1u << port;
}

static void plug(unsigned port) {
    must("plug", gef_machine_plug(&machine, (uint8_t)port));
    is_in |= 1u << port;
}

static void begin(unsigned ports, uint32_t devices) {
    gef_status status;
    unsigned port, all = ports ? ports : 1;
    size_t at;
    for (at = 0; at < MEMORY; at++) memory[at] = (uint8_t)(at * 7 + at / 251);
    request_count = 0;
    line = has_disk = has_device = is_in = is_ending = 0;
    CALL(status, gef_machine_new(&machine, (uint8_t)ports, 0));
    must("new", status);
    for (port = 0; port < all; port++) {
        put(port, devices >> port & 1);
        plug(port);
    }
    must("power", gef_machine_power_on(&machine));
}

/* ---- saved and restored ------------------------------------------------------------------------------------------- */

static unsigned long saved_seen, states_refused, states_taken, unknown_asked; /* the last: what was asked of media by unknown machines */

/* Bytes that are no state are refused by what is wrong with them. */
static void refuse_damaged(uint8_t *state, size_t len) {
    state[0] ^= 1;
    if (gef_machine_restore(&machine, state, len) != GEF_NOT_A_STATE) fail("a state with another mark", (unsigned long)len);
    state[0] ^= 1, state[8] ^= 1;
    if (gef_machine_restore(&machine, state, len) != GEF_OTHER_VERSION) fail("a state of another version", (unsigned long)len);
    state[8] ^= 1;
    if (gef_machine_restore(&machine, state, len - 8) != GEF_BAD_STATE) fail("a state that ends too early", (unsigned long)len);
}

/* The machine is saved and freed; the one that is restored has the same state, and goes on. */
static void save_and_restore(void) {
    size_t len, again;
    uint8_t *one = state_of(&len), *other;
    gef_status status;
    if (gef_machine_restore(&machine, one, len) != GEF_OPEN) fail("restored over another", 0);
    must("free", gef_machine_free(&machine));
    refuse_damaged(one, len);
    CALL(status, gef_machine_restore(&machine, one, len));
    must("restore", status);
    other = state_of(&again);
    if (len != again || memcmp(one, other, len)) fail("a restored machine is another one", (unsigned long)again);
    free(one);
    free(other);
    saved_seen++;
}

/* Some bytes of a state become others, or it ends early, or goes on. */
static size_t damage(uint8_t *bytes, size_t len, size_t room) {
    uint32_t count = 1 + pick(4), at;
    uint64_t word;
    if (!pick(8)) return len < room && pick(2) ? len + 8 * pick((uint32_t)((room - len) / 8 + 1)) : pick((uint32_t)len);
    for (; count; count--) {
        at = 8 * pick((uint32_t)(len / 8));
        memcpy(&word, bytes + at, 8);
        word = pick(2) ? word ^ (uint64_t)1 << pick(64) : pick(2) ? pick(40) : word + pick(5) - 2;
        memcpy(bytes + at, &word, 8);
    }
    return len;
}

/* A machine of which nothing is known does something. */
static void play_unknown(void) {
    static uint8_t bytes[2048 * 512], room[GEF_FIS_ROOM];
    unsigned at;
    size_t len;
    gef_event event;
    gef_range range;
    for (at = 0; at < 200; at++) {
        const gef_request *request = &event.u.medium.request;
        if (!pick(4)) gef_machine_write(&machine, pick(0x200), 4, pick(2) ? pick(MEMORY) : 1u << pick(32));
        if (gef_machine_next(&machine, &event) != GEF_OK) continue;
        unknown_asked += event.kind >= GEF_EVENT_LOAD && event.kind <= GEF_EVENT_DISCARD;
        switch (event.kind) {
        case GEF_EVENT_READ_GUEST:
            if (event.u.read.len <= sizeof bytes && pick(4)) gef_machine_supply(&machine, &event.u.read.wanted, bytes, event.u.read.len);
            else gef_machine_no_memory(&machine, &event.u.read.wanted);
            break;
        case GEF_EVENT_WRITE_GUEST: gef_machine_lent(&machine, room, sizeof room, &len); break;
        case GEF_EVENT_LOAD:
            if (event.u.medium.count <= 2048 && pick(4)) gef_machine_answer_loaded(&machine, request, bytes, 512 * (size_t)event.u.medium.count);
            else gef_machine_answer_failed(&machine, request, GEF_UNC, event.u.medium.lba);
            break;
        case GEF_EVENT_STORE: gef_machine_stored(&machine, request, pick(600), bytes, sizeof bytes, &len); /* fall through */
        case GEF_EVENT_FLUSH: gef_machine_answer_done(&machine, request); break;
        case GEF_EVENT_DISCARD:
            gef_machine_discarded(&machine, request, pick(4), &range);
            gef_machine_answer_done(&machine, request);
            break;
        case GEF_EVENT_TO_DEVICE: gef_machine_take_frame(&machine, (uint8_t)event.port, room, sizeof room, &len); break;
        default: break;
        }
    }
}

/* A state of which some bytes are others is refused, or is that of a machine of which nothing is known. */
static void play_damaged(const uint8_t *state, size_t len) {
    size_t room = len + 64, now;
    uint8_t *bytes = malloc(room);
    gef_status status;
    if (!bytes) fail("no memory for a state", (unsigned long)room);
    memset(bytes, 0, room);
    memcpy(bytes, state, len);
    now = damage(bytes, len, room);
    CALL(status, gef_machine_restore(&machine, bytes, now));
    if (status == GEF_OK) {
        states_taken++;
        play_unknown();
        must("free", gef_machine_free(&machine));
    } else {
        states_refused++;
        if (status != GEF_NOT_A_STATE && status != GEF_OTHER_VERSION && status != GEF_BAD_STATE) fail("a damaged state", status);
    }
    free(bytes);
}

/* ---- the honest guest --------------------------------------------------------------------------------------------- */

/* The command of a slot. Its bytes lie in two pieces, the first of so many. */
typedef struct {
    int is_busy, is_write, is_lost; /* lost: something ended it, and nothing is known of it until the link is reset */
    uint32_t port, lba, count, first;
} slot;

enum { GAP = 64 };

static slot slots[SLOTS];
static uint32_t is_ready; /* bit n: a disk is at port n, and its port is open */
static unsigned long reads_seen, writes_seen;

/* Where a slot's byte lies. */
static uint8_t *place(uint32_t number, uint32_t byte) {
    return memory + data_of(number) + byte + (byte < slots[number].first ? 0 : GAP);
}

/* Bytes go to the received area, to a slot's PRDBC, and to the pieces of a read; slot 0 is that of other commands. */
static int may_be_written(uint64_t at, size_t len) {
    uint64_t end = at + len;
    uint32_t number;
    if (at >= AREA && end <= AREA + 0x1000) return 1;
    if (at >= data_of(0) && end <= data_of(0) + 512) return 1;
    for (number = 0; number < SLOTS; number++) {
        uint64_t data = data_of(number), first = slots[number].first, all = 512 * (uint64_t)slots[number].count;
        if (at == LIST + 32 * number + 4 && len == 4) return 1;
        if (!slots[number].is_busy || slots[number].is_write) continue;
        if (at >= data && end <= data + first) return 1;
        if (at >= data + first + GAP && end <= data + GAP + all) return 1;
    }
    return 0;
}

static void queue(uint32_t number, uint32_t port, int is_write, uint32_t lba, uint32_t count) {
    uint8_t fis[20], sector[512];
    slot it = {1, 0, 0, 0, 0, 0, 0};
    uint32_t byte;
    it.is_write = is_write;
    it.port = port;
    it.lba = lba;
    it.count = count;
    it.first = 2 + 2 * pick(256 * count - 2);
    slots[number] = it;
    for (byte = 0; byte < 512 * count; byte++) {
        if (byte % 512 == 0) fill_sector(sector, port, lba + byte / 512, 0);
        *place(number, byte) = is_write ? sector[byte % 512] : 0xEE;
    }
    queued_fis(fis, number, is_write ? 0x61 : 0x60, lba, count);
    put_command(number, port, fis, is_write, 2);
    put_entry(number, 0, data_of(number), it.first);
    put_entry(number, 1, data_of(number) + it.first + GAP, 512 * count - it.first);
    issue(number, port, 1);
}

/* A read that ended brought the bytes of its sectors. */
static void look(uint32_t number) {
    const slot *it = &slots[number];
    uint8_t sector[512];
    uint32_t byte;
    for (byte = 0; byte < 512 * it->count; byte++) {
        if (byte % 512 == 0) fill_sector(sector, it->port, it->lba + byte / 512, 0);
        if (*place(number, byte) != sector[byte % 512]) fail("a read brought other bytes", number);
    }
}

static void look_at_slots(void) {
    uint32_t left = read_register(SACT) | read_register(CI), number;
    for (number = 1; number < SLOTS; number++) {
        if (!slots[number].is_busy || slots[number].is_lost || left >> number & 1) continue;
        look(number);
        slots[number].is_busy = 0;
        slots[number].is_write ? writes_seen++ : reads_seen++;
    }
}

/* What is under way at these ports is lost. */
static void lose(uint32_t ports) {
    uint32_t number;
    outdate(ports);
    is_ready &= ~ports;
    is_ending |= ports;
    for (number = 1; number < SLOTS; number++)
        if (ports >> slots[number].port & 1) slots[number].is_lost = 1;
}

static void recover(unsigned ports) {
    lose(0xFFFF);
    reset_link();
    memset(slots, 0, sizeof slots);
    bring_up(ports);
    is_ready = is_in & has_disk;
    is_ending = 0;
}

/* A device that lies, or any answer but an error, disturbs no other port; an error ends all commands of its disk. */
static void answer_any(void) {
    size_t number;
    uint32_t port;
    if (!request_count) return;
    number = pick((uint32_t)request_count);
    port = requests[number].event.port;
    if (!requests[number].is_stale && !pick(200)) {
        lose(1u << port);
        requests[number].is_stale = 0;
        answer(number, 1);
    } else {
        answer(number, requests[number].is_stale && !pick(4));
    }
}

static void pull_or_plug(unsigned port) {
    lose(1u << port);
    if (is_in >> port & 1) {
        must("pull", gef_machine_pull(&machine, (uint8_t)port));
        is_in &= ~(1u << port);
    } else if (pick(2)) {
        must("remove", gef_machine_remove(&machine, (uint8_t)port));
        has_disk &= ~(1u << port);
        has_device &= ~(1u << port);
        put(port, port == PORTS - 1);
    } else {
        plug(port);
    }
}

/* The guest keeps to the rules from the start on. */
static void begin_honestly(unsigned ports, uint32_t devices) {
    is_honest = 1;
    memset(slots, 0, sizeof slots);
    begin(ports, devices);
    bring_up(ports);
}

static void act_honestly(unsigned ports) {
    static const uint32_t widths[4] = {1, 2, 4, 8};
    unsigned port = pick(ports ? ports : 1), number = 1 + pick(SLOTS - 1), count = 1 + pick(MOST_SECTORS);
    uint8_t fis[GEF_FIS_ROOM];
    uint64_t value;
    if (!is_ready && !pick(50)) recover(ports);
    if (!pick(200)) save_and_restore();
    switch (pick(300) ? pick(8) : 8 + pick(3)) {
    case 0:
    case 1:
        if (!slots[number].is_busy && is_ready >> port & 1) queue(number, port, (int)pick(2), pick(SECTORS - count), count);
        break;
    case 2:
    case 3: answer_any(); break;
    case 4: must("read", gef_machine_read(&machine, pick(0x200), widths[pick(4)], &value)); break;
    case 5:
        if (has_device & 1u << port) offer(port, fis, any_fis(fis));
        break;
    case 8: pull_or_plug(port); break;
    case 9: write_register(IS, 0xFFFFFFFFu); break;
    case 10: recover(ports); break;
    default: step(); break;
    }
    look_at_slots();
}

static void play_honestly(unsigned ports) {
    unsigned at;
    uint8_t *state;
    size_t len;
    begin_honestly(ports, ports == PORTS ? 1u << (PORTS - 1) : 0);
    is_ready = is_in & has_disk;
    for (at = 0; at < 2000; at++) act_honestly(ports);
    state = state_of(&len);
    settle_all();
    look_at_slots();
    must("free", gef_machine_free(&machine));
    for (at = 0; at < 100; at++) play_damaged(state, len);
    free(state);
}

/* ---- a guest that does anything ----------------------------------------------------------------------------------- */

static gef_wanted wanted[16]; /* some that were wanted once */
static unsigned long events_seen;

static void write_any(void) {
    static const uint32_t offsets[14] = {4, 8, CLB, 0x104, FB, 0x10C, IS, IE, CMD, SCTL, 0x130, SACT, CI, FBS};
    static const uint32_t values[10] = {0, 1, 2, 0x11, 0x20010, 0x20011, 0x20018, 0xFFFFFFFFu, 0x301, 0x1000};
    static const uint32_t widths[4] = {4, 1, 2, 8};
    uint32_t offset = pick(8) ? offsets[pick(14)] : pick(0x200), width = pick(4) ? 4 : widths[pick(4)];
    uint64_t value = pick(2) ? values[pick(10)] : (uint64_t)1 << pick(64);
    if (!pick(8)) value = pick(MEMORY);
    must("write", gef_machine_write(&machine, offset, width, value));
}

/* A command that is mostly as it should be, with a table anywhere, and entries of any length. */
static void command_any(unsigned ports) {
    static const uint8_t codes[24] = {0x60, 0x61, 0x60, 0x61, 0x25, 0x35, 0xC8, 0xCA, 0x20, 0x30, 0x24, 0x34,
                                      0xC4, 0xC5, 0xEC, 0x2F, 0x47, 0xB0, 0xEF, 0xEA, 0x06, 0xC6, 0xE5, 0xE8};
    static const uint8_t setups[6] = {0x02, 0x82, 0x03, 0xAA, 0x10, 0x90};
    unsigned number = pick(SLOTS), port = pick(ports + 2), entries = pick(6), at;
    uint8_t fis[20];
    queued_fis(fis, number, codes[pick(24)], pick(SECTORS + 2), pick(12));
    if (fis[2] != 0x60 && fis[2] != 0x61) {
        fis[12] = fis[3];
        fis[3] = fis[2] == 0xEF ? setups[pick(6)] : fis[2] == 0xB0 ? (uint8_t)(0xD0 + pick(8)) : (uint8_t)pick(3);
    }
    if (fis[2] == 0xB0) fis[5] = 0x4F, fis[6] = 0xC2;
    if (!pick(8)) fis[1] = 0;
    if (!pick(8)) fis[15] = (uint8_t)pick(8);
    if (!pick(4)) fis[pick(20)] = (uint8_t)pick(256);
    put_command(number, port == ports + 1 ? 15 : port, fis, (int)pick(2), entries);
    for (at = 0; at < entries; at++) {
        uint32_t where = pick(40) ? data_of(number) + 2 * pick(256) : pick(0x80000000u);
        put_entry(number, at, where, 2 + 2 * pick(3000));
    }
    if (pick(8)) issue(number, port, (fis[2] & 0xFE) == 0x60);
}

/* Bytes that were wanted once, or as many as were not wanted: nothing comes of them. */
static void supply_any(void) {
    static uint8_t bytes[300];
    gef_wanted it = wanted[pick(16)];
    gef_status status;
    if (!pick(4)) it.kind = pick(4);
    if (!pick(4)) it.owner = pick(40);
    if (!pick(4)) it.number += pick(3);
    if (pick(2))
        CALL(status, gef_machine_supply(&machine, &it, bytes, pick(300)));
    else
        CALL(status, gef_machine_no_memory(&machine, &it));
    if (status != GEF_OK && status != GEF_NOT_WANTED) fail("supply", status);
}

static void port_any(unsigned port) {
    static uint8_t room[GEF_FIS_ROOM];
    size_t len;
    gef_status status = GEF_OK;
    uint32_t bit = 1u << port, has = (has_disk | has_device) & bit;
    switch (pick(6)) {
    case 0:
        status = gef_machine_plug(&machine, (uint8_t)port);
        if (status != (!has ? GEF_NOT_THERE : is_in & bit ? GEF_PLUGGED_IN : GEF_OK)) fail("plug", status);
        is_in |= has;
        break;
    case 1:
        status = gef_machine_pull(&machine, (uint8_t)port);
        if (status != (has && is_in & bit ? GEF_OK : GEF_NOT_THERE)) fail("pull", status);
        is_in &= ~bit;
        break;
    case 2:
        status = gef_machine_remove(&machine, (uint8_t)port);
        if (status != (has ? GEF_OK : GEF_NOT_THERE)) fail("remove", status);
        has_disk &= ~bit;
        has_device &= ~bit;
        is_in &= ~bit;
        break;
    case 3:
        if (!has) put(port, (int)pick(2));
        else if (gef_machine_put_device(&machine, (uint8_t)port) != GEF_ALREADY_THERE) fail("put", port);
        break;
    case 4: must("power", gef_machine_power_on(&machine)); break;
    default:
        status = gef_machine_take_frame(&machine, (uint8_t)port, room, sizeof room, &len);
        if (status != GEF_NOTHING && !(status == GEF_OK && has_device & is_in & bit)) fail("take", status);
        break;
    }
}

/* An event is done, or what it asks of the guest is answered wrongly, or not at all. */
static void step_any(void) {
    gef_event event;
    if (pick(4)) {
        step();
        return;
    }
    event = next_event();
    if (event.kind == GEF_EVENT_LINE) line = event.u.up;
    if (event.kind >= GEF_EVENT_LOAD && event.kind <= GEF_EVENT_DISCARD) ask(&event);
    if (event.kind != GEF_EVENT_READ_GUEST) return;
    wanted[pick(16)] = event.u.read.wanted;
    if (pick(3)) read_guest(&event);
    else if (pick(2)) must("no memory", gef_machine_no_memory(&machine, &event.u.read.wanted));
}

static void act_anyhow(unsigned ports) {
    unsigned port = pick(ports ? ports : 1);
    static uint8_t fis[GEF_FIS_ROOM];
    size_t number;
    switch (pick(20)) {
    case 0:
    case 1: write_any(); break;
    case 2:
    case 3:
    case 4: command_any(ports); break;
    case 5: memory[pick(MEMORY)] = (uint8_t)pick(256); break;
    case 6: supply_any(); break;
    case 7:
        if (has_device & is_in & 1u << port) offer(port, fis, any_fis(fis));
        break;
    case 8:
        if (!pick(4)) port_any(port);
        break;
    case 9:
        if (!pick(10)) bring_up(ports);
        break;
    case 10:
    case 11:
        number = request_count ? pick((uint32_t)request_count) : 0;
        if (request_count) answer(number, !pick(4));
        break;
    default: step_any(); break;
    }
    events_seen++;
}

static void play_anyhow(unsigned ports) {
    unsigned at;
    uint8_t *state;
    size_t len;
    is_honest = 0;
    begin(ports, pick(16));
    if (pick(4)) bring_up(ports);
    for (at = 0; at < 2000; at++) {
        act_anyhow(ports);
        if (!pick(200)) save_and_restore();
    }
    state = state_of(&len);
    settle_all();
    must("free", gef_machine_free(&machine));
    for (at = 0; at < 100; at++) play_damaged(state, len);
    free(state);
}

static void play_random(double seconds) {
    clock_t until = clock() + (clock_t)(seconds * CLOCKS_PER_SEC);
    unsigned long lists = 0;
    refused = 0;
    do {
        play_honestly(pick(PORTS + 1));
        play_anyhow(pick(PORTS + 1));
        lists += 2;
    } while (clock() < until);
    printf("%lu lists; %lu reads and %lu writes ended, and %lu acts were any\n", lists, reads_seen, writes_seen, events_seen);
    printf("%lu calls of a machine\n", calls_seen);
    printf("saved and restored %lu times; of damaged states %lu were refused, %lu played, and asked media %lu times\n", saved_seen,
           states_refused, states_taken, unknown_asked);
    if (!reads_seen || !writes_seen) fail("nothing ended", lists);
}

/* ---- a disk says its name ----------------------------------------------------------------------------------------- */

/* IDENTIFY DEVICE gives the world wide name (ACS-3, words 108 to 111, the highest first). */
static void identify(unsigned disk) {
    const uint8_t *page = memory + data_of(0);
    uint64_t name = 0;
    unsigned word;
    plain(disk, 0xEC, 0, 0, 1, 512, 0);
    for (word = 108; word < 112; word++) name = name << 16 | (uint64_t)page[2 * word + 1] << 8 | page[2 * word];
    if (name != NAME) fail("a disk has another name", disk);
}

/* ---- an error goes late ------------------------------------------------------------------------------------------- */

enum { OF_DATA = 2 };       /* a kind of gef_wanted */
enum { TFES = 0x40000000 }; /* of PxIS: a task file error */

/* Does what is to be done, until bytes of a Data FIS are wanted. */
static gef_event settle_to_data(void) {
    gef_event event;
    for (;;) {
        event = next_event();
        if (event.kind == GEF_EVENT_READ_GUEST && event.u.read.wanted.kind == OF_DATA) return event;
        if (event.kind == GEF_EVENT_NOTHING) fail("no Data are wanted", 0);
        do_event(&event);
    }
}

/* Which of the requests that are out is of this kind, from this sector on. */
static size_t asked_at(uint32_t kind, uint64_t lba) {
    size_t at;
    for (at = 0; at < request_count; at++)
        if (requests[at].event.kind == kind && requests[at].event.u.medium.lba == lba) return at;
    fail("not asked for from this sector on", (unsigned long)lba);
    return 0;
}

/*
 * A load fails while a write has the link, so the error waits for the write's Data. Meanwhile a read, which waited for a store that a
 * reset had dropped, asks for its sectors: it may, since the host knows nothing yet. The error of a queued command ends all others of
 * its disk (ACS-3, 4.15, NCQ), so the answer of that load is refused then. A store that was out may still be done: its answer is taken.
 */
static void play_errors(unsigned ports) {
    gef_event data, late, store;
    begin_honestly(ports, 0);
    identify(0);
    queue(4, 0, 1, 40, 2);
    settle();
    outdate(1);
    reset_link();
    bring_up(ports);
    queue(3, 0, 0, 41, 1);
    queue(1, 0, 0, 1, 1);
    queue(5, 0, 1, 50, 1);
    settle();
    if (request_count != 3) fail("other requests are out", (unsigned long)request_count);
    queue(2, 0, 1, 8, 1);
    data = settle_to_data();
    answer(asked_at(GEF_EVENT_LOAD, 1), 1);
    answer(asked_at(GEF_EVENT_STORE, 40), 0);
    settle();
    late = requests[asked_at(GEF_EVENT_LOAD, 41)].event;
    store = requests[asked_at(GEF_EVENT_STORE, 50)].event;
    if (read_register(IS) & TFES) fail("an error before the Data", read_register(IS));
    read_guest(&data);
    settle();
    if (!(read_register(IS) & TFES)) fail("no error", read_register(IS));
    if (answer_well(&late) != GEF_NOT_OUT) fail("a load of before the error is out", 0);
    must("a store of before the error", answer_well(&store));
    if (answer_well(&store) != GEF_NOT_OUT) fail("a store that was answered is out", 0);
    must("free", gef_machine_free(&machine));
}

/* ---- power comes meanwhile ---------------------------------------------------------------------------------------- */

/* Does what is to be done, until bytes were written to the guest's memory from here on. */
static void settle_to_write(uint64_t from) {
    gef_event event;
    do {
        event = next_event();
        if (event.kind == GEF_EVENT_NOTHING) fail("nothing is written there", (unsigned long)from);
        do_event(&event);
    } while (event.kind != GEF_EVENT_WRITE_GUEST || event.u.write.at != from);
}

/*
 * Power comes to the disks between the two pieces of a read's bytes. That is no reset of the controller: the rest of a frame that it
 * took is written.
 */
static void play_power(unsigned ports) {
    begin_honestly(ports, 0);
    queue(1, 0, 0, 1, 2);
    settle();
    answer(asked_at(GEF_EVENT_LOAD, 1), 0);
    settle_to_write(data_of(1));
    must("power", gef_machine_power_on(&machine));
    settle();
    look(1);
    must("free", gef_machine_free(&machine));
}

/* ---- memory is refused -------------------------------------------------------------------------------------------- */

/* What the guest has at the end, and what was asked of the media. */
typedef struct {
    uint8_t memory[MEMORY];
    uint32_t is, ci, sact, fbs;
} found;

/* The guest brings all up, resets the link, and has each disk do what a disk can do. */
static void scene(found *now, unsigned ports) {
    unsigned disk, disks = ports ? ports - 1 : 1;
    begin_honestly(ports, ports ? 1u << disks : 0);
    reset_link();
    bring_up(ports);
    for (disk = 0; disk < disks; disk++) {
        queue(3 + disk, disk, 0, 1, 2);
        queue(8 + disk, disk, 1, 5, 3);
        queue(20 + disk, disk, 0, 12, 8);
    }
    save_and_restore();
    settle_all();
    for (disk = 3; disk < 3 + disks; disk++) look(disk);
    for (disk = 0; disk < disks; disk++) {
        identify(disk);
        plain(disk, 0xEA, 0, 0, 0, 0, 0);
        settle_all();
        memset(memory + data_of(0), 0, 512);
        memory[data_of(0)] = 9;
        memory[data_of(0) + 6] = 2;
        plain(disk, 0x06, 1, 0, 1, 512, 1);
        settle_all();
    }
    if (ports) plain(disks, 0xE7, 0, 0, 0, 0, 0);
    queue(30, disks - 1, 0, 40, 1);
    settle();
    while (request_count) answer(0, 1);
    settle();
    write_register(FBS, 3u | (disks - 1) << 8); /* DEC: the error is done with, and what the disk had to do */
    plain(disks - 1, 0x2F, 0, 0x10, 1, 512, 0);
    memcpy(now->memory, memory, MEMORY);
    now->is = read_register(IS);
    now->ci = read_register(CI);
    now->sact = read_register(SACT);
    now->fbs = read_register(FBS);
    must("free", gef_machine_free(&machine));
}

static void play_refused(unsigned ports) {
    static found whole, now;
    unsigned long all;
    refused = asked = 0;
    state = 7;
    scene(&whole, ports);
    if (whole.ci || whole.sact) fail("not all commands ended", whole.ci);
    if (whole.memory[data_of(0)] != 30 || whole.memory[data_of(0) + 3] != GEF_UNC) fail("the log names another tag", whole.memory[data_of(0)]);
    all = asked;
    for (refused = 1; refused <= all; refused++) {
        asked = 0;
        state = 7;
        scene(&now, ports);
        if (memcmp(&whole, &now, sizeof now)) fail("another end where an allocation was refused", refused);
    }
    printf("%lu allocations refused, one at a time\n", all);
}

/* Asks for the next event while all memory is refused. That is told, or the event needs none; it is not put off again and again. */
static int step_dry(unsigned long *told) {
    gef_event event;
    gef_status status;
    unsigned asked_again = 0;
    is_dry = 1;
    do status = gef_machine_next(&machine, &event);
    while (status == GEF_OK && event.kind == GEF_EVENT_AGAIN && ++asked_again < 100);
    is_dry = 0;
    if (asked_again == 100) fail("refused memory is not told", asked_again);
    if (status == GEF_NO_MEMORY) {
        ++*told;
        return step();
    }
    must("next", status);
    do_event(&event);
    return event.kind != GEF_EVENT_NOTHING;
}

/* A read and a write are served though all memory is refused before each event. */
static void play_dry(unsigned ports) {
    unsigned long told = 0, steps = 0;
    begin_honestly(ports, 0);
    queue(1, 0, 0, 1, 2);
    queue(2, 0, 1, 8, 1);
    do {
        while (step_dry(&told))
            if (++steps > 100000) fail("still moves", steps);
        if (request_count) answer(0, 0);
    } while (request_count);
    while (step_dry(&told)) continue;
    if (read_register(CI) | read_register(SACT)) fail("not all commands ended", read_register(SACT));
    look(1);
    if (!told) fail("no memory was refused", steps);
    must("free", gef_machine_free(&machine));
}

int main(int count, char **words) {
    if (count == 2 && !strcmp(words[1], "power")) {
        play_power(0);
        play_power(2);
    } else if (count == 2 && !strcmp(words[1], "errors")) {
        play_errors(0);
        play_errors(2);
    } else if (count == 2 && !strcmp(words[1], "refused")) {
        play_refused(3);
        play_refused(0);
        refused = 0;
        play_dry(0);
        play_dry(2);
    } else if (count == 3 && !strcmp(words[1], "random")) {
        play_random(strtod(words[2], 0));
    } else {
        return 2;
    }
    return 0;
}
