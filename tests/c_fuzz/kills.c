/*
 * Processes that are killed at random moments of a guest's writes.
 *
 *     kills COUNT         so many of them
 *     kills COUNT lying   the medium says that a flush is done, and forgets it: status 1, since a write is lost
 *
 * A child is an emulator and its guest: a machine with two disks behind a multiplier, one of which has its write cache off. The guest
 * writes by queued, DMA and PIO commands, with FUA or without, and flushes now and then. What the media were told to store they keep in
 * the child's memory. A flush has them keep in memory that is shared with the parent what was stored before it was asked for, and nothing
 * that was stored since; now and then a sector gets there by itself. They answer late, and in any order.
 *
 * The guest notes, in shared memory too, what it may rely on: a write with FUA or of the disk without a cache, once it has ended; and any
 * write that had ended as it issued a FLUSH CACHE, once that has ended. The parent kills the child (SIGKILL). Then each sector that is kept
 * has the version that was noted last, or a later one that the guest wrote; and another child begins over what was kept. The last line
 * says how many writes there were. Status 1 where one is lost, or where the child ends by itself.
 */
#define SLOT_BYTES 0x1000
#include "driver.h"
#include <signal.h>
#include <sys/mman.h>
#include <sys/wait.h>
#include <unistd.h>

enum { PORTS = 2, SECTORS = 64, MOST_SECTORS = 8, REQUESTS = 256, UNCACHED = 1 };

/* Versions of sectors; 0 is a sector that nobody wrote. */
typedef uint32_t versions[PORTS][SECTORS];

/* What outlives a child. */
typedef struct {
    versions kept, noted, issued;
    volatile int has_begun; /* the child's guest writes */
    unsigned long writes, flushes;
} lasting;

static lasting *shared;
static versions held;  /* what was stored, as far as its answer went */
static versions ended; /* what the guest saw end */
static int is_lying;

/* ---- the media ---------------------------------------------------------------------------------------------------- */

typedef struct {
    gef_event event;
    uint32_t found[MOST_SECTORS]; /* of a store: the versions that it brings */
    uint32_t before[SECTORS];     /* of a flush: what was stored before it was asked for */
} request;

static request requests[REQUESTS];
static size_t request_count;

/* The version that the bytes of a sector have: all of them are of one. */
static uint32_t version_of(const uint8_t *bytes, uint32_t port, uint64_t lba) {
    uint8_t wanted[512];
    uint32_t version = dword_at(bytes);
    fill_sector(wanted, port, lba, version);
    if (memcmp(bytes, wanted, 512)) fail("a store of bytes that nobody wrote there", (unsigned long)lba);
    return version;
}

static void ask(const gef_event *event) {
    static uint8_t bytes[512 * MOST_SECTORS];
    request *it = &requests[request_count++];
    uint32_t port = event->port, at;
    size_t len = 0;
    if (request_count == REQUESTS) fail("requests", REQUESTS);
    it->event = *event;
    memcpy(it->before, held[port], sizeof it->before);
    if (event->kind != GEF_EVENT_STORE) return;
    must("stored", gef_machine_stored(&machine, &event->u.medium.request, 0, bytes, sizeof bytes, &len));
    for (at = 0; at < event->u.medium.count; at++) it->found[at] = version_of(bytes + 512 * at, port, event->u.medium.lba + at);
}

/* A request that is out is done. */
static void answer(size_t number) {
    request it = requests[number];
    uint32_t port = it.event.port, lba = (uint32_t)it.event.u.medium.lba, at;
    requests[number] = requests[--request_count];
    if (it.event.kind == GEF_EVENT_STORE)
        for (at = 0; at < it.event.u.medium.count; at++) held[port][lba + at] = it.found[at];
    if (it.event.kind == GEF_EVENT_FLUSH && !is_lying)
        for (at = 0; at < SECTORS; at++)
            if (it.before[at] > shared->kept[port][at]) shared->kept[port][at] = it.before[at];
    must("done", gef_machine_answer_done(&machine, &it.event.u.medium.request));
}

/* A sector gets to where it is kept by itself. */
static void write_back(void) {
    uint32_t port = pick(PORTS), lba = pick(SECTORS);
    if (!is_lying && held[port][lba] > shared->kept[port][lba]) shared->kept[port][lba] = held[port][lba];
}

static int step(void) {
    gef_event event;
    if (request_count && !pick(6)) answer(pick((uint32_t)request_count));
    if (!pick(64)) write_back();
    must("next", gef_machine_next(&machine, &event));
    if (event.kind == GEF_EVENT_READ_GUEST) read_guest(&event);
    if (event.kind == GEF_EVENT_WRITE_GUEST) write_guest(&event);
    if (event.kind >= GEF_EVENT_LOAD && event.kind <= GEF_EVENT_DISCARD) ask(&event);
    return event.kind != GEF_EVENT_NOTHING || request_count;
}

/* ---- the guest ---------------------------------------------------------------------------------------------------- */

typedef struct {
    int is_busy, lasts, is_flush;
    uint32_t port, lba, count;
} slot;

static slot slots[SLOTS];
static versions before_flush; /* what had ended as the flush of a port was issued */
static int is_alone[PORTS];   /* the port is to have one command that is not queued, once its others have ended */

static unsigned busy_at(uint32_t port) {
    unsigned number, found = 0;
    for (number = 0; number < SLOTS; number++) found += slots[number].is_busy && slots[number].port == port;
    return found;
}

static int is_taken(const slot *wanted) {
    size_t at;
    for (at = 0; at < SLOTS; at++)
        if (slots[at].is_busy && slots[at].port == wanted->port && slots[at].lba < wanted->lba + wanted->count &&
            wanted->lba < slots[at].lba + slots[at].count) return 1;
    return 0;
}

/* The bytes of a write, of new versions, lie at the slot's data. */
static void fill_data(unsigned number, const slot *it) {
    uint32_t at;
    for (at = 0; at < it->count; at++)
        fill_sector(memory + data_of(number) + 512 * at, it->port, it->lba + at, ++shared->issued[it->port][it->lba + at]);
    put_entry(number, 0, data_of(number), 512 * it->count);
    shared->writes++;
}

static void issue_queued(unsigned number, slot it) {
    uint8_t fis[20];
    it.lasts = !pick(3);
    slots[number] = it;
    queued_fis(fis, number, 0x61, it.lba, it.count);
    if (it.lasts) fis[7] |= 0x80; /* FUA */
    put_command(number, it.port, fis, 1, 1);
    fill_data(number, &it);
    issue(number, it.port, 1);
}

/* FLUSH CACHE EXT, or WRITE DMA EXT, WRITE DMA FUA EXT or WRITE SECTOR(S) EXT. */
static void issue_alone(unsigned number, slot it) {
    static const uint8_t codes[] = {0xEA, 0xEA, 0x35, 0x3D, 0x34};
    uint8_t fis[20], code = codes[pick(sizeof codes)];
    it.is_flush = code == 0xEA;
    it.lasts = code == 0x3D;
    slots[number] = it;
    plain_fis(fis, code, 0, (uint8_t)it.lba, it.is_flush ? 0 : (uint8_t)it.count);
    put_command(number, it.port, fis, !it.is_flush, !it.is_flush);
    if (it.is_flush) memcpy(before_flush[it.port], ended[it.port], sizeof ended[it.port]);
    if (!it.is_flush) fill_data(number, &it);
    issue(number, it.port, 0);
}

/* A command in a free slot. What is not queued is alone at its disk (ACS-3, 4.15). */
static void refill(unsigned number) {
    slot it = {1, 0, 0, 0, 0, 0};
    it.port = pick(PORTS);
    it.count = 1 + pick(MOST_SECTORS);
    it.lba = pick(SECTORS - it.count + 1);
    if (!is_alone[it.port] && !pick(12)) is_alone[it.port] = 1;
    if (is_alone[it.port]) {
        if (!busy_at(it.port)) issue_alone(number, it);
        return;
    }
    if (!is_taken(&it)) issue_queued(number, it);
}

/* The guest may rely on these versions. */
static void note(uint32_t port, uint32_t lba, uint32_t version) {
    if (version > shared->noted[port][lba]) shared->noted[port][lba] = version;
}

static void end(slot *it) {
    uint32_t at;
    it->is_busy = 0;
    if (it->is_flush) {
        for (at = 0; at < SECTORS; at++) note(it->port, at, before_flush[it->port][at]);
        shared->flushes++;
    }
    for (at = it->lba; at < it->lba + it->count && !it->is_flush; at++) {
        ended[it->port][at] = shared->issued[it->port][at];
        if (it->lasts || it->port == UNCACHED) note(it->port, at, ended[it->port][at]);
    }
    if (!busy_at(it->port)) is_alone[it->port] = 0;
}

static void look(void) {
    uint32_t left = read_register(SACT) | read_register(CI), number;
    if (read_register(IS) & 0x40000000) fail("an error", read_register(0x120));
    for (number = 0; number < SLOTS; number++)
        if (slots[number].is_busy && !(left >> number & 1)) end(&slots[number]);
}

static void begin(void) {
    const gef_disk_profile profile = {"KILLED", 0, "1", SECTORS, 0, 512, 1, 32, 0, GEF_LEAST_LIMIT};
    memcpy(held, shared->kept, sizeof held);
    begin_behind(PORTS, profile);
    plain(UNCACHED, 0xEF, 0x82, 0, 0, 0, 0); /* SET FEATURES: the write cache is off */
}

static void live(void) {
    begin();
    shared->has_begun = 1;
    for (;;) {
        unsigned number = pick(SLOTS);
        if (!slots[number].is_busy && !pick(3)) refill(number);
        step();
        look();
    }
}

/* ---- the parent --------------------------------------------------------------------------------------------------- */

static void check(unsigned long kills) {
    uint32_t port, lba;
    for (port = 0; port < PORTS; port++)
        for (lba = 0; lba < SECTORS; lba++) {
            if (shared->kept[port][lba] < shared->noted[port][lba]) fail("a write that was to last is lost, by kill", kills);
            if (shared->kept[port][lba] > shared->issued[port][lba]) fail("a version that nobody wrote, by kill", kills);
        }
}

static void kill_one(unsigned long number) {
    int status;
    pid_t child;
    shared->has_begun = 0;
    child = fork();
    if (child < 0) fail("fork", 0);
    if (!child) {
        state ^= (number + 1) * 0x9E3779B97F4A7C15u;
        live();
    }
    while (!shared->has_begun && waitpid(child, &status, WNOHANG) == 0) usleep(50);
    usleep(pick(4000));
    kill(child, SIGKILL);
    if (waitpid(child, &status, 0) != child || !WIFSIGNALED(status) || WTERMSIG(status) != SIGKILL) fail("a child ended by itself", number);
    check(number);
}

int main(int count, char **words) {
    unsigned long kills = count > 1 ? strtoul(words[1], 0, 10) : 0, at;
    is_lying = count == 3 && !strcmp(words[2], "lying");
    if (!kills || count > 3 || (count == 3 && !is_lying)) return 2;
    shared = mmap(0, sizeof *shared, PROT_READ | PROT_WRITE, MAP_SHARED | MAP_ANONYMOUS, -1, 0);
    if (shared == MAP_FAILED) fail("mmap", 0);
    for (at = 0; at < kills; at++) kill_one(at);
    printf("%lu kills, %lu writes, %lu flushes: nothing is lost\n", kills, shared->writes, shared->flushes);
    return 0;
}
