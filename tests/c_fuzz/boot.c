/*
 * A recorded boot, played once more on a machine, and an interpreter of all that passes the door (account.h).
 *
 *     boot SCENARIO..
 *
 * A SCENARIO is one of pm_trace guest (docs/SCENARIOS.md), of these lines: ports, memory, disk, came, mmio, guest, settle, show, line,
 * repeat and end. Media answer when the guest has nothing more to be done. Status 1 where a sentence does not hold.
 */
#define SLOT_BYTES 512
#define ACCOUNT_SIZES
enum { PORTS = 4, SECTORS = 16384, MOST = 128, ENTRIES = 168 };
#include "account.h"

static struct {
    uint8_t *bytes;
    uint64_t from;
    size_t len;
} room; /* the guest's memory */

static gef_event requests[256];
static unsigned long asked_at[256];
static size_t request_count;
static uint32_t bad[PORTS]; /* a sector that cannot be read, +1 */

static int is_inside(uint64_t at, uint64_t len) {
    return at >= room.from && len <= room.len && at - room.from <= room.len - len;
}

static void answer_first(void) {
    static uint8_t bytes[2048 * 512];
    gef_event it = requests[0];
    uint32_t lba = (uint32_t)it.u.medium.lba, count = it.u.medium.count, at;
    unsigned long asked = asked_at[0];
    request_count--;
    memmove(requests, requests + 1, request_count * sizeof *requests);
    memmove(asked_at, asked_at + 1, request_count * sizeof *asked_at);
    if (it.kind != GEF_EVENT_LOAD) {
        must("done", gef_machine_answer_done(&machine, &it.u.medium.request));
        if (it.kind == GEF_EVENT_FLUSH) account_flushed(it.port, asked);
        return;
    }
    if (bad[it.port] > lba && bad[it.port] <= lba + count) {
        lose_commands(1u << it.port);
        must("failed", gef_machine_answer_failed(&machine, &it.u.medium.request, GEF_UNC, bad[it.port] - 1));
        return;
    }
    for (at = 0; at < count; at++) fill_sector(bytes + 512 * at, it.port, lba + at, 0);
    must("loaded", gef_machine_answer_loaded(&machine, &it.u.medium.request, bytes, 512 * (size_t)count));
    for (at = 0; at < count; at++) account_loaded(it.port, lba + at, 0, asked);
}

static void write_room(const gef_event *event) {
    uint8_t bytes[8192];
    size_t len;
    must("lent", gef_machine_lent(&machine, bytes, sizeof bytes, &len));
    account_lent(event->u.write.at, bytes, len);
    if (is_inside(event->u.write.at, len)) memcpy(room.bytes + (event->u.write.at - room.from), bytes, len);
}

static void read_room(const gef_event *event) {
    uint64_t at = event->u.read.at;
    const uint8_t *bytes = room.bytes + (at - room.from);
    if (!is_inside(at, event->u.read.len)) {
        must("no memory", gef_machine_no_memory(&machine, &event->u.read.wanted));
        return;
    }
    account_supplied(at, bytes, event->u.read.len);
    must("supply", gef_machine_supply(&machine, &event->u.read.wanted, bytes, event->u.read.len));
}

static int step(void) {
    gef_event event;
    must("next", gef_machine_next(&machine, &event));
    if (event.kind == GEF_EVENT_READ_GUEST) read_room(&event);
    if (event.kind == GEF_EVENT_WRITE_GUEST) write_room(&event);
    if (event.kind >= GEF_EVENT_LOAD && event.kind <= GEF_EVENT_DISCARD) {
        if (event.kind == GEF_EVENT_STORE || event.kind == GEF_EVENT_DISCARD) fail("a boot that writes", event.kind);
        if (request_count == 256) fail("too many requests", 256);
        asked_at[request_count] = account_asked();
        requests[request_count++] = event;
    }
    if (event.kind != GEF_EVENT_NOTHING) return 1;
    if (!request_count) return 0;
    answer_first();
    return 1;
}

/* ---- a line of the scenario ------------------------------------------------------------------------------------------- */

static void guest_writes(uint32_t offset, uint32_t value) {
    unsigned slot;
    uint32_t ci = read_register(CI);
    if (offset == CLB) account.list = value;
    if (offset == FB) account.area = value;
    if (offset == CI)
        for (slot = 0; slot < SLOTS; slot++)
            if (value & ~ci & 1u << slot) account_issued(slot, 0, 0);
    if ((offset == CMD && !(value & 1)) || (offset == 4 && value & 1) || (offset == FBS && value & 2)) lose_commands(0xFFFF);
    write_register(offset, value);
}

static void put_hex(char *words) {
    char *rest;
    uint64_t at = strtoull(words, &rest, 16);
    for (; *rest; rest++) {
        unsigned byte;
        if (*rest == '#') return;
        if (sscanf(rest, "%2x", &byte) != 1 || *rest == ' ') continue;
        if (!is_inside(at, 1)) fail("a byte outside of the memory", (unsigned long)at);
        room.bytes[at++ - room.from] = (uint8_t)byte;
        rest++;
    }
}

static void put_disk(const char *words) {
    gef_disk_profile profile = {"ANY DISK", "1", "1", SECTORS, 0, 512, 1, 32, 1, GEF_LEAST_LIMIT};
    unsigned port, sectors;
    const char *lba = strstr(words, " bad ");
    if (sscanf(words, "%u sectors %u", &port, &sectors) != 2 || port >= PORTS || sectors > SECTORS) fail("a disk", 0);
    profile.sectors = sectors;
    if (lba) bad[port] = 1 + (uint32_t)strtoul(lba + 5, 0, 10);
    must("put", gef_machine_put_disk(&machine, (uint8_t)port, &profile));
}

static void play_line(char *line) {
    unsigned offset, value, number;
    unsigned long long from, len;
    if (sscanf(line, "mmio write %x %x", &offset, &value) == 2) guest_writes(offset, value);
    else if (sscanf(line, "mmio read %x", &offset) == 1) (void)read_register(offset);
    else if (!strncmp(line, "guest ", 6)) put_hex(line + 6);
    else if (!strncmp(line, "settle", 6)) settle();
    else if (!strncmp(line, "disk ", 5)) put_disk(line + 5);
    else if (sscanf(line, "came %u", &number) == 1) must("came", gef_machine_plug(&machine, (uint8_t)number));
    else if (sscanf(line, "ports %u", &number) == 1) must("ports", gef_machine_new(&machine, (uint8_t)number, 0));
    else if (sscanf(line, "memory %llx %llu", &from, &len) == 2) {
        room.from = from;
        room.len = (size_t)len;
        free(room.bytes);
        room.bytes = calloc(room.len, 1);
        if (!room.bytes) exit(2);
    } else if (*line && *line != '#' && strncmp(line, "show ", 5) && strcmp(line, "line")) {
        printf("%s\n", line);
        fail("an unknown line", 0);
    }
    if (machine.at) account_saw(read_register(SACT) | read_register(CI));
}

static void play(char **lines, size_t count, unsigned times) {
    size_t at, end, depth;
    for (; times; times--)
        for (at = 0; at < count; at++) {
            unsigned again;
            if (sscanf(lines[at], "repeat %u", &again) != 1) {
                play_line(lines[at]);
                continue;
            }
            for (end = at + 1, depth = 1; end < count && depth; end++) depth += !strncmp(lines[end], "repeat ", 7) ? 1 : !strcmp(lines[end], "end") ? (size_t)-1 : 0;
            play(lines + at + 1, end - at - 2, again);
            at = end - 1;
        }
}

static void play_file(const char *name) {
    static char text[1 << 20], *lines[1 << 15];
    size_t count = 0, len;
    char *at;
    FILE *file = fopen(name, "r");
    if (!file) fail(name, 0);
    len = fread(text, 1, sizeof text - 1, file);
    fclose(file);
    text[len] = 0;
    for (at = strtok(text, "\n"); at && count < sizeof lines / sizeof *lines; at = strtok(0, "\n")) lines[count++] = at;
    memset(bad, 0, sizeof bad);
    begin_account(0);
    request_count = 0;
    play(lines, count, 1);
    must("free", gef_machine_free(&machine));
}

int main(int count, char **names) {
    int at;
    for (at = 1; at < count; at++) play_file(names[at]);
    printf("%d boots; %lu reads and %lu flushes were seen to end, %lu bytes were brought\n", count - 1, ended_reads, ended_flushes, bytes_brought);
    return !ended_reads;
}
