/*
 * How long a slot waits, where a guest keeps all slots of a machine with fifteen disks busy.
 *
 *     load small [COMMANDS]   reads and writes of 1 to 4 sectors; what a read brings is compared
 *     load large [COMMANDS]   writes of 128 KiB
 *
 * The guest acts after each event, or after each 64th: it issues a command in each slot whose last one ended. The media answer at
 * once. The controller sends the commands of its slots in a circle, so one that may go waits for at most 31 others. It may not go while
 * its disk has not answered another command: let that cost it one round of the circle. And answers of up to 15 other ports come up before
 * its own. So no slot may see more than LATER others accepted, and MOST others ended, from its issue to its own. Status 1
 * where one does, or where a read brings other bytes. It also says how many events a command took at the 99.9th percentile; and it ends
 * with status 1 if the memory in use, or the processor time of a tenth of the commands, grows between the second tenth and the last.
 */
#include <malloc.h>
#include <time.h>
#define SLOT_BYTES 0x20000
#include "driver.h"

enum { PORTS = 15, SECTORS = 4096, LONGEST = 4095 };

/* The sectors of a command at least and at most, those of a disk, and how many commands. */
typedef struct {
    uint32_t least, most, sectors, commands;
} load;

static const load small = {1, 4, 256, 20000}, large = {256, 256, SECTORS, 1000};

/* The command of a slot. */
typedef struct {
    int is_busy, is_write, is_accepted;
    uint32_t port, lba, count;
    unsigned long accepted, ended; /* how many others were accepted, and ended, since it was issued */
    unsigned long issued;          /* how many events there were before it */
} slot;

static slot slots[SLOTS];
static uint8_t media[PORTS][512 * SECTORS];
static uint32_t versions[PORTS][SECTORS]; /* what was written to each sector last, 0: nothing */
static unsigned long events, most_accepted, most_ended;
static unsigned long took[LONGEST + 1]; /* how many commands took so many events, or more than the last */

/* ---- the machine's loop ------------------------------------------------------------------------------------------- */

static void serve(const gef_event *event) {
    const gef_request *request = &event->u.medium.request;
    uint8_t *bytes = media[event->port] + 512 * event->u.medium.lba;
    size_t len = 512 * (size_t)event->u.medium.count;
    if (event->kind == GEF_EVENT_LOAD) {
        must("loaded", gef_machine_answer_loaded(&machine, request, bytes, len));
        return;
    }
    if (event->kind == GEF_EVENT_STORE) must("stored", gef_machine_stored(&machine, request, 0, bytes, len, &len));
    must("done", gef_machine_answer_done(&machine, request));
}

/* One event. 0 where there is none. */
static int step(void) {
    gef_event event;
    must("next", gef_machine_next(&machine, &event));
    if (event.kind == GEF_EVENT_READ_GUEST) read_guest(&event);
    if (event.kind == GEF_EVENT_WRITE_GUEST) write_guest(&event);
    if (event.kind >= GEF_EVENT_LOAD && event.kind <= GEF_EVENT_DISCARD) serve(&event);
    events++;
    return event.kind != GEF_EVENT_NOTHING;
}

static void begin(const load *of) {
    gef_disk_profile profile = {"LOAD", 0, "1", 0, 0, 512, 1, 32, 0, GEF_LEAST_LIMIT};
    memset(memory, 0, sizeof memory);
    memset(slots, 0, sizeof slots);
    memset(versions, 0, sizeof versions);
    profile.sectors = of->sectors;
    begin_behind(PORTS, profile);
}

/* ---- the load ----------------------------------------------------------------------------------------------------- */

static int is_taken(const slot *wanted) {
    size_t at;
    for (at = 0; at < SLOTS; at++)
        if (slots[at].is_busy && slots[at].port == wanted->port && slots[at].lba < wanted->lba + wanted->count &&
            wanted->lba < slots[at].lba + slots[at].count) return 1;
    return 0;
}

/* A command in a free slot, unless another one is under way at a sector of it. */
static void refill(const load *of, uint32_t number) {
    uint8_t fis[20], *bytes = memory + data_of(number);
    slot wanted = {1, 1, 0, 0, 0, 0, 0, 0, 0};
    uint32_t at;
    wanted.is_write = of == &large || pick(2);
    wanted.port = pick(PORTS);
    wanted.count = of->least + pick(of->most - of->least + 1);
    wanted.lba = pick(of->sectors - wanted.count + 1);
    if (is_taken(&wanted)) return;
    wanted.issued = events;
    slots[number] = wanted;
    for (at = 0; at < wanted.count && wanted.is_write; at++)
        fill_sector(bytes + 512 * at, wanted.port, wanted.lba + at, ++versions[wanted.port][wanted.lba + at]);
    queued_fis(fis, number, wanted.is_write ? 0x61 : 0x60, wanted.lba, wanted.count);
    put_command(number, wanted.port, fis, wanted.is_write, 1);
    put_entry(number, 0, data_of(number), 512 * wanted.count);
    issue(number, wanted.port, 1);
}

/* The command of a slot ended. */
static void look(uint32_t number) {
    const slot *it = &slots[number];
    uint8_t bytes[512];
    uint32_t at;
    for (at = it->lba; at < it->lba + it->count; at++) {
        uint32_t version = versions[it->port][at];
        fill_sector(bytes, it->port, at, version);
        if (it->is_write && memcmp(bytes, media[it->port] + 512 * at, 512)) fail("a write brought other bytes", at);
        if (!it->is_write && version && memcmp(bytes, memory + data_of(number) + 512 * (at - it->lba), 512))
            fail("a read brought other bytes", at);
    }
}

/* A slot was accepted, or ended: the others waited for it. */
static void count(uint32_t number, int has_ended) {
    uint32_t other;
    for (other = 0; other < SLOTS; other++) {
        if (other == number || !slots[other].is_busy) continue;
        if (has_ended && ++slots[other].ended > most_ended) most_ended = slots[other].ended;
        if (!has_ended && !slots[other].is_accepted && ++slots[other].accepted > most_accepted) most_accepted = slots[other].accepted;
    }
}

/* What became of the slots. Answers how many ended. */
static uint32_t settle_slots(void) {
    uint32_t issued = read_register(CI), left = read_register(SACT) | issued, number, done = 0;
    for (number = 0; number < SLOTS; number++) {
        if (!slots[number].is_busy) continue;
        if (!slots[number].is_accepted && !(issued >> number & 1)) {
            slots[number].is_accepted = 1;
            count(number, 0);
        }
        if (left >> number & 1) continue;
        look(number);
        slots[number].is_busy = 0;
        took[events - slots[number].issued < LONGEST ? events - slots[number].issued : LONGEST]++;
        count(number, 1);
        done++;
    }
    return done;
}

enum { LATER = 2 * 31 + 15, MOST = 400, TENTHS = 10 };

/* The number of events within which all but one of a thousand commands ended. */
static unsigned long latest(uint32_t commands) {
    unsigned long left = commands / 1000, at = LONGEST;
    while (at && left >= took[at]) left -= took[at--];
    return at;
}

/* What a tenth of the commands left in use, and what it cost. */
typedef struct {
    size_t memory;
    double seconds;
} tenth;

static tenth now(void) {
    tenth it = {mallinfo2().uordblks, (double)clock() / CLOCKS_PER_SEC};
    return it;
}

/* The last tenth uses no more memory than the second, and no more than twice its time. */
static void compare(const tenth *at) {
    double second = at[2].seconds - at[1].seconds, last = at[TENTHS].seconds - at[TENTHS - 1].seconds;
    printf("a tenth took %.3f s and left %lu bytes in use, the last one %.3f s and %lu\n", second, (unsigned long)at[2].memory, last,
           (unsigned long)at[TENTHS].memory);
    if (at[TENTHS].memory > at[2].memory + at[2].memory / 8) fail("memory grows", (unsigned long)at[TENTHS].memory);
    if (second > 1 && last > 2 * second) fail("commands take longer", (unsigned long)last);
}

static void play(const load *of, unsigned long between, uint32_t commands) {
    uint32_t done = 0, number, tenths = 0;
    unsigned long acts = 0;
    tenth at[TENTHS + 1];
    begin(of);
    events = most_accepted = most_ended = 0;
    memset(took, 0, sizeof took);
    while (done < commands) {
        while (tenths < TENTHS && done >= (uint64_t)commands * tenths / TENTHS) at[tenths++] = now();
        for (number = 0; number < SLOTS && acts % between == 0; number++)
            if (!slots[number].is_busy) refill(of, number);
        acts = step() ? acts + 1 : 0; /* where nothing is left to do the guest acts */
        done += settle_slots();
        if (most_accepted > LATER) fail("a command waits for too many others to be accepted", most_accepted);
        if (most_ended > MOST) fail("a slot waits for too many others to end", most_ended);
    }
    at[TENTHS] = now();
    printf("%lu events between acts: %lu commands in %lu events, of 1,000 all but one within %lu; ", between, (unsigned long)done, events,
           latest(commands));
    printf("none waited for more than %lu others to be accepted, and %lu to end\n", most_accepted, most_ended);
    compare(at);
    must("free", gef_machine_free(&machine));
}

int main(int count, char **words) {
    const load *of = count > 1 && !strcmp(words[1], "large") ? &large : &small;
    uint32_t commands = count > 2 ? (uint32_t)strtoul(words[2], 0, 10) : of->commands;
    if (count < 2 || count > 3 || !commands || (of == &small && strcmp(words[1], "small"))) return 2;
    play(of, 1, commands);
    play(of, 64, commands);
    return 0;
}
