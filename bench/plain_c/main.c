/* `plain run < SCENARIO` and `plain decode < FRAMES`: standard output is that of pm_trace. Of a scenario it plays the
   lines `ports`, `disk`, `came`, `gone`, `read`, `write`, `flush`, `settle`, `poll`, `put`, `show`, `counts` and
   `step`. */
#include "plain.h"
#include <stdio.h>
#include <stdlib.h>

static World world = {.ports = 1, .capacity = 4, .megabytes = 2};
static bool is_open;

static void read_ports(Words *words) {
    world.ports = (unsigned)words_number(words);
    words_take(words, "capacity");
    world.capacity = (unsigned)words_number(words);
    words_take(words, "memory");
    world.megabytes = (unsigned)words_number(words);
}

static void read_disk(Words *words) {
    Disk *disk = &world.seats[words_number(words)].disk;
    words_take(words, "sectors");
    disk->sectors = (uint32_t)words_number(words);
    if (words_take(words, "order") && !words_take(words, "oldest")) disk->newest = words_take(words, "newest");
    if (words_take(words, "chunk")) disk->chunk = (uint32_t)words_number(words) / SECTOR;
    disk->last_first = words_take(words, "lastfirst");
    while (words_take(words, "bad")) disk->bad[disk->bads++] = (uint32_t)words_number(words);
    disk->asks_itself = words_take(words, "auto");
}

static void print_sized(const char *text, uint64_t number) {
    print_text(text);
    print_number(number);
}

static void open_world(void) {
    world_open(&world);
    is_open = true;
    print_sized("ports ", world.ports);
    print_sized(" capacity ", world.capacity);
    print_sized(" memory ", world.megabytes);
    print_text("\n");
}

static void print_did(Did did) { print_text(did == MOVED ? "moved\n" : did == BLOCKED ? "blocked\n" : "nothing\n"); }

static void plug(const char *name, unsigned n, Did did) {
    if (did == BLOCKED) {
        print_did(did);
        return;
    }
    print_sized(name, n);
    print_sized(" conn ", world.seats[n].conn);
    print_text("\n");
}

static void submit(Words *words, uint8_t command) {
    static Prd prds[PRDS];
    unsigned dev = (unsigned)words_number(words), sectors = 0, count = 0;
    uint64_t lba = 0;
    if (command != FLUSH) {
        lba = words_number(words);
        sectors = (unsigned)words_number(words);
        while (!words_are_over(words)) prds[count++] = words_prd(words);
    }
    driver_submit(&world.driver, dev, command, lba, sectors, prds, count);
    print_sized("submitted ", world.driver.given);
    print_text("\n");
}

static void poll(void) {
    static const char *const outcomes[] = {" done\n", " device-error ", " aborted\n", " removed\n"};
    int slot = driver_poll(&world.driver);
    if (slot < 0) {
        print_text("nothing\n");
        return;
    }
    print_sized("ticket ", world.driver.tickets[slot]);
    print_sized(" slot ", (unsigned)slot);
    print_text(outcomes[world.driver.outcomes[slot]]);
    if (world.driver.outcomes[slot] != DEVICE_ERROR) return;
    print_hex(world.driver.status[slot], 2);
    print_text(" ");
    print_hex(world.driver.error[slot], 2);
    print_text("\n");
}

static void show(Words *words) {
    uint32_t at = words_address(words);
    print_hex(at, 1);
    print_text(" ");
    print_bytes(world.driver.host.memory + at, words_number(words));
    print_text("\n");
}

static void print_counts(void) {
    uint32_t n, conn;
    for (n = 0; n < world.ports; n++)
        for (conn = 1; conn <= world.seats[n].conn; conn++) {
            print_sized("port ", n);
            print_sized(" conn ", conn);
            print_sized(" sent ", world.seats[n].counts[conn].sent);
            print_sized(" taken ", world.seats[n].counts[conn].taken);
            print_text("\n");
        }
}

static void print_frame(const char *name, const Frame *frame) {
    print_sized(name, frame->port);
    print_sized(" ", frame->conn);
    print_sized(" ", frame->number);
    print_text(" ");
    print_bytes(frame->bytes, frame->len);
    print_text("\n");
}

static void step_send(unsigned n) {
    Did did = world_disk_send(&world, n);
    if (did == MOVED) print_frame("sent ", link_last(&world.seats[n].up));
    else print_did(did);
}

static void step_take(void) {
    Frame *frame = world_host_take(&world);
    if (!frame) {
        print_did(NOTHING);
        return;
    }
    print_frame("took ", frame);
    frame_free(frame);
}

static bool play_step(Words *words) {
    static const struct {
        const char *name;
        Did (*step)(World *, unsigned);
    } at_ports[] = {{"pmpresence", world_presence},
                    {"disktake", world_disk_take},
                    {"pmfromdevice", world_from_device},
                    {"pmdown", world_down}};
    unsigned at;
    for (at = 0; at < 4; at++)
        if (words_take(words, at_ports[at].name)) {
            print_did(at_ports[at].step(&world, (unsigned)words_number(words)));
            return true;
        }
    if (words_take(words, "disksend")) step_send((unsigned)words_number(words));
    else if (words_take(words, "hosttake")) step_take();
    else if (words_take(words, "pmfromhost")) print_did(world_from_host(&world));
    else if (words_take(words, "pmup")) print_did(world_up(&world));
    else if (words_take(words, "tick")) print_did(driver_tick(&world.driver) ? MOVED : NOTHING);
    else if (words_take(words, "hostpush")) print_did(world_push(&world));
    else return false;
    return true;
}

static bool play_request(Words *words) {
    if (words_take(words, "read")) submit(words, READ_QUEUED);
    else if (words_take(words, "write")) submit(words, WRITE_QUEUED);
    else if (words_take(words, "flush")) submit(words, FLUSH);
    else if (words_take(words, "poll")) poll();
    else if (words_take(words, "settle"))
        print_text(world_settle(&world, words_number(words)) ? "settled\n" : "unsettled\n");
    else return false;
    return true;
}

static bool play_other(Words *words) {
    if (words_take(words, "step")) return play_step(words);
    if (words_take(words, "put")) {
        uint32_t at = words_address(words);
        words_bytes(words, world.driver.host.memory + at);
        print_text("put\n");
    } else if (words_take(words, "show")) {
        show(words);
    } else if (words_take(words, "came")) {
        unsigned n = (unsigned)words_number(words);
        plug("came ", n, world_came(&world, n));
    } else if (words_take(words, "gone")) {
        unsigned n = (unsigned)words_number(words);
        plug("gone ", n, world_gone(&world, n));
    } else if (words_take(words, "counts")) {
        print_counts();
    } else {
        return false;
    }
    return true;
}

/* Plays a line; false if it is none of those that are played here. */
static bool play_line(Words *words) {
    if (!is_open) {
        if (words_take(words, "ports")) {
            read_ports(words);
            return true;
        }
        if (words_take(words, "disk")) {
            read_disk(words);
            return true;
        }
        open_world();
    }
    return play_request(words) || play_other(words);
}

static char *read_all(size_t *len) {
    size_t room = 1 << 16, got;
    char *input = malloc(room);
    for (*len = 0; input && (got = fread(input + *len, 1, room - *len, stdin)); *len += got)
        if (*len + got == room) input = realloc(input, room *= 2);
    if (!input) abort();
    return input;
}

int main(int count, char **names) {
    bool decodes = count > 1 && !strcmp(names[1], "decode");
    size_t len;
    const char *input = read_all(&len), *at = input, *end = input + len;
    unsigned n;
    words_begin();
    for (n = 0; n < PORTS; n++) world.seats[n].disk.sectors = world.seats[n].disk.chunk = 16;
    while (at < end) {
        const char *feed = memchr(at, '\n', (size_t)(end - at));
        Words words = {at, feed ? feed : end};
        at = words.end + 1;
        if (words.end > words.at && words.end[-1] == '\r') words.end--;
        if (*words.at == '#' || words_are_over(&words)) continue;
        if (decodes) decode_line(&words);
        else if (!play_line(&words)) return 1;
    }
    if (!decodes && !is_open) open_world();
    print_end();
    return 0;
}
