/*
 * driver.h - a guest's driver, for the programs here: its memory, registers, and commands. Where a call fails, or something is not as
 * it must be, it says so and ends the program with status 1.
 *
 * Define SLOT_BYTES first, the room of a slot's data, and CALL where a call is to be made again.
 */
#ifndef DRIVER_H
#define DRIVER_H

#include "basics.h"

#ifndef CALL
#define CALL(status, call) ((status) = (call))
#endif

enum { CLB = 0x100, FB = 0x108, IS = 0x110, IE = 0x114, CMD = 0x118, SCTL = 0x12C, SACT = 0x134, CI = 0x138, FBS = 0x140 };
enum { LIST = 0x1000, AREA = 0x2000, TABLES = 0x4000, TABLE = 0x100, DATA = 0x8000, SLOTS = 32, MEMORY = DATA + SLOTS * SLOT_BYTES };

static uint8_t memory[MEMORY];
static gef_machine machine;
static int is_command_based; /* no FIS-based switching */

/* Does the next thing that the machine asks for, and answers whether there was one: each program has one of its own. */
static int step(void);

static inline void settle(void) {
    unsigned long steps = 0;
    while (step())
        if (++steps > 1000000) fail("still moves", steps);
}

/* ---- the guest's memory ------------------------------------------------------------------------------------------- */

static inline void put32(size_t at, uint32_t value) {
    size_t byte;
    for (byte = 0; byte < 4; byte++) memory[at + byte] = (uint8_t)(value >> 8 * byte);
}

/* Bytes that are wanted. They are given from a block of just their length, so that a sanitizer sees where it is passed. */
static inline void read_guest(const gef_event *event) {
    uint64_t at = event->u.read.at;
    size_t len = event->u.read.len;
    uint8_t *bytes = malloc(len ? len : 1);
    gef_status status;
    if (!bytes) exit(2);
    if (at <= MEMORY && len <= MEMORY - at) {
        memcpy(bytes, memory + at, len);
        CALL(status, gef_machine_supply(&machine, &event->u.read.wanted, bytes, len));
    } else {
        CALL(status, gef_machine_no_memory(&machine, &event->u.read.wanted));
    }
    free(bytes);
    must("supply", status);
}

/* Bytes that are to be written, as many as the event says. */
static inline void write_guest(const gef_event *event) {
    uint8_t bytes[8192];
    uint64_t at = event->u.write.at;
    size_t len = 0;
    must("lent", gef_machine_lent(&machine, bytes, sizeof bytes, &len));
    if (len != event->u.write.len || !len) fail("lent are other bytes than the event says", (unsigned long)len);
    if (at <= MEMORY && len <= MEMORY - at) memcpy(memory + at, bytes, len);
}

/* ---- the driver --------------------------------------------------------------------------------------------------- */

static inline uint32_t read_register(uint32_t offset) {
    uint64_t value;
    must("read", gef_machine_read(&machine, offset, 4, &value));
    return (uint32_t)value;
}

static inline void write_register(uint32_t offset, uint32_t value) {
    gef_status status;
    CALL(status, gef_machine_write(&machine, offset, 4, value));
    must("write", status);
}

static inline uint32_t data_of(unsigned slot) {
    return DATA + (uint32_t)SLOT_BYTES * slot;
}

/* The header of a slot, and the FIS of its table. */
static inline void put_command(unsigned slot, unsigned port, const uint8_t *fis, int is_write, unsigned entries) {
    uint32_t table = TABLES + TABLE * slot;
    put32(LIST + 32 * slot, 5u | (is_write ? 0x40u : 0) | port << 12 | entries << 16);
    put32(LIST + 32 * slot + 4, 0);
    put32(LIST + 32 * slot + 8, table);
    put32(LIST + 32 * slot + 12, 0);
    memcpy(memory + table, fis, 20);
    memory[table + 1] = (uint8_t)((fis[1] & 0x80) | port);
}

/* An entry of its table. */
static inline void put_entry(unsigned slot, unsigned number, uint32_t at, uint32_t bytes) {
    uint32_t entry = TABLES + TABLE * slot + 0x80 + 16 * number;
    put32(entry, at);
    put32(entry + 4, 0);
    put32(entry + 12, bytes - 1);
}

static inline void issue(unsigned slot, unsigned port, int is_queued) {
    if (!is_command_based) write_register(FBS, 1u | port << 8);
    if (is_queued) write_register(SACT, 1u << slot);
    write_register(CI, 1u << slot);
}

/* Any other command, with the number of its sectors, in slot 0; its bytes lie at the slot's data. */
static inline void plain(unsigned port, uint8_t code, uint8_t features, uint8_t lba, uint8_t count, uint32_t bytes, int is_write) {
    uint8_t fis[20];
    plain_fis(fis, code, features, lba, count);
    put_command(0, port, fis, is_write, bytes != 0);
    if (bytes) put_entry(0, 0, data_of(0), bytes);
    issue(0, port, 0);
    settle();
}

/* Writes a register of the multiplier. */
static inline void write_multiplier(unsigned port, uint8_t number, uint32_t value) {
    uint8_t fis[20];
    multiplier_fis(fis, port, number, value);
    put_command(0, 15, fis, 0, 0);
    issue(0, 15, 0);
    settle();
}

static inline void open_port(unsigned port) {
    write_multiplier(port, 2, 0);
    write_multiplier(port, 1, 0xFFFFFFFFu);
}

/* The port runs, with FIS-based switching, and so many ports of the multiplier are open. */
static inline void bring_up(unsigned ports) {
    unsigned port;
    write_register(CLB, LIST);
    write_register(FB, AREA);
    write_register(CMD, 0x20010);
    settle();
    write_register(FBS, is_command_based ? 0 : 1 | 15 << 8);
    write_register(CMD, 0x20018); /* CLO: no signature came from port 15 */
    write_register(CMD, 0x20011);
    for (port = 0; port < ports; port++) open_port(port);
}

/* A machine without a multiplier, with this disk. */
static inline void begin_with(const gef_disk_profile *profile) {
    must("new", gef_machine_new(&machine, 0, 0));
    must("put", gef_machine_put_disk(&machine, 0, profile));
    must("plug", gef_machine_plug(&machine, 0));
    must("power", gef_machine_power_on(&machine));
    bring_up(0);
}

/* A machine with so many such disks behind its multiplier, each with a serial number of its own. */
static inline void begin_behind(uint8_t ports, gef_disk_profile profile) {
    char serial[] = "DISK A";
    uint8_t port;
    profile.serial = serial;
    must("new", gef_machine_new(&machine, ports, 0));
    for (port = 0; port < ports; port++) {
        serial[5] = (char)('A' + port);
        must("put", gef_machine_put_disk(&machine, port, &profile));
        must("plug", gef_machine_plug(&machine, port));
    }
    must("power", gef_machine_power_on(&machine));
    bring_up(ports);
}

/* The state of the machine, in memory of its own. */
static inline uint8_t *state_of(size_t *len) {
    uint8_t *bytes;
    gef_status status;
    CALL(status, gef_machine_state_size(&machine, len));
    must("size", status);
    bytes = malloc(*len);
    if (!bytes) fail("no memory for a state", (unsigned long)*len);
    if (gef_machine_save(&machine, bytes, *len - 1, len) != GEF_TOO_SHORT) fail("a short room", (unsigned long)*len);
    CALL(status, gef_machine_save(&machine, bytes, *len, len));
    must("save", status);
    return bytes;
}

/* A reset of the link: all that was under way is gone, and each device begins anew. */
static inline void reset_link(void) {
    write_register(CMD, 0x20010);
    write_register(SCTL, 0x301);
    settle();
    write_register(SCTL, 0x300);
    settle();
}

#endif
