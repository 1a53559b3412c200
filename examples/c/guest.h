/*
 * guest.h - a guest in miniature, for the programs of this folder that have a machine: its memory, and a driver that knows a few
 * registers. A virtual machine of yours has its own in its place.
 */
#ifndef GUEST_H
#define GUEST_H

#include <stdio.h>
#include <string.h>
#include "gefsunk.h"

/* Registers: those of the controller, and those of its port. */
enum { GHC = 4, GLOBAL_IS = 8, CLB = 0x100, FB = 0x108, IS = 0x110, IE = 0x114, CMD = 0x118 };
enum { TFD = 0x120, SIG = 0x124, SACT = 0x134, CI = 0x138, FBS = 0x140 };

/* Places in the guest's memory, which begins at 0: the command list, the received area, a table and a buffer for each slot. */
enum { LIST = 0x1000, AREA = 0x2000, TABLES = 0x4000, BUFFERS = 0x8000, BUFFER = 0x1000, MEMORY = BUFFERS + 32 * BUFFER };

static uint8_t memory[MEMORY];
static gef_machine machine = GEF_MACHINE_CLOSED;

/* Does all that the machine asks for: each program has one of its own. */
static void settle(void);

static inline void check(const char *what, gef_status status) {
    if (status != GEF_OK) printf("%s: %s\n", what, gef_status_text(status));
}

/* ---- what a virtual machine does for its guest's memory ---------------------------------------------------------- */

/* Bytes that are wanted of the guest's memory. */
static inline void read_guest(const gef_event *event) {
    uint64_t at = event->u.read.at;
    size_t len = event->u.read.len;
    if (at <= MEMORY && len <= MEMORY - at)
        check("supply", gef_machine_supply(&machine, &event->u.read.wanted, memory + at, len));
    else
        check("no memory", gef_machine_no_memory(&machine, &event->u.read.wanted));
}

/* Bytes that go to the guest's memory. */
static inline void write_guest(const gef_event *event) {
    uint8_t bytes[8192];
    uint64_t at = event->u.write.at;
    size_t len = 0;
    check("lent", gef_machine_lent(&machine, bytes, sizeof bytes, &len));
    if (at <= MEMORY && len <= MEMORY - at) memcpy(memory + at, bytes, len);
}

/* ---- what a driver does ------------------------------------------------------------------------------------------- */

static inline uint32_t read_register(uint32_t offset) {
    uint64_t value = 0;
    check("read", gef_machine_read(&machine, offset, 4, &value));
    return (uint32_t)value;
}

static inline void write_register(uint32_t offset, uint32_t value) {
    check("write", gef_machine_write(&machine, offset, 4, value));
    settle();
}

static inline void put32(size_t at, uint32_t value) {
    size_t byte;
    for (byte = 0; byte < 4; byte++) memory[at + byte] = (uint8_t)(value >> 8 * byte);
}

/* Where the bytes of a slot's command lie. */
static inline uint8_t *buffer_of(unsigned slot) {
    return memory + BUFFERS + (size_t)BUFFER * slot;
}

/* The Command and the first sectors of a FIS; of a queued command Features has the number of sectors, of another one Count. */
static inline void fis_of(uint8_t *fis, uint8_t code, uint8_t lba, uint8_t features, uint8_t count) {
    memset(fis, 0, 20);
    fis[0] = 0x27;
    fis[1] = 0x80;
    fis[2] = code;
    fis[3] = features;
    fis[4] = lba;
    fis[7] = 0x40;
    fis[12] = count;
}

/* A command in a slot, for the device behind a port of the multiplier: a header, a table, one PRD if it moves bytes. It is issued. */
static inline void issue(unsigned slot, unsigned port, const uint8_t *fis, uint32_t bytes, int is_write) {
    uint32_t header = LIST + 32 * slot, table = TABLES + 0x100 * slot;
    int is_queued = fis[1] & 0x80 && (fis[2] == 0x60 || fis[2] == 0x61);
    put32(header, 5u | (is_write ? 0x40u : 0) | port << 12 | (bytes ? 1u << 16 : 0));
    put32(header + 4, 0);
    put32(header + 8, table);
    memcpy(memory + table, fis, 20);
    memory[table + 1] |= (uint8_t)port;
    put32(table + 0x80, BUFFERS + BUFFER * slot);
    put32(table + 0x8C, bytes ? bytes - 1 : 0);
    write_register(FBS, 1u | port << 8);
    if (is_queued) write_register(SACT, 1u << slot);
    write_register(CI, 1u << slot);
}

/* WRITE FPDMA QUEUED (61h) or READ FPDMA QUEUED (60h) of some sectors, at most 8. */
static inline void issue_queued(unsigned slot, unsigned port, uint8_t code, uint8_t lba, uint8_t count) {
    uint8_t fis[20];
    fis_of(fis, code, lba, count, (uint8_t)(slot << 3));
    issue(slot, port, fis, 512u * count, code == 0x61);
}

/* Any other command, of so many sectors. */
static inline void issue_plain(unsigned port, uint8_t code, uint8_t lba, uint8_t features, uint8_t count, uint32_t bytes, int is_write) {
    uint8_t fis[20];
    fis_of(fis, code, lba, features, count);
    issue(0, port, fis, bytes, is_write);
}

/* WRITE PORT MULTIPLIER: a register of a port of the multiplier. */
static inline void write_multiplier(unsigned port, uint8_t number, uint32_t value) {
    uint8_t fis[20];
    fis_of(fis, 0xE8, (uint8_t)(value >> 8), number, (uint8_t)value);
    fis[5] = (uint8_t)(value >> 16);
    fis[6] = (uint8_t)(value >> 24);
    fis[7] = (uint8_t)port;
    issue(0, 15, fis, 0, 0);
}

/* A port of the multiplier is opened: SControl is 0, and no bit of SError is set. */
static inline void open_port(unsigned port) {
    write_multiplier(port, 2, 0);
    write_multiplier(port, 1, 0xFFFFFFFFu);
}

/* The interrupt is served: what it says is shown, and cleared. */
static inline void serve_interrupt(void) {
    printf("PxIS %08x, PxCI %x, PxSACT %x, PxTFD %x\n", (unsigned)read_register(IS), (unsigned)read_register(CI),
           (unsigned)read_register(SACT), (unsigned)read_register(TFD));
    write_register(IS, 0xFFFFFFFFu);
    write_register(GLOBAL_IS, 0xFFFFFFFFu);
}

/* The driver finds what is at the link, and starts the port with FIS-based switching. */
static inline void bring_up(void) {
    write_register(CLB, LIST);
    write_register(FB, AREA);
    write_register(CMD, 0x20010); /* PMA, FRE: FISes are received */
    printf("PxSIG %x, PxTFD %x\n", (unsigned)read_register(SIG), (unsigned)read_register(TFD));
    write_register(FBS, 1 | 15 << 8);
    write_register(CMD, 0x20018); /* CLO: no signature came from port 15 */
    write_register(CMD, 0x20011); /* ST */
    write_register(IS, 0xFFFFFFFFu);
    write_register(IE, 0xFFFFFFFFu);
    write_register(GHC, 2); /* IE */
}

#endif
