/* Disks, a port multiplier and a host as a plain program: it plays the scenarios that bench/plain makes, with the
   same output as pm_trace. It has no proof and tests nothing that comes: lines, requests and FISes are taken to be
   right. */
#ifndef PLAIN_H
#define PLAIN_H

#include <stdbool.h>
#include <stddef.h>
#include <stdint.h>
#include <string.h>

enum { PORTS = 15, CONTROL = 15, SECTOR = 512, LONGEST_DATA = 8192, ROOM = 64, PRDS = 248, CLIENT = 0x100000 };
enum { H2D = 0x27, D2H = 0x34, ACTIVATE = 0x39, SETUP = 0x41, DATA = 0x46, PIO_SETUP = 0x5F, SET_BITS = 0xA1 };
enum {
    READ_QUEUED = 0x60,
    WRITE_QUEUED = 0x61,
    READ_LOG = 0x2F,
    READ_PM = 0xE4,
    WRITE_PM = 0xE8,
    FLUSH = 0xEA,
    IDENTIFY = 0xEC
};

static inline void put32(uint8_t *at, uint32_t value) {
    at[0] = (uint8_t)value, at[1] = (uint8_t)(value >> 8), at[2] = (uint8_t)(value >> 16),
    at[3] = (uint8_t)(value >> 24);
}

static inline uint32_t get32(const uint8_t *at) {
    return at[0] | (uint32_t)at[1] << 8 | (uint32_t)at[2] << 16 | (uint32_t)at[3] << 24;
}

static inline int lowest(uint32_t mask) { return __builtin_ctz(mask); }

/* A FIS on its way, with the connection of its device, and its number and port on the way up. */
typedef struct Frame {
    struct Frame *next;
    uint32_t conn, number;
    uint16_t len;
    uint8_t port;
    uint8_t bytes[4 + LONGEST_DATA];
} Frame;

Frame *frame_new(uint8_t type, uint16_t len);
Frame *frame_d2h(bool interrupts, uint8_t status, uint8_t error, uint32_t lba, uint8_t count);
Frame *frame_set_bits(uint8_t flags, uint8_t status, uint8_t error, uint32_t sactive);
Frame *frame_setup(uint8_t flags, uint8_t tag, uint32_t offset, uint32_t count);
void frame_free(Frame *frame);
void h2d_bytes(uint8_t *bytes, uint8_t port, uint8_t command, uint16_t features, uint64_t lba, uint8_t device,
               uint16_t count);

/* The FISes between two places, at most `room` of them. */
typedef struct {
    Frame *ring[ROOM];
    unsigned first, count, room;
} Link;

static inline bool link_is_full(const Link *link) { return link->count == link->room; }
static inline Frame *link_first(const Link *link) { return link->count ? link->ring[link->first] : NULL; }
static inline Frame *link_last(const Link *link) { return link->ring[(link->first + link->count - 1) % ROOM]; }
static inline void link_push(Link *link, Frame *frame) { link->ring[(link->first + link->count++) % ROOM] = frame; }

static inline Frame *link_take(Link *link) {
    Frame *frame = link->ring[link->first];
    link->first = (link->first + 1) % ROOM;
    link->count--;
    return frame;
}

/* A queued command of a disk. */
typedef struct {
    uint64_t lba;
    uint32_t count;
    uint8_t tag;
    bool writes;
} Command;

typedef struct {
    uint8_t *medium, *staged;
    uint32_t sectors, chunk, bad[16];
    unsigned bads;
    bool newest, last_first, asks_itself;
    Command queue[32];
    unsigned queued;
    uint8_t owed[ROOM], ended[ROOM]; /* what it owes, and the tag of each end */
    unsigned first, count;
    bool failed;
    uint8_t log[14];
    enum { IDLE, READING, WRITING } state;
    Command now;
    uint32_t left; /* chunks */
    unsigned said; /* of the FISes before the Data of a chunk */
} Disk;

void disk_open(Disk *disk);
void disk_plug(Disk *disk);
void disk_hear(Disk *disk, const Frame *frame);
Frame *disk_next(Disk *disk);

/* A port of the multiplier: its registers, its connection (0: none), the last one that went, and its two places. */
typedef struct {
    uint32_t status, error, control, conn, gone;
    Frame *up, *down;
} PmPort;

typedef struct {
    PmPort port[PORTS];
    unsigned ports, served;
    uint32_t mask, enabled, number;
    bool is_due, resetting;
    Frame *answer;
} Multiplier;

void pm_open(Multiplier *pm, unsigned ports);
void pm_came(Multiplier *pm, unsigned n, uint32_t conn);
void pm_gone(Multiplier *pm, unsigned n, uint32_t conn);
bool pm_hear(Multiplier *pm, Frame *frame);
Frame *pm_next(Multiplier *pm);

typedef struct {
    uint32_t address, bytes;
} Prd;

typedef enum { QUEUED, PAGE, NO_DATA, RESETS } SlotKind;

/* A command slot: its command, where its bytes lie, and which device it is for. */
typedef struct {
    uint8_t fis[20];
    uint8_t dev;
    SlotKind kind;
    unsigned count;
    Prd prds[PRDS];
} Slot;

/* The transfer of a device: the slot, what is left of it, and where the next byte goes. */
typedef struct {
    Slot *slot;
    uint32_t next, left;
    unsigned prd;
    uint32_t within;
    bool is_page;
} Transfer;

typedef struct {
    uint8_t *memory; /* from address 0 on */
    Slot slots[32];
    Transfer transfers[PORTS];
    uint32_t issued, sent, of[16];              /* slots: issued, sent, those issued of each device */
    uint32_t faulty, due, is_signed, resetting; /* devices */
    uint8_t status[16], error[16];
    uint32_t answer; /* of the control port */
    bool started, notified;
} Host;

void host_issue(Host *host, unsigned slot);
void host_forget(Host *host, unsigned dev);
void host_hear(Host *host, const Frame *frame);
Frame *host_next(Host *host);

typedef enum { DONE, DEVICE_ERROR, ABORTED, REMOVED } Outcome;

typedef struct {
    Host host;
    unsigned opened, ports;
    enum { RESET_ON, RESET_OFF, AWAIT, COUNT_PORTS, SET_MASK, ENABLE, OPEN, SCAN, CLEAR, DETECT, WATCH } order;
    unsigned at; /* the port of the order */
    bool asked, asks_device, reads_log;
    unsigned asked_of;                           /* the device that slot 30 is for */
    uint32_t found, starting, ready, recovering; /* devices */
    uint32_t waits, out, aside, ended;           /* slots */
    uint32_t given, tickets[30];
    Outcome outcomes[30];
    uint8_t status[30], error[30];
} Driver;

void driver_submit(Driver *driver, unsigned dev, uint8_t command, uint64_t lba, unsigned sectors, const Prd *prds,
                   unsigned count);
bool driver_tick(Driver *driver);
int driver_poll(Driver *driver);

/* What a step did. */
typedef enum { NOTHING, BLOCKED, MOVED } Did;

typedef struct {
    uint64_t sent, taken;
} Count;

typedef struct {
    Disk disk;
    Link up, down;
    struct {
        uint32_t conn;
        bool is_there;
    } changes[ROOM];
    unsigned first, count;
    uint32_t conn, number;
    bool is_there;
    Count *counts; /* of each connection */
} Seat;

typedef struct {
    unsigned ports, capacity, megabytes;
    Seat seats[PORTS];
    Multiplier pm;
    Link up, down;
    Driver driver;
} World;

void world_open(World *world);
Did world_came(World *world, unsigned n);
Did world_gone(World *world, unsigned n);
Did world_presence(World *world, unsigned n);
Did world_disk_take(World *world, unsigned n);
Did world_disk_send(World *world, unsigned n);
Did world_from_device(World *world, unsigned n);
Did world_down(World *world, unsigned n);
Did world_from_host(World *world);
Did world_up(World *world);
Frame *world_host_take(World *world);
Did world_push(World *world);
bool world_settle(World *world, uint64_t rounds);

/* Text: the words of a line, and what is printed. */
typedef struct {
    const char *at, *end;
} Words;

void words_begin(void);
bool words_next(Words *words, const char **word, size_t *len);
bool words_take(Words *words, const char *name);
uint64_t words_number(Words *words);
uint32_t words_address(Words *words);
Prd words_prd(Words *words);
bool words_are_over(Words *words);
long words_bytes(Words *words, uint8_t *bytes);
void print_text(const char *text);
void print_number(uint64_t number);
void print_hex(uint64_t number, unsigned digits);
void print_bytes(const uint8_t *bytes, size_t len);
void print_end(void);

void decode_line(Words *words);

#endif
