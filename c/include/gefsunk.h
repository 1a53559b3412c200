/*
 * gefsunk.h - an AHCI controller with disks, a Serial ATA port multiplier and a decoder of FISes, for C.
 *
 * Serial ATA devices and hosts send each other FISes (frame information structures): 4 to 8,196 bytes, a multiple of 4.
 * A port multiplier lets one host port serve up to fifteen devices. This library is its firmware at the level of the
 * FIS: you give it the FISes that arrive, and it tells you which to forward, where, and with which bytes.
 *
 * The library is compiled from proved code. The end of this file says what that means for a C program.
 *
 *     gef_pm pm = GEF_PM_CLOSED;
 *     gef_pm_new(&pm, 4);                      // four device ports
 *     gef_pm_plug(&pm, 0);                     // a device came to port 0
 *     gef_pm_from_host(&pm, fis, 20);          // a FIS from the host
 *     while (gef_pm_to_host(&pm, room, sizeof room, &len, &port) == GEF_OK)
 *         send(room, len);                     // what goes up
 *     gef_pm_free(&pm);
 *
 * Rules that hold for every call:
 *
 *   - Each call but gef_version and gef_status_text returns a gef_status. GEF_OK is 0. Any other leaves everything as it
 *     was, unless the comment of the call says otherwise.
 *   - Memory that you pass is read or written only during the call. The library keeps no pointer of yours, and you
 *     keep none of its. Two pointers of one call must not overlap, except for a FIS that is only read.
 *   - A length in bytes comes with each pointer. A null pointer returns GEF_NULL, even if its length is 0.
 *   - Ports are numbered from 0. 15 is the control port of the multiplier.
 *   - No call waits, starts a thread, or calls back. Two handles share nothing. Only one thread may use a handle at a
 *     time. You may hand it to another thread if your program orders the two, for example by a lock or a join.
 *   - Memory comes from malloc and is returned by free. With glibc, of blocks of 32 KiB and more the last few that were freed wait for the
 *     next, for all handles of the process, 8 MiB at most.
 *   - Make no call from a signal handler, or in a forked child of a process with threads.
 */
#ifndef GEFSUNK_H
#define GEFSUNK_H

#include <stddef.h>
#include <stdint.h>

#ifdef __cplusplus
extern "C" {
#endif

/* The version of this header. The first two numbers are those of the calls and of what they mean. */
#define GEF_VERSION "0.2.0"

/* That of the library that runs, never null. */
const char *gef_version(void);

/* ---- answers ---------------------------------------------------------------------------------------------------- */

typedef enum gef_status {
    GEF_OK = 0,             /* done */
    GEF_NULL = 1,           /* a pointer is null */
    GEF_CLOSED = 2,         /* the handle is not open: not made yet, freed already, or not a handle of this kind */
    GEF_OPEN = 3,           /* the handle is open already */
    GEF_NO_MEMORY = 4,      /* malloc gave none */
    GEF_BAD_PORTS = 5,      /* a port multiplier has 1 to 15 device ports */
    GEF_NO_PORT = 6,        /* the multiplier has no such port */
    GEF_BAD_LENGTH = 7,     /* a FIS cannot have this many bytes */
    GEF_WRONG_LENGTH = 8,   /* a FIS of this type cannot have this many bytes */
    GEF_TOO_SHORT = 9,      /* your room is too short */
    GEF_NOTHING = 10,       /* there is nothing to give */
    GEF_FULL = 11,          /* the place that the FIS needs is taken: you still own the FIS; pass it again later */
    GEF_DROPPED = 12,       /* the FIS was dropped, because nobody takes it */
    GEF_ALREADY_THERE = 13, /* a device is at the port */
    GEF_NOT_THERE = 14,     /* no device is at the port */
    GEF_NO_REGISTER = 15,   /* the port has no such register */
    GEF_SPENT = 16,         /* 4,294,967,295 devices came to this port: it takes no more */
    GEF_BAD_WIDTH = 20,     /* an access to registers has 1, 2, 4 or 8 bytes */
    GEF_BAD_SECTORS = 21,   /* a disk has 1 to 281,474,976,710,655 sectors (2 to the 48, less 1) */
    GEF_BAD_TEXT = 22,      /* a text is longer than its field, or has a character that is not printable ASCII */
    GEF_BAD_DEPTH = 23,     /* a queue has 1 to 32 commands */
    GEF_BAD_ROTATION = 24,  /* a speed is 1,025 to 65,534 turns a minute; 0 says nothing, 1 that the medium does not turn */
    GEF_BAD_PHYSICAL = 25,  /* a physical sector has 512 or 4,096 bytes */
    GEF_BAD_LIMIT = 26,     /* the bound of what the commands of a disk hold is below GEF_LEAST_LIMIT */
    GEF_PLUGGED_IN = 27,    /* what is at the port is plugged in already */
    GEF_NOT_WANTED = 28,    /* no event asks for such bytes */
    GEF_OTHER_DISK = 29,    /* the disk that asked is not at the port any more */
    GEF_NOT_OUT = 30,       /* no such request is out: it was answered, or a reset or an error ended it */
    GEF_OTHER_KIND = 31,    /* the request asked for something else */
    GEF_OTHER_LENGTH = 32,  /* the load asked for another number of bytes */
    GEF_OTHER_SECTOR = 33,  /* the request does not have this sector */
    GEF_BAD_ERROR = 34,     /* a request fails by GEF_UNC, GEF_IDNF or GEF_ABRT */
    GEF_NOT_A_STATE = 35,   /* the bytes are not the state of a machine */
    GEF_OTHER_VERSION = 36, /* the state has a version that this library does not read */
    GEF_BAD_STATE = 37      /* the state is damaged */
} gef_status;

/* A sentence for a log, never null. It stays valid as long as the program runs. */
const char *gef_status_text(gef_status status);

/* ---- FISes as text ---------------------------------------------------------------------------------------------- */

/* Room for the longest FIS, and for the longest line of text with its terminating 0. */
#define GEF_FIS_ROOM 8196
#define GEF_TEXT_ROOM 161

/*
 * Writes what a FIS means as one line, terminated by a 0, without a line feed:
 *
 *     h2d port 3 c 1 command 60 features 0001 lba 000000000100 device 40 count 0028 icc 00 control 00
 *
 * Registers are hexadecimal; ports, tags and byte counts are decimal. A room of GEF_TEXT_ROOM is enough: only a shorter one
 * returns GEF_TOO_SHORT.
 * Can return GEF_BAD_LENGTH, GEF_WRONG_LENGTH, GEF_TOO_SHORT. After each of them the text is empty, if there is room for
 * its 0.
 */
gef_status gef_fis_text(const uint8_t *fis, size_t len, char *text, size_t room);

/* ---- a port multiplier ------------------------------------------------------------------------------------------ */

/*
 * A handle. Its storage is yours: a variable, a field, a block from malloc. Its fields belong to the library: start
 * with GEF_PM_CLOSED (or zeroes), and leave them alone. You may move a handle, for example by memcpy, if you use only
 * one copy from then on. Using a copy of an open handle after the other was freed reads freed memory. No call can
 * detect that.
 */
typedef struct gef_pm {
    uint32_t mark;
    void *at;
} gef_pm;

#define GEF_PM_CLOSED { 0, 0 }

/*
 * Makes a multiplier with 1 to 15 device ports and no device, and opens the handle. It takes about 34 KB.
 * Can return GEF_OPEN (the handle has a multiplier: free it first), GEF_BAD_PORTS, GEF_NO_MEMORY.
 */
gef_status gef_pm_new(gef_pm *pm, uint8_t ports);

/*
 * The same for a host that knows no multipliers, as firmware that boots: port 0 is open from the start (Serial ATA 3.x,
 * 16.3.3, booting with legacy software). If is_there is nonzero, a device is at port 0 already, and FISes pass it at
 * once: its signature goes up, and FISes with PM Port 0 go down to it. A device that comes to port 0 later is announced
 * as any other (gef_pm_plug): its FISes wait until the host has cleared SError of the port.
 * Can return GEF_OPEN, GEF_BAD_PORTS, GEF_NO_MEMORY.
 */
gef_status gef_pm_new_with_port_0_open(gef_pm *pm, uint8_t ports, uint32_t is_there);

/* Frees the multiplier with the FISes that it holds, and closes the handle. A second call returns GEF_CLOSED. */
gef_status gef_pm_free(gef_pm *pm);

/*
 * A device came to a port. If that sets the port's bit in GSCR[32], as at a port that is open and has no bit in SError, and
 * the host has enabled notifications (bit 3 of GSCR[96]), the multiplier notifies it; gef_pm_to_host gives the
 * notification. No FIS of the device goes up, and none goes down to it, before the host has opened the port: by WRITE
 * PORT MULTIPLIER commands to port 15 it writes 0 to SControl of the port (2), and after that ones to its SError (1).
 * Can return GEF_CLOSED, GEF_NO_PORT, GEF_ALREADY_THERE, GEF_SPENT.
 */
gef_status gef_pm_plug(gef_pm *pm, uint8_t port);

/*
 * The device of a port went. Its FISes that wait at the port are dropped, in both directions. The host is notified only if
 * it has set bit 16 of GSCR[33], too, which is 0 at first, and has cleared SError of the port since the last change there.
 * Can return GEF_CLOSED, GEF_NO_PORT, GEF_NOT_THERE.
 */
gef_status gef_pm_unplug(gef_pm *pm, uint8_t port);

/*
 * A FIS arrives from the host. Its PM Port (bits 3:0 of byte 1) says where it goes: to the control port, whose answer
 * gef_pm_to_host gives, or to a device, for which gef_pm_to_device gives it.
 * GEF_OK: it was taken. GEF_DROPPED: there is no such port, or the port does not forward (no device, or not opened by
 * the host): the FIS is gone, and counted. GEF_FULL: the control port must give an answer first, or a FIS waits for the
 * device: you still own the FIS.
 * A FIS to port 15 with Command E4h reads a register, and one with E8h writes it: its port, 15 for a general register, is in
 * Device 3:0, its number in Features, the value, low byte first, in Count 7:0, LBA 7:0, LBA 15:8 and LBA 23:16.
 * A write of SControl (2) with DET 1, and then 0, is no COMRESET of the device: the port closes and opens, what the device
 * sent before goes up afterwards, and the device is not reset. A software reset of the host does that. Firmware that has the
 * device's link reads SControl (gef_pm_read) after each FIS to port 15: when DET becomes 1, it resets the link and calls
 * gef_pm_unplug, and when the link is up again, gef_pm_plug.
 * Can return GEF_CLOSED, GEF_BAD_LENGTH, GEF_FULL, GEF_DROPPED, GEF_NO_MEMORY.
 */
gef_status gef_pm_from_host(gef_pm *pm, const uint8_t *fis, size_t len);

/*
 * A FIS arrives from the device at a port. GEF_OK: it waits at the port, and goes up in its turn once the port
 * forwards. GEF_FULL: another one waits there; you still own the FIS. GEF_NOT_THERE: no device is there.
 * The library takes each FIS for one of the device that is there now, so it cannot tell one that an earlier device sent:
 * drop what is left of that before gef_pm_plug. GEF_DROPPED, for a FIS of a device that went, never happens in practice.
 * Can return GEF_CLOSED, GEF_NO_PORT, GEF_NOT_THERE, GEF_BAD_LENGTH, GEF_FULL, GEF_DROPPED, GEF_NO_MEMORY.
 */
gef_status gef_pm_from_device(gef_pm *pm, uint8_t port, const uint8_t *fis, size_t len);

/*
 * Takes the next FIS for the host: its bytes go into fis, their number into *len, and the port that it comes from into
 * *port (15 for the control port). Its PM Port is the same. Ports take turns: a port with a FIS to give waits for at
 * most fifteen others. The room must be GEF_FIS_ROOM, whatever the FIS, and also where there is none.
 * GEF_NOTHING: no FIS can go up now.
 * Can return GEF_CLOSED, GEF_TOO_SHORT, GEF_NOTHING, GEF_NO_MEMORY.
 */
gef_status gef_pm_to_host(gef_pm *pm, uint8_t *fis, size_t room, size_t *len, uint8_t *port);

/*
 * Takes the FIS that waits for the device at a port. Its PM Port is 0, as a device expects. The room must be
 * GEF_FIS_ROOM, also where no FIS waits.
 * Can return GEF_CLOSED, GEF_NO_PORT, GEF_TOO_SHORT, GEF_NOTHING.
 */
gef_status gef_pm_to_device(gef_pm *pm, uint8_t port, uint8_t *fis, size_t room, size_t *len);

/*
 * Reads a register as the host sees it. A device port has 0 (SStatus), 1 (SError) and 2 (SControl). The control port,
 * 15, has its general registers 0, 1, 2, 32, 33, 64 and 96. The call changes nothing. What the host is told of hardware is
 * fixed: product, vendor and revision (0 and 1), 133h in SStatus whatever the speed of the link; of SError only bits 16 and
 * 26 are ever set.
 * Can return GEF_CLOSED, GEF_NO_PORT, GEF_NO_REGISTER.
 */
gef_status gef_pm_read(gef_pm *pm, uint8_t port, uint16_t number, uint32_t *value);

/* How many FISes of the host were dropped. The count stays at its largest value. Can return GEF_CLOSED. */
gef_status gef_pm_dropped(gef_pm *pm, uint32_t *count);

/* ---- a disk ------------------------------------------------------------------------------------------------------ */

/* The least bound in bytes of what the commands of a disk hold. */
#define GEF_LEAST_LIMIT 1048576u

/* What a disk says of itself (IDENTIFY DEVICE), and a bound. Texts end with a 0, and are padded with blanks. */
typedef struct gef_disk_profile {
    const char *model;    /* at most 40 characters */
    const char *serial;   /* at most 20; give each disk of a guest its own */
    const char *firmware; /* at most 8 */
    uint64_t sectors;     /* of 512 bytes each */
    uint64_t wwn;         /* the world wide name, 0 for none */
    uint32_t physical;    /* bytes of a physical sector: 512 or 4,096 */
    uint32_t rotation;    /* 0: nothing is said; 1: the medium does not turn; else its turns a minute */
    uint32_t depth;       /* how many queued commands it takes: 1 to 32 */
    uint32_t trim;        /* not 0: it takes DATA SET MANAGEMENT with TRIM, and may ask for a discard */
    uint32_t limit;       /* the most bytes that its commands hold at a time: GEF_LEAST_LIMIT or more */
} gef_disk_profile;

/* What an event is. Its part of the union is named with it; those without one have none. */
#define GEF_EVENT_NOTHING 0u     /* nothing, until the guest, a medium or a device does something */
#define GEF_EVENT_AGAIN 1u       /* a budget of moves is spent, so that a call is short: ask again */
#define GEF_EVENT_READ_GUEST 2u  /* `read`: `len` bytes of the guest's memory from `at` on are wanted: answer with `wanted`, */
                                 /* now or later, beside other events */
#define GEF_EVENT_WRITE_GUEST 3u /* `write`: `len` bytes, which gef_machine_lent gives, go to the guest's memory from `at` on: */
                                 /* write them before you ask anything else, and before the guest reads a register */
#define GEF_EVENT_LOAD 4u        /* `medium`: `count` sectors from `lba` on of the disk at `port` are wanted */
#define GEF_EVENT_STORE 5u       /* `medium`: bytes, which gef_machine_stored or gef_disk_stored gives, go to these sectors */
#define GEF_EVENT_FLUSH 6u       /* `medium`: what was stored is to last a loss of power */
#define GEF_EVENT_DISCARD 7u     /* `medium`: sectors, which gef_machine_discarded or gef_disk_discarded gives, are not needed */
#define GEF_EVENT_LINE 8u        /* `up`: the interrupt line is up (1), or down (0), from now on */
#define GEF_EVENT_MESSAGE 9u     /* a message (MSI) is due. It comes in every machine, beside GEF_EVENT_LINE: use the one and ignore the other */
#define GEF_EVENT_TO_DEVICE 10u  /* a FIS for your device at `port`: gef_machine_take_frame gives it */
#define GEF_EVENT_BEGINS 11u     /* what is at `port` begins anew: a device of yours forgets what it had to do, and sends its */
                                 /* signature. It comes for disks, too, which do so by themselves: ignore it there */

/* What bytes of the guest are wanted for. Its fields belong to the library. */
typedef struct gef_wanted {
    uint32_t kind;
    uint32_t owner;
    uint64_t number;
    size_t done;
} gef_wanted;

/* Which request of a disk an answer is for. Its fields belong to the library. */
typedef struct gef_request {
    uint32_t port;
    uint32_t place;
    uint64_t disk;
    uint64_t number;
} gef_request;

typedef struct gef_event {
    uint32_t kind; /* GEF_EVENT_NOTHING and so on */
    uint32_t port; /* of a disk of a machine, or of a device; else 0 */
    union {
        struct {
            uint64_t at;
            size_t len;
            gef_wanted wanted;
        } read;
        struct {
            uint64_t at;
            size_t len;
        } write;
        struct {
            uint64_t lba;
            uint32_t count; /* sectors of 512 bytes, at most 2,048 */
            gef_request request;
        } medium;
        uint32_t up;
    } u;
} gef_event;

/* How a request can fail: the bits of the Error that the host sees. */
#define GEF_UNC 0x40u  /* the sector cannot be read */
#define GEF_IDNF 0x10u /* there is no such sector */
#define GEF_ABRT 0x04u /* it cannot be done */

/* Sectors of a discard. */
typedef struct gef_range {
    uint64_t lba;
    uint64_t count;
} gef_range;

/*
 * A SATA disk with native command queuing whose sectors lie with you: FISes come and go, and events say what is to be loaded and
 * stored. docs/FORMATS.md has the commands that it knows. Put it behind a port of a multiplier (gef_pm_to_device gives what
 * gef_disk_from_host takes, and gef_disk_to_host what gef_pm_from_device takes), or at the other end of a link of your own. In a
 * gef_machine it is a disk that gef_machine_put_disk puts there. The rules of a handle are those of gef_pm. A handle of another
 * kind returns GEF_CLOSED, and stays as it was.
 */
typedef struct gef_disk {
    uint32_t mark;
    void *at;
} gef_disk;

#define GEF_DISK_CLOSED { 0, 0 }

/*
 * Makes a disk, and opens the handle.
 * Can return GEF_OPEN (free it first), GEF_BAD_SECTORS, GEF_BAD_TEXT, GEF_BAD_DEPTH, GEF_BAD_ROTATION, GEF_BAD_PHYSICAL,
 * GEF_BAD_LIMIT, GEF_NO_MEMORY: the first of them, in this order, that has a cause.
 */
gef_status gef_disk_new(gef_disk *disk, const gef_disk_profile *profile);

/* Frees the disk, and closes the handle. A second call returns GEF_CLOSED. */
gef_status gef_disk_free(gef_disk *disk);

/*
 * The disk is plugged in: what was under way is dropped, and it sends its signature next. What its host set (SET FEATURES, SET
 * MULTIPLE MODE) stays set. A new disk sends nothing by itself before this call. A store or a discard that it asked for is still to be
 * answered. Can return GEF_CLOSED.
 */
gef_status gef_disk_plug(gef_disk *disk);

/*
 * A FIS arrives from the host. A command that the disk does not know it refuses (Status 51h, Error 04h). GEF_DROPPED: it does not hear
 * the FIS (none of a host's, a command in software reset or while another one is to be answered first, Data that it did not ask
 * for). GEF_NO_MEMORY: it was not taken; pass it again.
 * Can return GEF_CLOSED, GEF_BAD_LENGTH, GEF_DROPPED, GEF_NO_MEMORY.
 */
gef_status gef_disk_from_host(gef_disk *disk, const uint8_t *fis, size_t len);

/*
 * Takes the next FIS of the disk: its bytes go into fis, and their number into *len. Its PM Port is 0. The room must be
 * GEF_FIS_ROOM, also where no FIS is next. GEF_NOTHING: the disk owes nothing, or waits for data of the host or for an answer of yours.
 * Can return GEF_CLOSED, GEF_TOO_SHORT, GEF_NOTHING, GEF_NO_MEMORY.
 */
gef_status gef_disk_to_host(gef_disk *disk, uint8_t *fis, size_t room, size_t *len);

/*
 * Says what is to be done to the medium next: GEF_EVENT_LOAD, GEF_EVENT_STORE, GEF_EVENT_FLUSH, GEF_EVENT_DISCARD, or
 * GEF_EVENT_NOTHING. The call starts commands, too, so a write that is started here has a FIS to send: ask it until
 * GEF_EVENT_NOTHING, then gef_disk_to_host until GEF_NOTHING, and both again, as long as one of them gave something. Do so after
 * each FIS of the host and each answer. GEF_NO_MEMORY: nothing is lost; ask again. Can return GEF_CLOSED, GEF_NO_MEMORY.
 */
gef_status gef_disk_next(gef_disk *disk, gef_event *event);

/*
 * The sectors of a load. Each request is answered once, when you can, in any order. After a reset an answer is refused
 * (GEF_NOT_OUT): drop it. So it is once the host hears of an error, which ends all queued commands. But a store and a discard are
 * out until they are answered, since you may still do them. A load that is refused by GEF_OTHER_LENGTH is still out.
 * Can return GEF_CLOSED, GEF_NOT_OUT, GEF_OTHER_KIND, GEF_OTHER_LENGTH, GEF_NO_MEMORY.
 */
gef_status gef_disk_answer_loaded(gef_disk *disk, const gef_request *request, const uint8_t *bytes, size_t len);

/*
 * A store, a flush or a discard was done. From then on a load of these sectors must give what was stored.
 * Can return GEF_CLOSED, GEF_NOT_OUT, GEF_OTHER_KIND.
 */
gef_status gef_disk_answer_done(gef_disk *disk, const gef_request *request);

/*
 * A request could not be done, first at this sector (of a flush or a discard: 0). The host is told. GEF_UNC of a
 * store, or of the flush behind a write, is refused by GEF_OTHER_KIND.
 * Can return GEF_CLOSED, GEF_BAD_ERROR, GEF_NOT_OUT, GEF_OTHER_KIND, GEF_OTHER_SECTOR.
 */
gef_status gef_disk_answer_failed(gef_disk *disk, const gef_request *request, uint32_t error, uint64_t lba);

/*
 * Copies bytes of a store into the room, from an offset on, as many as there are and fit, and their number into *len. They are
 * there until the store is answered, or a reset, a plug or an error ends it; from then on GEF_NOT_OUT says that they are gone, and so
 * of any request that is no store. GEF_OTHER_KIND: a flush or a discard that is of no command of the queue.
 * Can return GEF_CLOSED, GEF_NOT_OUT, GEF_OTHER_KIND.
 */
gef_status gef_disk_stored(gef_disk *disk, const gef_request *request, size_t from, uint8_t *bytes, size_t room, size_t *len);

/*
 * Gives the range of a discard that has this number, counted from 0. GEF_NOT_OUT: they are gone as the bytes of a store are.
 * Can return GEF_CLOSED, GEF_NOT_OUT, GEF_NOTHING (it has no more).
 */
gef_status gef_disk_discarded(gef_disk *disk, const gef_request *request, size_t number, gef_range *range);

/* ---- a machine ---------------------------------------------------------------------------------------------------- */

/*
 * An AHCI controller (AHCI 1.3.1) with one port and all that is behind it, as one part of a virtual machine: one device, or a
 * port multiplier with up to fifteen. At each port is a disk whose sectors lie with you, or a device of your own. The machine
 * does no input and no output of its own: you give it the guest's accesses to registers, ask what is to be done, and answer.
 *
 *     gef_machine m = GEF_MACHINE_CLOSED;
 *     gef_machine_new(&m, 15, 1);                  // a multiplier with fifteen ports, port 0 open from the start
 *     gef_machine_put_disk(&m, 0, &profile);       // a disk
 *     gef_machine_plug(&m, 0);
 *     gef_machine_power_on(&m);
 *
 *     the guest reads:    gef_machine_read
 *     the guest writes:   gef_machine_write, and then what is to be done:
 *
 *     while (gef_machine_next(&m, &event) == GEF_OK && event.kind != GEF_EVENT_NOTHING)
 *         switch (event.kind) {                    // each with the call that answers it
 *         case GEF_EVENT_READ_GUEST:  ...          // gef_machine_supply, or gef_machine_no_memory
 *         case GEF_EVENT_WRITE_GUEST: ...          // gef_machine_lent has the bytes
 *         case GEF_EVENT_LOAD:        ...          // gef_machine_answer_loaded, at once or later
 *         case GEF_EVENT_STORE:       ...          // gef_machine_stored has the bytes; gef_machine_answer_done
 *         ...
 *         }
 *
 * Ask again after each answer, and after each access of the guest that wrote. No call waits for a medium, and a disk that
 * waits for its medium keeps no other from its turn. The rules of a handle are those of gef_pm. gefsunk_files.h answers for
 * media that are files.
 */
typedef struct gef_machine {
    uint32_t mark;
    void *at;
} gef_machine;

#define GEF_MACHINE_CLOSED { 0, 0 }

/*
 * Makes a machine, and opens the handle: its controller is stopped, nothing is at its ports. With 0 ports there is no
 * multiplier, and port 0 is the one port; else a multiplier has so many, 15 at most. Where port_0_open is not 0, port 0 of the
 * multiplier is open from the start and from each reset on, for software that knows no multipliers (Serial ATA 3.x, 16.3.3).
 * Can return GEF_OPEN (free it first), GEF_BAD_PORTS, GEF_NO_MEMORY.
 */
gef_status gef_machine_new(gef_machine *machine, uint8_t ports, uint32_t port_0_open);

/* Frees the machine with all that is at its ports, and closes the handle. A second call returns GEF_CLOSED. */
gef_status gef_machine_free(gef_machine *machine);

/*
 * The guest reads registers: width is 1, 2, 4 or 8 bytes at an offset (those of the port begin at 100h). 0 where no register is,
 * and for an access that crosses a boundary of eight bytes. It changes nothing. Without a multiplier PxSSTS (128h) shows a device while
 * one is plugged in, and no interrupt tells the guest of a plug or a pull: it sees that as it resets the link.
 * Can return GEF_CLOSED, GEF_BAD_WIDTH.
 */
gef_status gef_machine_read(gef_machine *machine, uint32_t offset, uint32_t width, uint64_t *value);

/*
 * The guest writes registers. No write is an error: what may not be done is ignored. Ask gef_machine_next before the guest
 * goes on, or soon after. Can return GEF_CLOSED, GEF_BAD_WIDTH.
 */
gef_status gef_machine_write(gef_machine *machine, uint32_t offset, uint32_t width, uint64_t value);

/* ---- a machine: what is at its ports */

/*
 * Puts a disk at a port. It is not plugged in yet: the guest does not see it before gef_machine_plug.
 * Can return GEF_CLOSED, GEF_NO_PORT, GEF_ALREADY_THERE (something is there: remove it first), GEF_BAD_SECTORS, GEF_BAD_TEXT,
 * GEF_BAD_DEPTH, GEF_BAD_ROTATION, GEF_BAD_PHYSICAL, GEF_BAD_LIMIT, GEF_NO_MEMORY.
 */
gef_status gef_machine_put_disk(gef_machine *machine, uint8_t port, const gef_disk_profile *profile);

/*
 * Puts a device of your own at a port: FISes for it come by GEF_EVENT_TO_DEVICE, and gef_machine_offer takes those that it sends.
 * Can return GEF_CLOSED, GEF_NO_PORT, GEF_ALREADY_THERE.
 */
gef_status gef_machine_put_device(gef_machine *machine, uint8_t port);

/*
 * What is at a port is plugged in, and begins anew, a disk as gef_disk_plug says. A multiplier says that to its host as of any device
 * that comes: no FIS of it goes up before the host has opened the port, and has cleared its SError. For disks that are there as power
 * comes call gef_machine_power_on behind the last of them.
 * Can return GEF_CLOSED, GEF_NO_PORT, GEF_NOT_THERE, GEF_PLUGGED_IN, GEF_SPENT.
 */
gef_status gef_machine_plug(gef_machine *machine, uint8_t port);

/*
 * Power comes to what is behind the controller: each disk and device that is plugged in begins anew, and the one at a port 0 that is
 * open from the start passes at once. The controller is not reset: a FIS that it took is written to the guest as ever.
 * Can return GEF_CLOSED.
 */
gef_status gef_machine_power_on(gef_machine *machine);

/*
 * What is at a port is pulled, and stays at hand: all that it had to do is gone, and no FIS of it comes up any more but one that has
 * left its port, and is on its way to the controller. A store or a discard that a disk asked for is still to be answered.
 * Can return GEF_CLOSED, GEF_NO_PORT, GEF_NOT_THERE (nothing is plugged in there).
 */
gef_status gef_machine_pull(gef_machine *machine, uint8_t port);

/* What is at a port is pulled if it is plugged in, and is gone. Can return GEF_CLOSED, GEF_NO_PORT, GEF_NOT_THERE. */
gef_status gef_machine_remove(gef_machine *machine, uint8_t port);

/* ---- a machine: what is to be done */

/*
 * Says what is to be done next. Behind GEF_EVENT_WRITE_GUEST and GEF_EVENT_AGAIN ask again before the guest reads a register: registers
 * tell of a FIS at once, and the guest is to see them only when all that it brings is written. GEF_NO_MEMORY: nothing is lost; ask again.
 * Can return GEF_CLOSED, GEF_NO_MEMORY.
 */
gef_status gef_machine_next(gef_machine *machine, gef_event *event);

/*
 * Copies the bytes of the last GEF_EVENT_WRITE_GUEST into the room, and their number into *len. A room of 8,192 bytes is enough.
 * They are there until the next call that changes the machine. GEF_NOTHING: there are none.
 * Can return GEF_CLOSED, GEF_NOTHING, GEF_TOO_SHORT.
 */
gef_status gef_machine_lent(gef_machine *machine, uint8_t *bytes, size_t room, size_t *len);

/*
 * The bytes that are wanted of the guest's memory, as you read them. What is not wanted any more, as after a reset, or is not so
 * many bytes, changes nothing, and is no error: after bytes of another length they are wanted still, and no event says so again.
 * GEF_NO_MEMORY: these bytes are dropped, and gef_machine_next asks for them anew.
 * Can return GEF_CLOSED, GEF_NOT_WANTED (no event has such a `wanted`), GEF_NO_MEMORY.
 */
gef_status gef_machine_supply(gef_machine *machine, const gef_wanted *wanted, const uint8_t *bytes, size_t len);

/* Some of the bytes that are wanted are not memory. Can return GEF_CLOSED, GEF_NOT_WANTED. */
gef_status gef_machine_no_memory(gef_machine *machine, const gef_wanted *wanted);

/*
 * The sectors of a load. Each request is answered once, when you can, in any order. After a reset, or where the disk was pulled,
 * an answer is refused (GEF_NOT_OUT, GEF_OTHER_DISK): drop it. So it is once the guest hears of an error of the disk, which ends all
 * of its queued commands. A load that is refused by GEF_OTHER_LENGTH is still out.
 *
 * Answer every store and every discard once, also behind a reset, a pull or an error, even if you did not do it (gef_machine_answer_failed):
 * you may still do it, so until then its sectors, and with a discard the whole disk, take no command, as long as the disk is at the port.
 * Can return GEF_CLOSED, GEF_OTHER_DISK, GEF_NOT_OUT, GEF_OTHER_KIND, GEF_OTHER_LENGTH, GEF_NO_MEMORY.
 */
gef_status gef_machine_answer_loaded(gef_machine *machine, const gef_request *request, const uint8_t *bytes, size_t len);

/*
 * A store, a flush or a discard was done. From then on a load of these sectors must give what was stored.
 * Can return GEF_CLOSED, GEF_OTHER_DISK, GEF_NOT_OUT, GEF_OTHER_KIND.
 */
gef_status gef_machine_answer_done(gef_machine *machine, const gef_request *request);

/*
 * A request could not be done, first at this sector (of a flush or a discard: 0). The guest is told. GEF_UNC of a
 * store, or of the flush behind a write, is refused by GEF_OTHER_KIND.
 * Can return GEF_CLOSED, GEF_BAD_ERROR, GEF_OTHER_DISK, GEF_NOT_OUT, GEF_OTHER_KIND, GEF_OTHER_SECTOR.
 */
gef_status gef_machine_answer_failed(gef_machine *machine, const gef_request *request, uint32_t error, uint64_t lba);

/*
 * Copies bytes of a store into the room, from an offset on, as many as there are and fit, and their number into *len. They are
 * there until the store is answered, or its disk is reset or pulled, or an error ends its command. GEF_NOT_OUT: they are gone, and the
 * store is still to be answered if it was not; or the request is no store, or of a disk that was taken from its port. GEF_OTHER_KIND: a
 * flush or a discard that is of no command of the queue. The bytes are never those of another request.
 * Can return GEF_CLOSED, GEF_OTHER_DISK, GEF_NOT_OUT, GEF_OTHER_KIND.
 */
gef_status gef_machine_stored(gef_machine *machine, const gef_request *request, size_t from, uint8_t *bytes, size_t room,
                              size_t *len);

/*
 * Gives the range of a discard that has this number, counted from 0. GEF_NOT_OUT: they are gone as the bytes of a store are, and the
 * discard is still to be answered if it was not.
 * Can return GEF_CLOSED, GEF_OTHER_DISK, GEF_NOT_OUT, GEF_NOTHING (it has no more).
 */
gef_status gef_machine_discarded(gef_machine *machine, const gef_request *request, size_t number, gef_range *range);

/*
 * Takes the FIS for your device at a port. The room must be GEF_FIS_ROOM. Can return GEF_CLOSED, GEF_TOO_SHORT, GEF_NOTHING
 * (no FIS waits, or what is there is none of yours).
 */
gef_status gef_machine_take_frame(gef_machine *machine, uint8_t port, uint8_t *fis, size_t room, size_t *len);

/*
 * Your device at a port sends a FIS. GEF_FULL: another one waits there, or no device of yours is plugged in; pass it again later.
 * Can return GEF_CLOSED, GEF_BAD_LENGTH, GEF_FULL, GEF_NO_MEMORY.
 */
gef_status gef_machine_offer(gef_machine *machine, uint8_t port, const uint8_t *fis, size_t len);

/* ---- a machine: saved and restored */

/*
 * Says how many bytes the state of the machine has now: below 64 KiB for fifteen disks that are at rest, and beside that eight for each
 * byte under way: of the commands of disks, which their `limit` bounds, and of FISes that wait.
 * Can return GEF_CLOSED, GEF_NO_MEMORY.
 */
gef_status gef_machine_state_size(gef_machine *machine, size_t *len);

/*
 * Writes the state of the machine into the room, and its number of bytes into *len: controller, multiplier, disks, and all that is
 * under way, but neither the guest's memory nor the sectors of the media. The machine goes on as it was.
 *
 * Requests that are out stay out in the state, under their numbers. So save beside it each event that you have not answered yet
 * (GEF_EVENT_READ_GUEST, GEF_EVENT_LOAD, GEF_EVENT_STORE, GEF_EVENT_FLUSH, GEF_EVENT_DISCARD), and do and answer it after
 * gef_machine_restore; or answer all of them before. gef_machine_stored gives the bytes of a store again, unless a reset dropped them. Write
 * those of a GEF_EVENT_WRITE_GUEST before you save. Save what the last GEF_EVENT_LINE said, too: it is not told again.
 * Can return GEF_CLOSED, GEF_TOO_SHORT, GEF_NO_MEMORY.
 */
gef_status gef_machine_save(gef_machine *machine, uint8_t *bytes, size_t room, size_t *len);

/*
 * Makes the machine whose state these bytes are, and opens the handle: it is the machine that was saved. The line is where it was; the
 * guest's memory and the media are yours to restore.
 *
 * Bytes of anybody may be passed: they give a machine whose calls are as safe as those of any other, which asks for no sector that its
 * disks do not have, and where no two requests of a disk have one number, or are refused. The disks have as many sectors as the bytes
 * say: that your media have them is yours to test. A state has no checksum, and damage that makes another state of it is not found.
 *
 * What was asked and not answered as the state was saved is out again, under its numbers, and nothing else is. Numbers that were given
 * behind the save come again for something else: so drop each answer to what was asked then. The call wants 1 MiB of stack as one compiler
 * made it, and gef_machine_new 104 KiB.
 * Can return GEF_OPEN (free it first), GEF_NOT_A_STATE, GEF_OTHER_VERSION, GEF_BAD_STATE, GEF_NO_MEMORY.
 */
gef_status gef_machine_restore(gef_machine *machine, const uint8_t *bytes, size_t len);

/*
 * ---- What is proved, and what you must keep
 *
 * A prover checked the code behind each call against its contract before it was compiled. For each call that this
 * header allows, whatever the bytes are:
 *
 *   - It returns. It reads and writes only the memory that you passed, and no other memory of yours. It does not divide
 *     by zero, overflow, or read a byte that was not written.
 *   - Apart from GEF_OK and GEF_NULL, it returns only the statuses that its comment lists, and each means what the
 *     comment says. A refusal changes nothing, but for what the comment says.
 *   - FISes of a device go up in the order in which they came, each at most once, and none of a device that went
 *     (`multiplier`: frames_pass_in_order; each call here is a step of it).
 *   - A FIS that goes up has the number of its port as PM Port. A FIS that goes down has 0. No other bit changes.
 *   - A gef_disk does what `sata_disk` says: what it makes of each FIS, which FIS goes next and with which bytes, what it asks for,
 *     and what an answer leaves. Its calls make a run of such a disk, so the laws of `sata_disk_laws` hold of it. The Data of a read
 *     are the bytes that you gave for its sectors, in order, and its end goes after all of them. The end of a write goes after you
 *     stored exactly the bytes that came, at its sectors, and, if it is to last, after you answered a flush that was asked for after
 *     that. No request is for a sector that the disk does not have. Requests that are out share no sector, unless they are loads. No
 *     two have one number. While a command that moves sectors is under way, GEF_NOTHING and GEF_EVENT_NOTHING together say that an
 *     answer of yours or Data of the host are owed.
 *   - A gef_machine makes moves, each by one part's own rule, or by those of the two between which a FIS goes (`ahci_machine`). A
 *     register reads what `ahci_controller` says, and a write leaves what it says; a disk at a port does what `sata_disk` says; FISes
 *     pass the multiplier as above. What gef_machine_next says is what the last of its moves asks; GEF_EVENT_NOTHING comes only where
 *     no part can move, and you know how the line stands. The laws of the controller (`controller_laws`) hold of its calls in a
 *     machine: bytes of a Data FIS go only to places that the command's table named as you gave it, in order, each once. A bit of PxCI
 *     falls only as its own device ends the command or answers a queued one, and as a control frame goes; one of PxSACT as that device
 *     names it in Set Device Bits, once all its bytes were moved; and both as a write stops the port, or clears or resets the device.
 *
 * Not proved but tested: the words of gef_fis_text; that the fields of a gef_event are those that the library says; that drivers of
 * operating systems work with the machine (guests/RESULTS.md says which did). Not claimed: that anything happens in the end, or how
 * fast.
 *
 * What no library can see, and you must keep:
 *
 *   - Each length is that of the memory behind its pointer, each text ends with a 0, and pointers of one call do not overlap.
 *   - The fields of a handle, of a gef_wanted and of a gef_request are as the library left them, and you use an open handle through
 *     one copy only. A gef_wanted and a gef_request go back to the machine that gave them, or to one restored of a state that has them.
 *   - One call at a time on a handle.
 *   - A FIS for gef_pm_from_device was sent by the device that is at the port, and by none before it.
 *   - The bytes for gef_machine_supply were read from the guest's memory at the place and in the number that the event has, those for
 *     gef_machine_answer_loaded and gef_disk_answer_loaded are the sectors that it has, and a request is answered once it was done, or
 *     could not be.
 *   - What GEF_EVENT_WRITE_GUEST lends is written before the guest goes on.
 *
 * What is trusted: the prover; the two compilers (the library's and yours); malloc and free; memcpy and the like; the file c/gefsunk.c,
 * which tests pointers for null, passes each call on, and puts what an event has into its union; and c/large.c, the heap over malloc.
 */

#ifdef __cplusplus
}
#endif

#endif
