/*
 * The parts of the device: the controller (gefsunk_ahci.c), the disks on its bus and their media (gefsunk_disk.c), what is saved
 * and restored (gefsunk_state.c), disks by themselves, whose FISes can be met (gefsunk_fis.c), and faults by a script
 * (gefsunk_faults.c).
 */
#ifndef HW_IDE_GEFSUNK_AHCI_H
#define HW_IDE_GEFSUNK_AHCI_H

#include "hw/block/block.h"
#include "hw/pci/pci.h"
#include "sysemu/block-backend.h"
#include "sysemu/runstate.h"
#include "gefsunk.h"

#define TYPE_GEFSUNK_AHCI "gefsunk-ahci"
OBJECT_DECLARE_SIMPLE_TYPE(GefsunkAhci, GEFSUNK_AHCI)
#define TYPE_GEFSUNK_BUS "gefsunk-bus"
#define TYPE_GEFSUNK_DISK "gefsunk-disk"
OBJECT_DECLARE_SIMPLE_TYPE(GefsunkDisk, GEFSUNK_DISK)

#define MOST_PORTS 15
#define DISK_LIMIT (4u << 20) /* the most bytes that the commands of a disk hold */
#define MOST_WORKS 256         /* that a medium has to do at once, with what resets dropped */
#define SPARES 32             /* buffers that a disk keeps, DISK_LIMIT bytes at most */

/* Something that a disk's medium is to do. */
typedef struct Work {
    GefsunkDisk *disk;
    gef_event event;
    uint8_t *bytes; /* of a load or a store */
    size_t room;
    QEMUIOVector vector;
    BlockAcctCookie account;
    size_t at;   /* of a discard: the number of its range */
    int64_t due; /* of one that its medium keeps waiting: until when */
    QTAILQ_ENTRY(Work) next;
} Work;
typedef QTAILQ_HEAD(Works, Work) Works;

/* How the medium of a disk fails. */
typedef struct GefsunkMedium {
    bool is_stuck, fails;
    int64_t delay;           /* nanoseconds before it does anything */
    uint64_t bad, bad_count; /* sectors that cannot be read */
    Works waiting;
    QEMUTimer *timer;
} GefsunkMedium;

/* A FIS of a disk, on its way up. */
typedef struct GefsunkFrame {
    QTAILQ_ENTRY(GefsunkFrame) next;
    int64_t due;
    size_t len;
    uint8_t bytes[GEF_FIS_ROOM];
} GefsunkFrame;

/* A disk by itself, and its end of the link. */
typedef struct GefsunkLink {
    gef_disk disk;
    QTAILQ_HEAD(, GefsunkFrame) up; /* what it sends, the first one first */
    bool is_deaf, is_mute, is_held; /* it hears nothing; nothing of it goes up; that waits */
    QEMUTimer *timer;
} GefsunkLink;

struct GefsunkDisk {
    DeviceState parent_obj;
    BlockConf conf;
    VMChangeStateEntry *changes;
    Works stopped; /* what goes on as the machine does, after an error */
    unsigned works; /* what its medium has to do */
    uint64_t sectors; /* as its port was told */
    uint64_t there;   /* sectors of the medium now: a resize is told as the machine is reset */
    struct {
        uint8_t *bytes;
        size_t room;
    } spares[SPARES];
    size_t spare_bytes;
    unsigned turn; /* which one goes next */
    GefsunkMedium medium;
    GefsunkLink link; /* where `fis` is on */
    Error *stays;     /* why it is not migrated */
    /* properties */
    int32_t port;
    uint32_t depth;
    uint16_t rotation_rate;
    uint64_t wwn;
    char *serial, *model, *firmware;
    bool fis;
};

typedef struct GefsunkFaults GefsunkFaults;

/* An event as it is saved, with the numbers by which the machine knows it again. */
typedef struct GefsunkSaved {
    uint32_t kind, port;
    uint64_t at, count;  /* a sector and how many; or an address and how many bytes */
    uint32_t of[2];      /* its request's port and place; or of what is wanted the kind and the owner */
    uint64_t numbers[2]; /* its request's disk and number; or of what is wanted the number and what is done */
} GefsunkSaved;

struct GefsunkAhci {
    PCIDevice parent_obj;
    BusState bus;
    GefsunkDisk *disks[MOST_PORTS];
    MemoryRegion registers;
    QEMUBH *later;
    gef_machine machine;
    gef_event event;
    bool has_event;        /* `event` waits, most often for bus mastering */
    bool is_busy, is_held; /* an event is being done; none begins */
    bool is_within;        /* it is a medium's turn, which nothing may wait for */
    bool is_up;            /* the interrupt line */
    unsigned crowded;      /* disks whose media have too much to do: nothing moves meanwhile */
    VMChangeStateEntry *changes;
    /* as it is saved: the machine, the event that waits, what its media have to do still, and the bytes of all stores of that */
    uint8_t *state, *bytes;
    uint32_t state_size, bytes_size;
    GefsunkSaved waiting, *works;
    int32_t works_count;
    uint64_t told[MOST_PORTS], media[MOST_PORTS]; /* the sectors of each disk, as its port was told, and of its medium */
    FILE *log;             /* of a recording, or of accesses */
    GefsunkFaults *script; /* of faults, if there is one */
    /* properties */
    uint8_t ports;
    bool port0_open, fbs;
    char *record, *accesses, *faults;
};

/* ---- gefsunk_ahci.c */

/* Anything but GEF_OK is a mistake of the device, or there is no memory left. */
void gefsunk_must(gef_status status);

/* A line of the log, or a part of one, if there is a log. */
void gefsunk_note(GefsunkAhci *s, const char *format, ...) G_GNUC_PRINTF(2, 3);

/* Does what is to be done. */
void gefsunk_run(GefsunkAhci *s);

/* The same behind what a medium did. */
void gefsunk_go_on(GefsunkAhci *s);

/* ---- gefsunk_disk.c */

GefsunkAhci *gefsunk_controller_of(GefsunkDisk *disk);

/* A disk is put at its port, and plugged in. */
gef_status gefsunk_put(GefsunkAhci *s, GefsunkDisk *disk);

/* What is asked of a medium: made of an event, begun, and answered: it was done, or failed at a sector, by an error or by that of its kind. */
Work *gefsunk_new_work(GefsunkAhci *s, const gef_event *event);
void gefsunk_begin_work(Work *work);
void gefsunk_answer(Work *work, uint32_t error, uint64_t lba);
void gefsunk_fail(Work *work, uint64_t lba);

/* A disk asks its medium. */
void gefsunk_ask_medium(GefsunkAhci *s, const gef_event *event);

/* All that the medium has to do is done, and its answers are given. */
void gefsunk_settle(GefsunkAhci *s, GefsunkDisk *disk);

/* ---- gefsunk_fis.c */

/* A disk by itself is made, and goes. */
gef_status gefsunk_fis_new(GefsunkDisk *disk, const gef_disk_profile *profile);
void gefsunk_fis_free(GefsunkDisk *disk);

/* It begins anew; it hears a FIS that waits for it; it sends one; what it sent and nobody took is dropped. */
void gefsunk_fis_begin(GefsunkDisk *disk);
void gefsunk_fis_hear(GefsunkAhci *s, GefsunkDisk *disk);
void gefsunk_fis_say(GefsunkDisk *disk, const uint8_t *fis, size_t len, int64_t delay);
void gefsunk_fis_drop(GefsunkDisk *disk);

/* Such disks ask their media, and send what they have to, as far as that goes: whether one did. */
bool gefsunk_fis_move(GefsunkAhci *s);

/* ---- gefsunk_faults.c */

/* A script from a file takes the place of the one before; with an empty name there is none. */
bool gefsunk_faults_load(GefsunkAhci *s, const char *file, Error **errp);

/* A FIS passes between a disk and its port, and may be changed: what becomes of it. */
typedef struct GefsunkPassage {
    bool is_lost, is_twice;
    int64_t delay;
} GefsunkPassage;
GefsunkPassage gefsunk_faults_meet(GefsunkAhci *s, GefsunkDisk *disk, bool is_up, uint8_t *fis, size_t *len);

/* The medium fails at this work, or keeps it waiting: whether it took it. */
bool gefsunk_faults_take(Work *work);

/* What a medium keeps waiting is begun, if it is time. */
void gefsunk_faults_wake(void *disk);

/* ---- gefsunk_state.c */

extern const VMStateDescription gefsunk_vmstate;

#endif
