/* A disk with queued commands. */
#include "plain.h"
#include <stdlib.h>

/* What a disk owes before anything else. */
enum { SIGNATURE, ACCEPTED, FINISHED, ENDED, PAGE_FOLLOWS, LOG, IDENTITY };

void disk_open(Disk *disk) {
    size_t at, len = (size_t)disk->sectors * SECTOR;
    if (!(disk->medium = malloc(len)) || !(disk->staged = malloc(256 * SECTOR))) abort();
    for (at = 0; at < len; at++) disk->medium[at] = (uint8_t)(at / SECTOR + at % SECTOR);
}

static void owe(Disk *disk, uint8_t what, uint8_t tag) {
    unsigned at = (disk->first + disk->count++) % ROOM;
    disk->owed[at] = what;
    disk->ended[at] = tag;
}

void disk_plug(Disk *disk) {
    disk->queued = disk->count = 0;
    disk->failed = false;
    disk->state = IDLE;
    owe(disk, SIGNATURE, 0);
}

static void end(Disk *disk, uint8_t tag) {
    unsigned at, kept = 0;
    owe(disk, ENDED, tag);
    for (at = 0; at < disk->queued; at++)
        if (disk->queue[at].tag != tag) disk->queue[kept++] = disk->queue[at];
    disk->queued = kept;
    disk->state = IDLE;
}

static void hear_command(Disk *disk, const uint8_t *fis) {
    Command *command = &disk->queue[disk->queued];
    switch (fis[2]) {
    case READ_QUEUED:
    case WRITE_QUEUED:
        command->writes = fis[2] == WRITE_QUEUED;
        command->tag = fis[12] >> 3;
        command->count = fis[3] | (uint32_t)fis[11] << 8;
        command->lba = fis[4] | (uint64_t)fis[5] << 8 | (uint64_t)fis[6] << 16 | (uint64_t)fis[8] << 24 |
                       (uint64_t)fis[9] << 32 | (uint64_t)fis[10] << 40;
        disk->queued++;
        owe(disk, ACCEPTED, 0);
        break;
    case READ_LOG:
        disk->failed = false;
        owe(disk, PAGE_FOLLOWS, 0);
        owe(disk, LOG, 0);
        break;
    case IDENTIFY:
        owe(disk, PAGE_FOLLOWS, 0);
        owe(disk, IDENTITY, 0);
        break;
    case FLUSH: owe(disk, FINISHED, 0); break;
    }
}

/* The first sector of the chunk that is moved now, counted from that of the command. */
static uint32_t chunk_start(const Disk *disk) {
    uint32_t all = (disk->now.count + disk->chunk - 1) / disk->chunk;
    return (disk->last_first ? disk->left - 1 : all - disk->left) * disk->chunk;
}

static uint32_t chunk_sectors(const Disk *disk, uint32_t start) {
    uint32_t rest = disk->now.count - start;
    return rest < disk->chunk ? rest : disk->chunk;
}

/* The bytes of a chunk of a write wait beside the medium until all have come. */
static void store(Disk *disk, const Frame *frame) {
    memcpy(disk->staged + chunk_start(disk) * SECTOR, frame->bytes + 4, frame->len - 4);
    disk->said = 0;
    if (--disk->left) return;
    memcpy(disk->medium + disk->now.lba * SECTOR, disk->staged, disk->now.count * SECTOR);
    end(disk, disk->now.tag);
}

void disk_hear(Disk *disk, const Frame *frame) {
    if (frame->bytes[0] == DATA) store(disk, frame);
    else if (!disk->failed || frame->bytes[2] == READ_LOG) hear_command(disk, frame->bytes);
}

static uint8_t checksum(const uint8_t *page) {
    uint8_t sum = 0;
    unsigned at;
    for (at = 0; at < SECTOR - 1; at++) sum = (uint8_t)(sum + page[at]);
    return (uint8_t)-sum;
}

static Frame *page_frame(const Disk *disk, uint8_t what) {
    Frame *frame = frame_new(DATA, 4 + SECTOR);
    uint8_t *page = frame->bytes + 4;
    memset(page, 0, SECTOR);
    if (what == LOG) {
        memcpy(page, disk->log, sizeof disk->log);
        page[SECTOR - 1] = checksum(page);
    } else {
        page[150] = 0x1F, page[153] = 1, page[156] = page[158] = disk->asks_itself ? 6 : 2;
        put32(page + 200, disk->sectors);
    }
    return frame;
}

static Frame *page_follows(void) {
    Frame *frame = frame_new(PIO_SETUP, 20);
    frame->bytes[1] = 0x60, frame->bytes[2] = 0x58, frame->bytes[15] = 0x50, frame->bytes[17] = SECTOR >> 8;
    return frame;
}

static Frame *owed_frame(Disk *disk) {
    unsigned at = disk->first;
    disk->first = (at + 1) % ROOM;
    disk->count--;
    switch (disk->owed[at]) {
    case SIGNATURE: return frame_d2h(false, 0x50, 1, 1, 1);
    case ACCEPTED: return frame_d2h(false, 0x50, 0, 0, 0);
    case FINISHED: return frame_d2h(true, 0x50, 0, 0, 0);
    case ENDED: return frame_set_bits(0x40, 0x50, 0, 1u << disk->ended[at]);
    case PAGE_FOLLOWS: return page_follows();
    default: return page_frame(disk, disk->owed[at]);
    }
}

/* The DMA Setup of a chunk, and then its Data. */
static Frame *reading_frame(Disk *disk) {
    uint32_t start = chunk_start(disk), sectors = chunk_sectors(disk, start);
    Frame *frame;
    if (!disk->said) {
        disk->said = 1;
        return frame_setup(0x20, disk->now.tag, start * SECTOR, sectors * SECTOR);
    }
    frame = frame_new(DATA, (uint16_t)(4 + sectors * SECTOR));
    memcpy(frame->bytes + 4, disk->medium + (disk->now.lba + start) * SECTOR, sectors * SECTOR);
    disk->said = 0;
    if (!--disk->left) end(disk, disk->now.tag);
    return frame;
}

/* The DMA Setup of a chunk, and then DMA Activate, unless the Setup asks itself. */
static Frame *writing_frame(Disk *disk) {
    uint32_t start = chunk_start(disk);
    if (disk->said == (disk->asks_itself ? 1 : 2)) return NULL;
    if (disk->said++) return frame_new(ACTIVATE, 4);
    return frame_setup(disk->asks_itself ? 0x80 : 0, disk->now.tag, start * SECTOR,
                       chunk_sectors(disk, start) * SECTOR);
}

/* The lowest bad sector of a read, if it has one. */
static bool meets_bad(const Disk *disk, const Command *command, uint32_t *lowest_bad) {
    bool found = false;
    unsigned at;
    for (at = 0; at < disk->bads; at++)
        if (disk->bad[at] >= command->lba && disk->bad[at] - command->lba < command->count &&
            (!found || disk->bad[at] < *lowest_bad)) {
            *lowest_bad = disk->bad[at];
            found = true;
        }
    return found && !command->writes;
}

static Frame *fail(Disk *disk, uint32_t bad) {
    memset(disk->log, 0, sizeof disk->log);
    disk->log[0] = disk->now.tag, disk->log[2] = 0x41, disk->log[3] = 0x40;
    put32(disk->log + 4, bad & 0xFFFFFF);
    disk->log[7] = 0x40, disk->log[8] = (uint8_t)(bad >> 24);
    disk->failed = true;
    disk->queued = 0;
    return frame_set_bits(0x40, 0x41, 0x40, 0);
}

/* The next FIS that the disk sends, if it has one to send. */
Frame *disk_next(Disk *disk) {
    uint32_t bad = 0;
    if (disk->count) return owed_frame(disk);
    if (disk->state == IDLE) {
        if (!disk->queued) return NULL;
        disk->now = disk->queue[disk->newest ? disk->queued - 1 : 0];
        if (disk->bads && meets_bad(disk, &disk->now, &bad)) return fail(disk, bad);
        disk->left = (disk->now.count + disk->chunk - 1) / disk->chunk;
        disk->said = 0;
        disk->state = disk->now.writes ? WRITING : READING;
    }
    return disk->state == READING ? reading_frame(disk) : writing_frame(disk);
}
