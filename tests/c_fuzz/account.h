/*
 * account.h - a plain interpreter of a machine's account: what passes the door (accesses to registers, bytes of the guest that are
 * read and written, what media are asked and answer), and whether the sentences of the machine's theorem hold of it. It knows
 * AHCI, commands and tables by itself, from the bytes that were supplied.
 *
 *   - A byte is written to the guest only into the received area, a PRDBC, or a place that the table of a read under way names, as it
 *     was supplied; there once, and it is the byte that a load answered that was asked for after the command was issued.
 *   - A read that the guest sees end has all of its bytes. A write that it sees end has stores, asked for since it was issued and
 *     answered, of exactly the bytes that were supplied for its places; and if it is to last (no write cache, or FUA), a flush that was
 *     asked for after that. FLUSH CACHE has a flush that was asked for since.
 *   - What a read brings was written there last, or by a write that was under way beside it, or that something ended.
 *   - A sector is stored by no command but one that is under way and writes it.
 *
 * A sector's bytes tell its port, its address and its version, which is another one with each write. At a wild port the guest does
 * anything, or the device lies: there only the places count. Where a sentence does not hold, the program says so and ends.
 */
#ifndef ACCOUNT_H
#define ACCOUNT_H

#include "driver.h"

/* How many ports and sectors there are, how many sectors and entries a command has at most. */
#ifndef ACCOUNT_SIZES
enum { PORTS = 4, SECTORS = 64, MOST = 8, ENTRIES = 4 };
#endif
enum { LOADS = 16, VERSIONS = 256, MOST_BYTES = 512 * MOST };

/* Versions that a sector may have. */
typedef struct {
    unsigned count;
    uint32_t one[VERSIONS];
} versions;

typedef struct {
    int is_open, is_lost, is_queued, has_fis, is_read, is_write, is_flush, lasts, is_alone;
    uint32_t port, lba, count, version;
    unsigned long issued;
    uint64_t table;
    unsigned wanted_entries, entries;
    struct { uint64_t at; uint32_t len; } entry[ENTRIES];
    uint8_t seen[MOST_BYTES], data[MOST_BYTES]; /* bytes that were brought, or fetched: how often, and which */
    uint32_t brought[MOST];                     /* the version that a read brought of each of its sectors */
    unsigned long stored[MOST];                 /* when the store of a write's sector was answered, 0 if it was not */
    versions may[MOST];                         /* what a read may bring */
} command;

typedef struct {
    unsigned long asked;
    uint32_t version;
} loaded;

typedef struct {
    loaded loads[LOADS]; /* the last of them */
    unsigned next;
    versions may;
} sector;

static struct {
    command commands[SLOTS];
    sector sectors[PORTS][SECTORS];
    unsigned long now, flush_asked[PORTS];   /* the clock; when the last flush that was answered had been asked for */
    uint32_t is_wild, cache, version;        /* ports, by bits; the last version */
    uint64_t list, area;                     /* where the list of commands and the received area lie */
} account;

static unsigned long ended_reads, ended_writes, ended_flushes, bytes_brought, fetched_again; /* what was checked */

static void add_version(versions *to, uint32_t version) {
    unsigned at;
    for (at = 0; at < to->count; at++)
        if (to->one[at] == version) return;
    if (to->count == VERSIONS) fail("too many versions", version);
    to->one[to->count++] = version;
}

static int has_version(const versions *of, uint32_t version) {
    unsigned at;
    for (at = 0; at < of->count; at++)
        if (of->one[at] == version) return 1;
    return 0;
}

static void begin_account(uint32_t wild) {
    unsigned port, lba;
    memset(&account, 0, sizeof account);
    account.is_wild = wild;
    account.list = LIST;
    account.area = AREA;
    account.cache = (1u << PORTS) - 1;
    for (port = 0; port < PORTS; port++)
        for (lba = 0; lba < SECTORS; lba++) add_version(&account.sectors[port][lba].may, 0);
}

/* ---- commands, as their bytes say --------------------------------------------------------------------------------- */

static int is_wild(const command *it) {
    return account.is_wild >> it->port & 1;
}

/* Which byte of the command lies there, or -1. */
static long byte_at(const command *it, uint64_t at) {
    unsigned number;
    uint32_t before = 0;
    for (number = 0; number < it->entries; number++) {
        if (at >= it->entry[number].at && at - it->entry[number].at < it->entry[number].len) return (long)(before + at - it->entry[number].at);
        before += it->entry[number].len;
    }
    return -1;
}

/* Whether two commands share a sector. */
static int meet(const command *one, const command *other) {
    return one->port == other->port && one->lba < other->lba + other->count && other->lba < one->lba + one->count;
}

/* A write begins: its sectors may have its version, for those that read them meanwhile, too. */
static void begin_write(command *it) {
    unsigned at, slot;
    uint32_t lba;
    for (at = 0; at < it->count; at++) add_version(&account.sectors[it->port][it->lba + at].may, it->version);
    for (slot = 0; slot < SLOTS; slot++) {
        command *other = &account.commands[slot];
        if (other == it || !other->is_open || !other->has_fis || !meet(it, other)) continue;
        if (other->is_write) it->is_alone = other->is_alone = 0;
        for (lba = it->lba; other->is_read && lba < it->lba + it->count; lba++)
            if (lba >= other->lba && lba < other->lba + other->count) add_version(&other->may[lba - other->lba], it->version);
    }
}

static void begin_read(command *it) {
    unsigned at;
    for (at = 0; at < it->count; at++) it->may[at] = account.sectors[it->port][it->lba + at].may;
}

/* The FIS of a command was supplied. */
static void take_fis(command *it, const uint8_t *fis) {
    uint8_t code = fis[2];
    memset(it->seen, 0, sizeof it->seen);
    it->has_fis = 1;
    it->is_queued = code == 0x60 || code == 0x61;
    it->is_read = code == 0x60 || code == 0x25 || code == 0xC8 || code == 0x24 || code == 0x20 || code == 0x29 || code == 0xC4;
    it->is_write = code == 0x61 || code == 0x35 || code == 0x3D || code == 0xCA || code == 0x34 || code == 0x30 || code == 0x39 || code == 0xC5;
    it->is_flush = code == 0xEA || code == 0xE7;
    it->lba = fis[4] | (uint32_t)fis[5] << 8 | (uint32_t)fis[6] << 16;
    it->count = it->is_queued ? fis[3] | (uint32_t)fis[11] << 8 : fis[12] | (uint32_t)fis[13] << 8;
    it->lasts = !(account.cache >> it->port & 1) || code == 0x3D || (it->is_queued && fis[7] & 0x80);
    if (is_wild(it)) return;
    if (it->count > MOST && (it->is_read || it->is_write)) fail("a command of the guest's", it->count);
    if (it->is_write) begin_write(it);
    if (it->is_read) begin_read(it);
}

static void take_header(command *it, const uint8_t *header) {
    it->wanted_entries = header[2] | (unsigned)header[3] << 8;
    it->port = header[1] >> 4;
    it->table = dword_at(header + 8);
    if (it->port == 15) it->port = PORTS - 1; /* orders to the multiplier have no bytes */
}

static void take_entries(command *it, unsigned from, const uint8_t *bytes, size_t len) {
    for (; len >= 16 && from < ENTRIES; from++, bytes += 16, len -= 16) {
        it->entry[from].at = dword_at(bytes);
        it->entry[from].len = 1 + (dword_at(bytes + 12) & 0x3FFFFF);
        if (it->entries <= from) it->entries = from + 1;
    }
}

/* ---- what passes the door ----------------------------------------------------------------------------------------- */

/* Nobody knows what became of the commands of these ports. They are no more. */
static inline void lose_commands(uint32_t ports) {
    unsigned slot;
    for (slot = 0; slot < SLOTS; slot++)
        if (account.commands[slot].is_open && ports >> account.commands[slot].port & 1) account.commands[slot].is_lost = 1;
}

static inline void forget_commands(uint32_t ports) {
    unsigned slot;
    for (slot = 0; slot < SLOTS; slot++)
        if (ports >> account.commands[slot].port & 1) account.commands[slot].is_open = 0;
}

/* The guest issues a command, of this version if it writes. */
static void account_issued(unsigned slot, unsigned port, uint32_t version) {
    command *it = &account.commands[slot];
    memset(it, 0, sizeof *it);
    it->is_open = it->is_alone = 1;
    it->port = port;
    it->version = version;
    it->issued = ++account.now;
}

/* A write's byte is fetched. */
static void take_data(uint64_t at, const uint8_t *bytes, size_t len) {
    unsigned slot;
    size_t number;
    for (slot = 0; slot < SLOTS; slot++) {
        command *it = &account.commands[slot];
        long byte = it->is_open && it->is_write ? byte_at(it, at) : -1;
        if (byte < 0 || is_wild(it)) continue;
        for (number = 0; number < len; number++) {
            long where = byte_at(it, at + number);
            if (where != byte + (long)number || where >= (long)(512 * it->count)) fail("bytes that are not the write's", slot);
            fetched_again += it->seen[where];
            it->seen[where] = 1;
            it->data[where] = bytes[number];
        }
    }
}

/* Whether these bytes are of the command's table: its FIS, or entries. */
static int take_table(command *it, uint64_t at, const uint8_t *bytes, size_t len) {
    uint64_t inside = at - it->table;
    size_t skipped;
    if (!it->table || at < it->table || inside >= 0x80 + 16 * (uint64_t)it->wanted_entries) return 0;
    if (inside == 0 && len >= 20) take_fis(it, bytes);
    skipped = inside >= 0x80 ? 0 : inside + len > 0x80 ? (size_t)(0x80 - inside) : len;
    if (skipped < len) take_entries(it, (unsigned)((inside + skipped - 0x80) / 16), bytes + skipped, len - skipped);
    return 1;
}

static void account_supplied(uint64_t at, const uint8_t *bytes, size_t len) {
    unsigned slot;
    account.now++;
    if (at >= account.list && at + len <= account.list + 32 * SLOTS && len >= 16) {
        command *it = &account.commands[(at - account.list) / 32];
        if (it->is_open) take_header(it, bytes);
        return;
    }
    for (slot = 0; slot < SLOTS; slot++)
        if (account.commands[slot].is_open && take_table(&account.commands[slot], at, bytes, len)) return;
    take_data(at, bytes, len);
}

/* Whether a load that was asked for since brought this byte of a sector: of any version, or of the one that its first bytes tell. */
static int is_loaded(const command *it, uint32_t number, uint32_t offset, uint8_t byte) {
    const sector *from = &account.sectors[it->port][it->lba + number];
    uint8_t bytes[512];
    unsigned at;
    for (at = 0; at < LOADS; at++) {
        const loaded *load = &from->loads[at];
        if (load->asked <= it->issued || (offset > 3 && load->version != it->brought[number])) continue;
        fill_sector(bytes, it->port, it->lba + number, load->version);
        if (bytes[offset] == byte) return 1;
    }
    return 0;
}

static void bring(command *it, unsigned slot, long byte, uint8_t value) {
    uint32_t number = (uint32_t)byte / 512, offset = (uint32_t)byte % 512;
    if (is_wild(it) || !it->is_read) return; /* else it is a page of the disk's own */
    bytes_brought++;
    if (number >= it->count) fail("a byte past the end of a read", slot);
    if (it->seen[byte]++) fail("a byte of a read is written twice", slot);
    if (!is_loaded(it, number, offset, value)) fail("a byte that no load brought", slot);
    it->data[byte] = value;
    if (offset == 3) memcpy(&it->brought[number], it->data + 512 * number, 4);
}

/* Bytes that are written to the guest. */
static void account_lent(uint64_t at, const uint8_t *bytes, size_t len) {
    unsigned slot;
    size_t number;
    account.now++;
    if (at >= account.area && at + len <= account.area + 0x1000) return;
    if (len == 4 && at >= account.list && at < account.list + 32 * SLOTS && (at - account.list) % 32 == 4) return;
    for (number = 0; number < len; number++) {
        int has_place = 0;
        for (slot = 0; slot < SLOTS && !has_place; slot++) {
            command *it = &account.commands[slot];
            long byte = it->is_open && !it->is_write ? byte_at(it, at + number) : -1;
            if (byte < 0 || (byte >= MOST_BYTES && !is_wild(it))) continue;
            bring(it, slot, byte, bytes[number]);
            has_place = 1;
        }
        if (!has_place) fail("a byte is written where no read has a place", (unsigned long)(at + number));
    }
}

/* A disk asks for sectors; the clock's time is what tells this request. */
static unsigned long account_asked(void) {
    return ++account.now;
}

static void account_loaded(uint32_t port, uint32_t lba, uint32_t version, unsigned long asked) {
    sector *it = &account.sectors[port][lba];
    it->loads[it->next].asked = asked;
    it->loads[it->next].version = version;
    it->next = (it->next + 1) % LOADS;
}

/* A disk asks that a sector be stored: these are the bytes of a write under way. Returns its version. */
static inline uint32_t account_storing(uint32_t port, uint32_t lba, const uint8_t *bytes) {
    unsigned slot;
    uint32_t byte;
    for (slot = 0; slot < SLOTS; slot++) {
        command *it = &account.commands[slot];
        uint32_t number = lba - it->lba;
        if (!it->is_open || !it->has_fis || !it->is_write || it->port != port || lba < it->lba || number >= it->count) continue;
        for (byte = 0; byte < 512 && it->seen[512 * number + byte]; byte++) {}
        if (byte == 512 && !memcmp(it->data + 512 * number, bytes, 512)) return it->version;
    }
    fail("a sector is stored that no write brought", lba);
    return 0;
}

static inline void account_stored(uint32_t port, uint32_t lba, uint32_t version) {
    unsigned slot;
    account.now++;
    for (slot = 0; slot < SLOTS; slot++) {
        command *it = &account.commands[slot];
        if (!it->is_open || !it->is_write || is_wild(it) || it->port != port || it->version != version) continue;
        if (lba >= it->lba && lba < it->lba + it->count) it->stored[lba - it->lba] = account.now;
    }
}

static inline void account_flushed(uint32_t port, unsigned long asked) {
    if (asked > account.flush_asked[port]) account.flush_asked[port] = asked;
}

/* ---- a command that the guest sees end ---------------------------------------------------------------------------- */

static void check_read(const command *it, unsigned slot) {
    uint32_t at;
    for (at = 0; at < 512 * it->count; at++)
        if (it->seen[at] != 1) fail("a read ended without a byte", slot);
    for (at = 0; at < it->count; at++)
        if (!has_version(&it->may[at], it->brought[at])) fail("a read brought what was not written last", it->lba + at);
    ended_reads++;
}

static void check_write(const command *it, unsigned slot) {
    uint32_t at;
    for (at = 0; at < it->count; at++) {
        versions *may = &account.sectors[it->port][it->lba + at].may;
        if (!it->stored[at]) fail("a write ended before it was stored", slot);
        if (it->lasts && account.flush_asked[it->port] <= it->stored[at]) fail("a write ended that does not last", slot);
        if (it->is_alone) {
            may->count = 0;
            add_version(may, it->version);
        }
    }
    ended_writes++;
}

/* The guest reads that these commands are still under way. */
static void account_saw(uint32_t left) {
    unsigned slot;
    for (slot = 0; slot < SLOTS; slot++) {
        command *it = &account.commands[slot];
        if (!it->is_open || left >> slot & 1) continue;
        if (!is_wild(it) && !it->is_lost && it->has_fis) {
            if (it->is_read) check_read(it, slot);
            if (it->is_write) check_write(it, slot);
            if (it->is_flush && account.flush_asked[it->port] <= it->issued) fail("FLUSH CACHE ended without a flush", slot);
            if (it->is_flush) ended_flushes++;
        }
        if (!is_wild(it) && !it->is_lost && !it->has_fis) fail("a command ended that was not read", slot);
        it->is_open = 0;
    }
}

#endif
