/* The host port: command slots, the transfer of each device, and the bytes that go to memory and come from it. */
#include "plain.h"

enum { ERR = 1, DRQ = 8, BSY = 0x80, SRST = 4, UNTOLD = BSY | DRQ, IDLE_STATUS = 0x50 };

static void free_slots(Host *host, unsigned dev, uint32_t slots) {
    host->issued &= ~slots;
    host->sent &= ~slots;
    host->of[dev] &= ~slots;
}

/* Issues the command of a slot. It goes out when its device may take one. */
void host_issue(Host *host, unsigned slot) {
    host->issued |= 1u << slot;
    host->of[host->slots[slot].dev] |= 1u << slot;
}

/* Forgets the commands of a device, and what it told. */
void host_forget(Host *host, unsigned dev) {
    free_slots(host, dev, host->of[dev]);
    host->due &= ~(1u << dev);
    host->faulty &= ~(1u << dev);
    host->status[dev] = IDLE_STATUS;
    host->error[dev] = 0;
}

/* Begins a transfer at an offset of its command. One that goes on where the last ended stays at its entry. */
static void set_up(Host *host, unsigned dev, unsigned slot, uint32_t offset, uint32_t count) {
    Transfer *transfer = &host->transfers[dev];
    if (transfer->slot != &host->slots[slot] || transfer->next != offset || !offset) {
        transfer->slot = &host->slots[slot];
        transfer->prd = 0;
        for (transfer->within = offset; transfer->within >= transfer->slot->prds[transfer->prd].bytes;
             transfer->prd++)
            transfer->within -= transfer->slot->prds[transfer->prd].bytes;
    }
    transfer->next = offset;
    transfer->left = count;
    transfer->is_page = false;
}

/* Moves bytes between a Data FIS and the places of its transfer. */
static void move(Host *host, unsigned dev, uint8_t *bytes, const uint8_t *data, uint32_t len) {
    Transfer *transfer = &host->transfers[dev];
    transfer->next += len;
    transfer->left -= len;
    while (len) {
        const Prd *prd = &transfer->slot->prds[transfer->prd];
        uint32_t part = prd->bytes - transfer->within;
        uint8_t *place = host->memory + prd->address + transfer->within;
        if (part > len) part = len;
        if (data) {
            memcpy(place, data, part);
            data += part;
        } else {
            memcpy(bytes, place, part);
            bytes += part;
        }
        len -= part;
        transfer->within += part;
        if (transfer->within == prd->bytes) {
            transfer->prd++;
            transfer->within = 0;
        }
    }
}

static bool is_signature(const uint8_t *fis) { return fis[0] == D2H && fis[3] == 1 && fis[12] == 1 && fis[4] == 1; }

static void hear_register(Host *host, unsigned dev, const uint8_t *fis) {
    uint32_t bit = 1u << dev, waiting = host->of[dev] & host->sent;
    bool ends_reset = host->resetting & bit;
    host->status[dev] = fis[2];
    host->error[dev] = fis[3];
    host->resetting &= ~bit;
    host->is_signed &= ~bit;
    if (dev == CONTROL) host->answer = get32(fis + 4) << 8 | fis[12];
    if (is_signature(fis)) host->is_signed |= bit;
    while (waiting && !ends_reset) {
        unsigned slot = (unsigned)lowest(waiting);
        if (host->slots[slot].kind != QUEUED) free_slots(host, dev, 1u << slot);
        waiting &= waiting - 1;
    }
}

static void hear_bits(Host *host, unsigned dev, const uint8_t *fis) {
    host->status[dev] = (host->status[dev] & UNTOLD) | fis[2];
    host->error[dev] = fis[3];
    if (fis[1] & 0x80) host->notified = true;
    if (fis[2] & ERR) host->faulty |= 1u << dev;
    else free_slots(host, dev, get32(fis + 4));
}

static void hear_data(Host *host, unsigned dev, const Frame *frame) {
    Transfer *transfer = &host->transfers[dev];
    move(host, dev, NULL, frame->bytes + 4, frame->len - 4u);
    if (transfer->is_page && !transfer->left) {
        host->status[dev] = IDLE_STATUS;
        free_slots(host, dev, 1u << (transfer->slot - host->slots));
    }
}

void host_hear(Host *host, const Frame *frame) {
    const uint8_t *fis = frame->bytes;
    unsigned dev = fis[1] & 15;
    uint32_t bit = 1u << dev;
    if (host->faulty & bit || (host->resetting & bit && !is_signature(fis))) return;
    switch (fis[0]) {
    case D2H: hear_register(host, dev, fis); break;
    case SET_BITS: hear_bits(host, dev, fis); break;
    case SETUP:
        set_up(host, dev, fis[4] & 31, get32(fis + 16), get32(fis + 20));
        if (fis[1] & 0x80) host->due |= bit;
        break;
    case ACTIVATE: host->due |= bit; break;
    case PIO_SETUP:
        host->status[dev] = fis[2];
        set_up(host, dev, (unsigned)lowest(host->of[dev] & host->sent & 1u << 30), 0,
               fis[16] | (uint32_t)fis[17] << 8);
        host->transfers[dev].is_page = true;
        break;
    case DATA: hear_data(host, dev, frame); break;
    }
}

static Frame *data_frame(Host *host, unsigned dev) {
    uint32_t left = host->transfers[dev].left, len = left < LONGEST_DATA ? left : LONGEST_DATA;
    Frame *frame = frame_new(DATA, (uint16_t)(4 + len));
    frame->bytes[1] = (uint8_t)dev;
    move(host, dev, frame->bytes + 4, NULL, len);
    host->due &= ~(1u << dev);
    return frame;
}

static bool may_go(const Host *host, const Slot *slot) {
    if (host->faulty >> slot->dev & 1) return false;
    return slot->kind == RESETS || !(host->resetting >> slot->dev & 1 || host->status[slot->dev] & (BSY | DRQ));
}

static Frame *command_frame(Host *host, unsigned at) {
    Slot *slot = &host->slots[at];
    Frame *frame = frame_new(H2D, 20);
    memcpy(frame->bytes, slot->fis, 20);
    if (slot->kind == RESETS) {
        if (slot->fis[15] & SRST) host->resetting |= 1u << slot->dev;
        free_slots(host, slot->dev, 1u << at);
    } else {
        host->sent |= 1u << at;
        host->status[slot->dev] |= BSY;
    }
    return frame;
}

/* The next FIS that goes out: Data that a device asked for, or else the command of the lowest slot that may go. */
Frame *host_next(Host *host) {
    uint32_t due = host->due & ~host->faulty, waits;
    if (!host->started) return NULL;
    if (due) return data_frame(host, (unsigned)lowest(due));
    for (waits = host->issued & ~host->sent; waits; waits &= waits - 1)
        if (may_go(host, &host->slots[lowest(waits)])) return command_frame(host, (unsigned)lowest(waits));
    return NULL;
}
