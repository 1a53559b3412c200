/* The driver: it brings up the multiplier and the devices, and issues requests. Slot 30 is for its own commands to
   devices, slot 31 for those to the multiplier. */
#include "plain.h"

enum { OWN = 30, TO_CONTROL = 31, OPENING = 7, CHANGES = 0x04010000, BUFFER = 0x100000 };
#define SIGNATURE 0x96690101u /* of a port multiplier */

static void end_slots(Driver *driver, uint32_t slots, Outcome outcome) {
    driver->waits &= ~slots;
    driver->out &= ~slots;
    driver->aside &= ~slots;
    driver->ended |= slots;
    for (; slots; slots &= slots - 1) driver->outcomes[lowest(slots)] = outcome;
}

static uint32_t slots_of(const Driver *driver, uint32_t among, unsigned dev) {
    uint32_t slots = 0;
    for (; among; among &= among - 1)
        if (driver->host.slots[lowest(among)].dev == dev) slots |= 1u << lowest(among);
    return slots;
}

void driver_submit(Driver *driver, unsigned dev, uint8_t command, uint64_t lba, unsigned sectors, const Prd *prds,
                   unsigned count) {
    unsigned at = (unsigned)lowest(~(driver->waits | driver->out | driver->aside | driver->ended));
    Slot *slot = &driver->host.slots[at];
    bool flushes = command == FLUSH;
    h2d_bytes(slot->fis, (uint8_t)dev, command, (uint16_t)sectors, lba, flushes ? 0 : 0x40,
              (uint16_t)(flushes ? 0 : at << 3));
    slot->dev = (uint8_t)dev;
    slot->kind = flushes ? NO_DATA : QUEUED;
    slot->count = count;
    memcpy(slot->prds, prds, count * sizeof *prds);
    driver->waits |= 1u << at;
    driver->tickets[at] = ++driver->given;
}

/* The ended request of the lowest slot, which is free then; -1 if there is none. */
int driver_poll(Driver *driver) {
    int slot = driver->ended ? lowest(driver->ended) : -1;
    driver->ended &= driver->ended - 1;
    return slot;
}

/* A device showed an error: its requests are set aside, and its log will be read. */
static void recover(Driver *driver, unsigned dev) {
    Host *host = &driver->host;
    uint32_t open = slots_of(driver, driver->waits | driver->out | driver->aside, dev);
    uint8_t status = host->status[dev], error = host->error[dev];
    host_forget(host, dev);
    host->status[dev] = status & 0x77;
    host->error[dev] = error;
    driver->waits &= ~open;
    driver->out &= ~open;
    driver->aside |= open;
    driver->ready &= ~(1u << dev);
    driver->recovering |= 1u << dev;
}

static void issue_own(Driver *driver, unsigned at, unsigned dev, SlotKind kind) {
    Slot *slot = &driver->host.slots[at];
    slot->dev = (uint8_t)dev;
    slot->kind = kind;
    slot->count = kind == PAGE;
    slot->prds[0] = (Prd){BUFFER, SECTOR};
    host_issue(&driver->host, at);
}

static void next_found(Driver *driver, unsigned from) {
    uint32_t found = driver->found >> from << from & 0x7FFF;
    driver->order = found ? CLEAR : WATCH;
    if (found) driver->at = (unsigned)lowest(found);
}

static void next_open(Driver *driver, unsigned from) {
    driver->order = from < driver->ports ? OPEN : SCAN;
    driver->at = from;
}

/* What the answer to an order tells, and which order comes next. */
static void note_answer(Driver *driver) {
    uint32_t answer = driver->host.answer, bit = 1u << driver->at;
    switch (driver->order) {
    case COUNT_PORTS:
        driver->ports = answer & 15;
        driver->order = SET_MASK;
        break;
    case ENABLE: next_open(driver, 0); break;
    case OPEN: next_open(driver, driver->at + 1); break;
    case SCAN:
        driver->found = answer;
        next_found(driver, 0);
        break;
    case DETECT:
        if ((answer & 15) == 3 && !(driver->recovering & bit)) driver->starting |= bit;
        next_found(driver, driver->at + 1);
        break;
    default: driver->order++; break;
    }
}

/* Says whether something came of the control port. */
static bool look_at_control(Driver *driver) {
    Host *host = &driver->host;
    bool news = driver->order == AWAIT && !driver->asked && !(host->resetting >> CONTROL);
    if (driver->asked && !(host->issued >> TO_CONTROL)) {
        note_answer(driver);
        driver->asked = false;
        news = true;
    }
    if (driver->asked) return news;
    if (driver->order == AWAIT && !(host->resetting >> CONTROL))
        driver->order = host->answer == SIGNATURE ? COUNT_PORTS : RESET_ON;
    else if (driver->order == WATCH && host->notified) driver->order = SCAN;
    return news;
}

/* A port reported its device: what it was to do is over, and it is looked for anew. */
static void lose(Driver *driver, unsigned dev) {
    uint32_t bit = 1u << dev;
    if (driver->asks_device && driver->asked_of == dev) driver->asks_device = false;
    host_forget(&driver->host, dev);
    driver->host.is_signed &= ~bit;
    driver->starting &= ~bit;
    driver->ready &= ~bit;
    driver->recovering &= ~bit;
    end_slots(driver, slots_of(driver, driver->waits | driver->out | driver->aside, dev), REMOVED);
}

static void control_command(Driver *driver, uint8_t command, unsigned port, uint16_t at, uint32_t value) {
    h2d_bytes(driver->host.slots[TO_CONTROL].fis, CONTROL, command, at, value >> 8, (uint8_t)port, value & 0xFF);
}

/* Issues the order; false if it has no command. */
static bool do_order(Driver *driver) {
    uint8_t *fis = driver->host.slots[TO_CONTROL].fis;
    bool resets = driver->order == RESET_ON || driver->order == RESET_OFF;
    switch (driver->order) {
    case RESET_ON:
    case RESET_OFF:
        control_command(driver, 0, 0, 0, 0);
        fis[1] = CONTROL;
        fis[15] = driver->order == RESET_ON ? 4 : 0;
        break;
    case COUNT_PORTS: control_command(driver, READ_PM, CONTROL, 2, 0); break;
    case SET_MASK: control_command(driver, WRITE_PM, CONTROL, 33, CHANGES); break;
    case ENABLE: control_command(driver, WRITE_PM, CONTROL, 96, 8); break;
    case OPEN: control_command(driver, WRITE_PM, driver->at, 2, 0); break;
    case SCAN:
        driver->host.notified = false;
        control_command(driver, READ_PM, CONTROL, 32, 0);
        break;
    case CLEAR:
        lose(driver, driver->at);
        control_command(driver, WRITE_PM, driver->at, 1, CHANGES);
        break;
    case DETECT: control_command(driver, READ_PM, driver->at, 0, 0); break;
    default: return false;
    }
    issue_own(driver, TO_CONTROL, CONTROL, resets ? RESETS : NO_DATA);
    driver->asked = true;
    return true;
}

/* The error log came: it names the request that failed, and the others are aborted. */
static void read_log(Driver *driver, unsigned dev) {
    const uint8_t *log = driver->host.memory + BUFFER;
    uint32_t aside = slots_of(driver, driver->aside, dev), named = aside & 1u << (log[0] & 31);
    driver->status[log[0] & 31] = log[2];
    driver->error[log[0] & 31] = log[3];
    end_slots(driver, aside & ~named, ABORTED);
    end_slots(driver, named, DEVICE_ERROR);
}

/* Says whether the answer to a command of slot 30 came. */
static bool look_at_device(Driver *driver) {
    if (!driver->asks_device || driver->host.issued >> OWN & 1) return false;
    if (driver->reads_log) read_log(driver, driver->asked_of);
    driver->asks_device = false;
    driver->starting &= ~(1u << driver->asked_of);
    driver->recovering &= ~(1u << driver->asked_of);
    driver->ready |= 1u << driver->asked_of;
    return true;
}

/* Identifies the lowest device that begins, or reads the log of the lowest one that failed. */
static bool ask_device(Driver *driver) {
    uint32_t due = (driver->starting & driver->host.is_signed) | driver->recovering;
    unsigned dev;
    if (driver->asks_device || !due) return false;
    dev = (unsigned)lowest(due);
    driver->reads_log = driver->recovering >> dev & 1;
    if (driver->reads_log) h2d_bytes(driver->host.slots[OWN].fis, (uint8_t)dev, READ_LOG, 0, 0x10, 0, 1);
    else h2d_bytes(driver->host.slots[OWN].fis, (uint8_t)dev, IDENTIFY, 0, 0, 0, 0);
    driver->asks_device = true;
    driver->asked_of = dev;
    issue_own(driver, OWN, dev, PAGE);
    return true;
}

static bool issue_request(Driver *driver) {
    uint32_t waits;
    for (waits = driver->waits; waits; waits &= waits - 1) {
        uint32_t bit = waits & -waits;
        if (driver->ready >> driver->host.slots[lowest(bit)].dev & 1) {
            driver->waits &= ~bit;
            driver->out |= bit;
            host_issue(&driver->host, (unsigned)lowest(bit));
            return true;
        }
    }
    return false;
}

/* Does the next thing that is due, and says whether something was done or came. */
bool driver_tick(Driver *driver) {
    Host *host = &driver->host;
    uint32_t done = driver->out & ~host->issued;
    bool news = done;
    end_slots(driver, done, DONE);
    if (driver->opened < OPENING) {
        host->started = ++driver->opened == OPENING;
        return true;
    }
    if (host->faulty) {
        recover(driver, (unsigned)lowest(host->faulty));
        return true;
    }
    news |= look_at_control(driver);
    if (!driver->asked && do_order(driver)) return true;
    news |= look_at_device(driver);
    return ask_device(driver) || issue_request(driver) || news;
}
