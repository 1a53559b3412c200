/* The port multiplier: registers, a place for each way at each port, and the control port. */
#include "plain.h"

enum { OFFLINE = 4, NO_DEVICE = 0, ESTABLISHED = 0x133, SERROR_N = 1 << 16, SERROR_X = 1 << 26, NOTIFIES = 8 };

void pm_open(Multiplier *pm, unsigned ports) {
    unsigned n;
    memset(pm, 0, sizeof *pm);
    pm->ports = ports;
    pm->served = CONTROL;
    pm->mask = 0x0400FFFF;
    for (n = 0; n < PORTS; n++) pm->port[n].status = pm->port[n].control = OFFLINE;
}

static bool is_open(const PmPort *port) { return !(port->control & 15); }

static bool forwards(const PmPort *port) {
    return is_open(port) && (port->status & 15) == 3 && !(port->error & SERROR_X);
}

static uint32_t summary(const Multiplier *pm) {
    uint32_t bits = 0;
    unsigned n;
    for (n = 0; n < pm->ports; n++)
        if (pm->port[n].error & pm->mask) bits |= 1u << n;
    return bits;
}

static void note_risen(Multiplier *pm, uint32_t before) {
    if (pm->enabled & NOTIFIES && summary(pm) & ~before) pm->is_due = true;
}

static void meet(PmPort *port) {
    port->status = ESTABLISHED;
    port->error |= SERROR_N | SERROR_X;
}

void pm_came(Multiplier *pm, unsigned n, uint32_t conn) {
    uint32_t before = summary(pm);
    pm->port[n].conn = conn;
    if (is_open(&pm->port[n])) meet(&pm->port[n]);
    note_risen(pm, before);
}

static Frame *left_in(Frame *frame, uint32_t gone) {
    if (!frame || frame->conn > gone) return frame;
    frame_free(frame);
    return NULL;
}

void pm_gone(Multiplier *pm, unsigned n, uint32_t conn) {
    PmPort *port = &pm->port[n];
    uint32_t before = summary(pm);
    port->conn = 0;
    port->gone = conn;
    port->up = left_in(port->up, conn);
    port->down = left_in(port->down, conn);
    if (is_open(port)) {
        port->status = NO_DEVICE;
        port->error |= SERROR_N;
    }
    note_risen(pm, before);
}

static uint32_t read_register(const Multiplier *pm, unsigned n, unsigned at) {
    if (n < CONTROL) return at == 0 ? pm->port[n].status : at == 1 ? pm->port[n].error : pm->port[n].control;
    return at == 2 ? pm->ports : at == 32 ? summary(pm) : at == 33 ? pm->mask : pm->enabled;
}

static void write_register(Multiplier *pm, unsigned n, unsigned at, uint32_t value) {
    PmPort *port = &pm->port[n % CONTROL];
    uint32_t before = summary(pm);
    if (n == CONTROL) *(at == 33 ? &pm->mask : &pm->enabled) = value;
    else if (at == 1) port->error &= ~value;
    else if (!is_open(port)) {
        port->control = value;
        port->status = NO_DEVICE;
        if (port->conn) meet(port);
    }
    note_risen(pm, before);
}

/* The answer of the control port to a command, if it has one. */
static Frame *answer(Multiplier *pm, const uint8_t *fis) {
    uint32_t value = 0;
    if (!(fis[1] & 0x80)) {
        bool was = pm->resetting;
        pm->resetting = fis[15] & 4;
        return was && !pm->resetting ? frame_d2h(true, 0x50, 1, 0x966901, 1) : NULL;
    }
    if (fis[2] == READ_PM) value = read_register(pm, fis[7] & 15, fis[3]);
    else write_register(pm, fis[7] & 15, fis[3], (get32(fis + 4) & 0xFFFFFF) << 8 | fis[12]);
    return frame_d2h(true, 0x50, 0, value >> 8, (uint8_t)value);
}

static Frame *from_control(Multiplier *pm, Frame *frame) {
    frame->bytes[1] |= CONTROL;
    frame->port = CONTROL;
    frame->conn = 0;
    frame->number = pm->number++;
    return frame;
}

/* Takes a frame of the host; false if the place that it goes to is full. */
bool pm_hear(Multiplier *pm, Frame *frame) {
    unsigned n = frame->bytes[1] & 15;
    if (n == CONTROL) {
        if (pm->answer) return false;
        pm->answer = answer(pm, frame->bytes);
        if (pm->answer) from_control(pm, pm->answer);
        frame_free(frame);
    } else if (!pm->port[n].conn || !forwards(&pm->port[n])) {
        frame_free(frame);
    } else {
        if (pm->port[n].down) return false;
        frame->bytes[1] &= 0xF0;
        frame->conn = pm->port[n].conn;
        pm->port[n].down = frame;
    }
    return true;
}

static Frame *give(Multiplier *pm, unsigned place) {
    PmPort *port = &pm->port[place % CONTROL];
    Frame *frame = NULL;
    if (place < CONTROL && port->up && port->up->conn == port->conn && forwards(port)) {
        frame = port->up;
        port->up = NULL;
        frame->bytes[1] |= (uint8_t)place;
    } else if (place == CONTROL && pm->is_due) {
        pm->is_due = false;
        frame = from_control(pm, frame_set_bits(0xC0, 0x50, 0, 0));
    } else if (place == CONTROL) {
        frame = pm->answer;
        pm->answer = NULL;
    }
    return frame;
}

/* The next frame for the host: of the place that is served next, from the one after the last on. */
Frame *pm_next(Multiplier *pm) {
    unsigned step;
    for (step = 1; step <= 16; step++) {
        unsigned place = (pm->served + step) % 16;
        Frame *frame = give(pm, place);
        if (frame) {
            pm->served = place;
            return frame;
        }
    }
    return NULL;
}
