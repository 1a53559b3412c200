/* FISes: their memory, and how they are built. */
#include "plain.h"
#include <stdlib.h>

static Frame *unused;

/* A FIS of this type with all else 0. The bytes of Data are not cleared. */
Frame *frame_new(uint8_t type, uint16_t len) {
    Frame *frame = unused;
    if (frame) unused = frame->next;
    else if (!(frame = malloc(sizeof *frame))) abort();
    memset(frame->bytes, 0, type == DATA ? 4 : len);
    frame->bytes[0] = type;
    frame->len = len;
    return frame;
}

void frame_free(Frame *frame) {
    frame->next = unused;
    unused = frame;
}

Frame *frame_d2h(bool interrupts, uint8_t status, uint8_t error, uint32_t lba, uint8_t count) {
    Frame *frame = frame_new(D2H, 20);
    frame->bytes[1] = interrupts ? 0x40 : 0;
    frame->bytes[2] = status;
    frame->bytes[3] = error;
    put32(frame->bytes + 4, lba);
    frame->bytes[12] = count;
    return frame;
}

Frame *frame_set_bits(uint8_t flags, uint8_t status, uint8_t error, uint32_t sactive) {
    Frame *frame = frame_new(SET_BITS, 8);
    frame->bytes[1] = flags;
    frame->bytes[2] = status;
    frame->bytes[3] = error;
    put32(frame->bytes + 4, sactive);
    return frame;
}

Frame *frame_setup(uint8_t flags, uint8_t tag, uint32_t offset, uint32_t count) {
    Frame *frame = frame_new(SETUP, 28);
    frame->bytes[1] = flags;
    frame->bytes[4] = tag;
    put32(frame->bytes + 16, offset);
    put32(frame->bytes + 20, count);
    return frame;
}

/* A command for the device at a port, 20 bytes. */
void h2d_bytes(uint8_t *bytes, uint8_t port, uint8_t command, uint16_t features, uint64_t lba, uint8_t device,
               uint16_t count) {
    memset(bytes, 0, 20);
    bytes[0] = H2D, bytes[1] = 0x80 | port, bytes[2] = command, bytes[3] = (uint8_t)features;
    put32(bytes + 4, (uint32_t)lba);
    bytes[7] = device;
    put32(bytes + 8, (uint32_t)(lba >> 24));
    bytes[11] = (uint8_t)(features >> 8);
    bytes[12] = (uint8_t)count, bytes[13] = (uint8_t)(count >> 8);
}
