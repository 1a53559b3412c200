/*
 * basics.h - what the programs here share, of any guest: numbers that look thrown, a failure, the bytes of a sector, and FISes of a host.
 */
#ifndef BASICS_H
#define BASICS_H

#include <stdio.h>
#include <stdlib.h>
#include <string.h>
#include "gefsunk.h"

static uint64_t state = 88172645463325252u;

static inline uint32_t pick(uint32_t below) {
    state ^= state << 13;
    state ^= state >> 7;
    state ^= state << 17;
    return (uint32_t)(state >> 20) % below;
}

static inline void fail(const char *what, unsigned long number) {
    printf("%s: %lu\n", what, number);
    exit(1);
}

static inline void must(const char *what, gef_status status) {
    if (status != GEF_OK) fail(what, (unsigned long)status);
}

static inline uint32_t dword_at(const uint8_t *bytes) {
    return bytes[0] | (uint32_t)bytes[1] << 8 | (uint32_t)bytes[2] << 16 | (uint32_t)bytes[3] << 24;
}

/* A sector's bytes tell its port, its address, its version, and their own place in it. */
static inline void fill_sector(uint8_t *bytes, uint32_t port, uint64_t lba, uint32_t version) {
    size_t at;
    for (at = 0; at < 512; at += 8) {
        uint32_t low = version, high = (port + 1) << 24 | (uint32_t)(at / 8) << 16 | (uint32_t)lba;
        memcpy(bytes + at, &low, 4);
        memcpy(bytes + at + 4, &high, 4);
    }
}

/* A queued command, 60h or 61h, of 1 to 65,535 sectors. */
static inline void queued_fis(uint8_t *fis, unsigned slot, uint8_t code, uint32_t lba, uint32_t count) {
    memset(fis, 0, 20);
    fis[0] = 0x27;
    fis[1] = 0x80;
    fis[2] = code;
    fis[3] = (uint8_t)count;
    fis[4] = (uint8_t)lba;
    fis[5] = (uint8_t)(lba >> 8);
    fis[6] = (uint8_t)(lba >> 16);
    fis[7] = 0x40;
    fis[11] = (uint8_t)(count >> 8);
    fis[12] = (uint8_t)(slot << 3);
}

/* Any other command. */
static inline void plain_fis(uint8_t *fis, uint8_t code, uint8_t features, uint8_t lba, uint8_t count) {
    queued_fis(fis, 0, code, lba, 0);
    fis[3] = features;
    fis[12] = count;
}

/* A write of a register of the multiplier. */
static inline void multiplier_fis(uint8_t *fis, unsigned port, uint8_t number, uint32_t value) {
    queued_fis(fis, 0, 0xE8, value >> 8, number);
    fis[1] = 0x8F;
    fis[7] = (uint8_t)port;
    fis[12] = (uint8_t)value;
}

#endif
