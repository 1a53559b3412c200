/* Frames as text. */
#include "plain.h"

static void print_field(const char *name, uint64_t number, unsigned digits) {
    print_text(name);
    print_hex(number, digits);
}

static void print_count(const char *name, uint64_t number) {
    print_text(name);
    print_number(number);
}

static uint64_t lba_of(const uint8_t *fis) {
    return (get32(fis + 4) & 0xFFFFFF) | (uint64_t)(get32(fis + 8) & 0xFFFFFF) << 24;
}

static uint64_t count_of(const uint8_t *fis) { return fis[12] | (uint64_t)fis[13] << 8; }

static void print_h2d(const uint8_t *fis) {
    print_count("h2d port ", fis[1] & 15);
    print_count(" c ", fis[1] >> 7);
    print_field(" command ", fis[2], 2);
    print_field(" features ", fis[3] | (uint64_t)fis[11] << 8, 4);
    print_field(" lba ", lba_of(fis), 12);
    print_field(" device ", fis[7], 2);
    print_field(" count ", count_of(fis), 4);
    print_field(" icc ", fis[14], 2);
    print_field(" control ", fis[15], 2);
}

static void print_file(const uint8_t *fis) {
    print_field(" status ", fis[2], 2);
    print_field(" error ", fis[3], 2);
    print_field(" lba ", lba_of(fis), 12);
    print_field(" device ", fis[7], 2);
    print_field(" count ", count_of(fis), 4);
}

static void print_d2h(const uint8_t *fis) {
    print_count("d2h port ", fis[1] & 15);
    print_count(" i ", fis[1] >> 6 & 1);
    print_file(fis);
}

static void print_setup(const uint8_t *fis) {
    print_count("setup port ", fis[1] & 15);
    print_count(" a ", fis[1] >> 7);
    print_count(" i ", fis[1] >> 6 & 1);
    print_count(" d ", fis[1] >> 5 & 1);
    print_count(" tag ", fis[4] & 31);
    print_count(" offset ", get32(fis + 16));
    print_count(" count ", get32(fis + 20));
}

static void print_pio(const uint8_t *fis) {
    print_count("pio port ", fis[1] & 15);
    print_count(" i ", fis[1] >> 6 & 1);
    print_count(" d ", fis[1] >> 5 & 1);
    print_file(fis);
    print_field(" ends ", fis[15], 2);
    print_count(" bytes ", fis[16] | (uint64_t)fis[17] << 8);
}

static void print_set_bits(const uint8_t *fis) {
    print_count("bits port ", fis[1] & 15);
    print_count(" n ", fis[1] >> 7);
    print_count(" i ", fis[1] >> 6 & 1);
    print_field(" status ", fis[2] & 0x77, 2);
    print_field(" error ", fis[3], 2);
    print_field(" sactive ", get32(fis + 4), 8);
}

/* Whether no FIS of this type has so many bytes. */
static bool is_wrong_length(uint8_t type, long len) {
    switch (type) {
    case H2D:
    case D2H:
    case PIO_SETUP: return len != 20;
    case ACTIVATE: return len != 4;
    case SETUP: return len != 28;
    case SET_BITS: return len != 8;
    case DATA: return len < 8;
    default: return false;
    }
}

static void print_fis(const uint8_t *fis, long len) {
    switch (fis[0]) {
    case H2D: print_h2d(fis); break;
    case D2H: print_d2h(fis); break;
    case ACTIVATE: print_count("activate port ", fis[1] & 15); break;
    case SETUP: print_setup(fis); break;
    case PIO_SETUP: print_pio(fis); break;
    case SET_BITS: print_set_bits(fis); break;
    case DATA:
        print_count("data port ", fis[1] & 15);
        print_count(" bytes ", (uint64_t)len - 4);
        break;
    default:
        print_field("unknown type ", fis[0], 2);
        print_count(" port ", fis[1] & 15);
        print_count(" bytes ", (uint64_t)len);
    }
}

/* Prints what the frame of a line is. */
void decode_line(Words *words) {
    static uint8_t fis[10000];
    long len = words_bytes(words, fis);
    if (len < 0) print_text("bad hex");
    else if (len < 4 || len > 4 + LONGEST_DATA || len % 4) print_text("bad length");
    else if (is_wrong_length(fis[0], len)) print_text("wrong length");
    else print_fis(fis, len);
    print_text("\n");
}
