/* The words of a line, and what is printed. */
#include "plain.h"
#include <stdio.h>

static char buffer[1 << 16];
static size_t used;

void print_end(void) {
    fwrite(buffer, 1, used, stdout);
    used = 0;
}

static void make_room(size_t len) {
    if (used + len > sizeof buffer) print_end();
}

void print_text(const char *text) {
    size_t len = strlen(text);
    make_room(len);
    memcpy(buffer + used, text, len);
    used += len;
}

void print_number(uint64_t number) {
    char digits[20];
    unsigned at = sizeof digits;
    do digits[--at] = (char)('0' + number % 10);
    while (number /= 10);
    make_room(sizeof digits);
    memcpy(buffer + used, digits + at, sizeof digits - at);
    used += sizeof digits - at;
}

/* A number in hexadecimal, with at least so many digits. */
void print_hex(uint64_t number, unsigned digits) {
    while (digits < 16 && number >> 4 * digits) digits++;
    make_room(digits);
    while (digits--) buffer[used++] = "0123456789abcdef"[number >> 4 * digits & 15];
}

void print_bytes(const uint8_t *bytes, size_t len) {
    for (; len; len--, bytes++) {
        make_room(2);
        buffer[used++] = "0123456789abcdef"[*bytes >> 4];
        buffer[used++] = "0123456789abcdef"[*bytes & 15];
    }
}

static bool is_blank(char byte) { return byte == ' ' || byte == '\t'; }

static void skip_blanks(Words *words) {
    while (words->at < words->end && is_blank(*words->at)) words->at++;
}

bool words_are_over(Words *words) {
    skip_blanks(words);
    return words->at == words->end;
}

bool words_next(Words *words, const char **word, size_t *len) {
    skip_blanks(words);
    *word = words->at;
    while (words->at < words->end && !is_blank(*words->at)) words->at++;
    *len = (size_t)(words->at - *word);
    return *len;
}

/* Takes the next word if it is this one. */
bool words_take(Words *words, const char *name) {
    Words before = *words;
    const char *word;
    size_t len;
    if (words_next(words, &word, &len) && len == strlen(name) && !memcmp(word, name, len)) return true;
    *words = before;
    return false;
}

uint64_t words_number(Words *words) {
    uint64_t number = 0;
    skip_blanks(words);
    while (words->at < words->end && *words->at >= '0' && *words->at <= '9')
        number = 10 * number + (uint64_t)(*words->at++ - '0');
    return number;
}

/* The value of each digit; 16 for every other byte. */
static uint8_t values[256];

void words_begin(void) {
    unsigned byte;
    memset(values, 16, sizeof values);
    for (byte = 0; byte < 10; byte++) values['0' + byte] = (uint8_t)byte;
    for (byte = 0; byte < 6; byte++) values['a' + byte] = values['A' + byte] = (uint8_t)(10 + byte);
}

static unsigned digit(char byte) { return values[(uint8_t)byte]; }

uint32_t words_address(Words *words) {
    uint32_t address = 0;
    skip_blanks(words);
    while (words->at < words->end && digit(*words->at) < 16) address = address << 4 | digit(*words->at++);
    return address;
}

Prd words_prd(Words *words) {
    Prd prd;
    prd.address = words_address(words);
    words->at++;
    prd.bytes = (uint32_t)words_number(words);
    return prd;
}

/* The bytes that the rest of the line spells, two digits each; -1 if it spells none. */
long words_bytes(Words *words, uint8_t *bytes) {
    long count = 0;
    while (!words_are_over(words)) {
        unsigned high = digit(*words->at++), low;
        if (words_are_over(words)) return -1;
        low = digit(*words->at++);
        if ((high | low) > 15) return -1;
        bytes[count++] = (uint8_t)(high << 4 | low);
    }
    return count;
}
