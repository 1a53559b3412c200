/*
 * A disk by FISes, whose sectors lie in an array of this program. The program plays the host at the other end of the link: it asks who
 * the disk is, writes a sector by a queued command and reads it again, and meets one that cannot be read.
 */
#include <stdio.h>
#include <string.h>
#include "gefsunk.h"

enum { SECTORS = 64, LOST = 9 };

static uint8_t medium[512 * SECTORS];
static gef_disk disk = GEF_DISK_CLOSED;

/* What the host has to write, and the bytes of the last Data FIS that it got. */
static uint8_t written[4 + 512] = {0x46}, got[GEF_FIS_ROOM];

static void check(const char *what, gef_status status) {
    if (status != GEF_OK) printf("%s: %s\n", what, gef_status_text(status));
}

/* ---- the medium --------------------------------------------------------------------------------------------------- */

static void load(const gef_request *request, uint64_t lba, uint32_t count) {
    int has_lost = lba <= LOST && LOST < lba + count;
    check("load", has_lost ? gef_disk_answer_failed(&disk, request, GEF_UNC, LOST)
                           : gef_disk_answer_loaded(&disk, request, medium + 512 * lba, 512 * (size_t)count));
}

static void store(const gef_request *request, uint64_t lba, uint32_t count) {
    size_t len;
    check("stored", gef_disk_stored(&disk, request, 0, medium + 512 * lba, 512 * (size_t)count, &len));
    check("done", gef_disk_answer_done(&disk, request));
}

/* What the disk asks of its medium. This medium answers at once; another one may do so later, in any order. */
static void serve(const gef_event *event) {
    static const char *const names[] = {"load", "store", "flush", "discard"};
    const gef_request *request = &event->u.medium.request;
    printf("%s %u from %u\n", names[event->kind - GEF_EVENT_LOAD], event->u.medium.count, (unsigned)event->u.medium.lba);
    switch (event->kind) {
    case GEF_EVENT_LOAD: load(request, event->u.medium.lba, event->u.medium.count); break;
    case GEF_EVENT_STORE: store(request, event->u.medium.lba, event->u.medium.count); break;
    default: check("done", gef_disk_answer_done(&disk, request)); break;
    }
}

/* ---- the host ----------------------------------------------------------------------------------------------------- */

/* A FIS came. The host sends the data of a write as it is asked to: by DMA Activate, or by DMA Setup with bit A. */
static void hear(const uint8_t *fis, size_t len) {
    char text[GEF_TEXT_ROOM];
    if (fis[0] == 0x46) {
        memcpy(got, fis + 4, len - 4);
        printf("data of %u bytes\n", (unsigned)(len - 4));
        return;
    }
    check("text", gef_fis_text(fis, len, text, sizeof text));
    puts(text);
    if (fis[0] == 0x39 || (fis[0] == 0x41 && fis[1] & 0x80)) check("data", gef_disk_from_host(&disk, written, sizeof written));
}

/* All that the disk asks for is done, and all that it sends goes up. It is asked first: a command starts as it is asked. */
static void settle(void) {
    static uint8_t fis[GEF_FIS_ROOM];
    gef_event event;
    size_t len;
    for (;;) {
        gef_status status;
        check("next", gef_disk_next(&disk, &event));
        if (event.kind != GEF_EVENT_NOTHING) {
            serve(&event);
            continue;
        }
        status = gef_disk_to_host(&disk, fis, sizeof fis, &len);
        if (status == GEF_NOTHING) return;
        check("to host", status);
        hear(fis, len);
    }
}

/* A command of one sector, or of one page of a log; of a queued one the number stands in Features, and the tag, 3, in Count. */
static void command(const char *what, uint8_t code, uint8_t lba) {
    uint8_t fis[20] = {0x27, 0x80, 0, 0, 0, 0, 0, 0x40, 0, 0, 0, 0, 1};
    printf("%s\n", what);
    fis[2] = code;
    fis[4] = lba;
    if (code == 0x60 || code == 0x61) {
        fis[3] = 1;
        fis[12] = 3 << 3;
    }
    check("command", gef_disk_from_host(&disk, fis, sizeof fis));
    settle();
}

/* Characters of the IDENTIFY DEVICE data: the first of each two is in the high byte of its word. */
static void words(const char *what, size_t first, size_t last) {
    size_t at;
    printf("%s |", what);
    for (at = 2 * first; at < 2 * (last + 1); at++) putchar(got[at ^ 1]);
    puts("|");
}

int main(void) {
    gef_disk_profile profile = {"EXAMPLE DISK", "ONE", "1.0", SECTORS, 0, 512, 1, 32, 0, GEF_LEAST_LIMIT};
    check("new", gef_disk_new(&disk, &profile));
    check("plug", gef_disk_plug(&disk));
    settle();
    command("IDENTIFY DEVICE", 0xEC, 0);
    words("model", 27, 46);
    words("serial", 10, 19);
    memset(written + 4, 0xA5, 512);
    command("WRITE FPDMA QUEUED, sector 5", 0x61, 5);
    printf("the medium has %02x .. %02x\n", medium[512 * 5], medium[512 * 5 + 511]);
    command("READ FPDMA QUEUED, sector 5", 0x60, 5);
    printf("the host has %02x .. %02x\n", got[0], got[511]);
    command("READ FPDMA QUEUED, sector 9", 0x60, LOST);
    command("READ LOG EXT, log 10h", 0x2F, 0x10);
    printf("tag %u, Error %02x, sector %u\n", got[0] & 31, got[3], got[4]);
    check("free", gef_disk_free(&disk));
    return 0;
}
