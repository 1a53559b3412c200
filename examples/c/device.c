/*
 * A device of one's own at a port: FISes for it come as events, and it sends its own when it likes. This one tells its signature and who
 * it is (IDENTIFY DEVICE), and aborts all other commands. The program is the machine, the guest and the device.
 */
#include "guest.h"

/* What the device has to send, the first one first. */
static struct {
    size_t len;
    uint8_t fis[516];
} outbox[4];
static size_t first, last;

static void say(const uint8_t *fis, size_t len) {
    memcpy(outbox[last % 4].fis, fis, len);
    outbox[last++ % 4].len = len;
}

/* It begins anew: what it had to do is forgotten, and its signature goes. */
static void begin(void) {
    static const uint8_t signature[20] = {0x34, 0x00, 0x50, 0x01, 0x01, 0, 0, 0, 0, 0, 0, 0, 0x01};
    first = last = 0;
    say(signature, sizeof signature);
}

/* IDENTIFY DEVICE: a PIO Setup, and 512 bytes of Data. The model number stands in the words 27 to 46. */
static void identify(void) {
    static const uint8_t setup[20] = {0x5F, 0x60, 0x58, [15] = 0x50, 0x00, 0x02};
    static const char model[] = "A DEVICE OF ONE'S OWN                   ";
    uint8_t data[4 + 512] = {0x46};
    size_t at;
    for (at = 0; at < 40; at++) data[4 + 54 + (at ^ 1)] = (uint8_t)model[at];
    say(setup, sizeof setup);
    say(data, sizeof data);
}

/* A FIS for the device. A software reset ends as bit SRST of Control falls. */
static void hear(const uint8_t *fis, size_t len) {
    static const uint8_t aborted[20] = {0x34, 0x40, 0x51, 0x04};
    static int is_reset;
    char text[GEF_TEXT_ROOM];
    check("text", gef_fis_text(fis, len, text, sizeof text));
    printf("to the device: %s\n", text);
    if (fis[0] != 0x27) return;
    if (!(fis[1] & 0x80)) {
        if (is_reset && !(fis[15] & 4)) begin();
        is_reset = fis[15] & 4;
    } else if (fis[2] == 0xEC) {
        identify();
    } else {
        say(aborted, sizeof aborted);
    }
}

static void take_frame(uint8_t port) {
    uint8_t fis[GEF_FIS_ROOM];
    size_t len;
    check("take", gef_machine_take_frame(&machine, port, fis, sizeof fis, &len));
    hear(fis, len);
}

/* What the device has to send goes, as long as there is room: GEF_FULL says that another FIS of it waits. */
static int send(uint8_t port) {
    gef_status status;
    if (first == last) return 0;
    status = gef_machine_offer(&machine, port, outbox[first % 4].fis, outbox[first % 4].len);
    if (status == GEF_OK) first++;
    if (status != GEF_FULL) check("offer", status);
    return status == GEF_OK;
}

static void settle(void) {
    gef_event event;
    do {
        gef_status status = gef_machine_next(&machine, &event);
        check("next", status);
        if (status != GEF_OK) return;
        switch (event.kind) {
        case GEF_EVENT_READ_GUEST: read_guest(&event); break;
        case GEF_EVENT_WRITE_GUEST: write_guest(&event); break;
        case GEF_EVENT_TO_DEVICE: take_frame((uint8_t)event.port); break;
        case GEF_EVENT_BEGINS:
            puts("the device begins anew");
            begin();
            break;
        default: break;
        }
    } while (event.kind != GEF_EVENT_NOTHING || send(0));
}

int main(void) {
    uint8_t reset[20] = {0x27};
    int at;
    check("new", gef_machine_new(&machine, 0, 0));
    check("put", gef_machine_put_device(&machine, 0));
    check("plug", gef_machine_plug(&machine, 0));
    check("power", gef_machine_power_on(&machine));
    bring_up();

    puts("IDENTIFY DEVICE");
    issue_plain(0, 0xEC, 0, 0, 0, 512, 0);
    serve_interrupt();
    for (at = 0; at < 40; at++) putchar(buffer_of(0)[54 + (at ^ 1)]);
    puts("|");
    puts("READ DMA EXT");
    issue_plain(0, 0x25, 0, 0, 1, 512, 0);
    serve_interrupt();

    puts("a software reset");
    write_register(CMD, 0x20010);
    write_register(CMD, 0x20018);
    write_register(CMD, 0x20011);
    reset[15] = 4;
    issue(0, 0, reset, 0, 0);
    reset[15] = 0;
    issue(0, 0, reset, 0, 0);
    printf("PxSIG %x\n", (unsigned)read_register(SIG));
    serve_interrupt();
    check("free", gef_machine_free(&machine));
    return 0;
}
