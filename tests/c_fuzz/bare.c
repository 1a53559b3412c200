/*
 * Whether PxSSTS shows who is there: bare
 *
 * Without a multiplier it shows a device while one is plugged in, in reads of any width, and PxSCTL beside it stays as it is. With one it
 * shows the multiplier.
 */
#include "basics.h"

enum { PX_SCTL = 0x12C, PX_SSTS = 0x128, ESTABLISHED = 0x133 };

static gef_machine machine;

static void reads(const char *when, uint32_t at, uint32_t width, uint64_t wanted) {
    uint64_t value;
    must("read", gef_machine_read(&machine, at, width, &value));
    if (value != wanted) fail(when, (unsigned long)value);
}

/* All that an access can see of PxSSTS, where PxSCTL has this value. */
static void shows(const char *when, uint32_t status, uint32_t control) {
    uint64_t both = (uint64_t)control << 32 | status;
    uint32_t at, width;
    for (at = 0; at < 8; at++) {
        for (width = 1; width <= 8; width *= 2) {
            uint64_t kept = width == 8 ? UINT64_MAX : ((uint64_t)1 << 8 * width) - 1;
            reads(when, PX_SSTS + at, width, at + width > 8 ? 0 : both >> 8 * at & kept);
        }
    }
}

static void controls(uint32_t value) {
    must("write", gef_machine_write(&machine, PX_SCTL, 4, value));
}

int main(void) {
    gef_disk_profile profile = {"BARE", "1", "1", 16, 0, 512, 1, 32, 0, 1 << 20};
    must("new", gef_machine_new(&machine, 0, 0));
    shows("nobody came", 0, 0);
    must("put", gef_machine_put_disk(&machine, 0, &profile));
    shows("it is not plugged in", 0, 0);
    controls(0x304);
    shows("nobody is there, and the Phy is offline", 4, 0x304);
    controls(0x301);
    shows("nobody is there, in a COMRESET", 0, 0x301);
    controls(0x300);
    shows("nobody is there", 0, 0x300);
    must("plug", gef_machine_plug(&machine, 0));
    shows("it is there", ESTABLISHED, 0x300);
    controls(0x301);
    shows("it is there, in a COMRESET", 0, 0x301);
    controls(0x300);
    shows("it is there again", ESTABLISHED, 0x300);
    must("pull", gef_machine_pull(&machine, 0));
    shows("it was pulled", 0, 0x300);
    must("plug", gef_machine_plug(&machine, 0));
    must("remove", gef_machine_remove(&machine, 0));
    shows("it was taken away", 0, 0x300);
    must("free", gef_machine_free(&machine));
    must("new", gef_machine_new(&machine, 2, 1));
    shows("a multiplier is there", ESTABLISHED, 0);
    must("free", gef_machine_free(&machine));
    return 0;
}
