/* Says what FISes mean. The last two are none: a length that no FIS has, and one that no FIS of its type has. */
#include <stdio.h>
#include "gefsunk.h"

static void show(const uint8_t *fis, size_t len) {
    char text[GEF_TEXT_ROOM];
    gef_status status = gef_fis_text(fis, len, text, sizeof text);
    puts(status == GEF_OK ? text : gef_status_text(status));
}

int main(void) {
    /* READ FPDMA QUEUED of 40 sectors at 256, to the device at PM Port 3 */
    static const uint8_t read[20] = {0x27, 0x83, 0x60, 0x01, 0x00, 0x01, 0x00, 0x40, 0, 0, 0, 0, 0x28};
    static const uint8_t bits[8] = {0xA1, 0x43, 0x40, 0, 0x10};
    static const uint8_t data[12] = {0x46, 0x03};
    show(read, sizeof read);
    show(bits, sizeof bits);
    show(data, sizeof data);
    show(read, 19);
    show(bits, 4);
    return 0;
}
