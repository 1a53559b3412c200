/*
 * The side of the library that is C: each call tests its pointers for null, and passes on to the export that is proved
 * (crates/gefsunk). Beside that an event's fields go into its union. The texts of the answers stand here, since no export can
 * return a pointer.
 */
#include "gefsunk.h"
#include <string.h>

/* A gef_disk_profile without its texts. */
struct disk_numbers {
    uint64_t sectors, wwn;
    uint32_t physical, rotation, depth, trim, limit;
};

/* An event as the exports write it (crates/gefsunk/src/event.rt). What a kind of event does not have is 0. */
struct flat_event {
    uint32_t kind, port, up, count;
    uint64_t lba, at;
    size_t len;
    gef_wanted wanted;
    gef_request request;
};

/* A slice is a pointer and a length. */
uint32_t gefsunk_fis_text(const uint8_t *fis, size_t len, uint8_t *room, size_t room_len, size_t *text_len);
uint32_t gefsunk_pm_new(gef_pm *pm, uint8_t ports);
uint32_t gefsunk_pm_new_with_port_0_open(gef_pm *pm, uint8_t ports, uint32_t is_there);
uint32_t gefsunk_pm_free(gef_pm *pm);
uint32_t gefsunk_pm_plug(gef_pm *pm, uint8_t port);
uint32_t gefsunk_pm_unplug(gef_pm *pm, uint8_t port);
uint32_t gefsunk_pm_from_host(gef_pm *pm, const uint8_t *fis, size_t len);
uint32_t gefsunk_pm_from_device(gef_pm *pm, uint8_t port, const uint8_t *fis, size_t len);
uint32_t gefsunk_pm_to_host(gef_pm *pm, uint8_t *fis, size_t room, size_t *len, uint8_t *port);
uint32_t gefsunk_pm_to_device(gef_pm *pm, uint8_t port, uint8_t *fis, size_t room, size_t *len);
uint32_t gefsunk_pm_read(gef_pm *pm, uint8_t port, uint16_t number, uint32_t *value);
uint32_t gefsunk_pm_dropped(gef_pm *pm, uint32_t *count);
uint32_t gefsunk_disk_new(gef_disk *disk, const struct disk_numbers *numbers, const uint8_t *model, size_t model_len,
                          const uint8_t *serial, size_t serial_len, const uint8_t *firmware, size_t firmware_len);
uint32_t gefsunk_disk_free(gef_disk *disk);
uint32_t gefsunk_disk_plug(gef_disk *disk);
uint32_t gefsunk_disk_from_host(gef_disk *disk, const uint8_t *fis, size_t len);
uint32_t gefsunk_disk_to_host(gef_disk *disk, uint8_t *fis, size_t room, size_t *len);
uint32_t gefsunk_disk_next(gef_disk *disk, struct flat_event *event);
uint32_t gefsunk_disk_answer_loaded(gef_disk *disk, const gef_request *request, const uint8_t *bytes, size_t len);
uint32_t gefsunk_disk_answer_done(gef_disk *disk, const gef_request *request);
uint32_t gefsunk_disk_answer_failed(gef_disk *disk, const gef_request *request, uint32_t error, uint64_t lba);
uint32_t gefsunk_disk_stored(gef_disk *disk, const gef_request *request, size_t from, uint8_t *bytes, size_t room, size_t *len);
uint32_t gefsunk_disk_discarded(gef_disk *disk, const gef_request *request, size_t number, gef_range *range);
uint32_t gefsunk_machine_new(gef_machine *machine, uint8_t ports, uint32_t port_0_open);
uint32_t gefsunk_machine_free(gef_machine *machine);
uint32_t gefsunk_machine_read(gef_machine *machine, uint32_t offset, uint32_t width, uint64_t *value);
uint32_t gefsunk_machine_write(gef_machine *machine, uint32_t offset, uint32_t width, uint64_t value);
uint32_t gefsunk_machine_put_disk(gef_machine *machine, uint8_t port, const struct disk_numbers *numbers, const uint8_t *model,
                                  size_t model_len, const uint8_t *serial, size_t serial_len, const uint8_t *firmware,
                                  size_t firmware_len);
uint32_t gefsunk_machine_put_device(gef_machine *machine, uint8_t port);
uint32_t gefsunk_machine_plug(gef_machine *machine, uint8_t port);
uint32_t gefsunk_machine_power_on(gef_machine *machine);
uint32_t gefsunk_machine_pull(gef_machine *machine, uint8_t port);
uint32_t gefsunk_machine_remove(gef_machine *machine, uint8_t port);
uint32_t gefsunk_machine_next(gef_machine *machine, struct flat_event *event);
uint32_t gefsunk_machine_lent(gef_machine *machine, uint8_t *bytes, size_t room, size_t *len);
uint32_t gefsunk_machine_supply(gef_machine *machine, const gef_wanted *wanted, const uint8_t *bytes, size_t len);
uint32_t gefsunk_machine_no_memory(gef_machine *machine, const gef_wanted *wanted);
uint32_t gefsunk_machine_answer_loaded(gef_machine *machine, const gef_request *request, const uint8_t *bytes, size_t len);
uint32_t gefsunk_machine_answer_done(gef_machine *machine, const gef_request *request);
uint32_t gefsunk_machine_answer_failed(gef_machine *machine, const gef_request *request, uint32_t error, uint64_t lba);
uint32_t gefsunk_machine_stored(gef_machine *machine, const gef_request *request, size_t from, uint8_t *bytes, size_t room,
                                size_t *len);
uint32_t gefsunk_machine_discarded(gef_machine *machine, const gef_request *request, size_t number, gef_range *range);
uint32_t gefsunk_machine_take_frame(gef_machine *machine, uint8_t port, uint8_t *fis, size_t room, size_t *len);
uint32_t gefsunk_machine_offer(gef_machine *machine, uint8_t port, const uint8_t *fis, size_t len);
uint32_t gefsunk_machine_state_size(gef_machine *machine, size_t *len);
uint32_t gefsunk_machine_save(gef_machine *machine, uint8_t *bytes, size_t room, size_t *len);
uint32_t gefsunk_machine_restore(gef_machine *machine, const uint8_t *bytes, size_t len);

const char *gef_version(void) {
    return GEF_VERSION;
}

const char *gef_status_text(gef_status status) {
    switch (status) {
    case GEF_OK: return "done";
    case GEF_NULL: return "a pointer is null";
    case GEF_CLOSED: return "the handle is not open";
    case GEF_OPEN: return "the handle is open already";
    case GEF_NO_MEMORY: return "out of memory";
    case GEF_BAD_PORTS: return "a port multiplier has 1 to 15 ports";
    case GEF_NO_PORT: return "no such port";
    case GEF_BAD_LENGTH: return "no FIS has so many bytes";
    case GEF_WRONG_LENGTH: return "no FIS of this type has so many bytes";
    case GEF_TOO_SHORT: return "the room is too short";
    case GEF_NOTHING: return "nothing to give";
    case GEF_FULL: return "another FIS waits there";
    case GEF_DROPPED: return "nobody takes the FIS";
    case GEF_ALREADY_THERE: return "a device is there";
    case GEF_NOT_THERE: return "no device is there";
    case GEF_NO_REGISTER: return "no such register";
    case GEF_SPENT: return "the port takes no further device";
    case GEF_BAD_WIDTH: return "an access has 1, 2, 4 or 8 bytes";
    case GEF_BAD_SECTORS: return "no disk has so many sectors";
    case GEF_BAD_TEXT: return "a text of the disk is too long or not printable";
    case GEF_BAD_DEPTH: return "no queue has so many commands";
    case GEF_BAD_ROTATION: return "no medium turns so fast";
    case GEF_BAD_PHYSICAL: return "no physical sector has so many bytes";
    case GEF_BAD_LIMIT: return "the bound in bytes is too low";
    case GEF_PLUGGED_IN: return "it is plugged in already";
    case GEF_NOT_WANTED: return "no event asks for such bytes";
    case GEF_OTHER_DISK: return "the disk that asked is gone";
    case GEF_NOT_OUT: return "no such request is out";
    case GEF_OTHER_KIND: return "the request asked for something else";
    case GEF_OTHER_LENGTH: return "the load asked for another length";
    case GEF_OTHER_SECTOR: return "the request does not have this sector";
    case GEF_BAD_ERROR: return "no request fails like this";
    case GEF_NOT_A_STATE: return "the bytes are not the state of a machine";
    case GEF_OTHER_VERSION: return "the state has a version that this library does not read";
    case GEF_BAD_STATE: return "the state of the machine is damaged";
    }
    return "no such answer";
}

gef_status gef_fis_text(const uint8_t *fis, size_t len, char *text, size_t room) {
    size_t written = 0;
    gef_status status;
    if (!fis || !text) return GEF_NULL;
    if (room == 0) return GEF_TOO_SHORT;
    status = (gef_status)gefsunk_fis_text(fis, len, (uint8_t *)text, room - 1, &written);
    text[status == GEF_OK ? written : 0] = 0;
    return status;
}

gef_status gef_pm_new(gef_pm *pm, uint8_t ports) {
    return pm ? (gef_status)gefsunk_pm_new(pm, ports) : GEF_NULL;
}

gef_status gef_pm_new_with_port_0_open(gef_pm *pm, uint8_t ports, uint32_t is_there) {
    return pm ? (gef_status)gefsunk_pm_new_with_port_0_open(pm, ports, is_there) : GEF_NULL;
}

gef_status gef_pm_free(gef_pm *pm) {
    return pm ? (gef_status)gefsunk_pm_free(pm) : GEF_NULL;
}

gef_status gef_pm_plug(gef_pm *pm, uint8_t port) {
    return pm ? (gef_status)gefsunk_pm_plug(pm, port) : GEF_NULL;
}

gef_status gef_pm_unplug(gef_pm *pm, uint8_t port) {
    return pm ? (gef_status)gefsunk_pm_unplug(pm, port) : GEF_NULL;
}

gef_status gef_pm_from_host(gef_pm *pm, const uint8_t *fis, size_t len) {
    return pm && fis ? (gef_status)gefsunk_pm_from_host(pm, fis, len) : GEF_NULL;
}

gef_status gef_pm_from_device(gef_pm *pm, uint8_t port, const uint8_t *fis, size_t len) {
    return pm && fis ? (gef_status)gefsunk_pm_from_device(pm, port, fis, len) : GEF_NULL;
}

gef_status gef_pm_to_host(gef_pm *pm, uint8_t *fis, size_t room, size_t *len, uint8_t *port) {
    return pm && fis && len && port ? (gef_status)gefsunk_pm_to_host(pm, fis, room, len, port) : GEF_NULL;
}

gef_status gef_pm_to_device(gef_pm *pm, uint8_t port, uint8_t *fis, size_t room, size_t *len) {
    return pm && fis && len ? (gef_status)gefsunk_pm_to_device(pm, port, fis, room, len) : GEF_NULL;
}

gef_status gef_pm_read(gef_pm *pm, uint8_t port, uint16_t number, uint32_t *value) {
    return pm && value ? (gef_status)gefsunk_pm_read(pm, port, number, value) : GEF_NULL;
}

gef_status gef_pm_dropped(gef_pm *pm, uint32_t *count) {
    return pm && count ? (gef_status)gefsunk_pm_dropped(pm, count) : GEF_NULL;
}

static struct disk_numbers numbers_of(const gef_disk_profile *p) {
    struct disk_numbers numbers;
    numbers.sectors = p->sectors;
    numbers.wwn = p->wwn;
    numbers.physical = p->physical;
    numbers.rotation = p->rotation;
    numbers.depth = p->depth;
    numbers.trim = p->trim;
    numbers.limit = p->limit;
    return numbers;
}

static void shown(const struct flat_event *flat, gef_event *event) {
    memset(event, 0, sizeof *event);
    event->kind = flat->kind;
    event->port = flat->port;
    switch (flat->kind) {
    case GEF_EVENT_READ_GUEST:
        event->u.read.at = flat->at;
        event->u.read.len = flat->len;
        event->u.read.wanted = flat->wanted;
        break;
    case GEF_EVENT_WRITE_GUEST:
        event->u.write.at = flat->at;
        event->u.write.len = flat->len;
        break;
    case GEF_EVENT_LOAD:
    case GEF_EVENT_STORE:
    case GEF_EVENT_FLUSH:
    case GEF_EVENT_DISCARD:
        event->u.medium.lba = flat->lba;
        event->u.medium.count = flat->count;
        event->u.medium.request = flat->request;
        break;
    case GEF_EVENT_LINE:
        event->u.up = flat->up;
        break;
    }
}

gef_status gef_disk_new(gef_disk *disk, const gef_disk_profile *p) {
    struct disk_numbers numbers;
    if (!disk || !p || !p->model || !p->serial || !p->firmware) return GEF_NULL;
    numbers = numbers_of(p);
    return (gef_status)gefsunk_disk_new(disk, &numbers, (const uint8_t *)p->model, strlen(p->model),
                                        (const uint8_t *)p->serial, strlen(p->serial), (const uint8_t *)p->firmware,
                                        strlen(p->firmware));
}

gef_status gef_disk_free(gef_disk *disk) {
    return disk ? (gef_status)gefsunk_disk_free(disk) : GEF_NULL;
}

gef_status gef_disk_plug(gef_disk *disk) {
    return disk ? (gef_status)gefsunk_disk_plug(disk) : GEF_NULL;
}

gef_status gef_disk_from_host(gef_disk *disk, const uint8_t *fis, size_t len) {
    return disk && fis ? (gef_status)gefsunk_disk_from_host(disk, fis, len) : GEF_NULL;
}

gef_status gef_disk_to_host(gef_disk *disk, uint8_t *fis, size_t room, size_t *len) {
    return disk && fis && len ? (gef_status)gefsunk_disk_to_host(disk, fis, room, len) : GEF_NULL;
}

gef_status gef_disk_next(gef_disk *disk, gef_event *event) {
    struct flat_event flat;
    gef_status status;
    if (!disk || !event) return GEF_NULL;
    memset(&flat, 0, sizeof flat);
    status = (gef_status)gefsunk_disk_next(disk, &flat);
    if (status == GEF_OK) shown(&flat, event);
    return status;
}

gef_status gef_disk_answer_loaded(gef_disk *disk, const gef_request *request, const uint8_t *bytes, size_t len) {
    return disk && request && bytes ? (gef_status)gefsunk_disk_answer_loaded(disk, request, bytes, len) : GEF_NULL;
}

gef_status gef_disk_answer_done(gef_disk *disk, const gef_request *request) {
    return disk && request ? (gef_status)gefsunk_disk_answer_done(disk, request) : GEF_NULL;
}

gef_status gef_disk_answer_failed(gef_disk *disk, const gef_request *request, uint32_t error, uint64_t lba) {
    return disk && request ? (gef_status)gefsunk_disk_answer_failed(disk, request, error, lba) : GEF_NULL;
}

gef_status gef_disk_stored(gef_disk *disk, const gef_request *request, size_t from, uint8_t *bytes, size_t room, size_t *len) {
    return disk && request && bytes && len ? (gef_status)gefsunk_disk_stored(disk, request, from, bytes, room, len) : GEF_NULL;
}

gef_status gef_disk_discarded(gef_disk *disk, const gef_request *request, size_t number, gef_range *range) {
    return disk && request && range ? (gef_status)gefsunk_disk_discarded(disk, request, number, range) : GEF_NULL;
}

gef_status gef_machine_new(gef_machine *machine, uint8_t ports, uint32_t port_0_open) {
    return machine ? (gef_status)gefsunk_machine_new(machine, ports, port_0_open) : GEF_NULL;
}

gef_status gef_machine_free(gef_machine *machine) {
    return machine ? (gef_status)gefsunk_machine_free(machine) : GEF_NULL;
}

gef_status gef_machine_read(gef_machine *machine, uint32_t offset, uint32_t width, uint64_t *value) {
    return machine && value ? (gef_status)gefsunk_machine_read(machine, offset, width, value) : GEF_NULL;
}

gef_status gef_machine_write(gef_machine *machine, uint32_t offset, uint32_t width, uint64_t value) {
    return machine ? (gef_status)gefsunk_machine_write(machine, offset, width, value) : GEF_NULL;
}

gef_status gef_machine_put_disk(gef_machine *machine, uint8_t port, const gef_disk_profile *p) {
    struct disk_numbers numbers;
    if (!machine || !p || !p->model || !p->serial || !p->firmware) return GEF_NULL;
    numbers = numbers_of(p);
    return (gef_status)gefsunk_machine_put_disk(machine, port, &numbers, (const uint8_t *)p->model, strlen(p->model),
                                                (const uint8_t *)p->serial, strlen(p->serial), (const uint8_t *)p->firmware,
                                                strlen(p->firmware));
}

gef_status gef_machine_put_device(gef_machine *machine, uint8_t port) {
    return machine ? (gef_status)gefsunk_machine_put_device(machine, port) : GEF_NULL;
}

gef_status gef_machine_plug(gef_machine *machine, uint8_t port) {
    return machine ? (gef_status)gefsunk_machine_plug(machine, port) : GEF_NULL;
}

gef_status gef_machine_power_on(gef_machine *machine) {
    return machine ? (gef_status)gefsunk_machine_power_on(machine) : GEF_NULL;
}

gef_status gef_machine_pull(gef_machine *machine, uint8_t port) {
    return machine ? (gef_status)gefsunk_machine_pull(machine, port) : GEF_NULL;
}

gef_status gef_machine_remove(gef_machine *machine, uint8_t port) {
    return machine ? (gef_status)gefsunk_machine_remove(machine, port) : GEF_NULL;
}

gef_status gef_machine_next(gef_machine *machine, gef_event *event) {
    struct flat_event flat;
    gef_status status;
    if (!machine || !event) return GEF_NULL;
    memset(&flat, 0, sizeof flat);
    status = (gef_status)gefsunk_machine_next(machine, &flat);
    if (status == GEF_OK) shown(&flat, event);
    return status;
}

gef_status gef_machine_lent(gef_machine *machine, uint8_t *bytes, size_t room, size_t *len) {
    return machine && bytes && len ? (gef_status)gefsunk_machine_lent(machine, bytes, room, len) : GEF_NULL;
}

gef_status gef_machine_supply(gef_machine *machine, const gef_wanted *wanted, const uint8_t *bytes, size_t len) {
    return machine && wanted && bytes ? (gef_status)gefsunk_machine_supply(machine, wanted, bytes, len) : GEF_NULL;
}

gef_status gef_machine_no_memory(gef_machine *machine, const gef_wanted *wanted) {
    return machine && wanted ? (gef_status)gefsunk_machine_no_memory(machine, wanted) : GEF_NULL;
}

gef_status gef_machine_answer_loaded(gef_machine *machine, const gef_request *request, const uint8_t *bytes, size_t len) {
    return machine && request && bytes ? (gef_status)gefsunk_machine_answer_loaded(machine, request, bytes, len) : GEF_NULL;
}

gef_status gef_machine_answer_done(gef_machine *machine, const gef_request *request) {
    return machine && request ? (gef_status)gefsunk_machine_answer_done(machine, request) : GEF_NULL;
}

gef_status gef_machine_answer_failed(gef_machine *machine, const gef_request *request, uint32_t error, uint64_t lba) {
    return machine && request ? (gef_status)gefsunk_machine_answer_failed(machine, request, error, lba) : GEF_NULL;
}

gef_status gef_machine_stored(gef_machine *machine, const gef_request *request, size_t from, uint8_t *bytes, size_t room,
                              size_t *len) {
    if (!machine || !request || !bytes || !len) return GEF_NULL;
    return (gef_status)gefsunk_machine_stored(machine, request, from, bytes, room, len);
}

gef_status gef_machine_discarded(gef_machine *machine, const gef_request *request, size_t number, gef_range *range) {
    return machine && request && range ? (gef_status)gefsunk_machine_discarded(machine, request, number, range) : GEF_NULL;
}

gef_status gef_machine_take_frame(gef_machine *machine, uint8_t port, uint8_t *fis, size_t room, size_t *len) {
    return machine && fis && len ? (gef_status)gefsunk_machine_take_frame(machine, port, fis, room, len) : GEF_NULL;
}

gef_status gef_machine_offer(gef_machine *machine, uint8_t port, const uint8_t *fis, size_t len) {
    return machine && fis ? (gef_status)gefsunk_machine_offer(machine, port, fis, len) : GEF_NULL;
}

gef_status gef_machine_state_size(gef_machine *machine, size_t *len) {
    return machine && len ? (gef_status)gefsunk_machine_state_size(machine, len) : GEF_NULL;
}

gef_status gef_machine_save(gef_machine *machine, uint8_t *bytes, size_t room, size_t *len) {
    return machine && bytes && len ? (gef_status)gefsunk_machine_save(machine, bytes, room, len) : GEF_NULL;
}

gef_status gef_machine_restore(gef_machine *machine, const uint8_t *bytes, size_t len) {
    return machine && bytes ? (gef_status)gefsunk_machine_restore(machine, bytes, len) : GEF_NULL;
}
