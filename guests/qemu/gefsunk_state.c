/*
 * The controller is saved and restored, and migrated: the machine by gef_machine_save, beside it what an error stopped or a script of
 * faults kept waiting. The media are those of the emulator's block layer, and are its to move.
 */
#include "qemu/osdep.h"
#include "qemu/error-report.h"
#include "qemu/thread.h"
#include "migration/vmstate.h"
#include "gefsunk_ahci.h"
#include "trace.h"

#define MOST_STATE (256u << 20) /* no state is longer, nor are the bytes beside it */
#define MOST_SECTORS 2048      /* of one request */

/* ---- events */

static const VMStateDescription vmstate_event = {
    .name = "gefsunk-event",
    .version_id = 1,
    .minimum_version_id = 1,
    .fields = (VMStateField[]) {
        VMSTATE_UINT32(kind, GefsunkSaved),
        VMSTATE_UINT32(port, GefsunkSaved),
        VMSTATE_UINT64(at, GefsunkSaved),
        VMSTATE_UINT64(count, GefsunkSaved),
        VMSTATE_UINT32_ARRAY(of, GefsunkSaved, 2),
        VMSTATE_UINT64_ARRAY(numbers, GefsunkSaved, 2),
        VMSTATE_END_OF_LIST()
    },
};

static bool is_of_guest(uint32_t kind)
{
    return kind == GEF_EVENT_READ_GUEST || kind == GEF_EVENT_WRITE_GUEST;
}

/* Of the guest's memory, or of a medium; any other one is nothing. */
static GefsunkSaved saved(const gef_event *event)
{
    GefsunkSaved to = { .kind = event->kind, .port = event->port };
    if (is_of_guest(event->kind)) {
        to.at = event->u.read.at; /* where `write` has it, too */
        to.count = event->u.read.len;
    }
    if (event->kind == GEF_EVENT_READ_GUEST) {
        const gef_wanted *wanted = &event->u.read.wanted;
        to.of[0] = wanted->kind;
        to.of[1] = wanted->owner;
        to.numbers[0] = wanted->number;
        to.numbers[1] = wanted->done;
    } else if (event->kind >= GEF_EVENT_LOAD && event->kind <= GEF_EVENT_DISCARD) {
        const gef_request *request = &event->u.medium.request;
        to.at = event->u.medium.lba;
        to.count = event->u.medium.count;
        to.of[0] = request->port;
        to.of[1] = request->place;
        to.numbers[0] = request->disk;
        to.numbers[1] = request->number;
    }
    return to;
}

/* The event of the guest's memory. */
static gef_event of_guest(const GefsunkSaved *from)
{
    gef_event event = { .kind = from->kind, .port = from->port };
    if (from->kind == GEF_EVENT_READ_GUEST) {
        event.u.read.at = from->at;
        event.u.read.len = from->count;
        event.u.read.wanted = (gef_wanted) { from->of[0], from->of[1], from->numbers[0], from->numbers[1] };
    } else {
        event.u.write.at = from->at;
        event.u.write.len = from->count;
    }
    return event;
}

/* That of a medium. */
static gef_event of_medium(const GefsunkSaved *from)
{
    gef_event event = { .kind = from->kind, .port = from->port };
    event.u.medium.lba = from->at;
    event.u.medium.count = from->count;
    event.u.medium.request = (gef_request) { from->of[0], from->of[1], from->numbers[0], from->numbers[1] };
    return event;
}

/* ---- saving */

/*
 * Work that waits, and of a store its bytes. The machine may have them no more: the guest could reset the disk before the virtual machine
 * had stopped.
 */
static void save_work(GefsunkAhci *s, const Work *work, size_t *room)
{
    s->works = g_renew(GefsunkSaved, s->works, s->works_count + 1);
    s->works[s->works_count++] = saved(&work->event);
    if (work->event.kind == GEF_EVENT_STORE) {
        if (s->bytes_size + work->vector.size > *room) {
            *room = 2 * (s->bytes_size + work->vector.size);
            s->bytes = g_realloc(s->bytes, *room);
        }
        memcpy(s->bytes + s->bytes_size, work->bytes, work->vector.size);
        s->bytes_size += work->vector.size;
    }
}

static void save_works(GefsunkAhci *s, const Works *works, size_t *room)
{
    const Work *work;
    QTAILQ_FOREACH(work, works, next) {
        save_work(s, work, room);
    }
}

/* The sectors that a disk's port was told of, and by the highest bit whether it is one by itself; 0 where there is none. */
static uint64_t told_at(GefsunkAhci *s, unsigned port)
{
    return s->disks[port] ? s->disks[port]->sectors | (uint64_t)s->disks[port]->fis << 63 : 0;
}

/* What was saved or came here goes. */
static int forget(void *opaque)
{
    GefsunkAhci *s = opaque;
    g_free(s->state);
    g_free(s->works);
    g_free(s->bytes);
    s->state = s->bytes = NULL;
    s->works = NULL;
    s->state_size = s->bytes_size = s->works_count = 0;
    return 0;
}

/*
 * The virtual machine is stopped, so of the media's work only that is left which an error stopped, or a script of faults that went
 * since: its clock stands, so what the script kept waiting has not begun.
 */
static int pre_save(void *opaque)
{
    GefsunkAhci *s = opaque;
    size_t size, room = 0;
    forget(s);
    gefsunk_must(gef_machine_state_size(&s->machine, &size));
    s->state = g_malloc(size);
    gefsunk_must(gef_machine_save(&s->machine, s->state, size, &size));
    s->state_size = size;
    s->waiting = s->has_event ? saved(&s->event) : (GefsunkSaved) { 0 };
    for (unsigned port = 0; port < MOST_PORTS; port++) {
        s->told[port] = told_at(s, port);
        s->media[port] = s->disks[port] ? s->disks[port]->there : 0;
        if (s->disks[port]) {
            save_works(s, &s->disks[port]->stopped, &room);
            save_works(s, &s->disks[port]->medium.waiting, &room);
        }
    }
    trace_gefsunk_save(s->state_size, s->works_count, s->bytes_size);
    if (s->state_size > MOST_STATE || s->bytes_size > MOST_STATE) {
        error_report("gefsunk-ahci: what the media have to do still is too much to be saved");
        return -EFBIG;
    }
    return 0;
}

/* ---- restoring */

/* Work of a disk that is here, within its sectors: it begins as the virtual machine does. A store takes its bytes, from `*at` on. */
static bool load_work(GefsunkAhci *s, const GefsunkSaved *from, uint32_t *at)
{
    GefsunkDisk *disk = from->port < MOST_PORTS ? s->disks[from->port] : NULL;
    bool moves = from->kind == GEF_EVENT_LOAD || from->kind == GEF_EVENT_STORE;
    gef_event event;
    Work *work;
    if (!disk || from->kind < GEF_EVENT_LOAD || from->kind > GEF_EVENT_DISCARD || disk->works >= MOST_WORKS || (from->count != 0) != moves ||
        from->count > MOST_SECTORS || from->at > disk->sectors || from->count > disk->sectors - from->at) {
        return false;
    }
    if (from->kind == GEF_EVENT_STORE && from->count * BDRV_SECTOR_SIZE > s->bytes_size - *at) {
        return false;
    }
    event = of_medium(from);
    work = gefsunk_new_work(s, &event);
    if (from->kind == GEF_EVENT_STORE) {
        memcpy(work->bytes, s->bytes + *at, work->vector.size);
        *at += work->vector.size;
    }
    QTAILQ_INSERT_TAIL(&disk->stopped, work, next);
    return true;
}

static bool load_works(GefsunkAhci *s)
{
    uint32_t at = 0;
    for (int32_t number = 0; number < s->works_count; number++) {
        if (!load_work(s, &s->works[number], &at)) {
            error_report("gefsunk-ahci: a request of no disk that is here");
            return false;
        }
    }
    return true;
}

static void *restore(void *opaque)
{
    GefsunkAhci *s = opaque;
    return (void *)(uintptr_t)gef_machine_restore(&s->machine, s->state, s->state_size);
}

/* A state arrives in a coroutine, whose stack is too small for the call: so it has a thread of its own. */
static gef_status restored(GefsunkAhci *s)
{
    QemuThread thread;
    qemu_thread_create(&thread, "gefsunk-restore", restore, s, QEMU_THREAD_JOINABLE);
    return (uintptr_t)qemu_thread_join(&thread);
}

static bool is_state_fit(void *opaque, int version)
{
    GefsunkAhci *s = opaque;
    return s->state_size <= MOST_STATE;
}

static bool are_works_fit(void *opaque, int version)
{
    GefsunkAhci *s = opaque;
    return s->works_count >= 0 && s->works_count <= MOST_PORTS * MOST_WORKS && s->bytes_size <= MOST_STATE;
}

/* The disks here are those of the machine that was saved, and their media have as many sectors. */
static bool has_media(GefsunkAhci *s)
{
    for (unsigned port = 0; port < MOST_PORTS; port++) {
        GefsunkDisk *disk = s->disks[port];
        bool is_fis = s->told[port] >> 63;
        if (!disk != !s->told[port] || (disk && (disk->fis != is_fis || disk->there != s->media[port]))) {
            error_report("gefsunk-ahci: port %u has another disk here, or none", port);
            return false;
        }
    }
    for (unsigned port = 0; port < MOST_PORTS; port++) {
        if (s->disks[port]) { /* before a resize there might have been more, or less */
            s->disks[port]->sectors = s->told[port] & ~(1ULL << 63);
        }
    }
    return true;
}

/* An event waits, for bus mastering: one of the guest's memory, of no more bytes than it may have. */
static bool has_fit_event(GefsunkAhci *s)
{
    return !s->has_event || (is_of_guest(s->waiting.kind) && s->waiting.count <= DISK_LIMIT);
}

static int post_load(void *opaque, int version)
{
    GefsunkAhci *s = opaque;
    gef_status status;
    if (!has_media(s)) {
        return -EINVAL;
    }
    gefsunk_must(gef_machine_free(&s->machine));
    status = has_fit_event(s) ? restored(s) : GEF_BAD_STATE;
    trace_gefsunk_restore(s->state_size, s->works_count, s->bytes_size, status);
    if (status != GEF_OK) {
        error_report("gefsunk-ahci: %s", gef_status_text(status));
        gefsunk_must(gef_machine_new(&s->machine, s->ports, s->port0_open));
        return -EINVAL;
    }
    s->event = of_guest(&s->waiting);
    if (!load_works(s)) {
        return -EINVAL;
    }
    forget(s);
    return 0;
}

const VMStateDescription gefsunk_vmstate = {
    .name = TYPE_GEFSUNK_AHCI,
    .version_id = 3,
    .minimum_version_id = 3,
    .pre_save = pre_save,
    .post_save = forget,
    .pre_load = forget,
    .post_load = post_load,
    .fields = (VMStateField[]) {
        VMSTATE_PCI_DEVICE(parent_obj, GefsunkAhci),
        VMSTATE_UINT8_EQUAL(ports, GefsunkAhci, "the two controllers have as many ports"),
        VMSTATE_UINT64_ARRAY(told, GefsunkAhci, MOST_PORTS),
        VMSTATE_UINT64_ARRAY(media, GefsunkAhci, MOST_PORTS),
        VMSTATE_UINT32(state_size, GefsunkAhci),
        VMSTATE_VALIDATE("a state is not so long", is_state_fit),
        VMSTATE_VBUFFER_ALLOC_UINT32(state, GefsunkAhci, 0, NULL, state_size),
        VMSTATE_INT32(works_count, GefsunkAhci),
        VMSTATE_UINT32(bytes_size, GefsunkAhci),
        VMSTATE_VALIDATE("requests are not so many", are_works_fit),
        VMSTATE_STRUCT_VARRAY_ALLOC(works, GefsunkAhci, works_count, 0, vmstate_event, GefsunkSaved),
        VMSTATE_VBUFFER_ALLOC_UINT32(bytes, GefsunkAhci, 0, NULL, bytes_size),
        VMSTATE_BOOL(has_event, GefsunkAhci),
        VMSTATE_STRUCT(waiting, GefsunkAhci, 0, vmstate_event, GefsunkSaved),
        VMSTATE_BOOL(is_up, GefsunkAhci),
        VMSTATE_END_OF_LIST()
    },
};
