/*
 * A disk on the controller's bus, and its medium, which is of the emulator's block layer.
 */
#include "qemu/osdep.h"
#include "qapi/error.h"
#include "qemu/error-report.h"
#include "qemu/main-loop.h"
#include "qemu/memalign.h"
#include "qemu/module.h"
#include "hw/qdev-properties.h"
#include "hw/qdev-properties-system.h"
#include "migration/blocker.h"
#include "sysemu/sysemu.h"
#include "gefsunk_ahci.h"
#include "trace.h"

GefsunkAhci *gefsunk_controller_of(GefsunkDisk *disk)
{
    return GEFSUNK_AHCI(qdev_get_parent_bus(DEVICE(disk))->parent);
}

/* A spare buffer goes. */
static void lose_spare(GefsunkDisk *disk, unsigned at)
{
    qemu_vfree(disk->spares[at].bytes);
    disk->spare_bytes -= disk->spares[at].room;
    disk->spares[at].room = 0;
}

/*
 * Bytes for some work: the spare buffer that is just long enough, or a new one, since new pages for each would take half of the time of
 * a long transfer. Where none is, another goes, so that those stay which are used.
 */
static void take_bytes(Work *work, size_t len)
{
    GefsunkDisk *disk = work->disk;
    unsigned best = SPARES;
    for (unsigned at = 0; at < SPARES; at++) {
        size_t room = disk->spares[at].room;
        if (room >= len && (best == SPARES || room < disk->spares[best].room)) {
            best = at;
        }
    }
    if (best < SPARES) {
        work->bytes = disk->spares[best].bytes;
        work->room = disk->spares[best].room;
        disk->spare_bytes -= work->room;
        disk->spares[best].room = 0;
        return;
    }
    disk->turn = (disk->turn + 1) % SPARES;
    if (disk->spares[disk->turn].room) {
        lose_spare(disk, disk->turn);
    }
    work->bytes = blk_blockalign(disk->conf.blk, len);
    work->room = len;
}

/* They are spare, where there is a place for them. */
static void give_bytes(Work *work)
{
    GefsunkDisk *disk = work->disk;
    for (unsigned at = 0; at < SPARES && disk->spare_bytes + work->room <= DISK_LIMIT; at++) {
        if (!disk->spares[at].room) {
            disk->spares[at].bytes = work->bytes;
            disk->spares[at].room = work->room;
            disk->spare_bytes += work->room;
            return;
        }
    }
    qemu_vfree(work->bytes);
}

static void free_spares(GefsunkDisk *disk)
{
    for (unsigned at = 0; at < SPARES; at++) {
        if (disk->spares[at].room) {
            lose_spare(disk, at);
        }
    }
}

static void end_work(Work *work)
{
    if (work->disk->works-- == MOST_WORKS) {
        gefsunk_controller_of(work->disk)->crowded--;
    }
    if (work->room) {
        give_bytes(work);
    }
    g_free(work);
}

/* The same of a disk of the machine, and of one by itself. */
static gef_status told(GefsunkAhci *s, Work *work, uint32_t error, uint64_t lba)
{
    const gef_request *request = &work->event.u.medium.request;
    bool is_load = work->event.kind == GEF_EVENT_LOAD;
    gef_disk *own = &work->disk->link.disk;
    if (work->disk->fis) {
        return error ? gef_disk_answer_failed(own, request, error, lba) :
               is_load ? gef_disk_answer_loaded(own, request, work->bytes, work->vector.size) :
               gef_disk_answer_done(own, request);
    }
    return error ? gef_machine_answer_failed(&s->machine, request, error, lba) :
           is_load ? gef_machine_answer_loaded(&s->machine, request, work->bytes, work->vector.size) :
           gef_machine_answer_done(&s->machine, request);
}

/* The disk may refuse an answer, since a reset ends requests, or since it is of somebody's stream: then nobody waits for it. */
void gefsunk_answer(Work *work, uint32_t error, uint64_t lba)
{
    GefsunkAhci *s = gefsunk_controller_of(work->disk);
    gef_status status = told(s, work, error, lba);
    trace_gefsunk_answer(work->disk->port, work->event.u.medium.lba, work->event.u.medium.count, error, status);
    if (status == GEF_NO_MEMORY) {
        gefsunk_must(status);
    }
    end_work(work);
    gefsunk_go_on(s);
}

static uint32_t error_of(const Work *work)
{
    return work->event.kind == GEF_EVENT_LOAD ? GEF_UNC : GEF_ABRT;
}

void gefsunk_fail(Work *work, uint64_t lba)
{
    gefsunk_answer(work, error_of(work), lba);
}

/* A discard goes on with its next range. What begins while the backend is drained would wait, and end behind that. */
static void go_on(Work *work)
{
    work->at++;
    if (gefsunk_controller_of(work->disk)->is_held) {
        QTAILQ_INSERT_TAIL(&work->disk->stopped, work, next);
    } else {
        gefsunk_begin_work(work);
    }
}

/*
 * The backend did it, or did not: then the guest is told, or not, or the machine stops, as rerror and werror say. Sectors that were
 * not read, and of which the guest is not told, are zeroes.
 */
static void worked(void *opaque, int ret)
{
    Work *work = opaque;
    BlockBackend *blk = work->disk->conf.blk;
    bool is_read = work->event.kind == GEF_EVENT_LOAD;
    BlockErrorAction action = BLOCK_ERROR_ACTION_IGNORE;
    if (ret < 0) {
        action = blk_get_error_action(blk, is_read, -ret);
        if (action == BLOCK_ERROR_ACTION_STOP) {
            QTAILQ_INSERT_TAIL(&work->disk->stopped, work, next);
        } else if (is_read) {
            memset(work->bytes, 0, work->vector.size);
        }
        trace_gefsunk_error(work->disk->port, work->event.u.medium.lba, -ret, action);
        blk_error_action(blk, action, is_read, -ret);
    }
    if (action == BLOCK_ERROR_ACTION_REPORT) {
        block_acct_failed(blk_get_stats(blk), &work->account);
        gefsunk_fail(work, work->event.u.medium.lba);
    } else if (action == BLOCK_ERROR_ACTION_IGNORE) {
        block_acct_done(blk_get_stats(blk), &work->account);
        if (work->event.kind == GEF_EVENT_DISCARD) {
            go_on(work);
        } else {
            gefsunk_answer(work, 0, 0);
        }
    }
}

/* The next range of a discard, if there is one. Of sectors that a resize took away there is nothing to discard. */
static void begin_discard(Work *work)
{
    BlockBackend *blk = work->disk->conf.blk;
    GefsunkAhci *s = gefsunk_controller_of(work->disk);
    gef_range range;
    uint64_t lba, count;
    const gef_request *request = &work->event.u.medium.request;
    gef_status status = work->disk->fis ? gef_disk_discarded(&work->disk->link.disk, request, work->at, &range) :
                        gef_machine_discarded(&s->machine, request, work->at, &range);
    if (status != GEF_OK) {
        gefsunk_answer(work, status == GEF_NOTHING ? 0 : GEF_ABRT, 0);
        return;
    }
    lba = MIN(range.lba, work->disk->there);
    count = MIN(range.count, work->disk->there - lba);
    trace_gefsunk_discard(work->disk->port, lba, count);
    block_acct_start(blk_get_stats(blk), &work->account, count * BDRV_SECTOR_SIZE, BLOCK_ACCT_UNMAP);
    blk_aio_pdiscard(blk, lba * BDRV_SECTOR_SIZE, count * BDRV_SECTOR_SIZE, worked, work);
}

/* Sectors that the guest was told of, and that a resize took away: there are none of these. */
static bool is_past_end(Work *work)
{
    uint64_t lba = work->event.u.medium.lba, there = work->disk->there;
    if (!work->event.u.medium.count || lba + work->event.u.medium.count <= there) {
        return false;
    }
    block_acct_invalid(blk_get_stats(work->disk->conf.blk), work->event.kind == GEF_EVENT_LOAD ? BLOCK_ACCT_READ : BLOCK_ACCT_WRITE);
    gefsunk_answer(work, GEF_IDNF, MAX(lba, there));
    return true;
}

void gefsunk_begin_work(Work *work)
{
    BlockBackend *blk = work->disk->conf.blk;
    uint32_t kind = work->event.kind;
    int64_t at = work->event.u.medium.lba * BDRV_SECTOR_SIZE;
    if (gefsunk_faults_take(work)) {
        return;
    }
    if (kind == GEF_EVENT_DISCARD) {
        begin_discard(work);
        return;
    }
    if (is_past_end(work)) {
        return;
    }
    block_acct_start(blk_get_stats(blk), &work->account, work->vector.size,
                     kind == GEF_EVENT_LOAD ? BLOCK_ACCT_READ :
                     kind == GEF_EVENT_STORE ? BLOCK_ACCT_WRITE : BLOCK_ACCT_FLUSH);
    if (kind == GEF_EVENT_LOAD) {
        trace_gefsunk_load(work->disk->port, work->event.u.medium.lba, work->event.u.medium.count);
        blk_aio_preadv(blk, at, &work->vector, 0, worked, work);
    } else if (kind == GEF_EVENT_STORE) {
        trace_gefsunk_store(work->disk->port, work->event.u.medium.lba, work->event.u.medium.count);
        blk_aio_pwritev(blk, at, &work->vector, 0, worked, work);
    } else {
        trace_gefsunk_flush(work->disk->port);
        blk_aio_flush(blk, worked, work);
    }
}

Work *gefsunk_new_work(GefsunkAhci *s, const gef_event *event)
{
    Work *work = g_new0(Work, 1);
    size_t len = (size_t)event->u.medium.count * BDRV_SECTOR_SIZE;
    work->disk = s->disks[event->port];
    work->event = *event;
    if (++work->disk->works == MOST_WORKS) {
        s->crowded++;
    }
    if (len) {
        take_bytes(work, len);
        qemu_iovec_init_buf(&work->vector, work->bytes, len);
    }
    return work;
}

/* The bytes of a store, as its disk has them. */
static void fill(GefsunkAhci *s, Work *work)
{
    const gef_request *request = &work->event.u.medium.request;
    size_t len = work->vector.size, filled = 0;
    gefsunk_must(work->disk->fis ? gef_disk_stored(&work->disk->link.disk, request, 0, work->bytes, len, &filled) :
                 gef_machine_stored(&s->machine, request, 0, work->bytes, len, &filled));
    assert(filled == len);
}

/* A disk that came by migration may have no medium. */
void gefsunk_ask_medium(GefsunkAhci *s, const gef_event *event)
{
    Work *work;
    if (!s->disks[event->port]) {
        gefsunk_must(gef_machine_answer_failed(&s->machine, &event->u.medium.request, GEF_ABRT, event->u.medium.lba));
        return;
    }
    work = gefsunk_new_work(s, event);
    if (event->kind == GEF_EVENT_STORE) {
        fill(s, work);
    }
    gefsunk_begin_work(work);
    if (s->record) {
        blk_drain(s->disks[event->port]->conf.blk);
    }
}

static uint64_t sectors_of(GefsunkDisk *disk)
{
    return MAX(blk_getlength(disk->conf.blk), 0) / BDRV_SECTOR_SIZE;
}

/*
 * The image was resized. A disk does not change its size while it is in use, and the guest would lose what is on it if it were pulled: so
 * it is told of the size as the machine is reset, or as the disk comes anew. Until then sectors that are gone are an error.
 */
static void resized(void *opaque)
{
    GefsunkDisk *disk = opaque;
    disk->there = sectors_of(disk);
    trace_gefsunk_resize(disk->port, disk->there, disk->sectors);
    if (disk->there != disk->sectors) {
        warn_report("gefsunk-disk: the medium of port %d has %" PRIu64 " sectors now; the guest sees %" PRIu64 " until its machine is reset",
                    disk->port, disk->there, disk->sectors);
    }
}

static const BlockDevOps medium_ops = {
    .resize_cb = resized,
};

static gef_disk_profile profile_of(GefsunkDisk *disk)
{
    return (gef_disk_profile) {
        .model = disk->model, .serial = disk->serial, .firmware = disk->firmware, .wwn = disk->wwn,
        .sectors = sectors_of(disk),
        .physical = disk->conf.physical_block_size, .rotation = disk->rotation_rate, .depth = disk->depth,
        .trim = disk->conf.discard_granularity != 0, .limit = DISK_LIMIT,
    };
}

gef_status gefsunk_put(GefsunkAhci *s, GefsunkDisk *disk)
{
    gef_disk_profile profile = profile_of(disk);
    gef_status status = disk->fis ? gef_machine_put_device(&s->machine, disk->port) :
                        gef_machine_put_disk(&s->machine, disk->port, &profile);
    disk->there = profile.sectors;
    if (!disk->fis || !disk->sectors) { /* one by itself is made once */
        disk->sectors = profile.sectors;
    }
    if (status == GEF_OK) {
        trace_gefsunk_plug(disk->port, disk->sectors);
        gefsunk_note(s, "disk %d sectors %" PRIu64 "\n", disk->port, profile.sectors);
        gefsunk_must(gef_machine_plug(&s->machine, disk->port));
    }
    return status;
}

/* The virtual machine goes on: so does what was stopped by an error. */
static void changed(void *opaque, bool is_running, RunState state)
{
    GefsunkDisk *disk = opaque;
    Work *work;
    while (is_running && (work = QTAILQ_FIRST(&disk->stopped))) {
        QTAILQ_REMOVE(&disk->stopped, work, next);
        gefsunk_begin_work(work);
    }
}

/* Work that nobody does any more. A disk by itself outlives a reset of the machine, so it is told: else it would wait for ever. */
static void drop_all(GefsunkDisk *disk, Works *works)
{
    Work *work;
    while ((work = QTAILQ_FIRST(works))) {
        QTAILQ_REMOVE(works, work, next);
        if (disk->fis) {
            gef_disk_answer_failed(&disk->link.disk, &work->event.u.medium.request, error_of(work), work->event.u.medium.lba);
        }
        end_work(work);
    }
}

void gefsunk_settle(GefsunkAhci *s, GefsunkDisk *disk)
{
    bool was_held = s->is_held;
    s->is_held = true;
    blk_drain(disk->conf.blk);
    s->is_held = was_held;
    drop_all(disk, &disk->stopped);
    drop_all(disk, &disk->medium.waiting);
}

/* The port that the user named, or the first that is free. */
static bool has_port(GefsunkAhci *s, GefsunkDisk *disk, Error **errp)
{
    int32_t ports = MAX(s->ports, 1), port = MAX(disk->port, 0);
    while (disk->port < 0 && port < ports && s->disks[port]) {
        port++;
    }
    if (port >= ports || s->disks[port]) {
        error_setg(errp, "port %d has a disk, or is none of the %d ports", port, ports);
        return false;
    }
    disk->port = port;
    return true;
}

static bool has_medium(GefsunkDisk *disk, Error **errp)
{
    BlockBackend *blk = disk->conf.blk;
    if (!blk || !blk_is_inserted(blk) || !blk_supports_write_perm(blk)) {
        error_setg(errp, "a disk needs a drive with a medium that can be written");
        return false;
    }
    if (!blkconf_blocksizes(&disk->conf, errp)) {
        return false;
    }
    if (disk->conf.logical_block_size != BDRV_SECTOR_SIZE) {
        error_setg(errp, "logical_block_size must be 512");
        return false;
    }
    return blkconf_apply_backend_options(&disk->conf, false, true, errp);
}

/* A disk by itself cannot be migrated, and is made first. Where that fails nothing of it stays. */
static bool is_made(GefsunkAhci *s, GefsunkDisk *disk, Error **errp)
{
    gef_disk_profile profile = profile_of(disk);
    gef_status status = GEF_OK;
    if (disk->fis) {
        error_setg(&disk->stays, "a disk with fis=on is not migrated");
        if (migrate_add_blocker(disk->stays, errp) < 0) {
            error_free(disk->stays);
            return false;
        }
        status = gefsunk_fis_new(disk, &profile);
    }
    if (status == GEF_OK) {
        status = gefsunk_put(s, disk);
    }
    if (status == GEF_OK) {
        return true;
    }
    error_setg(errp, "%s", gef_status_text(status));
    if (disk->fis) {
        gefsunk_fis_free(disk);
        migrate_del_blocker(disk->stays);
        error_free(disk->stays);
    }
    return false;
}

static void realize_disk(DeviceState *dev, Error **errp)
{
    GefsunkDisk *disk = GEFSUNK_DISK(dev);
    GefsunkAhci *s = gefsunk_controller_of(disk);
    static unsigned serials;
    QTAILQ_INIT(&disk->stopped);
    QTAILQ_INIT(&disk->medium.waiting);
    if (!has_port(s, disk, errp) || !has_medium(disk, errp)) {
        return;
    }
    disk->serial = disk->serial ?: g_strdup_printf("GF%05u", ++serials);
    disk->model = disk->model ?: g_strdup("GEFSUNK DISK");
    disk->firmware = disk->firmware ?: g_strdup("1");
    if (!is_made(s, disk, errp)) {
        return;
    }
    s->disks[disk->port] = disk;
    disk->medium.timer = timer_new_ns(QEMU_CLOCK_VIRTUAL, gefsunk_faults_wake, disk);
    disk->changes = qdev_add_vm_change_state_handler(dev, changed, disk);
    blk_iostatus_enable(disk->conf.blk);
    blk_set_dev_ops(disk->conf.blk, &medium_ops, disk);
    add_boot_device_path(disk->conf.bootindex, dev, "/disk@0");
    gefsunk_run(s);
}

static void unrealize_disk(DeviceState *dev)
{
    GefsunkDisk *disk = GEFSUNK_DISK(dev);
    GefsunkAhci *s = gefsunk_controller_of(disk);
    gef_status status;
    gefsunk_settle(s, disk);
    blk_set_dev_ops(disk->conf.blk, NULL, NULL);
    qemu_del_vm_change_state_handler(disk->changes);
    del_boot_device_path(dev, "/disk@0");
    s->disks[disk->port] = NULL;
    trace_gefsunk_gone(disk->port);
    gefsunk_note(s, "gone %d\n", disk->port);
    status = gef_machine_remove(&s->machine, disk->port);
    if (status != GEF_NOT_THERE) { /* as where its medium had gone before a reset */
        gefsunk_must(status);
    }
    timer_free(disk->medium.timer);
    free_spares(disk);
    if (disk->fis) {
        gefsunk_fis_free(disk);
        migrate_del_blocker(disk->stays);
        error_free(disk->stays);
    }
    gefsunk_run(s);
}

static void init_disk(Object *obj)
{
    GefsunkDisk *disk = GEFSUNK_DISK(obj);
    device_add_bootindex_property(obj, &disk->conf.bootindex, "bootindex", "/disk@0", DEVICE(obj));
}

static Property disk_properties[] = {
    DEFINE_BLOCK_PROPERTIES(GefsunkDisk, conf),
    DEFINE_BLOCK_ERROR_PROPERTIES(GefsunkDisk, conf),
    DEFINE_PROP_INT32("port", GefsunkDisk, port, -1),
    DEFINE_PROP_UINT32("depth", GefsunkDisk, depth, 32),
    DEFINE_PROP_UINT16("rotation_rate", GefsunkDisk, rotation_rate, 0),
    DEFINE_PROP_UINT64("wwn", GefsunkDisk, wwn, 0),
    DEFINE_PROP_STRING("serial", GefsunkDisk, serial),
    DEFINE_PROP_STRING("model", GefsunkDisk, model),
    DEFINE_PROP_STRING("ver", GefsunkDisk, firmware),
    DEFINE_PROP_BOOL("fis", GefsunkDisk, fis, false),
    DEFINE_PROP_END_OF_LIST(),
};

static void init_disk_class(ObjectClass *klass, void *data)
{
    DeviceClass *dc = DEVICE_CLASS(klass);
    dc->bus_type = TYPE_GEFSUNK_BUS;
    dc->realize = realize_disk;
    dc->unrealize = unrealize_disk;
    device_class_set_props(dc, disk_properties);
    set_bit(DEVICE_CATEGORY_STORAGE, dc->categories);
}

static const TypeInfo types[] = {
    {
        .name = TYPE_GEFSUNK_DISK,
        .parent = TYPE_DEVICE,
        .instance_size = sizeof(GefsunkDisk),
        .instance_init = init_disk,
        .class_init = init_disk_class,
    },
};

DEFINE_TYPES(types)
