/*
 * An AHCI controller with a Serial ATA port multiplier, or none, and the disks on its bus, for QEMU 7.2.
 *
 *   -device gefsunk-ahci,id=sata
 *   -drive if=none,id=d0,file=disk.qcow2 -device gefsunk-disk,bus=sata.0,port=0,drive=d0,serial=one
 *
 * The controller has one port. With `ports=N`, 1 to 15 (15 by default), a multiplier with N device ports is behind it, whose
 * port 0 is open from each reset on, unless `port0-open=off` is given; with `ports=0` one disk is. Disks come and go by
 * device_add and device_del. Without `port` a disk takes the first port that is free.
 *
 * With `record=FILE` it writes down what a driver does and what it gets, from the last reset of the machine on, and guests/linux/case
 * makes a case of that. The media are answered at once then, so that the machine comes to rest within each access.
 *
 * With `log=FILE` it writes down each access of the driver to registers, and each FIS that the driver is shown, with the time of the
 * virtual machine, and all else goes on as ever.
 *
 * With `faults=FILE`, or by the monitor (qom-set sata faults FILE), disks and their links fail as a script says (gefsunk_faults.c).
 *
 * All that moves is gef_machine's (gefsunk.h). The device gives it the guest's accesses to registers, and does what it asks:
 * the guest's memory is read and written by the function's own DMA, so that bus mastering and an IOMMU count, and the sectors
 * of disks are those of block backends.
 */
#include "qemu/osdep.h"
#include "qapi/error.h"
#include "qemu/error-report.h"
#include "qemu/main-loop.h"
#include "qemu/module.h"
#include "hw/hotplug.h"
#include "hw/pci/msi.h"
#include "hw/qdev-properties.h"
#include "migration/vmstate.h"
#include "gefsunk_ahci.h"
#include "trace.h"

#define EVENTS 256 /* that are done before others have their turn */
#define MSI 0x80   /* where capabilities stand */
#define POWER 0x70
#define D3HOT 3
#define PX_FBS 0x140

/* What FIS-based switching has of the registers: CAP.FBSS, PxCMD.FBSCP and PxFBS (AHCI 1.3.1, 3.1.1, 3.3.7 and 3.3.16). */
static const struct {
    hwaddr at;
    uint64_t bits;
} SWITCHING[] = { { 0, 0x10000 }, { 0x118, 0x400000 }, { PX_FBS, UINT32_MAX } };

void gefsunk_must(gef_status status)
{
    if (status != GEF_OK) {
        error_report("gefsunk-ahci: %s", gef_status_text(status));
        abort();
    }
}

void gefsunk_note(GefsunkAhci *s, const char *format, ...)
{
    va_list words;
    va_start(words, format);
    if (s->log) {
        vfprintf(s->log, format, words);
    }
    va_end(words);
}

/* In a log, when it was. */
static void note_time(GefsunkAhci *s)
{
    if (s->log && !s->record) {
        gefsunk_note(s, "%.6f ", (double)qemu_clock_get_ns(QEMU_CLOCK_VIRTUAL) / NANOSECONDS_PER_SECOND);
    }
}

/* Bytes of the guest's memory. A FIS stands in words before them; of anything else a log has nothing. */
static void note_bytes(GefsunkAhci *s, const char *what, uint64_t at, const uint8_t *bytes, size_t len)
{
    char text[GEF_TEXT_ROOM];
    bool is_wanted = s->log || trace_event_get_state_backends(TRACE_GEFSUNK_FIS);
    if (is_wanted && len <= 64 && gef_fis_text(bytes, len, text, sizeof text) == GEF_OK) {
        if (!g_str_has_prefix(text, "unknown")) { /* as other bytes are */
            trace_gefsunk_fis(text);
        }
        note_time(s);
        gefsunk_note(s, "# %s\n", text);
    }
    if (!s->record) {
        return;
    }
    gefsunk_note(s, "%s %" PRIx64 " ", what, at);
    for (size_t i = 0; i < len; i++) {
        gefsunk_note(s, "%02x", bytes[i]);
    }
    gefsunk_note(s, "\n");
}

static void read_guest(GefsunkAhci *s, const gef_event *event)
{
    g_autofree uint8_t *bytes = g_malloc(event->u.read.len);
    gef_status status;
    bool is_there = pci_dma_read(PCI_DEVICE(s), event->u.read.at, bytes, event->u.read.len) == MEMTX_OK;
    trace_gefsunk_read_guest(event->u.read.at, event->u.read.len, is_there);
    if (is_there) {
        note_bytes(s, "guest", event->u.read.at, bytes, event->u.read.len);
    }
    status = is_there ? gef_machine_supply(&s->machine, &event->u.read.wanted, bytes, event->u.read.len)
             : gef_machine_no_memory(&s->machine, &event->u.read.wanted);
    if (status != GEF_NOT_WANTED) { /* as an event of somebody's stream may be */
        gefsunk_must(status);
    }
}

/*
 * There is nothing to write any more where a reset of the link came between. The machine takes no word of bytes that went to no memory: the
 * command ends as any other.
 */
static void write_guest(GefsunkAhci *s, const gef_event *event)
{
    uint8_t bytes[GEF_FIS_ROOM];
    size_t len;
    bool is_there;
    if (gef_machine_lent(&s->machine, bytes, sizeof bytes, &len) != GEF_OK) {
        return;
    }
    is_there = pci_dma_write(PCI_DEVICE(s), event->u.write.at, bytes, len) == MEMTX_OK;
    trace_gefsunk_write_guest(event->u.write.at, len, is_there);
    if (!is_there) {
        warn_report_once("gefsunk-ahci: the guest has no memory at 0x%" PRIx64 " for what a disk sent; this is said once", event->u.write.at);
    }
    note_bytes(s, "show", event->u.write.at, bytes, len);
}

static bool is_asleep(GefsunkAhci *s)
{
    return pci_get_word(PCI_DEVICE(s)->config + POWER + PCI_PM_CTRL) & PCI_PM_CTRL_STATE_MASK;
}

static void set_line(GefsunkAhci *s)
{
    pci_set_irq(PCI_DEVICE(s), s->is_up && !msi_enabled(PCI_DEVICE(s)) && !is_asleep(s));
}

static void do_event(GefsunkAhci *s, const gef_event *event)
{
    switch (event->kind) {
    case GEF_EVENT_READ_GUEST:
        read_guest(s, event);
        break;
    case GEF_EVENT_WRITE_GUEST:
        write_guest(s, event);
        break;
    case GEF_EVENT_LINE:
        s->is_up = event->u.up;
        trace_gefsunk_line(s->is_up);
        set_line(s);
        note_time(s);
        gefsunk_note(s, "line %s\n", s->is_up ? "up" : "down");
        break;
    case GEF_EVENT_MESSAGE:
        if (msi_enabled(PCI_DEVICE(s)) && !is_asleep(s)) {
            trace_gefsunk_message();
            msi_notify(PCI_DEVICE(s), 0);
        }
        break;
    case GEF_EVENT_TO_DEVICE:
        gefsunk_fis_hear(s, s->disks[event->port]);
        break;
    case GEF_EVENT_BEGINS:
        trace_gefsunk_begins(event->port);
        if (s->disks[event->port] && s->disks[event->port]->fis) {
            gefsunk_fis_begin(s->disks[event->port]);
        }
        break;
    default:
        if (event->kind >= GEF_EVENT_LOAD && event->kind <= GEF_EVENT_DISCARD) {
            gefsunk_ask_medium(s, event);
        }
    }
}

static bool may_master(GefsunkAhci *s)
{
    return !is_asleep(s) && pci_get_word(PCI_DEVICE(s)->config + PCI_COMMAND) & PCI_COMMAND_MASTER;
}

/* Where an access of the function goes, if it goes there as a whole. */
static MemoryRegion *region_at(GefsunkAhci *s, dma_addr_t at, dma_addr_t len, bool is_write)
{
    hwaddr offset, there = len;
    MemoryRegion *region = address_space_translate(pci_get_address_space(PCI_DEVICE(s)), at, &offset, &there, is_write, MEMTXATTRS_UNSPECIFIED);
    return there < len ? NULL : region;
}

/* Whether bytes are of memory alone. What any other device does with them may have this one wait for its media. */
static bool is_memory(GefsunkAhci *s, dma_addr_t at, dma_addr_t len, bool is_write)
{
    RCU_READ_LOCK_GUARD();
    MemoryRegion *region = region_at(s, at, len, is_write);
    return region && memory_access_is_direct(region, is_write);
}

/* Whether messages go to an interrupt controller, if there are any. */
static bool are_messages_plain(GefsunkAhci *s)
{
    RCU_READ_LOCK_GUARD();
    MemoryRegion *region;
    if (!msi_enabled(PCI_DEVICE(s))) {
        return true;
    }
    region = region_at(s, msi_get_message(PCI_DEVICE(s), 0).address, 4, true);
    return region && object_dynamic_cast(memory_region_owner(region), "apic-common");
}

/* What is of the guest's memory waits for bus mastering, for power, and, in the turn of a medium, where it is of something else. */
static bool must_wait(GefsunkAhci *s)
{
    bool is_write = s->event.kind == GEF_EVENT_WRITE_GUEST;
    if (s->event.kind != GEF_EVENT_READ_GUEST && !is_write) {
        return false;
    }
    return !may_master(s) ||
           (s->is_within && !is_memory(s, is_write ? s->event.u.write.at : s->event.u.read.at,
                                       is_write ? s->event.u.write.len : s->event.u.read.len, is_write));
}

/* The next event, if there is one that can be done. */
static bool has_next(GefsunkAhci *s)
{
    bool waited = s->has_event;
    if (!waited) {
        gefsunk_must(gef_machine_next(&s->machine, &s->event));
    }
    s->has_event = must_wait(s);
    if (s->has_event && !waited) {
        trace_gefsunk_waits();
    }
    return s->event.kind != GEF_EVENT_NOTHING && !s->has_event;
}

/*
 * Others may have their turn. Not within what a FIS writes to the guest's memory: the registers tell of the FIS already, and the guest
 * is to see them only behind that.
 */
static bool may_pause(GefsunkAhci *s, unsigned count)
{
    return !s->record && count >= EVENTS && s->event.kind != GEF_EVENT_WRITE_GUEST && s->event.kind != GEF_EVENT_AGAIN;
}

/* Nothing that it does begins it anew, even if the guest has the function write to its own registers. */
void gefsunk_run(GefsunkAhci *s)
{
    unsigned count = 0;
    bool rests = false;
    if (s->is_busy || s->is_held) {
        return;
    }
    s->is_busy = true;
    while (!rests && !may_pause(s, count)) {
        if (s->crowded) {
            rests = true; /* until a medium has done something */
        } else if (has_next(s)) {
            do_event(s, &s->event);
        } else {
            rests = s->has_event || !gefsunk_fis_move(s); /* behind an event that waits, a disk may have to begin anew */
        }
        count++;
    }
    s->is_busy = false;
    if (!rests || (s->has_event && s->is_within)) {
        qemu_bh_schedule(s->later);
    } else if (!s->has_event && s->record) {
        gefsunk_note(s, "settle\n");
    }
}

/*
 * A medium has done something, and this is its turn: nothing may wait for it. So what follows is done later where it may come to that:
 * the guest may have another device reset this function, and a recording or a script waits for media.
 */
void gefsunk_go_on(GefsunkAhci *s)
{
    if (s->is_busy) {
        return;
    }
    if (s->record || s->script || !are_messages_plain(s)) {
        qemu_bh_schedule(s->later);
        return;
    }
    s->is_within = true;
    gefsunk_run(s);
    s->is_within = false;
}

static void run_later(void *opaque)
{
    gefsunk_run(opaque);
}

/* A value without what fbs=off hides. */
static uint64_t without_switching(hwaddr at, unsigned size, uint64_t value)
{
    for (size_t i = 0; i < ARRAY_SIZE(SWITCHING); i++) {
        if (at < SWITCHING[i].at + 4 && SWITCHING[i].at < at + size) {
            value &= ~(at < SWITCHING[i].at ? SWITCHING[i].bits << 8 * (SWITCHING[i].at - at) : SWITCHING[i].bits >> 8 * (at - SWITCHING[i].at));
        }
    }
    return value;
}

static uint64_t read_register(void *opaque, hwaddr at, unsigned size)
{
    GefsunkAhci *s = opaque;
    uint64_t value;
    gefsunk_must(gef_machine_read(&s->machine, at, size, &value));
    trace_gefsunk_read(size, at, value);
    note_time(s);
    gefsunk_note(s, "read %u %" PRIx64 " %0*" PRIx64 "\n", size, at, (int)(2 * size), value);
    if (is_asleep(s)) {
        return UINT64_MAX; /* as where nobody answers */
    }
    return s->fbs ? value : without_switching(at, size, value);
}

static void write_register(void *opaque, hwaddr at, uint64_t value, unsigned size)
{
    GefsunkAhci *s = opaque;
    bool is_hidden = !s->fbs && at >= PX_FBS && at < PX_FBS + 4;
    trace_gefsunk_write(size, at, value);
    if (!s->is_busy && !is_asleep(s) && !is_hidden) {
        note_time(s);
        gefsunk_note(s, "write %u %" PRIx64 " %" PRIx64 "\n", size, at, value);
        gefsunk_must(gef_machine_write(&s->machine, at, size, value));
        gefsunk_run(s);
    }
}

static const MemoryRegionOps register_ops = {
    .read = read_register,
    .write = write_register,
    .endianness = DEVICE_LITTLE_ENDIAN,
    .valid = { 1, 8 },
    .impl = { 1, 8 },
};

/*
 * The virtual machine stops: nothing begins any more, and what the media have to do is drained. It goes on: so does all, before the
 * guest reads a register.
 */
static void held(void *opaque, bool is_running, RunState state)
{
    GefsunkAhci *s = opaque;
    s->is_held = !is_running;
    trace_gefsunk_held(s->is_held);
    gefsunk_run(s);
}

static char *firmware_path(DeviceState *dev)
{
    return g_strdup_printf("drive@%x", GEFSUNK_DISK(dev)->port);
}

static void init_bus_class(ObjectClass *klass, void *data)
{
    BUS_CLASS(klass)->get_fw_dev_path = firmware_path;
    HOTPLUG_HANDLER_CLASS(klass)->unplug = qdev_simple_device_unplug_cb;
}

/* A new machine, whose disks are those of the bus. They are there as power comes, unless a medium has gone. */
static void make(GefsunkAhci *s)
{
    gefsunk_must(gef_machine_new(&s->machine, s->ports, s->port0_open));
    s->log = s->record ? freopen(s->record, "w", s->log) : s->log;
    gefsunk_note(s, "ports %u\n", s->ports);
    for (unsigned port = 0; port < MOST_PORTS; port++) {
        gef_status status = s->disks[port] ? gefsunk_put(s, s->disks[port]) : GEF_OK;
        if (status != GEF_OK) {
            error_report("gefsunk-ahci: port %u has no disk now: %s", port, gef_status_text(status));
        }
    }
    gefsunk_must(gef_machine_power_on(&s->machine));
    s->has_event = s->is_up = false;
    set_line(s);
}

static void reset(DeviceState *dev)
{
    GefsunkAhci *s = GEFSUNK_AHCI(dev);
    trace_gefsunk_reset();
    for (unsigned port = 0; port < MOST_PORTS; port++) {
        if (s->disks[port]) {
            gefsunk_settle(s, s->disks[port]);
        }
    }
    gefsunk_must(gef_machine_free(&s->machine));
    make(s);
    pci_set_word(PCI_DEVICE(s)->config + POWER + PCI_PM_CTRL, 0);
    qemu_bh_schedule(s->later);
}

/*
 * What waited for bus mastering may go on, and messages may stand for the line. The power state is D0 or D3hot, and a write of
 * another one is ignored. From D3hot the function comes back reset: No_Soft_Reset is 0 (PCI Power Management 1.2, 3.2.4).
 */
static void write_config(PCIDevice *dev, uint32_t at, uint32_t value, int len)
{
    GefsunkAhci *s = GEFSUNK_AHCI(dev);
    uint8_t *power = dev->config + POWER + PCI_PM_CTRL;
    uint16_t was = pci_get_word(power), now;
    pci_default_write_config(dev, at, value, len);
    now = pci_get_word(power);
    if (now != 0 && now != D3HOT) {
        pci_set_word(power, was);
    } else if (was == D3HOT && now == 0) {
        pci_device_reset(dev);
    }
    set_line(s);
    qemu_bh_schedule(s->later);
}

static void leave(PCIDevice *dev)
{
    GefsunkAhci *s = GEFSUNK_AHCI(dev);
    qemu_del_vm_change_state_handler(s->changes);
    qemu_bh_delete(s->later);
    gef_machine_free(&s->machine);
    gefsunk_faults_load(s, "", NULL);
    g_free(s->state);
    g_free(s->works);
    g_free(s->bytes);
    if (s->log) {
        fclose(s->log);
    }
    msi_uninit(dev);
}

static void realize(PCIDevice *dev, Error **errp)
{
    GefsunkAhci *s = GEFSUNK_AHCI(dev);
    const char *file;
    if (s->ports > MOST_PORTS) {
        error_setg(errp, "ports is 0 to %d: 0 for one disk and no multiplier", MOST_PORTS);
        return;
    }
    file = s->record ?: s->accesses;
    s->log = file ? fopen(file, "w") : NULL;
    if (file && !s->log) {
        error_setg_file_open(errp, errno, file);
        return;
    }
    msi_init(dev, MSI, 1, true, false, NULL); /* a board without messages has the line */
    /* It is the last to be added, so the list of capabilities begins with it (AHCI 1.3.1, 2.1.14). */
    if (pci_add_capability(dev, PCI_CAP_ID_PM, POWER, PCI_PM_SIZEOF, errp) < 0) {
        return;
    }
    pci_set_word(dev->config + POWER + PCI_PM_PMC, PCI_PM_CAP_VER_1_2);
    pci_set_word(dev->wmask + POWER + PCI_PM_CTRL, PCI_PM_CTRL_STATE_MASK);
    pci_config_set_prog_interface(dev->config, 1);
    pci_config_set_interrupt_pin(dev->config, 1);
    memory_region_init_io(&s->registers, OBJECT(s), &register_ops, s, TYPE_GEFSUNK_AHCI, 4096);
    pci_register_bar(dev, 5, PCI_BASE_ADDRESS_SPACE_MEMORY, &s->registers);
    qbus_init(&s->bus, sizeof s->bus, TYPE_GEFSUNK_BUS, DEVICE(dev), NULL);
    qbus_set_bus_hotplug_handler(&s->bus);
    s->later = qemu_bh_new_guarded(run_later, s, &DEVICE(dev)->mem_reentrancy_guard);
    s->is_held = !runstate_is_running() && !runstate_check(RUN_STATE_SUSPENDED);
    s->changes = qdev_add_vm_change_state_handler(DEVICE(dev), held, s);
    make(s);
    if (s->faults && !gefsunk_faults_load(s, s->faults, errp)) {
        leave(dev);
    }
}

static char *get_faults(Object *obj, Error **errp)
{
    return g_strdup(GEFSUNK_AHCI(obj)->faults);
}

/* While the machine runs, too: the script begins. */
static void set_faults(Object *obj, const char *file, Error **errp)
{
    GefsunkAhci *s = GEFSUNK_AHCI(obj);
    if (!DEVICE(obj)->realized || gefsunk_faults_load(s, file, errp)) {
        g_free(s->faults);
        s->faults = g_strdup(file);
    }
}

static void finalize(Object *obj)
{
    g_free(GEFSUNK_AHCI(obj)->faults);
}

static Property properties[] = {
    DEFINE_PROP_UINT8("ports", GefsunkAhci, ports, MOST_PORTS),
    DEFINE_PROP_BOOL("port0-open", GefsunkAhci, port0_open, true),
    DEFINE_PROP_BOOL("fbs", GefsunkAhci, fbs, true),
    DEFINE_PROP_STRING("record", GefsunkAhci, record),
    DEFINE_PROP_STRING("log", GefsunkAhci, accesses),
    DEFINE_PROP_END_OF_LIST(),
};

static void init_class(ObjectClass *klass, void *data)
{
    DeviceClass *dc = DEVICE_CLASS(klass);
    PCIDeviceClass *k = PCI_DEVICE_CLASS(klass);
    k->realize = realize;
    k->exit = leave;
    k->config_write = write_config;
    k->vendor_id = PCI_VENDOR_ID_REDHAT;
    k->device_id = 0x00f0;
    k->class_id = PCI_CLASS_STORAGE_SATA;
    dc->reset = reset;
    dc->vmsd = &gefsunk_vmstate;
    device_class_set_props(dc, properties);
    object_class_property_add_str(klass, "faults", get_faults, set_faults);
    set_bit(DEVICE_CATEGORY_STORAGE, dc->categories);
}

static const TypeInfo types[] = {
    {
        .name = TYPE_GEFSUNK_AHCI,
        .parent = TYPE_PCI_DEVICE,
        .instance_size = sizeof(GefsunkAhci),
        .instance_finalize = finalize,
        .class_init = init_class,
        .interfaces = (InterfaceInfo[]) { { INTERFACE_CONVENTIONAL_PCI_DEVICE }, { } },
    },
    {
        .name = TYPE_GEFSUNK_BUS,
        .parent = TYPE_BUS,
        .instance_size = sizeof(BusState),
        .class_init = init_bus_class,
        .interfaces = (InterfaceInfo[]) { { TYPE_HOTPLUG_HANDLER }, { } },
    },
};

DEFINE_TYPES(types)
