/* Disks, multiplier and host between their links, and the steps that move things on. */
#include "plain.h"
#include <stdlib.h>

void world_open(World *world) {
    unsigned n;
    for (n = 0; n < world->ports; n++) {
        Seat *seat = &world->seats[n];
        disk_open(&seat->disk);
        seat->up.room = seat->down.room = world->capacity;
    }
    pm_open(&world->pm, world->ports);
    world->up.room = world->down.room = world->capacity;
    memset(world->driver.host.status, 0x50, sizeof world->driver.host.status);
    if (!(world->driver.host.memory = calloc(world->megabytes, 1 << 20))) abort();
}

static void tell(Seat *seat, bool is_there) {
    unsigned at = (seat->first + seat->count++) % ROOM;
    seat->is_there = is_there;
    seat->changes[at].conn = seat->conn;
    seat->changes[at].is_there = is_there;
}

Did world_came(World *world, unsigned n) {
    Seat *seat = &world->seats[n];
    if (seat->count == world->capacity) return BLOCKED;
    disk_plug(&seat->disk);
    seat->conn++;
    seat->number = 0;
    if (!(seat->counts = realloc(seat->counts, (seat->conn + 1) * sizeof *seat->counts))) abort();
    seat->counts[seat->conn] = (Count){0, 0};
    tell(seat, true);
    return MOVED;
}

Did world_gone(World *world, unsigned n) {
    if (world->seats[n].count == world->capacity) return BLOCKED;
    tell(&world->seats[n], false);
    return MOVED;
}

Did world_presence(World *world, unsigned n) {
    Seat *seat = &world->seats[n];
    unsigned at = seat->first;
    if (!seat->count) return NOTHING;
    seat->first = (at + 1) % ROOM;
    seat->count--;
    (seat->changes[at].is_there ? pm_came : pm_gone)(&world->pm, n, seat->changes[at].conn);
    return MOVED;
}

Did world_disk_take(World *world, unsigned n) {
    Seat *seat = &world->seats[n];
    Frame *frame = link_first(&seat->down);
    if (!frame) return NOTHING;
    link_take(&seat->down);
    if (seat->is_there && frame->conn == seat->conn) disk_hear(&seat->disk, frame);
    frame_free(frame);
    return MOVED;
}

Did world_disk_send(World *world, unsigned n) {
    Seat *seat = &world->seats[n];
    Frame *frame;
    if (!seat->is_there) return NOTHING;
    if (link_is_full(&seat->up)) return BLOCKED;
    if (!(frame = disk_next(&seat->disk))) return NOTHING;
    frame->port = (uint8_t)n;
    frame->conn = seat->conn;
    frame->number = seat->number++;
    seat->counts[seat->conn].sent++;
    link_push(&seat->up, frame);
    return MOVED;
}

Did world_from_device(World *world, unsigned n) {
    PmPort *port = &world->pm.port[n];
    Frame *frame = link_first(&world->seats[n].up);
    if (!frame) return NOTHING;
    if (port->up) return BLOCKED;
    link_take(&world->seats[n].up);
    if (frame->conn <= port->gone) frame_free(frame);
    else port->up = frame;
    return MOVED;
}

Did world_down(World *world, unsigned n) {
    PmPort *port = &world->pm.port[n];
    if (link_is_full(&world->seats[n].down)) return BLOCKED;
    if (!port->down) return NOTHING;
    link_push(&world->seats[n].down, port->down);
    port->down = NULL;
    return MOVED;
}

Did world_from_host(World *world) {
    Frame *frame = link_first(&world->down);
    if (!frame) return NOTHING;
    if (!pm_hear(&world->pm, frame)) return BLOCKED;
    link_take(&world->down);
    return MOVED;
}

Did world_up(World *world) {
    Frame *frame;
    if (link_is_full(&world->up)) return BLOCKED;
    if (!(frame = pm_next(&world->pm))) return NOTHING;
    link_push(&world->up, frame);
    return MOVED;
}

/* The frame that the host took, which is the caller's then. */
Frame *world_host_take(World *world) {
    Frame *frame = link_first(&world->up);
    if (!frame) return NULL;
    link_take(&world->up);
    host_hear(&world->driver.host, frame);
    if (frame->port < CONTROL) world->seats[frame->port].counts[frame->conn].taken++;
    return frame;
}

Did world_push(World *world) {
    Frame *frame;
    if (link_is_full(&world->down)) return BLOCKED;
    if (!(frame = host_next(&world->driver.host))) return NOTHING;
    link_push(&world->down, frame);
    return MOVED;
}

static bool has_moved_at(World *world, unsigned n) {
    bool moved = world_presence(world, n) == MOVED;
    moved |= world_disk_take(world, n) == MOVED;
    moved |= world_disk_send(world, n) == MOVED;
    moved |= world_from_device(world, n) == MOVED;
    moved |= world_down(world, n) == MOVED;
    return moved;
}

static bool has_moved(World *world) {
    bool moved = false;
    Frame *frame;
    unsigned n;
    for (n = 0; n < world->ports; n++) moved |= has_moved_at(world, n);
    moved |= world_from_host(world) == MOVED;
    moved |= world_up(world) == MOVED;
    if ((frame = world_host_take(world))) {
        frame_free(frame);
        moved = true;
    }
    moved |= driver_tick(&world->driver);
    moved |= world_push(world) == MOVED;
    return moved;
}

/* Rounds, at most so many, up to the first in which nothing moves; false if there is none. */
bool world_settle(World *world, uint64_t rounds) {
    while (rounds--)
        if (!has_moved(world)) return true;
    return false;
}
