/*
 * A machine that is saved while reads wait for their medium, and restored in another process, where they end. Beside the machine's state
 * a program keeps what is its own: the guest's memory, and the events that it has not answered yet. The program starts itself again,
 * with the name of the file in which all of that is.
 */
#define _POSIX_C_SOURCE 200809L
#include <stdlib.h>
#include <sys/wait.h>
#include <unistd.h>
#include "guest.h"

enum { SECTORS = 64 };

static uint8_t medium[512 * SECTORS];

/* What the program keeps beside the state: events that are not answered, and how many bytes the state has. */
typedef struct kept {
    gef_event waiting[32];
    size_t count;
    size_t len;
} kept;

static kept own;

static void settle(void) {
    gef_event event;
    for (;;) {
        gef_status status = gef_machine_next(&machine, &event);
        check("next", status);
        if (status != GEF_OK || event.kind == GEF_EVENT_NOTHING) return;
        switch (event.kind) {
        case GEF_EVENT_READ_GUEST: read_guest(&event); break;
        case GEF_EVENT_WRITE_GUEST: write_guest(&event); break;
        case GEF_EVENT_LOAD: own.waiting[own.count++] = event; break;
        default: break;
        }
    }
}

static void answer(const gef_event *event) {
    const uint8_t *bytes = medium + 512 * event->u.medium.lba;
    check("loaded", gef_machine_answer_loaded(&machine, &event->u.medium.request, bytes, 512 * (size_t)event->u.medium.count));
    settle();
}

static void say(const char *when) {
    printf("%s: PxSACT %x, PxIS %08x, %zu loads wait\n", when, (unsigned)read_register(SACT), (unsigned)read_register(IS), own.count);
}

/* A file has what is kept, the guest's memory, and the state. */
static void save(const char *path) {
    FILE *file = fopen(path, "wb");
    uint8_t *state;
    check("size", gef_machine_state_size(&machine, &own.len));
    state = malloc(own.len);
    if (!file || !state) exit(2);
    check("save", gef_machine_save(&machine, state, own.len, &own.len));
    if (fwrite(&own, sizeof own, 1, file) != 1 || fwrite(memory, sizeof memory, 1, file) != 1 || fwrite(state, own.len, 1, file) != 1) exit(2);
    free(state);
    if (fclose(file)) exit(2);
}

static void restore(const char *path) {
    FILE *file = fopen(path, "rb");
    uint8_t *state;
    if (!file || fread(&own, sizeof own, 1, file) != 1 || fread(memory, sizeof memory, 1, file) != 1) exit(2);
    state = malloc(own.len);
    if (!state || fread(state, own.len, 1, file) != 1) exit(2);
    fclose(file);
    state[0] ^= 1;
    printf("a state with another mark: %s\n", gef_status_text(gef_machine_restore(&machine, state, own.len)));
    state[0] ^= 1;
    printf("a state that ends too early: %s\n", gef_status_text(gef_machine_restore(&machine, state, own.len - 8)));
    check("restore", gef_machine_restore(&machine, state, own.len));
    free(state);
}

static void fill_medium(void) {
    unsigned lba;
    for (lba = 0; lba < SECTORS; lba++) memset(medium + 512 * lba, (int)(0x80u + lba), 512);
}

static void first_process(const char *path) {
    gef_disk_profile profile = {"EXAMPLE DISK", "ONE", "1", SECTORS, 0, 512, 1, 32, 0, GEF_LEAST_LIMIT};
    check("new", gef_machine_new(&machine, 0, 0));
    check("put", gef_machine_put_disk(&machine, 0, &profile));
    check("plug", gef_machine_plug(&machine, 0));
    check("power", gef_machine_power_on(&machine));
    bring_up();
    issue_queued(1, 0, 0x60, 10, 2);
    issue_queued(2, 0, 0x60, 20, 4);
    answer(&own.waiting[--own.count]);
    say("before");
    save(path);
    check("free", gef_machine_free(&machine));
}

static void second_process(const char *path) {
    restore(path);
    say("after");
    while (own.count) answer(&own.waiting[--own.count]);
    say("at the end");
    printf("slot 1: %02x .. %02x, slot 2: %02x .. %02x\n", buffer_of(1)[0], buffer_of(1)[1023], buffer_of(2)[0], buffer_of(2)[2047]);
    check("free", gef_machine_free(&machine));
}

int main(int argc, char **argv) {
    char path[] = "/tmp/gefsunk-snapshot-XXXXXX";
    int file, status = 1;
    fill_medium();
    if (argc == 2) {
        second_process(argv[1]);
        return 0;
    }
    file = mkstemp(path);
    if (file < 0 || close(file)) return 2;
    first_process(path);
    fflush(stdout);
    if (fork() == 0) {
        execl(argv[0], argv[0], path, (char *)0);
        _exit(2);
    }
    if (wait(&status) < 0) return 2;
    remove(path);
    return WIFEXITED(status) ? WEXITSTATUS(status) : 2;
}
