/*
 * Faults from outside the guest, by a script: a line each, with when it strikes, the port, and what happens there.
 *
 *     # A disk goes as it sends its 20th Data FIS, and another comes five seconds later.
 *     data#20   1  pull
 *     +5        1  plug
 *
 * When: seconds since the script began, as 2.5; or at a FIS of the port's disk, the next one, or the Nth from now with #N, or each
 * one with *. With + before it, it counts from the moment at which the line before struck. Each FIS has a word, and ! behind that of
 * d2h and bits wants ERR in its Status:
 *
 *     d2h bits pio setup activate data     of the disk: 34h, A1h, 5Fh, 41h, 39h, 46h
 *     command control payload              for the disk: 27h with C 1 and with C 0, 46h; command:60 is one of that code
 *
 * What, of the port and the medium:
 *
 *     pull  plug        the disk goes, and comes again as from power on
 *     bad LBA COUNT     these sectors cannot be read
 *     fail              the medium does nothing that it is asked for, and says so
 *     stuck             it never answers
 *     slow SECONDS      it answers so much later
 *     work              none of these any more
 *
 * and of FISes, at a disk with fis=on:
 *
 *     lose  twice       the FIS at which it strikes is lost, or comes twice
 *     late SECONDS      it comes later, as all behind it do
 *     hold              so it does until `free`
 *     byte AT VALUE     one of its bytes is another one
 *     cut BYTES         it ends there
 *     say HEX           the disk sends this FIS
 *     deaf  mute        FISes are lost on their way to the disk, or from it, until `talk`
 *     tell              nothing but a line of the log
 *
 * Each line that strikes is told on standard error. The clock is that of the virtual machine.
 */
#include "qemu/osdep.h"
#include "qapi/error.h"
#include "qemu/cutils.h"
#include "qemu/error-report.h"
#include "qemu/main-loop.h"
#include "qemu/timer.h"
#include "migration/blocker.h"
#include "gefsunk_ahci.h"

typedef enum What {
    PULL, PLUG, BAD, FAIL, STUCK, SLOW, WORK, LOSE, TWICE, LATE, HOLD, FREE, BYTE, CUT, SAY, DEAF, MUTE, TALK, TELL
} What;

static const struct {
    const char *name;
    uint8_t type;
    bool is_up;
    int c; /* the bit C that it wants, or -1 */
} FISES[] = {
    { "d2h", 0x34, true, -1 }, { "bits", 0xA1, true, -1 }, { "pio", 0x5F, true, -1 }, { "setup", 0x41, true, -1 },
    { "activate", 0x39, true, -1 }, { "data", 0x46, true, -1 }, { "command", 0x27, false, 1 }, { "control", 0x27, false, 0 },
    { "payload", 0x46, false, -1 },
};

/* A line of the script. */
typedef struct Fault {
    unsigned line, port;
    What what;
    uint64_t numbers[2];
    int64_t time; /* of `late` and `slow` */
    uint8_t *said;
    size_t said_len;
    /* when */
    bool is_chained, by_fis, with_error, is_each;
    int64_t after;
    size_t kind;
    int code;
    unsigned nth;
    /* how far it is */
    bool is_armed, has_struck;
    int64_t due;
    uint64_t since; /* how many FISes had passed when it was armed */
} Fault;

struct GefsunkFaults {
    GArray *faults;
    QEMUTimer *timer;
    int64_t begun;
    uint64_t passed; /* how many FISes */
    Error *stays;
};

static int64_t now(void)
{
    return qemu_clock_get_ns(QEMU_CLOCK_VIRTUAL);
}

static Fault *fault_at(GefsunkFaults *script, size_t at)
{
    return &g_array_index(script->faults, Fault, at);
}

/* ---- what is done to a disk */

static void works_again(GefsunkDisk *disk)
{
    Work *work;
    disk->medium.is_stuck = disk->medium.fails = false;
    disk->medium.delay = disk->medium.bad_count = 0;
    QTAILQ_FOREACH(work, &disk->medium.waiting, next) {
        work->due = now();
    }
    timer_mod(disk->medium.timer, now());
}

static void talks_again(GefsunkDisk *disk)
{
    disk->link.is_deaf = disk->link.is_mute = disk->link.is_held = false;
    qemu_bh_schedule(gefsunk_controller_of(disk)->later); /* what was held goes up */
}

static gef_status pull(GefsunkAhci *s, GefsunkDisk *disk, const Fault *f)
{
    if (disk->fis) {
        gefsunk_fis_drop(disk);
    }
    return gef_machine_pull(&s->machine, disk->port);
}

static gef_status plug(GefsunkAhci *s, GefsunkDisk *disk, const Fault *f)
{
    return gef_machine_plug(&s->machine, disk->port);
}

static gef_status set_medium(GefsunkAhci *s, GefsunkDisk *disk, const Fault *f)
{
    switch (f->what) {
    case BAD:
        disk->medium.bad = f->numbers[0];
        disk->medium.bad_count = f->numbers[1];
        break;
    case SLOW:
        disk->medium.delay = f->time;
        break;
    case WORK:
        works_again(disk);
        break;
    default:
        disk->medium.is_stuck |= f->what == STUCK;
        disk->medium.fails |= f->what == FAIL;
    }
    return GEF_OK;
}

static gef_status set_link(GefsunkAhci *s, GefsunkDisk *disk, const Fault *f)
{
    disk->link.is_deaf |= f->what == DEAF;
    disk->link.is_mute |= f->what == MUTE;
    disk->link.is_held |= f->what == HOLD;
    if (f->what == TALK) {
        talks_again(disk);
    } else if (f->what == FREE) {
        disk->link.is_held = false;
    }
    return GEF_OK;
}

static gef_status say(GefsunkAhci *s, GefsunkDisk *disk, const Fault *f)
{
    gefsunk_fis_say(disk, f->said, f->said_len, 0);
    return GEF_OK;
}

/* What a line may say, how many words follow, what it wants (a disk with fis=on; a FIS of such a disk, or for it), and what is done. */
static const struct {
    const char *name;
    unsigned words;
    bool wants_link, wants_fis, is_up;
    gef_status (*strike)(GefsunkAhci *s, GefsunkDisk *disk, const Fault *f);
} WHATS[] = {
    [PULL] = { "pull", 0, .strike = pull },
    [PLUG] = { "plug", 0, .strike = plug },
    [BAD] = { "bad", 2, .strike = set_medium },
    [FAIL] = { "fail", 0, .strike = set_medium },
    [STUCK] = { "stuck", 0, .strike = set_medium },
    [SLOW] = { "slow", 1, .strike = set_medium },
    [WORK] = { "work", 0, .strike = set_medium },
    [LOSE] = { "lose", 0, true, true },
    [TWICE] = { "twice", 0, true, true },
    [LATE] = { "late", 1, true, true, true },
    [HOLD] = { "hold", 0, true, true, true, .strike = set_link },
    [FREE] = { "free", 0, true, .strike = set_link },
    [BYTE] = { "byte", 2, true, true },
    [CUT] = { "cut", 1, true, true },
    [SAY] = { "say", 1, true, .strike = say },
    [DEAF] = { "deaf", 0, true, .strike = set_link },
    [MUTE] = { "mute", 0, true, .strike = set_link },
    [TALK] = { "talk", 0, true, .strike = set_link },
    [TELL] = { "tell", 0 },
};

/* ---- reading a script */

static bool is_time(const char *word, int64_t *time)
{
    double seconds;
    bool is_fit = qemu_strtod_finite(word, NULL, &seconds) == 0 && seconds >= 0 && seconds <= 1e6;
    *time = is_fit ? seconds * NANOSECONDS_PER_SECOND : 0;
    return is_fit;
}

/* Which kind of FIS a word of such a length names. */
static bool is_kind(const char *word, size_t len, size_t *kind)
{
    for (*kind = 0; *kind < ARRAY_SIZE(FISES); ++*kind) {
        if (strlen(FISES[*kind].name) == len && strncmp(FISES[*kind].name, word, len) == 0) {
            return true;
        }
    }
    return false;
}

/* The word of a FIS: kind, :CODE, ! and #N or *. */
static bool is_fis(const char *word, Fault *f)
{
    size_t len = strcspn(word, ":!#*");
    const char *rest = word + len;
    uint64_t number;
    f->by_fis = is_kind(word, len, &f->kind);
    if (!f->by_fis) {
        return false;
    }
    f->code = -1;
    f->nth = 1;
    if (*rest == ':' && FISES[f->kind].c == 1) {
        if (qemu_strtou64(rest + 1, &rest, 16, &number) < 0 || number > 0xff) {
            return false;
        }
        f->code = number & 0xff;
    }
    if (*rest == '!') {
        f->with_error = true;
        rest++;
    }
    if (*rest == '*') {
        f->is_each = true;
        rest++;
    } else if (*rest == '#') {
        if (qemu_strtou64(rest + 1, &rest, 10, &number) < 0 || number == 0) {
            return false;
        }
        f->nth = number;
    }
    return *rest == 0;
}

/* The bytes of a FIS in hexadecimal digits. */
static bool is_said(const char *word, Fault *f)
{
    size_t len = strlen(word) / 2;
    unsigned byte;
    if (strlen(word) % 8 || len < 4 || len > GEF_FIS_ROOM || strspn(word, "0123456789abcdefABCDEF") != 2 * len) {
        return false;
    }
    f->said = g_malloc(len);
    f->said_len = len;
    for (size_t at = 0; at < len; at++) {
        sscanf(word + 2 * at, "%2x", &byte);
        f->said[at] = byte;
    }
    return true;
}

static bool has_arguments(char **words, Fault *f)
{
    switch (f->what) {
    case SLOW:
    case LATE:
        return is_time(words[0], &f->time);
    case SAY:
        return is_said(words[0], f);
    default:
        for (unsigned at = 0; at < WHATS[f->what].words; at++) {
            if (qemu_strtou64(words[at], NULL, 0, &f->numbers[at]) < 0) {
                return false;
            }
        }
        return true;
    }
}

/* A line, in words. */
static const char *why_not(GefsunkAhci *s, char **words, Fault *f)
{
    unsigned count = g_strv_length(words);
    const char *when = words[0];
    if (count < 3) {
        return "a line is WHEN PORT WHAT";
    }
    f->is_chained = *when == '+';
    when += f->is_chained;
    if (!is_fis(when, f) && (f->by_fis || !is_time(when, &f->after))) {
        return "no such time and no such FIS";
    }
    if (qemu_strtoui(words[1], NULL, 10, &f->port) < 0 || f->port >= MAX(s->ports, 1)) {
        return "no such port";
    }
    for (f->what = PULL; f->what <= TELL && strcmp(WHATS[f->what].name, words[2]); f->what++) {
    }
    if (f->what > TELL) {
        return "no such fault";
    }
    if (count != 3 + WHATS[f->what].words || !has_arguments(words + 3, f)) {
        return "other words are wanted behind the fault";
    }
    if (WHATS[f->what].wants_fis && !f->by_fis) {
        return "such a fault strikes at a FIS";
    }
    if (WHATS[f->what].is_up && !FISES[f->kind].is_up) {
        return "such a fault strikes at a FIS of the disk";
    }
    if ((f->by_fis || WHATS[f->what].wants_link) && s->disks[f->port] && !s->disks[f->port]->fis) {
        return "the disk has no fis=on";
    }
    return NULL;
}

static void free_fault(gpointer fault)
{
    g_free(((Fault *)fault)->said);
}

/* The words of a line, a null pointer behind them; none of a remark. */
static GPtrArray *words_of(char *line)
{
    GPtrArray *words = g_ptr_array_new();
    for (char *word = strtok(line, " \t\r"); word && (words->len || *word != '#'); word = strtok(NULL, " \t\r")) {
        g_ptr_array_add(words, word);
    }
    g_ptr_array_add(words, NULL);
    return words;
}

static GArray *read_script(GefsunkAhci *s, const char *file, Error **errp)
{
    g_autofree char *text = NULL;
    g_auto(GStrv) lines = NULL;
    GArray *faults = g_array_new(false, true, sizeof(Fault));
    const char *why = NULL;
    if (!g_file_get_contents(file, &text, NULL, NULL)) {
        error_setg_file_open(errp, errno, file);
        return faults;
    }
    g_array_set_clear_func(faults, free_fault);
    lines = g_strsplit(text, "\n", -1);
    for (unsigned at = 0; lines[at] && !why; at++) {
        Fault f = { .line = at + 1 };
        g_autoptr(GPtrArray) words = words_of(lines[at]);
        if (words->len > 1) {
            why = why_not(s, (char **)words->pdata, &f);
            g_array_append_val(faults, f);
        }
        if (why) {
            error_setg(errp, "%s: line %u: %s", file, f.line, why);
        }
    }
    return faults;
}

/* ---- striking */

/* A line waits for its moment from now on: a time, or a FIS behind the one that passes now. */
static void arm(GefsunkFaults *script, Fault *f)
{
    f->is_armed = true;
    f->since = script->passed;
    f->due = now() + f->after;
}

/* The timer goes off as the first line does that waits for a time. */
static void set_timer(GefsunkFaults *script)
{
    int64_t first = INT64_MAX;
    for (size_t at = 0; at < script->faults->len; at++) {
        Fault *f = fault_at(script, at);
        if (f->is_armed && !f->has_struck && !f->by_fis) {
            first = MIN(first, f->due);
        }
    }
    if (first != INT64_MAX) {
        timer_mod(script->timer, first);
    }
}

/* It struck: the log has it, and the next line may count from here. */
static void told(GefsunkAhci *s, Fault *f, const uint8_t *fis, size_t len, const char *what)
{
    char text[GEF_TEXT_ROOM] = "";
    Fault *next = f + 1;
    if (fis) {
        gef_fis_text(fis, len, text, sizeof text);
    }
    info_report("fault: %.3f s, line %u, port %u: %s%s%s%s%s", (double)(now() - s->script->begun) / NANOSECONDS_PER_SECOND, f->line,
                f->port, WHATS[f->what].name, *what ? ", " : "", what, *text ? ": " : "", text);
    f->has_struck = !f->is_each;
    if (next != fault_at(s->script, s->script->faults->len) && next->is_chained && !next->is_armed) {
        arm(s->script, next);
        set_timer(s->script);
    }
}

/* In a few words what came of it, where that is not as it should be. */
static const char *strike(GefsunkAhci *s, Fault *f)
{
    GefsunkDisk *disk = s->disks[f->port];
    gef_status status = GEF_OK;
    if (!disk || (WHATS[f->what].wants_link && !disk->fis)) {
        return disk ? "the disk has no fis=on" : "no disk is there";
    }
    if (WHATS[f->what].strike) {
        status = WHATS[f->what].strike(s, disk, f);
    }
    return status == GEF_OK ? "" : gef_status_text(status);
}

/* The lines whose time it is, and then what comes of them, at once. */
static void strike_by_time(void *opaque)
{
    GefsunkAhci *s = opaque;
    for (size_t at = 0; at < s->script->faults->len; at++) {
        Fault *f = fault_at(s->script, at);
        if (f->is_armed && !f->has_struck && !f->by_fis && f->due <= now()) {
            told(s, f, f->said, f->said_len, strike(s, f));
        }
    }
    set_timer(s->script);
    gefsunk_run(s);
}

static bool is_met(const Fault *f, uint64_t passed, GefsunkDisk *disk, bool is_up, const uint8_t *fis)
{
    return f->is_armed && f->since < passed && f->by_fis && !f->has_struck && f->port == disk->port && FISES[f->kind].is_up == is_up &&
           FISES[f->kind].type == fis[0] && (FISES[f->kind].c < 0 || FISES[f->kind].c == fis[1] >> 7) &&
           (f->code < 0 || f->code == fis[2]) && (!f->with_error || (fis[2] & 1));
}

GefsunkPassage gefsunk_faults_meet(GefsunkAhci *s, GefsunkDisk *disk, bool is_up, uint8_t *fis, size_t *len)
{
    GefsunkPassage passage = { 0 };
    uint64_t passed = s->script ? ++s->script->passed : 0;
    for (size_t at = 0; s->script && at < s->script->faults->len; at++) {
        Fault *f = fault_at(s->script, at);
        const char *what;
        if (!is_met(f, passed, disk, is_up, fis) || (!f->is_each && --f->nth)) {
            continue;
        }
        what = strike(s, f);
        told(s, f, fis, *len, what);
        passage.is_lost |= f->what == LOSE || f->what == PULL;
        passage.is_twice |= f->what == TWICE;
        passage.delay = f->what == LATE ? f->time : passage.delay;
        if (f->what == BYTE && f->numbers[0] < *len) {
            fis[f->numbers[0]] = f->numbers[1];
        } else if (f->what == CUT) {
            *len = MIN(*len, f->numbers[0]);
        }
    }
    return passage;
}

/* ---- media */

bool gefsunk_faults_take(Work *work)
{
    GefsunkMedium *medium = &work->disk->medium;
    uint64_t lba = work->event.u.medium.lba, count = work->event.u.medium.count;
    if (medium->is_stuck || (medium->delay && !work->due)) {
        work->due = medium->is_stuck ? INT64_MAX : now() + medium->delay;
        QTAILQ_INSERT_TAIL(&medium->waiting, work, next);
        if (!medium->is_stuck) {
            timer_mod_anticipate(medium->timer, work->due);
        }
        return true;
    }
    if (medium->fails) {
        gefsunk_fail(work, lba);
        return true;
    }
    if (work->event.kind == GEF_EVENT_LOAD && medium->bad_count && lba < medium->bad + medium->bad_count && medium->bad < lba + count) {
        gefsunk_fail(work, MAX(lba, medium->bad));
        return true;
    }
    return false;
}

void gefsunk_faults_wake(void *opaque)
{
    GefsunkDisk *disk = opaque;
    Work *work, *next;
    QTAILQ_FOREACH_SAFE(work, &disk->medium.waiting, next, next) {
        if (work->due <= now()) {
            QTAILQ_REMOVE(&disk->medium.waiting, work, next);
            gefsunk_begin_work(work);
        } else if (work->due != INT64_MAX) {
            timer_mod_anticipate(disk->medium.timer, work->due);
        }
    }
}

/* ---- a script begins */

static void free_script(GefsunkAhci *s)
{
    if (!s->script) {
        return;
    }
    timer_free(s->script->timer);
    migrate_del_blocker(s->script->stays);
    error_free(s->script->stays);
    g_array_free(s->script->faults, true);
    g_free(s->script);
    s->script = NULL;
    for (unsigned port = 0; port < MOST_PORTS; port++) {
        if (s->disks[port]) {
            works_again(s->disks[port]);
            talks_again(s->disks[port]);
        }
    }
}

bool gefsunk_faults_load(GefsunkAhci *s, const char *file, Error **errp)
{
    Error *wrong = NULL;
    GefsunkFaults *script;
    if (!*file) {
        free_script(s);
        return true;
    }
    script = g_new0(GefsunkFaults, 1);
    error_setg(&script->stays, "a controller with a script of faults is not migrated");
    script->faults = read_script(s, file, &wrong);
    if (wrong || migrate_add_blocker(script->stays, &wrong) < 0) {
        error_propagate(errp, wrong);
        g_array_free(script->faults, true);
        error_free(script->stays);
        g_free(script);
        return false;
    }
    free_script(s);
    s->script = script;
    script->begun = now();
    script->timer = timer_new_ns(QEMU_CLOCK_VIRTUAL, strike_by_time, s);
    for (size_t at = 0; at < script->faults->len; at++) {
        if (!fault_at(script, at)->is_chained || at == 0) {
            arm(script, fault_at(script, at));
        }
    }
    set_timer(script);
    return true;
}
