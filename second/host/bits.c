/* Every single bit of a record, of a panel and of a stored form is turned, and every call that takes one is made on what
   that leaves, in memory with guard pages at both of its sides. What has to be:

   - Whether a record or a panel is legal is what RULES ("When a record is legal", "Panel") says of its bytes, which is
     written here a second time; of a form, which number a load gives ("Stored form").
   - On one that is not legal each call gives 1, counts of 0, and leaves record and lent memory as they were.
   - On a legal one no call gives 1, and what it gives, writes and leaves is what it does on another legal record: one
     that is made anew of the values that the turned one has. What it leaves is legal.
   - In place and by value a call does the same.

   What is printed tells of each which numbers came how often, and a sum over all that the calls gave: it is the same on
   each processor. A call that is not here is noticed by .ci/bits.

       bits [less]      all of it with the memory at the end of its pages, and then at their start; less: at the end
                        alone, and by value on legal ones alone */
#define _DEFAULT_SOURCE
#include <stdio.h>
#include <stdlib.h>
#include <string.h>
#include <sys/mman.h>
#include <unistd.h>

#include "ceiling.h"

#define TEXT(s) (const uint8_t *)(s), strlen(s)
#define COUNT(a) (sizeof(a) / sizeof *(a))

static const char *base_name, *call_name;
static size_t turned_bit;

static void wrong(const char *what) {
    printf("%s, bit %zu of byte %zu turned, %s: %s\n", base_name, turned_bit % 8, turned_bit / 8, call_name, what);
    exit(1);
}

/* Lent memory: what lies beside it is no memory. */

static bool less;
static bool at_its_end; /* the memory ends where the page does, or begins there */

static uint8_t *lend(size_t length) {
    size_t page = (size_t)sysconf(_SC_PAGESIZE), pages = (length + page - 1) / page * page;
    uint8_t *all = mmap(NULL, pages + 2 * page, PROT_NONE, MAP_PRIVATE | MAP_ANONYMOUS, -1, 0);
    if (all == MAP_FAILED || mprotect(all + page, pages, PROT_READ | PROT_WRITE) != 0) abort();
    return all + page + (at_its_end ? pages - length : 0);
}

/* Bytes that are lent to be read, exactly as many as there are. */
static uint8_t *lent_line;
static size_t line_room;
static const uint8_t *line_of(const char *line, size_t *length) {
    *length = strlen(line);
    uint8_t *start = at_its_end ? lent_line + line_room - *length : lent_line;
    memcpy(start, line, *length);
    return start;
}

/* A sum over what is told: as FNV-1a, eight bytes at once. */
static uint64_t sum = UINT64_C(0xcbf29ce484222325);
static void add(const void *bytes, size_t length) {
    for (size_t k = 0; k < length; k += 8) {
        uint64_t part = 0;
        memcpy(&part, (const uint8_t *)bytes + k, length - k < 8 ? length - k : 8);
        sum = (sum ^ part) * UINT64_C(0x100000001b3);
        sum ^= sum >> 29;
    }
}

/* The fields of a record, one after the other, with no room between. A flag is read as the byte that it is. */
static uint8_t *put(uint8_t *to, const void *field, size_t length) {
    memcpy(to, field, length);
    return to + length;
}
#define PUT(field) to = put(to, &(field), sizeof(field))
static uint8_t *put_text(uint8_t *to, const pj_text *t) { PUT(t->len); PUT(t->bytes); return to; }

static size_t flat(const pj_device *d, uint8_t *from) {
    const pj_settings *s = &d->settings;
    uint8_t *to = from;
    const pj_text *texts[] = {&s->name, &s->maker, &s->model, &s->other, &s->password, &s->serial, &s->version};
    for (size_t k = 0; k < COUNT(texts); k++) to = put_text(to, texts[k]);
    PUT(s->input_count); PUT(s->inputs); PUT(s->lamp_count); PUT(s->warm); PUT(s->cool); PUT(s->class_number);
    for (size_t k = 0; k < PJ_INPUTS_MOST; k++) { PUT(s->names[k].len); PUT(s->names[k].bytes); }
    const pj_own *o = &d->own;
    PUT(o->power); PUT(o->left); PUT(o->chosen); PUT(o->video_muted); PUT(o->audio_muted); PUT(o->fault);
    PUT(o->errors); PUT(o->lamps); PUT(o->enabled); PUT(o->frozen); PUT(o->speaker); PUT(o->microphone);
    for (size_t k = 0; k < PJ_PLACES; k++) {
        const pj_connection *c = &d->connections[k];
        PUT(c->phase); PUT(c->age); PUT(c->random); PUT(c->line.overlong); PUT(c->line.held); PUT(c->line.bytes);
    }
    return (size_t)(to - from);
}

static size_t flat_panel(const pj_panel *p, uint8_t *from) {
    uint8_t *to = from;
    PUT(p->count);
    for (size_t k = 0; k < PJ_PANEL_MOST; k++) {
        const pj_entry *e = &p->entries[k];
        to = put_text(to, &e->password);
        PUT(e->greeting); PUT(e->random); PUT(e->led); PUT(e->under_way);
        PUT(e->command.code); PUT(e->command.first); PUT(e->command.second);
        PUT(e->power_known); PUT(e->input_known); PUT(e->lamps_known); PUT(e->power);
        PUT(e->input_type); PUT(e->input_number); PUT(e->lamp_count); PUT(e->hours); PUT(e->lit); PUT(e->strays);
    }
    return (size_t)(to - from);
}

static bool same_device(const pj_device *one, const pj_device *other) {
    static uint8_t ones[sizeof *one], others[sizeof *one];
    if (memcmp(one, other, sizeof *one) == 0) return true;
    size_t length = flat(one, ones);
    return flat(other, others) == length && memcmp(ones, others, length) == 0;
}

static bool same_panel(const pj_panel *one, const pj_panel *other) {
    static uint8_t ones[sizeof *one], others[sizeof *one];
    if (memcmp(one, other, sizeof *one) == 0) return true;
    size_t length = flat_panel(one, ones);
    return flat_panel(other, others) == length && memcmp(ones, others, length) == 0;
}

/* Another record with the same values, and nothing in the room between them. */
static pj_device anew(const pj_device *d) {
    pj_device made;
    memset(&made, 0, sizeof made);
    const pj_settings *s = &d->settings;
    pj_settings *t = &made.settings;
    t->name = s->name; t->maker = s->maker; t->model = s->model; t->other = s->other; t->password = s->password;
    t->input_count = s->input_count; t->lamp_count = s->lamp_count; t->warm = s->warm; t->cool = s->cool;
    t->class_number = s->class_number; t->serial = s->serial; t->version = s->version;
    memcpy(t->inputs, s->inputs, sizeof t->inputs);
    memcpy(t->names, s->names, sizeof t->names);
    const pj_own *o = &d->own;
    pj_own *u = &made.own;
    u->power = o->power; u->left = o->left; u->chosen = o->chosen; u->video_muted = o->video_muted;
    u->audio_muted = o->audio_muted; u->fault = o->fault; u->frozen = o->frozen; u->speaker = o->speaker;
    u->microphone = o->microphone;
    memcpy(u->errors, o->errors, sizeof u->errors);
    memcpy(u->lamps, o->lamps, sizeof u->lamps);
    for (size_t k = 0; k < PJ_LAMPS_MOST; k++) u->enabled[k] = o->enabled[k];
    for (size_t k = 0; k < PJ_PLACES; k++) {
        const pj_connection *c = &d->connections[k];
        pj_connection *e = &made.connections[k];
        e->phase = c->phase; e->age = c->age; e->random = c->random;
        e->line.overlong = c->line.overlong; e->line.held = c->line.held;
        memcpy(e->line.bytes, c->line.bytes, sizeof e->line.bytes);
    }
    return made;
}

static pj_entry entry_anew(const pj_entry *e) {
    pj_entry made;
    memset(&made, 0, sizeof made);
    made.password = e->password; made.greeting = e->greeting; made.random = e->random; made.led = e->led;
    made.under_way = e->under_way; made.command.code = e->command.code; made.command.first = e->command.first;
    made.command.second = e->command.second; made.power_known = e->power_known; made.input_known = e->input_known;
    made.lamps_known = e->lamps_known; made.power = e->power; made.input_type = e->input_type;
    made.input_number = e->input_number; made.lamp_count = e->lamp_count; made.strays = e->strays;
    for (size_t k = 0; k < PJ_LAMPS_MOST; k++) { made.hours[k] = e->hours[k]; made.lit[k] = e->lit[k]; }
    return made;
}

/* RULES, "When a record is legal", over the record's bytes. */

static bool is_blank(const uint8_t *bytes, size_t length) {
    for (size_t k = 0; k < length; k++) if (bytes[k] != 0) return false;
    return true;
}

static bool is_flag(const void *byte) { return *(const uint8_t *)byte <= 1; }
static bool is_set(const void *byte) { return *(const uint8_t *)byte != 0; }

static bool is_text(const uint8_t *bytes, size_t length, size_t room, size_t most) {
    if (length > most || !is_blank(bytes + length, room - length)) return false;
    for (size_t k = 0; k < length; k++) if (bytes[k] < 0x20) return false;
    return !(length == 4 && memcmp(bytes, "ERR", 3) == 0 && bytes[3] >= '1' && bytes[3] <= '4');
}

/* RFC 3629, 4, by what a character's bytes come to. */
static bool is_utf8(const uint8_t *bytes, size_t length) {
    for (size_t k = 0; k < length;) {
        uint32_t first = bytes[k], value = 0;
        size_t more = first < 0x80 ? 0 : first >> 5 == 6 ? 1 : first >> 4 == 14 ? 2 : first >> 3 == 30 ? 3 : 4;
        if (more == 4 || k + more >= length) return false;
        value = more == 0 ? first : first & (0x3F >> more);
        for (size_t j = 1; j <= more; j++) {
            if (bytes[k + j] >> 6 != 2) return false;
            value = value << 6 | (bytes[k + j] & 0x3F);
        }
        static const uint32_t least[] = {0, 0x80, 0x800, 0x10000};
        if (value < least[more] || value > 0x10FFFF || value >> 11 == 0x1B) return false;
        k += more + 1;
    }
    return true;
}

static bool is_alnum(uint8_t b) { return (b >= '0' && b <= '9') || (b >= 'A' && b <= 'Z') || (b >= 'a' && b <= 'z'); }

static bool is_password(const pj_text *t) {
    if (t->len > PJ_PASSWORD_MOST || !is_blank(t->bytes + t->len, PJ_TEXT_ROOM - t->len)) return false;
    for (size_t k = 0; k < t->len; k++) if (!is_alnum(t->bytes[k])) return false;
    return true;
}

static bool is_settings(const pj_settings *s) {
    bool second = s->class_number == 2;
    if (s->class_number != 1 && !second) return false;
    const pj_text *texts[] = {&s->name, &s->maker, &s->model, &s->other, &s->serial, &s->version};
    for (size_t k = 0; k < COUNT(texts); k++) {
        if (!is_text(texts[k]->bytes, texts[k]->len, PJ_TEXT_ROOM, k == 0 ? PJ_NAME_MOST : PJ_INFO_MOST)) return false;
        if (k >= 4 && !second && texts[k]->len > 0) return false;
    }
    if (!is_utf8(s->name.bytes, s->name.len)) return false;
    if (!is_password(&s->password) || (s->password.len >= 1 && s->password.len <= 7)) return false;
    if (s->input_count < 1 || s->input_count > PJ_INPUTS_MOST) return false;
    for (size_t k = 0; k < s->input_count; k++) {
        uint8_t type = s->inputs[2 * k], number = s->inputs[2 * k + 1];
        if (type < '1' || type > (second ? '6' : '5')) return false;
        if (!(number >= '1' && number <= '9') && !(second && number >= 'A' && number <= 'Z')) return false;
        for (size_t j = 0; j < k; j++) if (memcmp(s->inputs + 2 * j, s->inputs + 2 * k, 2) == 0) return false;
    }
    if (!is_blank(s->inputs + 2 * s->input_count, sizeof s->inputs - 2 * s->input_count)) return false;
    for (size_t k = 0; k < PJ_INPUTS_MOST; k++) {
        if (!is_text(s->names[k].bytes, s->names[k].len, PJ_NAME_ROOM, PJ_INPUT_NAME_MOST)) return false;
        if ((!second || k >= s->input_count) && s->names[k].len > 0) return false;
    }
    return s->lamp_count <= PJ_LAMPS_MOST && s->warm >= 1 && s->warm <= PJ_WARM_COOL_MOST && s->cool >= 1 &&
           s->cool <= PJ_WARM_COOL_MOST;
}

static bool is_connection(const pj_connection *c) {
    if (c->phase > 3 || !is_flag(&c->line.overlong)) return false;
    bool timed = c->phase == PJ_PHASE_AWAITING || c->phase == PJ_PHASE_FAILED;
    bool collects = c->phase == PJ_PHASE_AWAITING || c->phase == PJ_PHASE_OPEN;
    if (c->age > (timed ? 29 : 0) || (c->phase == PJ_PHASE_CLOSED && c->random != 0)) return false;
    if (is_set(&c->line.overlong) && (!collects || c->line.held > 0)) return false;
    if (c->line.held > (c->phase == PJ_PHASE_AWAITING ? 167u : c->phase == PJ_PHASE_OPEN ? 135u : 0u)) return false;
    for (size_t k = 0; k < c->line.held; k++) if (c->line.bytes[k] == '\r') return false;
    return is_blank(c->line.bytes + c->line.held, PJ_LINE_ROOM - c->line.held);
}

static bool is_legal(const pj_device *d) {
    const pj_settings *s = &d->settings;
    const pj_own *o = &d->own;
    if (!is_settings(s)) return false;
    uint32_t most = o->power == PJ_POWER_WARM_UP ? s->warm : o->power == PJ_POWER_COOLING ? s->cool : 0;
    if (o->power > 3 || (most == 0 ? o->left != 0 : o->left < 1 || o->left > most) || o->chosen >= s->input_count)
        return false;
    if (!is_flag(&o->video_muted) || !is_flag(&o->audio_muted) || !is_flag(&o->fault) || !is_flag(&o->frozen)) return false;
    for (size_t k = 0; k < PJ_ERRORS; k++) if (o->errors[k] > 2) return false;
    bool marked = false;
    for (size_t k = 0; k < PJ_LAMPS_MOST; k++) {
        if (o->lamps[k] > (k < s->lamp_count ? PJ_LAMP_MOST : 0)) return false;
        if (!is_flag(&o->enabled[k]) || (k >= s->lamp_count && is_set(&o->enabled[k]))) return false;
        marked = marked || is_set(&o->enabled[k]);
    }
    if (marked != (s->lamp_count > 0) || o->speaker > PJ_VOLUME_MOST || o->microphone > PJ_VOLUME_MOST) return false;
    for (size_t k = 0; k < PJ_PLACES; k++) if (!is_connection(&d->connections[k])) return false;
    return true;
}

/* RULES, "Panel". */
static bool is_command(const pj_command *c) {
    uint8_t line[PJ_COMMAND_ROOM];
    return pj_write(*c, false, 0, line, 0, line, sizeof line).number == PJ_SERVED;
}

static bool is_entry(const pj_entry *e) {
    if (!is_password(&e->password) || e->greeting > 2 || e->strays > PJ_STRAYS_MOST) return false;
    const void *flags[] = {&e->led, &e->under_way, &e->power_known, &e->input_known, &e->lamps_known};
    for (size_t k = 0; k < COUNT(flags); k++) if (!is_flag(flags[k])) return false;
    if (e->greeting != PJ_AWAITED_SECURED && (e->random != 0 || is_set(&e->led))) return false;
    if (is_set(&e->under_way) ? e->greeting == 0 || !is_command(&e->command)
                              : e->command.code != 0 || e->command.first != 0 || e->command.second != 0) return false;
    if (e->power > (is_set(&e->power_known) ? 3 : 0)) return false;
    bool known = is_set(&e->input_known);
    if (known ? e->input_type < 1 || e->input_type > 6 || e->input_number < 1 || e->input_number > 35
              : e->input_type != 0 || e->input_number != 0) return false;
    if (is_set(&e->lamps_known) ? e->lamp_count < 1 || e->lamp_count > PJ_LAMPS_MOST : e->lamp_count != 0) return false;
    for (size_t k = 0; k < PJ_LAMPS_MOST; k++) {
        if (e->hours[k] > (k < e->lamp_count ? PJ_HOURS_MOST : 0) || !is_flag(&e->lit[k])) return false;
        if (k >= e->lamp_count && is_set(&e->lit[k])) return false;
    }
    return true;
}

static bool is_panel(const pj_panel *p) {
    static uint8_t fields[sizeof *p];
    static const pj_panel none;
    if (p->count > PJ_PANEL_MOST) return false;
    pj_panel past = none;
    for (size_t k = 0; k < PJ_PANEL_MOST; k++) {
        if (k < p->count && !is_entry(&p->entries[k])) return false;
        if (k >= p->count) past.entries[k] = p->entries[k];
    }
    return is_blank(fields, flat_panel(&past, fields));
}

/* What a call is lent beside a record, and what it gave. */

enum { ROOM = PJ_LOG_ROOM > PJ_FORM_MOST ? PJ_LOG_ROOM : PJ_FORM_MOST };
typedef struct {
    uint32_t number;
    uint64_t counts[3];
    size_t length; /* of what it wrote */
    size_t room;   /* of what it was lent to write */
    uint8_t wrote[ROOM];
} given;

static void clear(given *g) {
    g->number = 0;
    memset(g->counts, 0, sizeof g->counts);
    g->length = g->room = 0;
}

static uint8_t *memories[ROOM + 1]; /* by length */
static uint8_t *memory(size_t room) {
    if (memories[room] == NULL) memories[room] = lend(room);
    memset(memories[room], 0xA5, room);
    return memories[room];
}
static void wrote(given *g, size_t room, size_t length) {
    g->length = length;
    g->room = room;
    memcpy(g->wrote, memories[room], room);
}

typedef void call_of(pj_device *, given *, bool);
#define CALL(name) static void name(pj_device *d, given *g, bool in_place)
/* The call in place, or its like by value, whose record is kept. */
#define CHANGES(NAME, ...)                                                                                             \
    if (in_place) { g->number = NAME##_in_place(d, __VA_ARGS__); return; }                                \
    pj_changed c = NAME(*d, __VA_ARGS__);                                                                 \
    *d = c.device;                                                                                                     \
    g->number = c.number
#define RECEIVES()                                                                                            \
    size_t length;                                                                                                     \
    const uint8_t *bytes = line_of(lines_sent[at_line], &length);                                                      \
    uint8_t *out = memory(PJ_REPLY_ROOM)

static size_t at_place;
static size_t at_line;
static const char *const lines_sent[] = {"%1POWR ?\r", "%1LAMP ?\r%1CLSS ?\r", "%1POWR 1\r", "%2FREZ ?\r", "%1INPT 11\r", "R\xff"};

CALL(legal) { g->number = (in_place ? pj_legal_in_place(d) : pj_legal(*d)) ? PJ_SERVED : PJ_NOT_LEGAL; }
CALL(close_at) { CHANGES(pj_close, at_place); }
CALL(pass_one) { CHANGES(pj_pass, 1); }
CALL(pass_many) { CHANGES(pj_pass, 4294967295u); }
CALL(fault_set) { CHANGES(pj_set_fault, true); }
CALL(fault_cleared) { CHANGES(pj_set_fault, false); }
CALL(errors_set) {
    static const uint8_t digits[PJ_ERRORS] = {0, 1, 2, 2, 1, 0};
    CHANGES(pj_set_errors, digits, sizeof digits);
}
CALL(mark_set) { CHANGES(pj_set_mark, at_place, true); }
CALL(mark_cleared) { CHANGES(pj_set_mark, at_place, false); }
CALL(opened) {
    uint8_t *out = memory(PJ_REPLY_ROOM);
    if (in_place) {
        pj_opening o = pj_open_in_place(d, 0x498e4a67, out, PJ_REPLY_ROOM);
        g->number = o.number; g->counts[0] = o.place;
        wrote(g, PJ_REPLY_ROOM, o.length);
        return;
    }
    pj_opened o = pj_open(*d, 0x498e4a67, out, PJ_REPLY_ROOM);
    *d = o.device;
    g->number = o.number; g->counts[0] = o.place;
    wrote(g, PJ_REPLY_ROOM, o.length);
}
CALL(received) {
    RECEIVES();
    if (in_place) {
        pj_receiving r = pj_receive_in_place(d, at_place, bytes, length, out, PJ_REPLY_ROOM);
        g->number = r.number; g->counts[0] = r.taken;
        wrote(g, PJ_REPLY_ROOM, r.length);
        return;
    }
    pj_received r = pj_receive(*d, at_place, bytes, length, out, PJ_REPLY_ROOM);
    *d = r.device;
    g->number = r.number; g->counts[0] = r.taken;
    wrote(g, PJ_REPLY_ROOM, r.length);
}
/* What has no like by value is made in place both times. */
CALL(session_received) {
    (void)in_place;
    RECEIVES();
    uint32_t random = d->connections[at_place].random;
    pj_receiving r = pj_receive_session_in_place(d, at_place, random, bytes, length, out, PJ_REPLY_ROOM);
    g->number = r.number; g->counts[0] = r.taken;
    wrote(g, PJ_REPLY_ROOM, r.length);
}
CALL(session_closed) {
    (void)in_place;
    g->number = pj_close_session_in_place(d, at_place, d->connections[at_place].random);
}
CALL(passed_telling) {
    (void)in_place;
    pj_passing p = pj_pass_telling_in_place(d, 30);
    g->number = p.number; g->counts[0] = p.closed;
}
CALL(stored) {
    uint8_t *out = memory(PJ_FORM_MOST);
    pj_written w = in_place ? pj_store_in_place(d, out, PJ_FORM_MOST) : pj_store(*d, out, PJ_FORM_MOST);
    g->number = w.number;
    wrote(g, PJ_FORM_MOST, w.length);
}
CALL(stated) {
    (void)in_place;
    pj_log log = {.file = 1, .lines = 3, .sum = 7};
    uint8_t *out = memory(PJ_LOG_ROOM);
    pj_written w = pj_log_stated(&log, d, out, PJ_LOG_ROOM);
    g->number = w.number; g->counts[0] = log.file; g->counts[1] = log.lines; g->counts[2] = log.sum;
    wrote(g, PJ_LOG_ROOM, w.length);
}
CALL(played) {
    (void)in_place;
    static const char *const lines[] = {"R 1 %1LAMP ?", "T 600", "F 1", "O 0 0a1b2c3d", "X 2", "M 2 0"};
    size_t length;
    const uint8_t *bytes = line_of(lines[at_line], &length);
    pj_log log = {.file = 1, .lines = 3, .sum = 7};
    uint8_t *out = memory(PJ_REPLY_ROOM);
    pj_written w = pj_log_play(&log, d, bytes, length, out, PJ_REPLY_ROOM);
    g->number = w.number; g->counts[0] = log.file; g->counts[1] = log.lines; g->counts[2] = log.sum;
    wrote(g, PJ_REPLY_ROOM, w.length);
}

static const struct {
    const char *name;
    call_of *make;
    size_t places, lines; /* it is made at so many places, or lamps, and with so many lines */
} calls[] = {
    {"pj_legal", legal, 1, 1}, {"pj_open", opened, 1, 1}, {"pj_close", close_at, PJ_PLACES, 1},
    {"pj_receive", received, PJ_PLACES, COUNT(lines_sent)}, {"pj_pass, 1", pass_one, 1, 1},
    {"pj_pass, 4,294,967,295", pass_many, 1, 1}, {"pj_set_fault, true", fault_set, 1, 1},
    {"pj_set_fault, false", fault_cleared, 1, 1}, {"pj_set_errors", errors_set, 1, 1},
    {"pj_set_mark, true", mark_set, 2, 1}, {"pj_set_mark, false", mark_cleared, 2, 1},
    {"pj_receive_session_in_place", session_received, PJ_PLACES, 1},
    {"pj_close_session_in_place", session_closed, PJ_PLACES, 1},
    {"pj_pass_telling_in_place", passed_telling, 1, 1}, {"pj_store", stored, 1, 1}, {"pj_log_stated", stated, 1, 1},
    {"pj_log_play", played, 1, 6},
};

/* How often each number came. */
static unsigned long numbers[32];
static void told(const char *name) {
    printf("%s, %s:", base_name, name);
    for (size_t k = 0; k < COUNT(numbers); k++) if (numbers[k] > 0) printf(" %lu times %zu", numbers[k], k);
    printf(", sum %016llx\n", (unsigned long long)sum);
    memset(numbers, 0, sizeof numbers);
}

static void tell_number(uint32_t number) {
    if (number >= COUNT(numbers)) wrong("no such number");
    numbers[number]++;
}

static void same(const given *one, const given *other, const char *what) {
    if (one->number != other->number || memcmp(one->counts, other->counts, sizeof one->counts) != 0 ||
        one->length != other->length || memcmp(one->wrote, other->wrote, one->room) != 0) wrong(what);
}

/* One call on the turned record, which lies at *d. */
static void try_call(const pj_device *turned, pj_device *d, bool is_one, call_of *make) {
    static given first, again, other;
    clear(&first);
    clear(&again);
    memcpy(d, turned, sizeof *d);
    make(d, &first, true);
    if (first.length > first.room) wrong("a length that is none");
    for (size_t k = first.length; k < first.room; k++) if (first.wrote[k] != 0xA5) wrong("bytes are written past the length");
    if (is_one == (first.number == PJ_NOT_LEGAL)) wrong(is_one ? "a legal one is refused as not legal" : "one that is not legal is served");
    if (!is_one && (first.length > 0 || (make != stated && make != played && !is_blank((uint8_t *)first.counts, sizeof first.counts))))
        wrong("a refusal that gives more");
    if (first.number != PJ_SERVED && memcmp(d, turned, sizeof *d) != 0) wrong("a refusal that changes the record");
    pj_device left = *d;
    if (is_one && !is_legal(&left)) wrong("what is left is not legal");
    if (is_one || !less) {
        memcpy(d, turned, sizeof *d);
        make(d, &again, false);
        same(&first, &again, "by value and in place differ");
        if (!same_device(&left, d)) wrong("by value and in place leave records that differ");
    }
    if (is_one) {
        *d = anew(turned);
        clear(&other);
        make(d, &other, true);
        same(&first, &other, "another record with these values is served otherwise");
        if (!same_device(&left, d)) wrong("another record with these values is left otherwise");
    }
    tell_number(first.number);
    static uint8_t fields[sizeof *d];
    add(&first.number, sizeof first.number);
    add(first.counts, sizeof first.counts);
    add(first.wrote, first.length);
    if (is_one && first.number == PJ_SERVED) add(fields, flat(&left, fields));
}

static void turn_device(const char *name, const pj_device *base) {
    static pj_device turned;
    pj_device *d = (pj_device *)(void *)lend(sizeof *d);
    base_name = name;
    unsigned long legal_ones = 0;
    for (size_t k = 0; k < COUNT(calls); k++) {
        call_name = calls[k].name;
        for (turned_bit = 0; turned_bit < 8 * sizeof turned; turned_bit++) {
            turned = *base;
            ((uint8_t *)&turned)[turned_bit / 8] ^= (uint8_t)(1 << turned_bit % 8);
            bool is_one = is_legal(&turned);
            legal_ones += k == 0 && is_one;
            for (at_place = 0; at_place < calls[k].places; at_place++) {
                for (at_line = 0; at_line < calls[k].lines; at_line++) {
                    try_call(&turned, d, is_one, calls[k].make);
                    if (!is_one) break; /* whatever comes, it is refused before that is looked at */
                }
                if (!is_one && at_place > 0) break;
            }
        }
        told(call_name);
    }
    printf("%s: %lu of %zu bits leave it legal\n", name, legal_ones, 8 * sizeof turned);
}

/* The panel: as the record. */

static size_t at_projector;
static const pj_command asked = {PJ_LAMP, 0, 0};
static const char *const panel_lines[] = {"PJLINK 1 498e4a67\r", "%1LAMP=12 1\r", "PJLINK ERRA\r", "%1POWR=1\r"};

enum { ADD, COMMAND, LOST, HEAR, LINE }; /* from LINE on with each of the lines */

static void panel_in_place(pj_panel *p, size_t call, given *g) {
    size_t length;
    const uint8_t *bytes = line_of(call == ADD ? "panel123" : panel_lines[call >= LINE ? call - LINE : 1], &length);
    if (call == ADD) {
        g->number = pj_panel_add_in_place(p, bytes, length);
    } else if (call == COMMAND) {
        pj_written w = pj_panel_command_in_place(p, at_projector, asked, memory(PJ_COMMAND_ROOM), PJ_COMMAND_ROOM);
        g->number = w.number;
        wrote(g, PJ_COMMAND_ROOM, w.length);
    } else if (call == LOST) {
        g->number = pj_panel_lost_in_place(p, at_projector);
    } else if (call == HEAR) {
        pj_heard h = pj_panel_hear_in_place(p, at_projector, bytes, length);
        g->number = h.number; g->counts[0] = h.kind; g->counts[1] = h.reading.number; g->counts[2] = h.reading.count;
    } else {
        g->number = pj_panel_line_in_place(p, at_projector, bytes, length);
    }
}

/* By value; what has no like by value in place. */
static void panel_by_value(pj_panel *p, size_t call, given *g) {
    size_t length;
    pj_panel_changed c = {0};
    const uint8_t *bytes = line_of(call == ADD ? "panel123" : panel_lines[call >= LINE ? call - LINE : 1], &length);
    if (call == COMMAND) {
        pj_panel_sent s = pj_panel_command(*p, at_projector, asked, memory(PJ_COMMAND_ROOM), PJ_COMMAND_ROOM);
        g->number = s.number;
        wrote(g, PJ_COMMAND_ROOM, s.length);
        *p = s.panel;
        return;
    }
    if (call == HEAR) {
        panel_in_place(p, call, g);
        return;
    }
    if (call == ADD) c = pj_panel_add(*p, bytes, length);
    if (call == LOST) c = pj_panel_lost(*p, at_projector);
    if (call >= LINE) c = pj_panel_line(*p, at_projector, bytes, length);
    g->number = c.number;
    *p = c.panel;
}

static void turn_panel(const char *name, const pj_panel *base) {
    static const char *const names[] = {
        "pj_panel_add", "pj_panel_command", "pj_panel_lost", "pj_panel_hear_in_place", "pj_panel_line, a greeting",
        "pj_panel_line, a reply", "pj_panel_line, ERRA", "pj_panel_line, another reply"};
    static uint8_t fields[sizeof *base];
    static pj_panel turned, left;
    static given first, again, other;
    pj_panel *p = (pj_panel *)(void *)lend(sizeof *p);
    base_name = name;
    unsigned long legal_ones = 0;
    for (size_t call = 0; call < COUNT(names); call++) {
        call_name = names[call];
        for (turned_bit = 0; turned_bit < 8 * sizeof turned; turned_bit++) {
            turned = *base;
            ((uint8_t *)&turned)[turned_bit / 8] ^= (uint8_t)(1 << turned_bit % 8);
            bool is_one = is_panel(&turned);
            legal_ones += call == 0 && is_one;
            for (at_projector = 0; at_projector < (call == ADD || !is_one ? 1 : 4); at_projector++) {
                clear(&first);
                clear(&again);
                memcpy(p, &turned, sizeof *p);
                panel_in_place(p, call, &first);
                left = *p;
                for (size_t k = first.length; k < first.room; k++) if (first.wrote[k] != 0xA5) wrong("bytes are written past the length");
                if (is_one == (first.number == PJ_NOT_LEGAL)) wrong(is_one ? "a legal one is refused as not legal" : "one that is not legal is served");
                if (!is_one && (first.length > 0 || !is_blank((uint8_t *)first.counts, sizeof first.counts))) wrong("a refusal that gives more");
                if (first.number != PJ_SERVED && memcmp(p, &turned, sizeof *p) != 0) wrong("a refusal that changes the panel");
                if (is_one || !less) {
                    memcpy(p, &turned, sizeof *p);
                    panel_by_value(p, call, &again);
                    same(&first, &again, "by value and in place differ");
                    if (!same_panel(&left, p)) wrong("by value and in place leave panels that differ");
                }
                if (is_one) {
                    if (!is_panel(&left)) wrong("what is left is not legal");
                    clear(&other);
                    memset(p, 0, sizeof *p);
                    p->count = turned.count;
                    for (size_t k = 0; k < turned.count; k++) p->entries[k] = entry_anew(&turned.entries[k]);
                    panel_in_place(p, call, &other);
                    same(&first, &other, "another panel with these values is served otherwise");
                    if (!same_panel(&left, p)) wrong("another panel with these values is left otherwise");
                    add(fields, flat_panel(&left, fields));
                }
                add(&first.number, sizeof first.number);
                add(first.counts, sizeof first.counts);
                add(first.wrote, first.length);
                tell_number(first.number);
            }
        }
        told(call_name);
    }
    printf("%s: %lu of %zu bits leave it legal\n", name, legal_ones, 8 * sizeof turned);
}

/* A stored form: RULES' table and the numbers of a load, in their order. */

static struct {
    const uint8_t *bytes;
    size_t length, at;
    bool ended; /* before what was read of it */
} form;

static uint32_t get(size_t count) {
    uint32_t value = 0;
    for (size_t k = 0; k < count; k++) {
        if (form.at >= form.length) { form.ended = true; return 0; }
        value = value << 8 | form.bytes[form.at++];
    }
    return value;
}

/* A counted run of bytes into a room; whether it fits. What does not fit is passed over. */
static bool get_bytes(size_t count, uint8_t *to, size_t room, size_t *length) {
    *length = count;
    for (size_t k = 0; k < count; k++) {
        uint8_t byte = (uint8_t)get(1);
        if (k < room) to[k] = byte;
    }
    return count <= room;
}

static uint32_t load_number(const uint8_t *bytes, size_t length) {
    static pj_device d;
    memset(&d, 0, sizeof d);
    form.bytes = bytes; form.length = length; form.at = 0; form.ended = false;
    uint32_t version = get(1);
    if (length > 0 && (version < 1 || version > 3)) return PJ_OTHER_VERSION;
    bool fits = true;
    pj_text *texts[] = {&d.settings.name, &d.settings.maker, &d.settings.model, &d.settings.other, &d.settings.password};
    for (size_t k = 0; k < COUNT(texts); k++) fits = get_bytes(get(1), texts[k]->bytes, PJ_TEXT_ROOM, &texts[k]->len) && fits;
    size_t taken;
    d.settings.input_count = get(1);
    fits = get_bytes(2 * d.settings.input_count, d.settings.inputs, sizeof d.settings.inputs, &taken) && fits;
    d.settings.lamp_count = get(1);
    fits = fits && d.settings.lamp_count <= PJ_LAMPS_MOST;
    for (size_t k = 0; k < d.settings.lamp_count; k++) {
        uint32_t seconds = get(4);
        fits = fits && seconds <= PJ_LAMP_MOST;
    }
    size_t marks = version == 1 ? 0 : get(1), set = 0;
    fits = fits && (version == 1 || marks == d.settings.lamp_count);
    for (size_t k = 0; k < marks; k++) {
        uint32_t mark = get(1);
        fits = fits && mark <= 1;
        set += mark;
    }
    fits = fits && (version == 1 || (set > 0) == (d.settings.lamp_count > 0));
    d.settings.warm = get(2);
    d.settings.cool = get(2);
    uint32_t class_number = version == 3 ? get(1) : 1;
    d.settings.class_number = (uint8_t)class_number;
    if (class_number == 2) {
        fits = get_bytes(get(1), d.settings.serial.bytes, PJ_TEXT_ROOM, &d.settings.serial.len) && fits;
        fits = get_bytes(get(1), d.settings.version.bytes, PJ_TEXT_ROOM, &d.settings.version.len) && fits;
        for (size_t k = 0; k < d.settings.input_count; k++) {
            static uint8_t past[PJ_NAME_ROOM];
            size_t n;
            bool there = k < PJ_INPUTS_MOST;
            fits = get_bytes(get(1), there ? d.settings.names[k].bytes : past, PJ_NAME_ROOM, there ? &d.settings.names[k].len : &n) && fits;
        }
    }
    if (form.ended) return PJ_CUT_SHORT;
    if (form.at < length) return PJ_LEFT_OVER;
    return fits && is_settings(&d.settings) ? PJ_SERVED : PJ_CONTENTS;
}

static void turn_form(const char *name, const pj_device *base) {
    static uint8_t whole[PJ_FORM_MOST], again[PJ_FORM_MOST], fields[sizeof *base];
    static const pj_device blank;
    pj_written stored = pj_store_in_place(base, whole, sizeof whole);
    if (stored.number != PJ_SERVED) abort();
    uint8_t *bytes = lend(stored.length);
    pj_device *d = (pj_device *)(void *)lend(sizeof *d);
    base_name = name;
    call_name = "pj_load";
    for (turned_bit = 0; turned_bit < 8 * stored.length; turned_bit++) {
        memcpy(bytes, whole, stored.length);
        bytes[turned_bit / 8] ^= (uint8_t)(1 << turned_bit % 8);
        memset(d, 0x5A, sizeof *d);
        uint32_t number = pj_load_in_place(d, bytes, stored.length);
        if (number != load_number(bytes, stored.length)) wrong("not the number that RULES has");
        pj_changed by_value = pj_load(bytes, stored.length);
        if (by_value.number != number || !same_device(&by_value.device, d)) wrong("by value and in place differ");
        if (number == PJ_SERVED) {
            if (!is_legal(d)) wrong("what is left is not legal");
            pj_written w = pj_store_in_place(d, again, sizeof again);
            if (bytes[0] == 3 && (w.length != stored.length || memcmp(again, bytes, w.length) != 0)) wrong("it is stored again otherwise");
            pj_log log = pj_log_begun(bytes, stored.length);
            add(&log.sum, sizeof log.sum);
            add(fields, flat(d, fields));
        } else if (!same_device(d, &blank)) {
            wrong("a refused load leaves more than the blank record");
        }
        tell_number(number);
        add(&number, sizeof number);
    }
    told(call_name);
}

/* What is turned. */

static void must(uint32_t number) { if (number != PJ_SERVED) abort(); }
static void says(pj_device *d, size_t place, const char *line) {
    uint8_t reply[PJ_REPLY_ROOM];
    for (size_t at = 0, length = strlen(line); at < length;) {
        pj_receiving r = pj_receive_in_place(d, place, (const uint8_t *)line + at, length - at, reply, sizeof reply);
        must(r.number);
        at += r.taken;
    }
}
static void opens(pj_device *d, uint32_t random) {
    uint8_t reply[PJ_REPLY_ROOM];
    must(pj_open_in_place(d, random, reply, sizeof reply).number);
}

/* Class 1, off, one lamp, all closed. */
static void begin(pj_device *d) {
    static const uint32_t lamps[] = {7200};
    must(pj_set_up_in_place(d, TEXT("Table 3"), TEXT("maker"), TEXT("model"), TEXT(""), TEXT(""), TEXT("1132"), lamps, 1, 20, 60));
}
/* Class 1 with a password, warming up, each place in another phase, one line too long. */
static void warm(pj_device *d) {
    static const uint32_t lamps[] = {0, 1, 3599, 3600, 359999999, 5, 6, 7};
    must(pj_set_up_in_place(d, TEXT("N\xc3\xa4he"), TEXT("m"), TEXT(""), TEXT("ERR"), TEXT(""), TEXT("112131"), lamps, 8, 600, 600));
    must(pj_set_mark_in_place(d, 6, false));
    opens(d, 1);
    says(d, 0, "%1POWR 1\r%1PO");
    d->settings.password = (pj_text){8, "panel123"};
    opens(d, 2);
    says(d, 1, "0123456789abcdef0123456789abcdef%1POWR 0");
    opens(d, 0x498e4a67);
    says(d, 2, "0123456789abcdef0123456789abcdef%1POWR 0\r");
    opens(d, 4);
    for (int k = 0; k < 20; k++) says(d, 3, "0123456789");
    must(pj_pass_in_place(d, 7));
}
/* Class 2, on, every input with a name, the picture frozen, mutes and fault set. */
static void full(pj_device *d) {
    static const uint32_t lamps[] = {359999990, 12};
    static uint8_t inputs[2 * PJ_INPUTS_MOST], names[PJ_INPUTS_MOST * 3];
    static size_t lengths[PJ_INPUTS_MOST];
    for (size_t k = 0; k < PJ_INPUTS_MOST; k++) {
        inputs[2 * k] = (uint8_t)('1' + k % 6);
        inputs[2 * k + 1] = (uint8_t)("123456789ABCDEFGHIJKLMNOPQRSTUVWXYZ"[k]);
        memcpy(names + 3 * k, "RGB", 3);
        lengths[k] = 3;
    }
    must(pj_set_up_2_in_place(d, TEXT("Table 3"), TEXT("maker"), TEXT("model"), TEXT("other"), TEXT(""), inputs, sizeof inputs,
                              lamps, 2, 1, 1, TEXT("S/N 3"), TEXT("1.4"), names, sizeof names, lengths, PJ_INPUTS_MOST));
    opens(d, 9);
    says(d, 0, "%1POWR 1\r");
    must(pj_pass_in_place(d, 1));
    says(d, 0, "%2FREZ 1\r%2SVOL 1\r%1AVMT 31\r%2INPT 6F\r");
    must(pj_set_fault_in_place(d, true));
    static const uint8_t digits[PJ_ERRORS] = {2, 1, 0, 2, 1, 0};
    must(pj_set_errors_in_place(d, digits, sizeof digits));
}
/* Class 2, cooling, no lamp. */
static void cooling(pj_device *d) {
    static const uint32_t none[1];
    static const size_t lengths[] = {0};
    must(pj_set_up_2_in_place(d, TEXT(""), TEXT(""), TEXT(""), TEXT(""), TEXT(""), TEXT("6Z"), none, 0, 600, 600, TEXT(""),
                              TEXT(""), TEXT(""), lengths, 1));
    opens(d, 9);
    says(d, 0, "%1POWR 1\r");
    must(pj_pass_in_place(d, 600));
    says(d, 0, "%1POWR 0\r");
    must(pj_close_in_place(d, 0));
}

/* A panel of three: one has no greeting, one has asked, one has led and knows all. */
static void panel_of_three(pj_panel *p) {
    uint8_t line[PJ_COMMAND_ROOM];
    static const struct { pj_command command; const char *reply; } asks[] = {
        {{PJ_POWR_ASK, 0, 0}, "%1POWR=1\r"}, {{PJ_INPT_ASK, 0, 0}, "%1INPT=32\r"}, {{PJ_LAMP, 0, 0}, "%1LAMP=7 1 99999 0\r"}};
    *p = pj_panel_none().panel;
    for (int k = 0; k < 3; k++) *p = pj_panel_add(*p, TEXT(k == 0 ? "" : "panel123")).panel;
    *p = pj_panel_line(*p, 1, TEXT("PJLINK 0\r")).panel;
    *p = pj_panel_command(*p, 1, asked, line, sizeof line).panel;
    *p = pj_panel_line(*p, 2, TEXT("PJLINK 1 498e4a67\r")).panel;
    *p = pj_panel_line(*p, 2, TEXT("a stray\r")).panel;
    for (size_t k = 0; k < COUNT(asks); k++) {
        *p = pj_panel_command(*p, 2, asks[k].command, line, sizeof line).panel;
        *p = pj_panel_line(*p, 2, TEXT(asks[k].reply)).panel;
    }
}

int main(int argc, char **argv) {
    less = argc > 1 && strcmp(argv[1], "less") == 0;
    static const struct { const char *name; void (*make)(pj_device *); } bases[] = {
        {"off", begin}, {"warming up", warm}, {"on, Class 2", full}, {"cooling, Class 2", cooling}};
    static pj_device devices[COUNT(bases)];
    static pj_panel panel;
    call_name = base_name = "what is turned";
    for (size_t k = 0; k < COUNT(bases); k++) {
        bases[k].make(&devices[k]);
        if (!is_legal(&devices[k])) wrong(bases[k].name);
    }
    panel_of_three(&panel);
    if (!is_panel(&panel)) wrong("the panel");
    for (int placed = 0; placed < (less ? 1 : 2); placed++) {
        at_its_end = placed == 0;
        line_room = 64;
        lent_line = lend(line_room);
        memset(memories, 0, sizeof memories);
        for (size_t k = 0; k < COUNT(bases); k++) {
            turn_device(bases[k].name, &devices[k]);
            turn_form(bases[k].name, &devices[k]);
        }
        turn_panel("a panel", &panel);
    }
    return 0;
}
