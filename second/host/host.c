/* A host of libboard.a for a comparison over pipes: reads a call from standard input, makes it, by value or in place as
   it says, writes all that it gives to standard output, until the input ends. src/face/wire.rs is the other end: every
   field in its order, numbers with their lowest byte first, a size_t as eight bytes, a slice after its length. Calls
   and answers each stand after eight bytes with their length. In place, the record that is left there is part of the
   answer, where by value it is that of the result, and at the end of the calls that only read it. */
#include <stdio.h>
#include <stdlib.h>
#include <string.h>

#include "ceiling.h"

/* A call in, an answer out. */

static uint8_t call[1 << 23], answer[1 << 16]; /* a message of megabytes, the largest answer */
static uint32_t words[5][1 << 10];             /* lists of larger numbers are aligned */
static int64_t differences[1 << 10];
static size_t lengths[1 << 10];
static size_t at, end;

static void get(void *to, size_t n) {
    memcpy(to, call + at, n);
    at += n;
}

static void put(const void *from, size_t n) {
    memcpy(answer + end, from, n);
    end += n;
}

#define GET(field) get(&(field), sizeof(field))
#define PUT(field) put(&(field), sizeof(field))

typedef struct {
    uint8_t *at;
    size_t n;
} slice;

static slice get_slice(void) {
    slice s;
    GET(s.n);
    s.at = call + at;
    at += s.n;
    return s;
}

static size_t get_words(uint32_t *to) {
    size_t n;
    GET(n);
    get(to, n * sizeof *to);
    return n;
}

static void put_slice(slice s) {
    PUT(s.n);
    put(s.at, s.n);
}

#define EACH_TEXT(DO, t) DO((t).len) DO((t).bytes)
#define EACH_SHARED(DO, d)                                                                                             \
    EACH_TEXT(DO, (d).settings.name)                                                                                   \
    EACH_TEXT(DO, (d).settings.maker)                                                                                  \
    EACH_TEXT(DO, (d).settings.model)                                                                                  \
    EACH_TEXT(DO, (d).settings.other)                                                                                  \
    EACH_TEXT(DO, (d).settings.password)                                                                               \
    DO((d).settings.input_count) DO((d).settings.inputs) DO((d).settings.lamp_count)                                   \
    DO((d).settings.warm) DO((d).settings.cool) DO((d).settings.class_number)                                          \
    EACH_TEXT(DO, (d).settings.serial)                                                                                 \
    EACH_TEXT(DO, (d).settings.version)                                                                                \
    for (size_t i = 0; i < PJ_INPUTS_MOST; i++) {                                                                      \
        EACH_TEXT(DO, (d).settings.names[i])                                                                           \
    }                                                                                                                  \
    DO((d).own.power) DO((d).own.left) DO((d).own.chosen)                                                              \
    DO((d).own.video_muted) DO((d).own.audio_muted) DO((d).own.fault)                                                  \
    DO((d).own.errors) DO((d).own.lamps) DO((d).own.enabled)                                                           \
    DO((d).own.frozen) DO((d).own.speaker) DO((d).own.microphone)
#define EACH_OF_CONNECTION(DO, c)                                                                                      \
    DO((c).phase) DO((c).age) DO((c).random) DO((c).line.overlong) DO((c).line.held) DO((c).line.bytes)

#define GET_ONE(field) GET(field);
#define PUT_ONE(field) PUT(field);

static pj_device get_device(void) {
    pj_device d;
    EACH_SHARED(GET_ONE, d)
    for (size_t i = 0; i < PJ_PLACES; i++) {
        EACH_OF_CONNECTION(GET_ONE, d.connections[i])
    }
    return d;
}

static void put_device(pj_device d) {
    EACH_SHARED(PUT_ONE, d)
    for (size_t i = 0; i < PJ_PLACES; i++) {
        EACH_OF_CONNECTION(PUT_ONE, d.connections[i])
    }
}

static void put_changed(pj_changed c) {
    PUT(c.number);
    put_device(c.device);
}

static void put_left(uint32_t number, const pj_device *d) {
    PUT(number);
    put_device(*d);
}

/* The panel. */

#define EACH_OF_ENTRY(DO, e)                                                                                           \
    EACH_TEXT(DO, (e).password)                                                                                        \
    DO((e).greeting) DO((e).random) DO((e).led) DO((e).under_way)                                                      \
    DO((e).command.code) DO((e).command.first) DO((e).command.second)                                                  \
    DO((e).power_known) DO((e).input_known) DO((e).lamps_known)                                                        \
    DO((e).power) DO((e).input_type) DO((e).input_number)                                                              \
    DO((e).lamp_count) DO((e).hours) DO((e).lit) DO((e).strays)

static pj_panel get_panel(void) {
    pj_panel p;
    GET(p.count);
    for (size_t i = 0; i < PJ_PANEL_MOST; i++) {
        EACH_OF_ENTRY(GET_ONE, p.entries[i])
    }
    return p;
}

static void put_panel(pj_panel p) {
    PUT(p.count);
    for (size_t i = 0; i < PJ_PANEL_MOST; i++) {
        EACH_OF_ENTRY(PUT_ONE, p.entries[i])
    }
}

static void put_panel_changed(pj_panel_changed c) {
    PUT(c.number);
    put_panel(c.panel);
}

static void put_panel_left(uint32_t number, const pj_panel *p) {
    PUT(number);
    put_panel(*p);
}

static pj_command get_command(void) {
    pj_command c;
    GET(c.code);
    GET(c.first);
    GET(c.second);
    return c;
}

enum set_up { SET_UP, SET_UP_2, WHICH_SETTING, WHICH_SETTING_2 };

static void set_up(enum set_up which, pj_device d, bool in_place) {
    slice name = get_slice(), maker = get_slice(), model = get_slice(), other = get_slice();
    slice password = get_slice(), inputs = get_slice();
    size_t lamps = get_words(words[0]);
    uint32_t warm, cool;
    GET(warm);
    GET(cool);
    if (which == WHICH_SETTING) {
        uint32_t setting = pj_which_setting(name.at, name.n, maker.at, maker.n, model.at, model.n, other.at, other.n,
                                            password.at, password.n, inputs.at, inputs.n, words[0], lamps, warm, cool);
        PUT(setting);
    } else if (which == SET_UP_2 || which == WHICH_SETTING_2) {
        slice serial = get_slice(), version = get_slice(), names = get_slice();
        size_t n;
        GET(n);
        get(lengths, n * sizeof *lengths);
        if (which == WHICH_SETTING_2) {
            uint32_t setting = pj_which_setting_2(name.at, name.n, maker.at, maker.n, model.at, model.n, other.at,
                                                  other.n, password.at, password.n, inputs.at, inputs.n, words[0],
                                                  lamps, warm, cool, serial.at, serial.n, version.at, version.n,
                                                  names.at, names.n, lengths, n);
            PUT(setting);
        } else if (in_place) {
            uint32_t number = pj_set_up_2_in_place(&d, name.at, name.n, maker.at, maker.n, model.at, model.n, other.at,
                                                   other.n, password.at, password.n, inputs.at, inputs.n, words[0],
                                                   lamps, warm, cool, serial.at, serial.n, version.at, version.n,
                                                   names.at, names.n, lengths, n);
            put_left(number, &d);
        } else {
            put_changed(pj_set_up_2(name.at, name.n, maker.at, maker.n, model.at, model.n, other.at, other.n,
                                    password.at, password.n, inputs.at, inputs.n, words[0], lamps, warm, cool,
                                    serial.at, serial.n, version.at, version.n, names.at, names.n, lengths, n));
        }
    } else if (in_place) {
        uint32_t number = pj_set_up_in_place(&d, name.at, name.n, maker.at, maker.n, model.at, model.n, other.at,
                                             other.n, password.at, password.n, inputs.at, inputs.n, words[0], lamps,
                                             warm, cool);
        put_left(number, &d);
    } else {
        put_changed(pj_set_up(name.at, name.n, maker.at, maker.n, model.at, model.n, other.at, other.n, password.at,
                              password.n, inputs.at, inputs.n, words[0], lamps, warm, cool));
    }
}

static void open_connection(pj_device d, bool in_place) {
    uint32_t random;
    GET(random);
    slice out = get_slice();
    if (in_place) {
        pj_opening o = pj_open_in_place(&d, random, out.at, out.n);
        PUT(o.number);
        PUT(o.length);
        PUT(o.place);
        put_device(d);
    } else {
        pj_opened o = pj_open(d, random, out.at, out.n);
        PUT(o.number);
        PUT(o.length);
        PUT(o.place);
        put_device(o.device);
    }
    put_slice(out);
}

static void close_connection(pj_device d, bool in_place) {
    size_t place;
    GET(place);
    if (in_place) {
        uint32_t number = pj_close_in_place(&d, place);
        put_left(number, &d);
    } else {
        put_changed(pj_close(d, place));
    }
}

static void receive(pj_device d, bool in_place) {
    size_t place;
    GET(place);
    slice bytes = get_slice(), out = get_slice();
    if (in_place) {
        pj_receiving r = pj_receive_in_place(&d, place, bytes.at, bytes.n, out.at, out.n);
        PUT(r.number);
        PUT(r.taken);
        PUT(r.length);
        put_device(d);
    } else {
        pj_received r = pj_receive(d, place, bytes.at, bytes.n, out.at, out.n);
        PUT(r.number);
        PUT(r.taken);
        PUT(r.length);
        put_device(r.device);
    }
    put_slice(out);
}

static void pass(pj_device d, bool in_place) {
    uint32_t seconds;
    GET(seconds);
    if (in_place) {
        uint32_t number = pj_pass_in_place(&d, seconds);
        put_left(number, &d);
    } else {
        put_changed(pj_pass(d, seconds));
    }
}

static void set_fault(pj_device d, bool in_place) {
    bool mark;
    GET(mark);
    if (in_place) {
        uint32_t number = pj_set_fault_in_place(&d, mark);
        put_left(number, &d);
    } else {
        put_changed(pj_set_fault(d, mark));
    }
}

static void set_errors(pj_device d, bool in_place) {
    slice digits = get_slice();
    if (in_place) {
        uint32_t number = pj_set_errors_in_place(&d, digits.at, digits.n);
        put_left(number, &d);
    } else {
        put_changed(pj_set_errors(d, digits.at, digits.n));
    }
}

static void set_mark(pj_device d, bool in_place) {
    size_t lamp;
    bool enabled;
    GET(lamp);
    GET(enabled);
    if (in_place) {
        uint32_t number = pj_set_mark_in_place(&d, lamp, enabled);
        put_left(number, &d);
    } else {
        put_changed(pj_set_mark(d, lamp, enabled));
    }
}

static void legal(pj_device d, bool in_place) {
    bool is = in_place ? pj_legal_in_place(&d) : pj_legal(d);
    PUT(is);
    if (in_place) put_device(d);
}

static void store(pj_device d, bool in_place) {
    slice out = get_slice();
    pj_written w = in_place ? pj_store_in_place(&d, out.at, out.n) : pj_store(d, out.at, out.n);
    PUT(w.number);
    PUT(w.length);
    put_slice(out);
    if (in_place) put_device(d);
}

static void load(pj_device d, bool in_place) {
    slice bytes = get_slice();
    if (in_place) {
        uint32_t number = pj_load_in_place(&d, bytes.at, bytes.n);
        put_left(number, &d);
    } else {
        put_changed(pj_load(bytes.at, bytes.n));
    }
}

static void digest(void) {
    slice message = get_slice();
    pj_digest m = pj_md5(message.at, message.n);
    PUT(m.bytes);
}

static void write_command(void) {
    pj_command c = get_command();
    bool secured;
    uint32_t random;
    GET(secured);
    GET(random);
    slice password = get_slice(), out = get_slice();
    pj_written w = pj_write(c, secured, random, password.at, password.n, out.at, out.n);
    PUT(w.number);
    PUT(w.length);
    put_slice(out);
}

static void read_greeting(void) {
    slice line = get_slice();
    pj_greeting g = pj_read_greeting(line.at, line.n);
    PUT(g.number);
    PUT(g.kind);
    PUT(g.random);
}

static void read_reply(void) {
    pj_command c = get_command();
    slice line = get_slice();
    pj_reading r = pj_read_reply(c, line.at, line.n);
    PUT(r.number);
    PUT(r.kind);
    PUT(r.first);
    PUT(r.second);
    PUT(r.count);
    PUT(r.hours);
    PUT(r.lit);
    PUT(r.inputs);
    PUT(r.text);
}

/* in place it finds a full panel there */
static void none_of_panel(bool in_place) {
    if (in_place) {
        pj_panel p;
        memset(&p, 1, sizeof p);
        uint32_t number = pj_panel_none_in_place(&p);
        put_panel_left(number, &p);
        return;
    }
    put_panel_changed(pj_panel_none());
}

static void add_to_panel(bool in_place) {
    pj_panel p = get_panel();
    slice password = get_slice();
    if (in_place) {
        uint32_t number = pj_panel_add_in_place(&p, password.at, password.n);
        put_panel_left(number, &p);
        return;
    }
    put_panel_changed(pj_panel_add(p, password.at, password.n));
}

static void command_of_panel(bool in_place) {
    pj_panel p = get_panel();
    size_t projector;
    GET(projector);
    pj_command c = get_command();
    slice out = get_slice();
    if (in_place) {
        pj_written w = pj_panel_command_in_place(&p, projector, c, out.at, out.n);
        PUT(w.number);
        PUT(w.length);
        put_panel(p);
    } else {
        pj_panel_sent s = pj_panel_command(p, projector, c, out.at, out.n);
        PUT(s.number);
        PUT(s.length);
        put_panel(s.panel);
    }
    put_slice(out);
}

static void line_to_panel(bool in_place) {
    pj_panel p = get_panel();
    size_t projector;
    GET(projector);
    slice line = get_slice();
    if (in_place) {
        uint32_t number = pj_panel_line_in_place(&p, projector, line.at, line.n);
        put_panel_left(number, &p);
        return;
    }
    put_panel_changed(pj_panel_line(p, projector, line.at, line.n));
}

static void lost_to_panel(bool in_place) {
    pj_panel p = get_panel();
    size_t projector;
    GET(projector);
    if (in_place) {
        uint32_t number = pj_panel_lost_in_place(&p, projector);
        put_panel_left(number, &p);
        return;
    }
    put_panel_changed(pj_panel_lost(p, projector));
}

static void compare_lamps(void) {
    size_t earlier = get_words(words[0]), later = get_words(words[1]), n;
    GET(n);
    get(differences, n * sizeof *differences);
    pj_compared c = pj_compare_lamps(words[0], earlier, words[1], later, differences, n);
    PUT(c.number);
    PUT(c.backwards);
    PUT(c.place);
    PUT(n);
    put(differences, n * sizeof *differences);
}

static void cutting_day(bool planned) {
    size_t starts = get_words(words[0]), lengths = get_words(words[1]);
    slice allowed = get_slice();
    size_t warm = get_words(words[2]), cool = get_words(words[3]), life = get_words(words[4]);
    slice rigs = get_slice();
    if (planned) {
        pj_plan p = pj_plan_day(words[0], starts, words[1], lengths, allowed.at, allowed.n, words[2], warm, words[3],
                                cool, words[4], life, rigs.at, rigs.n);
        PUT(p.number);
        PUT(p.planned);
        PUT(p.job);
        put_slice(rigs);
    } else {
        pj_verdict v = pj_check_day(words[0], starts, words[1], lengths, allowed.at, allowed.n, rigs.at, rigs.n,
                                    words[2], warm, words[3], cool, words[4], life);
        PUT(v.number);
        PUT(v.rule);
        PUT(v.first);
        PUT(v.second);
    }
}

/* The recorded log. */

static pj_log get_log(void) {
    pj_log log;
    GET(log.file);
    GET(log.lines);
    GET(log.sum);
    return log;
}

static void put_log(pj_log log) {
    PUT(log.file);
    PUT(log.lines);
    PUT(log.sum);
}

static void put_written(pj_written w) {
    PUT(w.number);
    PUT(w.length);
}

static void begin_log(void) {
    slice form = get_slice();
    put_log(pj_log_begun(form.at, form.n));
}

enum said { SAID_FILE, SAID_OPENED, SAID_RECEIVED, SAID_PASSED, SAID_CLOSED, SAID_FAULT, SAID_ERRORS, SAID_MARK, SAID_STATED };

/* What is said first, then the memory for the line. */
static void record_line(pj_device d) {
    pj_log log = get_log();
    uint8_t which;
    GET(which);
    size_t place = 0;
    uint32_t number = 0;
    bool mark = false;
    slice bytes = {NULL, 0};
    switch (which) {
    case SAID_FILE:
    case SAID_ERRORS: bytes = get_slice(); break;
    case SAID_OPENED: GET(place); GET(number); break;
    case SAID_RECEIVED: GET(place); bytes = get_slice(); break;
    case SAID_PASSED: GET(number); break;
    case SAID_CLOSED: GET(place); break;
    case SAID_FAULT: GET(mark); break;
    case SAID_MARK: GET(place); GET(mark); break;
    }
    slice out = get_slice();
    pj_written w = {0, 0};
    switch (which) {
    case SAID_FILE: w = pj_log_file(&log, bytes.at, bytes.n, out.at, out.n); break;
    case SAID_OPENED: w = pj_log_opened(&log, place, number, out.at, out.n); break;
    case SAID_RECEIVED: w = pj_log_received(&log, place, bytes.at, bytes.n, out.at, out.n); break;
    case SAID_PASSED: w = pj_log_passed(&log, number, out.at, out.n); break;
    case SAID_CLOSED: w = pj_log_closed(&log, place, out.at, out.n); break;
    case SAID_FAULT: w = pj_log_fault(&log, mark, out.at, out.n); break;
    case SAID_ERRORS: w = pj_log_errors(&log, bytes.at, bytes.n, out.at, out.n); break;
    case SAID_MARK: w = pj_log_mark(&log, place, mark, out.at, out.n); break;
    case SAID_STATED: w = pj_log_stated(&log, &d, out.at, out.n); break;
    default: exit(EXIT_FAILURE);
    }
    put_log(log);
    put_written(w);
    put_slice(out);
    put_device(d);
}

static void play_line(pj_device d) {
    pj_log log = get_log();
    slice line = get_slice(), out = get_slice();
    pj_written w = pj_log_play(&log, &d, line.at, line.n, out.at, out.n);
    put_device(d);
    put_log(log);
    put_written(w);
    put_slice(out);
}

static void make_call(void) {
    bool in_place;
    GET(in_place);
    pj_device d = get_device();
    uint8_t which;
    GET(which);
    switch (which) {
    case 0: set_up(SET_UP, d, in_place); break;
    case 1: open_connection(d, in_place); break;
    case 2: close_connection(d, in_place); break;
    case 3: receive(d, in_place); break;
    case 4:
    case 5: pass(d, in_place); break;
    case 6: set_fault(d, in_place); break;
    case 7: set_errors(d, in_place); break;
    case 8: legal(d, in_place); break;
    case 9: digest(); break;
    case 10: write_command(); break;
    case 11: read_greeting(); break;
    case 12: read_reply(); break;
    case 13: compare_lamps(); break;
    case 14: cutting_day(false); break;
    case 15: cutting_day(true); break;
    case 16: set_up(WHICH_SETTING, d, false); break;
    case 17: store(d, in_place); break;
    case 18: load(d, in_place); break;
    case 19: none_of_panel(in_place); break;
    case 20: add_to_panel(in_place); break;
    case 21: command_of_panel(in_place); break;
    case 22: line_to_panel(in_place); break;
    case 23: lost_to_panel(in_place); break;
    case 24: set_mark(d, in_place); break;
    case 25: set_up(SET_UP_2, d, in_place); break;
    case 26: set_up(WHICH_SETTING_2, d, false); break;
    case 27: begin_log(); break;
    case 28: record_line(d); break;
    case 29: play_line(d); break;
    default: exit(EXIT_FAILURE);
    }
}

int main(void) {
    size_t length;
    while (fread(&length, sizeof length, 1, stdin) == 1) {
        if (length > sizeof call || fread(call, 1, length, stdin) != length) return EXIT_FAILURE;
        at = 0;
        end = 0;
        make_call();
        if (fwrite(&end, sizeof end, 1, stdout) != 1 || fwrite(answer, 1, end, stdout) != end) return EXIT_FAILURE;
        fflush(stdout);
    }
    return EXIT_SUCCESS;
}
