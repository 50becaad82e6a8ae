/* A host: it keeps one projector, feeds it bytes in odd cuts as a network would, lets time pass, and asks as a
   controller; service compares two tables of lamp seconds, the board is swapped, four controllers are connected at
   once, one lamp burns while the other rests, a projector of Class 2 is asked what one of Class 1 does not answer, a log
   of all calls is recorded and played back, bytes of an older session come late, and a cutting day is planned and
   checked. It lends its record to the calls in place, and makes one call by value. Every number that a call gives is
   tested before anything else of its result is used. What it must print, by docs/RULES.md, is in host.stdout:
   `0 < LINE` is a reply to the controller at place 0. */
#include <stdio.h>
#include <stdlib.h>
#include <string.h>

#include "ceiling.h"

#define TEXT(s) (const uint8_t *)(s), strlen(s)
#define LIST(a) (a), sizeof(a) / sizeof *(a)

static pj_device device;
static uint8_t reply[PJ_REPLY_ROOM];

/* Ends the program where a call was refused that should be served. */
static void served(uint32_t number, const char *call) {
    if (number == PJ_SERVED) return;
    printf("%s gives %u\n", call, (unsigned)number);
    exit(1);
}

/* Hands bytes on at a place in cuts of 1, 2, 3, .. until all are taken, and prints each reply without its CR. Gives the
   length of the last reply, 0 where the last call wrote none. */
static size_t feed(size_t place, const uint8_t *bytes, size_t len) {
    size_t length = 0;
    for (size_t cut = 1; len > 0; cut++) {
        pj_receiving r = pj_receive_in_place(&device, place, bytes, cut < len ? cut : len, reply, sizeof reply);
        served(r.number, "pj_receive_in_place");
        bytes += r.taken;
        len -= r.taken;
        length = r.length;
        if (length > 0) printf("%zu < %.*s\n", place, (int)length - 1, (const char *)reply);
    }
    return length;
}

/* A controller's command, and what it reads of the reply. */
static pj_reading ask_of(size_t place, uint8_t code, uint8_t first, uint8_t second) {
    uint8_t line[PJ_COMMAND_ROOM];
    pj_command command = {code, first, second};
    pj_written w = pj_write(command, false, 0, TEXT(""), line, sizeof line);
    served(w.number, "pj_write");
    pj_reading r = pj_read_reply(command, reply, feed(place, line, w.length));
    served(r.number, "pj_read_reply");
    return r;
}

static pj_reading ask(size_t place, uint8_t code, uint8_t first) { return ask_of(place, code, first, 0); }

/* The command was carried out. */
static void set(size_t place, uint8_t code, uint8_t first) {
    if (ask(place, code, first).kind == PJ_READ_OK) return;
    printf("not OK\n");
    exit(1);
}

static void pass(uint32_t seconds) { served(pj_pass_in_place(&device, seconds), "pj_pass_in_place"); }

static void print_lamps(size_t place) {
    pj_reading told = ask(place, PJ_LAMP, 0);
    for (size_t i = 0; i < told.count; i++) printf("lamp %zu: %u h, lit %d\n", i, (unsigned)told.hours[i], told.lit[i]);
}

static void one_projector(void) {
    const uint32_t lamps[] = {0, 3600};

    /* warm-up and cooling of no seconds: set-up refuses, and the first setting out of its range is told */
    uint32_t started = pj_set_up_in_place(&device, TEXT("Table 3"), TEXT("maker"), TEXT("model"), TEXT(""),
                                          TEXT("JBMIAProjectorLink"), TEXT("1132"), LIST(lamps), 0, 0);
    printf("no warm-up: refused %d", started == PJ_OUT_OF_RANGE);
    printf(", for warm-up %d\n", pj_which_setting(TEXT("Table 3"), TEXT("maker"), TEXT("model"), TEXT(""),
                                                  TEXT("JBMIAProjectorLink"), TEXT("1132"), LIST(lamps), 0, 0)
                                      == PJ_SETTING_WARM);
    /* a name in UTF-8 whose last character is cut off */
    started = pj_set_up_in_place(&device, TEXT("\xE5\x8F\xB0 3 \xE5\x8F"), TEXT("maker"), TEXT("model"), TEXT(""),
                                 TEXT(""), TEXT("1132"), LIST(lamps), 20, 60);
    printf("a character cut off: refused %d\n", started == PJ_OUT_OF_RANGE);
    started = pj_set_up_in_place(&device, TEXT("\xE5\x8F\xB0 3"), TEXT("maker"), TEXT("model"), TEXT(""),
                                 TEXT("JBMIAProjectorLink"), TEXT("1132"), LIST(lamps), 20, 60);
    served(started, "pj_set_up_in_place");
    printf("set up: legal %d\n", pj_legal_in_place(&device));

    /* a real host draws the random number; this one has the specification's, to show its digest */
    pj_opening opened = pj_open_in_place(&device, 0x498e4a67, reply, sizeof reply);
    served(opened.number, "pj_open_in_place");
    size_t place = opened.place; /* what the host names in every later call for this controller */
    pj_greeting greeting = pj_read_greeting(reply, opened.length);
    served(greeting.number, "pj_read_greeting");
    printf("greeting at place %zu: kind %d, random %08x\n", place, greeting.kind, (unsigned)greeting.random);

    /* the digest that the specification prints for this random number and password, then three lines at once */
    feed(place, TEXT("5d8409bc1c3fa39749434aa3a5c38682%1POWR 1\r%1powr ?\r%1NAME ?\r"));
    pass(19);
    printf("after 19 s: warm-up %d\n", ask(place, PJ_POWR_ASK, 0).first == PJ_POWER_WARM_UP);
    pass(1);
    printf("after 20 s: on %d\n", ask(place, PJ_POWR_ASK, 0).first == PJ_POWER_ON);
    pass(2380);

    /* the other eight of nine sessions of forty minutes: six hours in all */
    for (int session = 1; session < 9; session++) {
        set(place, PJ_POWR_SET, 0);
        pass(60);
        set(place, PJ_POWR_SET, 1);
        pj_changed passed = pj_pass(device, 2400); /* the same by value: the record comes back in the result */
        served(passed.number, "pj_pass");
        device = passed.device;
    }
    print_lamps(place);

    /* the reply of a hired projector that pads a lamp's hours with zeros */
    pj_command lamp = {PJ_LAMP, 0, 0};
    pj_reading told = pj_read_reply(lamp, TEXT("%1LAMP=00412 1\r"));
    served(told.number, "pj_read_reply");
    printf("hired: %u h, lit %d\n", (unsigned)told.hours[0], told.lit[0]);

    /* what the lamps gained since set-up, and the same tables the other way round */
    int64_t gained[2];
    pj_compared c = pj_compare_lamps(LIST(lamps), device.own.lamps, 2, LIST(gained));
    served(c.number, "pj_compare_lamps");
    printf("gained: %lld s, %lld s, backwards %d\n", (long long)gained[0], (long long)gained[1], c.backwards);
    c = pj_compare_lamps(device.own.lamps, 2, LIST(lamps), LIST(gained));
    served(c.number, "pj_compare_lamps");
    printf("gained: %lld s, %lld s, backwards at %zu\n", (long long)gained[0], (long long)gained[1], c.place);

    /* a refusal: the number alone says something, and the record and the reply memory are as they were */
    printf("close where nobody is: refused %d\n", pj_close_in_place(&device, place + 1) == PJ_NOT_CONNECTED);
    served(pj_close_in_place(&device, place), "pj_close_in_place");
    printf("close: phase %d\n", device.connections[place].phase);
}

/* The board is swapped: what the old one stores, the new one loads, and the lamps' seconds go on from there. */
static void board_swap(void) {
    uint8_t form[PJ_FORM_MOST];
    pass(1800); /* half an hour more on the old board, which is on */
    pj_written stored = pj_store_in_place(&device, form, sizeof form);
    served(stored.number, "pj_store_in_place");
    printf("stored: %zu bytes, version %d\n", stored.length, form[0]);

    /* a load fills the record, and a refused one leaves the blank record there */
    printf("a byte lost: refused %d\n", pj_load_in_place(&device, form, stored.length - 1) == PJ_CUT_SHORT);
    served(pj_load_in_place(&device, form, stored.length), "pj_load_in_place");
    printf("loaded: off %d, %u s, %u s\n", device.own.power == PJ_POWER_OFF, (unsigned)device.own.lamps[0],
           (unsigned)device.own.lamps[1]);

    /* the other half of the hour, on the new board: the password is in the form too */
    pj_opening opened = pj_open_in_place(&device, 0x498e4a67, reply, sizeof reply);
    served(opened.number, "pj_open_in_place");
    feed(opened.place, TEXT("5d8409bc1c3fa39749434aa3a5c38682%1POWR 1\r"));
    pass(1800);
    print_lamps(opened.place);
}

/* Who is connected at each place, NULL where nobody is: a host with a network keeps a socket here. */
static const char *peers[PJ_PLACES];

/* A controller connects. Where there is no place for it, the host closes the socket that it has just accepted. */
static void comes(const char *who) {
    pj_opening opened = pj_open_in_place(&device, 0x498e4a67, reply, sizeof reply);
    if (opened.number == PJ_NO_PLACE) {
        printf("%s: no place\n", who);
        return;
    }
    served(opened.number, "pj_open_in_place");
    peers[opened.place] = who;
    printf("%s: place %zu\n", who, opened.place);
}

/* Time passes, and the host closes the sockets of the places that it closed. */
static void wait_for(uint32_t seconds) {
    pass(seconds);
    for (size_t place = 0; place < PJ_PLACES; place++) {
        if (peers[place] == NULL || device.connections[place].phase != PJ_PHASE_CLOSED) continue;
        printf("%s at place %zu: timed out\n", peers[place], place);
        peers[place] = NULL;
    }
}

/* The panel is at place 0 since the board was swapped; the projector is on, and its first input is shown. */
static void four_controllers(void) {
    peers[0] = "panel";
    comes("tablet");
    comes("phone");
    comes("spare");
    comes("one more");

    /* half a line from the tablet, a whole one from the panel, the other half: neither sees the other's bytes */
    feed(1, TEXT("5d8409bc1c3fa39749434aa3a5c38682%1INPT 3"));
    feed(0, TEXT("%1INPT ?\r"));
    feed(1, TEXT("2\r"));
    feed(0, TEXT("%1INPT ?\r"));

    /* the phone has no password: it is refused, and nothing else is changed by it */
    wait_for(10);
    feed(2, TEXT("%1POWR 0\r"));
    printf("on still: %d\n", ask(0, PJ_POWR_ASK, 0).first == PJ_POWER_ON);

    /* the spare never sends its digest, and the phone has failed: each is out 30 seconds after that began */
    wait_for(20);
    comes("second tablet");
    wait_for(10);
    comes("second phone");
    printf("at the places: %s, %s, %s, %s\n", peers[0], peers[1], peers[2], peers[3]);
}

/* One lamp burns and the other rests. Which, the host says while the power is off. */
static void one_lamp(void) {
    set(0, PJ_POWR_SET, 0);
    printf("while cooling: refused %d\n", pj_set_mark_in_place(&device, 1, false) == PJ_NOT_OFF);
    wait_for(60);
    served(pj_set_mark_in_place(&device, 1, false), "pj_set_mark_in_place");
    printf("the last mark: refused %d\n", pj_set_mark_in_place(&device, 0, false) == PJ_OUT_OF_RANGE);
    set(0, PJ_POWR_SET, 1);
    pass(3560);
    print_lamps(0);
    printf("burnt: %u s, %u s\n", (unsigned)device.own.lamps[0], (unsigned)device.own.lamps[1]);

    /* the marks are in the stored form, and loaded with it */
    uint8_t form[PJ_FORM_MOST];
    pj_written stored = pj_store_in_place(&device, form, sizeof form);
    served(stored.number, "pj_store_in_place");
    pj_device loaded;
    served(pj_load_in_place(&loaded, form, stored.length), "pj_load_in_place");
    printf("loaded: marks %d %d\n", loaded.own.enabled[0], loaded.own.enabled[1]);
}

/* A projector of Class 2, with names for its inputs; what it replies to under `%1` is what one of Class 1 does. */
static void class_2(void) {
    const uint32_t lamps[] = {0};
    const size_t lengths[] = {3, 6}; /* of the names, RGB and player */

    /* the projector so far is of Class 1, and swallows a line of Class 2 */
    printf("Class 1: a reply of %zu bytes to %%2SNUM ?\n", feed(0, TEXT("%2SNUM ?\r")));

    uint32_t started = pj_set_up_2_in_place(&device, TEXT("Table 4"), TEXT("maker"), TEXT("model"), TEXT(""), TEXT(""),
                                            TEXT("116A"), LIST(lamps), 20, 60, TEXT("S/N 7"), TEXT("1.4"), TEXT("RGB"),
                                            lengths, 1);
    printf("two inputs and one name: refused %d\n", started == PJ_OUT_OF_RANGE);
    started = pj_set_up_2_in_place(&device, TEXT("Table 4"), TEXT("maker"), TEXT("model"), TEXT(""), TEXT(""),
                                   TEXT("116A"), LIST(lamps), 20, 60, TEXT("S/N 7"), TEXT("1.4"), TEXT("RGBplayer"),
                                   LIST(lengths));
    served(started, "pj_set_up_2_in_place");

    /* the same by name, from a record that held something else; and the setting that a refusal is for */
    static pj_device named = {.settings = {.warm = 7}};
    pj_setup wanted = {.name = PJ_BYTES("Table 4"), .maker = PJ_BYTES("maker"), .model = PJ_BYTES("model"),
                       .inputs = PJ_BYTES("116A"), .lamps = lamps, .lamp_count = 1, .warm = 20, .cool = 60,
                       .class_2 = true, .serial = PJ_BYTES("S/N 7"), .version = PJ_BYTES("1.4"),
                       .names = PJ_BYTES("RGBplayer"), .name_lengths = lengths, .name_count = 2};
    served(pj_set_up_from(&named, &wanted), "pj_set_up_from");
    printf("set up by name: the same record %d\n", memcmp(&named, &device, sizeof named) == 0);
    wanted.name_count = 1;
    printf("one name: refused %d", pj_set_up_from(&named, &wanted) == PJ_OUT_OF_RANGE);
    printf(", for the names %d\n", pj_which_setting_from(&wanted) == PJ_SETTING_NAMES);
    wanted.class_2 = false;
    printf("6A in Class 1: refused %d", pj_set_up_from(&named, &wanted) == PJ_OUT_OF_RANGE);
    printf(", for the inputs %d\n", pj_which_setting_from(&wanted) == PJ_SETTING_INPUTS);

    pj_opening opened = pj_open_in_place(&device, 0, reply, sizeof reply);
    served(opened.number, "pj_open_in_place");
    size_t place = opened.place;

    printf("class %d\n", ask(place, PJ_CLSS, 0).first);
    pj_reading told = ask_of(place, PJ_INNM, 6, 10); /* 6A: a letter's number is 10 to 35 */
    printf("input 6A is the %.*s\n", (int)told.count, (const char *)told.text);
    told = ask_of(place, PJ_INNM, 6, 11);
    printf("input 6B: ERR%d\n", told.first);
    told = ask(place, PJ_SNUM, 0);
    printf("serial number %.*s\n", (int)told.count, (const char *)told.text);
    told = ask(place, PJ_FREZ_SET, 1);
    printf("freeze while off: ERR%d\n", told.first);

    set(place, PJ_POWR_SET, 1);
    pass(20);
    set(place, PJ_FREZ_SET, 1);
    printf("frozen %d\n", ask(place, PJ_FREZ_ASK, 0).first);
    /* eleven steps up from 10: the last goes no further, and is OK too; a level is not told, but the host reads it */
    for (int step = 0; step < 11; step++) set(place, PJ_SVOL, 1);
    set(place, PJ_MVOL, 0);
    printf("speaker %d, microphone %d\n", device.own.speaker, device.own.microphone);
    printf("6A under %%1: OK %d\n", ask_of(place, PJ_INPT_SET, 6, 10).kind == PJ_READ_OK);
    told = ask(place, PJ_INPT_ASK_2, 0);
    printf("input: type %d, number %d\n", told.first, told.second);

    /* class, serial number, version and names are in the stored form; freeze and levels start anew */
    uint8_t form[PJ_FORM_MOST];
    pj_written stored = pj_store_in_place(&device, form, sizeof form);
    served(stored.number, "pj_store_in_place");
    printf("stored: %zu bytes, version %d\n", stored.length, form[0]);
    pj_device loaded;
    served(pj_load_in_place(&loaded, form, stored.length), "pj_load_in_place");
    const pj_settings *settings = &loaded.settings;
    printf("loaded: class %d, %.*s, frozen %d, speaker %d\n", settings->class_number, (int)settings->names[1].len,
           (const char *)settings->names[1].bytes, loaded.own.frozen, loaded.own.speaker);
}

/* What lies in a log's file: here in memory. Each line is printed, and what it says is in the file before a reply goes
   out. */
static uint8_t file[2048], line[PJ_LOG_ROOM];
static size_t file_len;
static pj_log kept;

static void append(pj_written w, const char *call) {
    served(w.number, call);
    printf("log: %.*s", (int)w.length, (const char *)line);
    memcpy(file + file_len, line, w.length);
    file_len += w.length;
}

/* Bytes that come at a place, of which the call takes all. */
static void receive(size_t place, const char *bytes) {
    pj_receiving r = pj_receive_in_place(&device, place, TEXT(bytes), reply, sizeof reply);
    served(r.number, "pj_receive_in_place");
    append(pj_log_received(&kept, place, (const uint8_t *)bytes, r.taken, line, sizeof line), "pj_log_received");
    if (r.length > 0) printf("%zu < %.*s\n", place, (int)r.length - 1, (const char *)reply);
}

/* Every call is recorded. Then the power is lost, and the board starts again from the stored form and the log. */
static void recorded_log(void) {
    const uint32_t lamps[] = {0};
    uint8_t form[PJ_FORM_MOST];
    served(pj_set_up_in_place(&device, TEXT("Table 5"), TEXT("maker"), TEXT("model"), TEXT(""), TEXT(""), TEXT("11"),
                              LIST(lamps), 20, 60), "pj_set_up_in_place");
    pj_written stored = pj_store_in_place(&device, form, sizeof form);
    served(stored.number, "pj_store_in_place");
    kept = pj_log_begun(form, stored.length);
    append(pj_log_file(&kept, TEXT("2026-11-27T05:45:09Z"), line, sizeof line), "pj_log_file");

    pj_opening opened = pj_open_in_place(&device, 0x498e4a67, reply, sizeof reply);
    served(opened.number, "pj_open_in_place");
    append(pj_log_opened(&kept, opened.place, 0x498e4a67, line, sizeof line), "pj_log_opened");
    receive(opened.place, "%1POWR 1\r");
    pass(20);
    pass(3600); /* seconds of several calls are one line, before that of any other call */
    append(pj_log_passed(&kept, 3620, line, sizeof line), "pj_log_passed");
    served(pj_set_fault_in_place(&device, true), "pj_set_fault_in_place");
    append(pj_log_fault(&kept, true, line, sizeof line), "pj_log_fault");
    receive(opened.place, "%1POWR ?\r");
    receive(opened.place, "%1LAM");
    receive(opened.place, "P ?\r");

    /* what no line can say is refused, and the log goes on as if it had not been asked; so does less than the room */
    printf("lamp 8: refused %d\n", pj_log_mark(&kept, 8, false, line, sizeof line).number == PJ_OUT_OF_RANGE);
    printf("place 256: refused %d\n", pj_log_closed(&kept, 256, line, sizeof line).number == PJ_OUT_OF_RANGE);
    printf("no room: refused %d\n", pj_log_closed(&kept, 0, line, sizeof line - 1).number == PJ_NO_ROOM);
    append(pj_log_stated(&kept, &device, line, sizeof line), "pj_log_stated");

    /* the power is lost: all that is left is the form and the file */
    pj_device again;
    served(pj_load_in_place(&again, form, stored.length), "pj_load_in_place");
    pj_log read = pj_log_begun(form, stored.length);
    for (size_t at = 0, end = 0; at < file_len; at = end + 1) {
        for (end = at; file[end] != '\n';) end++;
        pj_written w = pj_log_play(&read, &again, file + at, end - at, reply, sizeof reply);
        served(w.number, "pj_log_play");
        if (w.length > 0) printf("again < %.*s\n", (int)w.length - 1, (const char *)reply);
    }
    printf("again: power %d, %u s, fault %d\n", again.own.power, (unsigned)again.own.lamps[0], again.own.fault);
    printf("the log goes on: %d\n", read.file == kept.file && read.lines == kept.lines && read.sum == kept.sum);

    /* a line that does not belong there is not played: another place, a call that is refused, what a line can't say */
    pj_written w = pj_log_play(&read, &again, TEXT("O 2 498e4a67"), reply, sizeof reply);
    printf("place 2, not 1: refused %d\n", w.number == PJ_OUT_OF_RANGE);
    w = pj_log_play(&read, &again, TEXT("X 3"), reply, sizeof reply);
    printf("nobody at place 3: refused %d\n", w.number == PJ_NOT_CONNECTED);
    w = pj_log_play(&read, &again, TEXT("T 060"), reply, sizeof reply);
    printf("T 060: refused %d\n", w.number == PJ_OUT_OF_RANGE);
    printf("place 1 is closed: %d, the log is as it was: %d\n", again.connections[1].phase == PJ_PHASE_CLOSED,
           read.lines == kept.lines && read.sum == kept.sum);

    /* the controller's socket is gone: its place is closed, and that is recorded */
    device = again;
    served(pj_close_in_place(&device, opened.place), "pj_close_in_place");
    append(pj_log_closed(&kept, opened.place, line, sizeof line), "pj_log_closed");
}

/* An outsider's place is closed by time, and a controller gets it; what the outsider sent meanwhile comes late. A host
   that names the session, place and random number, serves none of it. */
static void an_older_session(void) {
    const uint32_t lamps[] = {0};
    const uint32_t older = 0x1c92c6f5, newer = 0x498e4a67;
    served(pj_set_up_in_place(&device, TEXT("Table 6"), TEXT("maker"), TEXT("model"), TEXT(""),
                              TEXT("JBMIAProjectorLink"), TEXT("11"), LIST(lamps), 20, 60), "pj_set_up_in_place");
    pj_opening outsider = pj_open_in_place(&device, older, reply, sizeof reply);
    served(outsider.number, "pj_open_in_place");

    /* bit 0 is place 0: the host closes the outsider's socket now */
    pj_passing passed = pj_pass_telling_in_place(&device, 29);
    served(passed.number, "pj_pass_telling_in_place");
    printf("after 29 s: closed %u\n", (unsigned)passed.closed);
    passed = pj_pass_telling_in_place(&device, 1);
    served(passed.number, "pj_pass_telling_in_place");
    printf("after 30 s: closed %u\n", (unsigned)passed.closed);

    pj_opening opened = pj_open_in_place(&device, newer, reply, sizeof reply);
    served(opened.number, "pj_open_in_place");
    printf("controller: the same place %d\n", opened.place == outsider.place);
    pj_receiving r = pj_receive_session_in_place(&device, opened.place, newer,
                                                 TEXT("5d8409bc1c3fa39749434aa3a5c38682%1POWR ?\r"), reply,
                                                 sizeof reply);
    served(r.number, "pj_receive_session_in_place");
    printf("%zu < %.*s\n", opened.place, (int)r.length - 1, (const char *)reply);

    r = pj_receive_session_in_place(&device, outsider.place, older, TEXT("%1POWR 1\r"), reply, sizeof reply);
    printf("late bytes: refused %d, off still %d\n", r.number == PJ_NOT_CONNECTED, device.own.power == PJ_POWER_OFF);
    uint32_t late = pj_close_session_in_place(&device, outsider.place, older);
    printf("late closing: refused %d, open still %d\n", late == PJ_NOT_CONNECTED,
           device.connections[opened.place].phase == PJ_PHASE_OPEN);
    served(pj_close_session_in_place(&device, opened.place, newer), "pj_close_session_in_place");
    printf("closed: phase %d\n", device.connections[opened.place].phase);
}

static void one_day(void) {
    /* three jobs, of which the first two overlap, on two rigs; the last may use rig 0 alone (bit 0) */
    const uint32_t starts[] = {600, 1200, 9000}, lengths[] = {3600, 1800, 7200};
    const uint8_t allowed[] = {3, 3, 1};
    const uint32_t warm[] = {20, 30}, cool[] = {60, 60}, life[] = {36000, 7200};
    uint8_t rigs[3];

    pj_plan plan = pj_plan_day(LIST(starts), LIST(lengths), LIST(allowed),
                               LIST(warm), LIST(cool), LIST(life), LIST(rigs));
    served(plan.number, "pj_plan_day");
    if (!plan.planned) {
        printf("job %zu finds no rig\n", plan.job);
        return; /* and the list of rigs has nothing to be read */
    }
    for (size_t job = 0; job < sizeof rigs; job++) printf("job %zu: rig %d\n", job, rigs[job]);

    pj_verdict v = pj_check_day(LIST(starts), LIST(lengths), LIST(allowed), LIST(rigs),
                                LIST(warm), LIST(cool), LIST(life));
    served(v.number, "pj_check_day");
    printf("as planned: accepted %d\n", v.rule == PJ_DAY_ACCEPTED);

    rigs[1] = rigs[0]; /* by hand, and wrong */
    v = pj_check_day(LIST(starts), LIST(lengths), LIST(allowed), LIST(rigs), LIST(warm), LIST(cool), LIST(life));
    served(v.number, "pj_check_day");
    if (v.rule == PJ_DAY_CLASH) printf("by hand: jobs %zu and %zu clash\n", v.first, v.second);
}

int main(void) {
    one_projector();
    board_swap();
    four_controllers();
    one_lamp();
    class_2();
    recorded_log();
    an_older_session();
    one_day();
    return 0;
}
