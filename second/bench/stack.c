/* How deep each call of libboard.a reaches into the stack: the stack below is painted, the call made, and the lowest
   byte that lost its paint is looked for. What a caller in C keeps for the call is in it: the record by value, the
   result's room and a copy, about 17,500 bytes where a record goes both ways. */
#include <stdio.h>
#include <string.h>

#include "ceiling.h"

enum { PAINTED = 1 << 18, LEFT = 256, PAINT = 0xA5 };

static pj_device device;
static pj_panel panel;
static uint8_t out[PJ_COMMAND_ROOM];
static uint8_t message[4096];
static uint8_t logged[PJ_LOG_ROOM];

/* Paints what lies below its own frame, which is smaller than what is left alone; tells where that frame is. */
static __attribute__((noinline)) uint8_t *painted(void) {
    uint8_t *top = __builtin_frame_address(0);
    for (volatile uint8_t *place = top - LEFT; place > top - LEFT - PAINTED; place--) *place = PAINT;
    return top;
}

static __attribute__((noinline)) size_t depth(const uint8_t *top) {
    const volatile uint8_t *place = top - LEFT - PAINTED + 1;
    while (*place == PAINT) place++;
    return (size_t)(top - (const uint8_t *)place);
}

static __attribute__((noinline)) void measure(const char *name, void (*call)(void)) {
    const uint8_t *top = painted();
    call();
    size_t deep = depth(top);
    printf("%-54s  %s%zu bytes\n", name, deep < LEFT ? "under " : "", deep < LEFT ? LEFT : deep);
}

/* The call in place, on a copy of the record, and then the one by value. */
static void measure_both(const char *name, const char *in_place, void (*call_in_place)(void), void (*call)(void)) {
    pj_device kept = device;
    measure(in_place, call_in_place);
    device = kept;
    measure(name, call);
}

static void panel_both(const char *name, const char *in_place, void (*call_in_place)(void), void (*call)(void)) {
    pj_panel kept = panel;
    measure(in_place, call_in_place);
    panel = kept;
    measure(name, call);
}

#define BOTH(call, rest, body) measure_both(#call rest, #call "_in_place" rest, body##_in_place, body)

#define TEXT(s) (const uint8_t *)(s), strlen(s)
#define CALL(name, body) \
    static __attribute__((noinline)) void name(void) body

static const uint32_t lamps[8] = {1, 2, 3, 4, 5, 6, 7, 8};
static const size_t name_lengths[2] = {3, 5};
static uint8_t form[PJ_FORM_MOST];
static size_t stored;
static const char *line;
static pj_bytes words;
static uint32_t tables[2][PJ_TABLE_MOST];
static int64_t differences[PJ_TABLE_MOST];
static pj_command command;
static const uint8_t no_errors[PJ_ERRORS];
static pj_log history;
static volatile uint32_t sink;

CALL(call_set_up, {
    pj_changed c = pj_set_up(TEXT("name"), TEXT("maker"), TEXT("model"), TEXT("other"), TEXT("panel123"),
                             TEXT("11213141"), lamps, 8, 600, 600);
    device = c.device;
})
CALL(call_set_up_2_in_place, {
    sink = pj_set_up_2_in_place(&device, TEXT("name"), TEXT("maker"), TEXT("model"), TEXT("other"), TEXT(""),
                                TEXT("116A"), lamps, 8, 600, 600, TEXT("serial"), TEXT("version"), TEXT("RGBLager"),
                                name_lengths, 2);
})
CALL(call_set_up_2, {
    pj_changed c = pj_set_up_2(TEXT("name"), TEXT("maker"), TEXT("model"), TEXT("other"), TEXT(""), TEXT("116A"), lamps,
                               8, 600, 600, TEXT("serial"), TEXT("version"), TEXT("RGBLager"), name_lengths, 2);
    device = c.device;
})
CALL(call_which_setting, {
    sink = pj_which_setting(TEXT("name"), TEXT("maker"), TEXT("model"), TEXT("other"), TEXT("panel123"),
                            TEXT("11213141"), lamps, 8, 600, 600);
})
CALL(call_which_setting_2, {
    sink = pj_which_setting_2(TEXT("name"), TEXT("maker"), TEXT("model"), TEXT("other"), TEXT(""), TEXT("116A"), lamps, 8,
                              600, 600, TEXT("serial"), TEXT("version"), TEXT("RGBLager"), name_lengths, 2);
})
CALL(call_open, { device = pj_open(device, 0x498e4a67, out, sizeof out).device; })
CALL(call_receive, { device = pj_receive(device, 0, TEXT(line), out, sizeof out).device; })
CALL(call_pass, { device = pj_pass(device, 4294967295u).device; })
CALL(call_pass_in_place, { sink = pj_pass_in_place(&device, 4294967295u); })
CALL(call_pass_telling_in_place, { sink = pj_pass_telling_in_place(&device, 4294967295u).closed; })
CALL(call_receive_session_in_place, {
    sink = pj_receive_session_in_place(&device, 0, 0x498e4a67, TEXT(line), out, sizeof out).number;
})
CALL(call_close_session_in_place, { sink = pj_close_session_in_place(&device, 0, 0x498e4a67); })
CALL(call_set_up_in_place, {
    sink = pj_set_up_in_place(&device, TEXT("name"), TEXT("maker"), TEXT("model"), TEXT("other"), TEXT("panel123"),
                              TEXT("11213141"), lamps, 8, 600, 600);
})
CALL(call_open_in_place, { sink = pj_open_in_place(&device, 0x498e4a67, out, sizeof out).number; })
CALL(call_receive_in_place, { sink = pj_receive_in_place(&device, 0, TEXT(line), out, sizeof out).number; })
CALL(call_set_mark_in_place, { sink = pj_set_mark_in_place(&device, 1, false); })
CALL(call_legal_in_place, { sink = pj_legal_in_place(&device); })
CALL(call_close_in_place, { sink = pj_close_in_place(&device, 0); })
CALL(call_store_in_place, { stored = pj_store_in_place(&device, form, sizeof form).length; })
CALL(call_load_in_place, { sink = pj_load_in_place(&device, form, stored); })
CALL(call_set_fault_in_place, { sink = pj_set_fault_in_place(&device, true); })
CALL(call_set_errors_in_place, { sink = pj_set_errors_in_place(&device, message, 6); })
CALL(call_log_begun, { history = pj_log_begun(form, stored); })
CALL(call_log_file, { sink = pj_log_file(&history, TEXT("2026-11-27T05:45:09Z"), logged, sizeof logged).number; })
CALL(call_log_opened, { sink = pj_log_opened(&history, 0, 0x498e4a67, logged, sizeof logged).number; })
CALL(call_log_received, { sink = pj_log_received(&history, 0, form, 2046, logged, sizeof logged).number; })
CALL(call_log_passed, { sink = pj_log_passed(&history, 4294967295u, logged, sizeof logged).number; })
CALL(call_log_closed, { sink = pj_log_closed(&history, 0, logged, sizeof logged).number; })
CALL(call_log_fault, { sink = pj_log_fault(&history, true, logged, sizeof logged).number; })
CALL(call_log_errors, { sink = pj_log_errors(&history, no_errors, PJ_ERRORS, logged, sizeof logged).number; })
CALL(call_log_mark, { sink = pj_log_mark(&history, 1, false, logged, sizeof logged).number; })
CALL(call_log_stated, { sink = pj_log_stated(&history, &device, logged, sizeof logged).number; })
CALL(call_log_play, { sink = pj_log_play(&history, &device, TEXT(line), out, sizeof out).number; })
CALL(call_set_fault, { device = pj_set_fault(device, true).device; })
CALL(call_set_errors, { device = pj_set_errors(device, message, 6).device; })
CALL(call_set_mark, { device = pj_set_mark(device, 1, false).device; })
CALL(call_legal, { sink = pj_legal(device); })
CALL(call_close, { device = pj_close(device, 0).device; })
CALL(call_store, { stored = pj_store(device, form, sizeof form).length; })
CALL(call_load, { device = pj_load(form, stored).device; })
CALL(call_md5, { sink = pj_md5(message, sizeof message).bytes[0]; })
CALL(call_write, { sink = (uint32_t)pj_write(command, true, 7, TEXT("panel123"), out, sizeof out).length; })
CALL(call_read_greeting, { sink = pj_read_greeting(TEXT("PJLINK 1 498e4a67\r")).random; })
CALL(call_read_reply, { sink = pj_read_reply(command, TEXT(line)).number; })
CALL(call_face, { sink = pj_face(); })
CALL(call_face_13, { sink = pj_face_13(); })
CALL(call_number_words, { pj_number_words(23, &words); })
CALL(call_setting_words, { pj_setting_words(12, &words); })
CALL(call_face_words, { pj_face_words(&words); })
CALL(call_panel_none_in_place, { sink = pj_panel_none_in_place(&panel); })
CALL(call_panel_add_in_place, { sink = pj_panel_add_in_place(&panel, TEXT("panel123")); })
CALL(call_panel_line_in_place, { sink = pj_panel_line_in_place(&panel, 0, TEXT(line)); })
CALL(call_panel_hear_in_place, { sink = pj_panel_hear_in_place(&panel, 0, TEXT(line)).kind; })
CALL(call_panel_command_in_place, { sink = pj_panel_command_in_place(&panel, 0, command, out, sizeof out).number; })
CALL(call_panel_lost_in_place, { sink = pj_panel_lost_in_place(&panel, 0); })
CALL(call_panel_none, { panel = pj_panel_none().panel; })
CALL(call_panel_add, { panel = pj_panel_add(panel, TEXT("panel123")).panel; })
CALL(call_panel_line, { panel = pj_panel_line(panel, 0, TEXT(line)).panel; })
CALL(call_panel_command, { panel = pj_panel_command(panel, 0, command, out, sizeof out).panel; })
CALL(call_panel_lost, { panel = pj_panel_lost(panel, 0).panel; })
CALL(call_compare_lamps, {
    sink = pj_compare_lamps(tables[0], PJ_TABLE_MOST, tables[1], PJ_TABLE_MOST, differences, PJ_TABLE_MOST).number;
})
static uint32_t starts[64], lengths[64], seconds[8], life[8];
static uint8_t allowed[64], rigs_of_jobs[64];
CALL(call_check_day, {
    sink = pj_check_day(starts, 64, lengths, 64, allowed, 64, rigs_of_jobs, 64, seconds, 8, seconds, 8, life,
                        8).rule;
})
CALL(call_plan_day, {
    sink = pj_plan_day(starts, 64, lengths, 64, allowed, 64, seconds, 8, seconds, 8, life, 8, rigs_of_jobs,
                       64).planned;
})

int main(void) {
    BOTH(pj_set_up, "", call_set_up);
    measure("pj_which_setting", call_which_setting);
    BOTH(pj_open, ", secured", call_open);
    line = "0123456789abcdef0123456789abcdef%1POWR 1\r";
    pj_device opened = device;
    measure("pj_close_session_in_place", call_close_session_in_place);
    device = opened;
    measure("pj_receive_session_in_place, a wrong digest", call_receive_session_in_place);
    measure("pj_pass_telling_in_place", call_pass_telling_in_place);
    device = opened;
    BOTH(pj_receive, ", a first line with a wrong digest", call_receive);
    BOTH(pj_pass, ", n = 4,294,967,295", call_pass);
    device = pj_set_up(TEXT("name"), TEXT(""), TEXT(""), TEXT(""), TEXT(""), TEXT("11"), lamps, 8, 600, 600).device;
    device = pj_open(device, 1, out, sizeof out).device;
    line = "%1LAMP ?\r";
    BOTH(pj_receive, ", %1LAMP ?", call_receive);
    BOTH(pj_set_mark, "", call_set_mark); /* while it is off */
    line = "%1POWR 1\r";
    BOTH(pj_receive, ", %1POWR 1", call_receive);
    device = pj_pass(device, 600).device;
    line = "%1INPT 11\r";
    BOTH(pj_receive, ", %1INPT 11", call_receive);
    line = "%1INST ?\r";
    BOTH(pj_receive, ", %1INST ?", call_receive);
    BOTH(pj_set_fault, "", call_set_fault);
    BOTH(pj_set_errors, "", call_set_errors);
    BOTH(pj_legal, "", call_legal);
    BOTH(pj_close, "", call_close);
    BOTH(pj_set_up_2, "", call_set_up_2);
    measure("pj_which_setting_2", call_which_setting_2);
    device = pj_open(device, 1, out, sizeof out).device;
    line = "%2INNM ?6A\r";
    BOTH(pj_receive, ", %2INNM ?6A", call_receive);
    BOTH(pj_store, ", Class 2", call_store);
    BOTH(pj_load, ", Class 2", call_load);
    measure("pj_log_begun", call_log_begun);
    measure("pj_log_file", call_log_file);
    device = pj_open(device, 1, out, sizeof out).device;
    line = "R 0 %2INNM ?6A";
    measure("pj_log_play, R 0 %2INNM ?6A", call_log_play);
    measure("pj_log_opened", call_log_opened);
    measure("pj_log_received, 2,046 bytes", call_log_received);
    measure("pj_log_passed", call_log_passed);
    measure("pj_log_closed", call_log_closed);
    measure("pj_log_fault", call_log_fault);
    measure("pj_log_errors", call_log_errors);
    measure("pj_log_mark", call_log_mark);
    measure("pj_log_stated", call_log_stated);
    measure("pj_md5", call_md5);
    command = (pj_command){PJ_INPT_SET, 5, 9};
    measure("pj_write, secured", call_write);
    measure("pj_read_greeting", call_read_greeting);
    command = (pj_command){PJ_LAMP, 0, 0};
    line = "%1LAMP=99999 1 99999 1 99999 1 99999 1 99999 1 99999 1 99999 1 99999 1\r";
    measure("pj_read_reply, longest LAMP", call_read_reply);
    command = (pj_command){PJ_INST, 0, 0};
    line = "%1INST=11 12 13 14 15 16 17 18 19 21 22 23 24 25 26 27 28 29 31 32 33 34 35 36 37 38 39 41 42 43 44 45\r";
    measure("pj_read_reply, longest INST", call_read_reply);
    measure("pj_face", call_face);
    measure("pj_face_13", call_face_13);
    measure("pj_number_words", call_number_words);
    measure("pj_setting_words", call_setting_words);
    measure("pj_face_words", call_face_words);
    measure("pj_panel_none_in_place", call_panel_none_in_place);
    measure("pj_panel_none", call_panel_none);
    panel_both("pj_panel_add", "pj_panel_add_in_place", call_panel_add_in_place, call_panel_add);
    line = "PJLINK 1 498e4a67\r";
    panel_both("pj_panel_line, a greeting", "pj_panel_line_in_place, a greeting", call_panel_line_in_place, call_panel_line);
    panel_both("pj_panel_command", "pj_panel_command_in_place", call_panel_command_in_place, call_panel_command);
    line = "%1INST=11 12 13 14 15 16 17 18 19 21 22 23 24 25 26 27 28 29 31 32 33 34 35 36 37 38 39 41 42 43 44 45\r";
    pj_panel asked = panel;
    measure("pj_panel_hear_in_place, a reply", call_panel_hear_in_place);
    panel = asked;
    panel_both("pj_panel_line, a reply", "pj_panel_line_in_place, a reply", call_panel_line_in_place, call_panel_line);
    panel_both("pj_panel_lost", "pj_panel_lost_in_place", call_panel_lost_in_place, call_panel_lost);
    measure("pj_compare_lamps, 64 places", call_compare_lamps);
    for (uint32_t job = 0; job < 64; job++) {
        starts[job] = 600 + job / 8 * 1200;
        lengths[job] = 1;
        allowed[job] = 0xFF;
        rigs_of_jobs[job] = (uint8_t)(job % 8);
    }
    for (int rig = 0; rig < 8; rig++) {
        seconds[rig] = 500;
        life[rig] = 8 * 501;
    }
    measure("pj_check_day, 64 jobs on 8 rigs", call_check_day);
    measure("pj_plan_day, 64 jobs on 8 rigs", call_plan_day);
    return 0;
}
