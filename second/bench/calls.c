/* calls WORK TIMES: prepares one piece of work, and does it so many times. An emulator counts the instructions
   (second/bench/aarch64). Records are at their limits, as in second/bench/work.rs. After each call what it may have
   changed of the record, all but the settings, is put back; the work `nothing` does that alone. */
#include <stdlib.h>
#include <string.h>

#include "ceiling.h"

void plain_md5(const uint8_t *message, size_t length, uint8_t *digest);

static pj_device device, before;
static uint8_t n[64], inputs[64], out[PJ_REPLY_ROOM], form[PJ_FORM_MOST], message[4096];
static uint8_t names[32 * 128];
static size_t lengths[32], stored;
static uint32_t lamps[8];

static uint32_t set_up(void) {
    return pj_set_up_in_place(&device, n, 64, n, 32, n, 32, n, 32, n, 0, inputs, 64, lamps, 8, 600, 600);
}

static uint32_t set_up_2(void) {
    for (int i = 0; i < 32; i++) {
        inputs[2 * i] = '6';
        inputs[2 * i + 1] = (uint8_t)(i < 26 ? 'A' + i : '1' + i - 26);
        lengths[i] = 128;
    }
    return pj_set_up_2_in_place(&device, n, 64, n, 32, n, 32, n, 32, n, 0, inputs, 64, lamps, 8, 600, 600, n, 32, n,
                                32, names, sizeof names, lengths, 32);
}

static uint32_t receive(const char *line) {
    return pj_receive_in_place(&device, 0, (const uint8_t *)line, strlen(line), out, sizeof out).number;
}

static void nothing(void) {}
static void byte(void) { receive("%"); }
static void lamp(void) { receive("%1LAMP ?\r"); }
static void name(void) { receive("%1NAME ?\r"); }
static void input_name(void) { receive("%2INNM ?6A\r"); }
static void pass(void) { pj_pass_in_place(&device, 1); }
static void legal(void) { out[0] = pj_legal_in_place(&device); }
static void set(void) { set_up(); }
static void store(void) { stored = pj_store_in_place(&device, form, sizeof form).length; }
static void load(void) { pj_load_in_place(&device, form, stored); }
static void md5_40(void) { out[0] = pj_md5(message, 40).bytes[0]; }
static void md5_4096(void) { out[0] = pj_md5(message, 4096).bytes[0]; }
static void c_40(void) { plain_md5(message, 40, out); }
static void c_4096(void) { plain_md5(message, 4096, out); }

static const struct {
    const char *name;
    void (*call)(void);
    int class_number;
} works[] = {
    {"nothing", nothing, 1},
    {"pj_receive_in_place, one byte", byte, 1},
    {"pj_receive_in_place, one byte, Class 2", byte, 2},
    {"pj_receive_in_place, whole query %1LAMP ?, 8 lamps", lamp, 1},
    {"pj_receive_in_place, whole query %1NAME ?, 64 bytes", name, 1},
    {"pj_receive_in_place, %2INNM ?6A, 128 bytes, Class 2", input_name, 2},
    {"pj_pass_in_place, n = 1", pass, 1},
    {"pj_pass_in_place, n = 1, Class 2", pass, 2},
    {"pj_legal_in_place", legal, 1},
    {"pj_legal_in_place, Class 2", legal, 2},
    {"pj_set_up_in_place", set, 1},
    {"pj_store_in_place, Class 2", store, 2},
    {"pj_load_in_place, Class 2", load, 2},
    {"MD5 of 40 bytes", md5_40, 1},
    {"MD5 of 40 bytes, C", c_40, 1},
    {"MD5 of 4,096 bytes", md5_4096, 1},
    {"MD5 of 4,096 bytes, C", c_4096, 1},
};

int main(int count, char **words) {
    memset(n, 'n', sizeof n);
    memset(names, 'n', sizeof names);
    for (int i = 0; i < 8; i++) lamps[i] = 359000000;
    for (int i = 0; i < 32; i++) {
        inputs[2 * i] = (uint8_t)('1' + i / 8);
        inputs[2 * i + 1] = (uint8_t)('1' + i % 8);
    }
    for (size_t w = 0; count == 3 && w < sizeof works / sizeof *works; w++) {
        if (strcmp(words[1], works[w].name)) continue;
        if ((works[w].class_number == 2 ? set_up_2() : set_up()) != PJ_SERVED) return 1;
        if (pj_open_in_place(&device, 1, out, sizeof out).number != PJ_SERVED) return 1;
        store();
        before = device;
        for (int i = atoi(words[2]); i > 0; i--) {
            works[w].call();
            device.own = before.own;
            memcpy(device.connections, before.connections, sizeof before.connections);
        }
        return 0;
    }
    return 2;
}
