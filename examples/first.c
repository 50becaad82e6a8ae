/* The first lines of a host: a projector is set up, a controller connected and answered. README.md shows `main`. What
   it must print, by docs/RULES.md (Commands, Lamps), is in first.stdout: an hour after power-on the lamp has burnt
   three, warm-up among them, and is lit. */
#include <stdio.h>
#include <string.h>

#include "ceiling.h"

#define TEXT(s) (const uint8_t *)(s), strlen(s)

int main(void) {
    static pj_device device; /* the host keeps the record, and lends it */
    static uint8_t reply[PJ_REPLY_ROOM];
    const char *lines[] = {"%1POWR 1\r", "%1LAMP ?\r"};
    const uint32_t lamps[] = {7200}; /* one lamp, which has burnt two hours */
    const pj_setup settings = {.name = PJ_BYTES("Table 3"), .maker = PJ_BYTES("maker"), .model = PJ_BYTES("model"),
                               .inputs = PJ_BYTES("1132"), .lamps = lamps, .lamp_count = 1, .warm = 20, .cool = 60};
    uint32_t number = pj_set_up_from(&device, &settings);
    pj_opening opened = pj_open_in_place(&device, 0, reply, sizeof reply); /* no password: any random number will do */
    if (number != PJ_SERVED || opened.number != PJ_SERVED) return 1;
    for (int i = 0; i < 2; i++) {
        pj_receiving r = pj_receive_in_place(&device, opened.place, TEXT(lines[i]), reply, sizeof reply);
        if (r.number == PJ_SERVED && r.length > 0) printf("%.*s\n", (int)r.length - 1, (const char *)reply);
        if (pj_pass_in_place(&device, 3600) != PJ_SERVED) return 1; /* an hour */
    }
}
