/* A host that writes the stored form (RULES, Stored form) of a projector with two lamps and real hours to standard output, as
   `replay` and `burnt` take it: examples/week/table3.form is what it writes. */
#include <stdio.h>
#include <string.h>

#include "ceiling.h"

#define TEXT(s) (const uint8_t *)(s), strlen(s)

int main(void) {
    const uint32_t lamps[] = {4212000, 1800345};
    static uint8_t form[1024];
    static pj_device device;
    uint32_t started = pj_set_up_in_place(&device, TEXT("Table 3"), TEXT("Mannuvizhan"), TEXT("C-1"), TEXT(""), TEXT(""),
                                          TEXT("1131"), lamps, 2, 45, 90);
    if (started != PJ_SERVED) return 1;
    pj_written stored = pj_store_in_place(&device, form, sizeof form);
    if (stored.number != PJ_SERVED) return 1;
    return fwrite(form, 1, stored.length, stdout) == stored.length && fflush(stdout) == 0 ? 0 : 1;
}
