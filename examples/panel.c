/* A workroom panel (RULES, Panel) and two projectors in one program: what each writes is handed to the other in memory,
   where a real host has a socket for each projector. Projector 0 has no password, projector 1 has one; both are of Class
   1. The host lends its panel to the calls in place. Every number that a call gives is tested before anything else of
   its result is used. What it must print, by docs/RULES.md, is in panel.stdout: `0 > LINE` goes to projector 0, `0 <
   LINE: WHAT` comes from it and was that, and after them stands what the panel shows. */
#include <stdio.h>
#include <stdlib.h>
#include <string.h>

#include "ceiling.h"

#define TEXT(s) (const uint8_t *)(s), strlen(s)
#define LIST(a) (a), sizeof(a) / sizeof *(a)

static pj_device devices[2];
static size_t places[2];            /* the panel's place at each */
static pj_panel panel;
static uint8_t line[PJ_REPLY_ROOM]; /* the last line that a projector wrote */

/* Ends the program where a call was refused that should be served. */
static void served(uint32_t number, const char *call) {
    if (number == PJ_SERVED) return;
    printf("%s gives %u: %s\n", call, (unsigned)number, pj_number_text(number));
    exit(1);
}

static void show(size_t projector) {
    static const char *const greetings[] = {"awaited", "open", "secured"};
    static const char *const powers[] = {"off", "on", "cooling", "warm-up"};
    const pj_entry *e = &panel.entries[projector];
    printf("  %zu: greeting %s", projector, greetings[e->greeting]);
    printf(", power %s", e->power_known ? powers[e->power] : "unknown");
    if (e->input_known) printf(", input %d%d", e->input_type, e->input_number);
    else printf(", input unknown");
    if (!e->lamps_known) printf(", lamps unknown");
    for (size_t i = 0; i < e->lamp_count; i++) printf(", lamp %u h%s", (unsigned)e->hours[i], e->lit[i] ? " lit" : "");
    printf(", strays %u%s\n", (unsigned)e->strays, e->under_way ? ", reply awaited" : "");
}

static void set_up(size_t projector, const char *password) {
    static const uint32_t lamps[] = {0, 3600}, nearly_an_hour[] = {3580};
    uint32_t number = projector == 0
        ? pj_set_up_in_place(&devices[0], TEXT("Table 1"), TEXT("maker"), TEXT("model"), TEXT(""), TEXT(password),
                             TEXT("1132"), LIST(nearly_an_hour), 20, 60)
        : pj_set_up_in_place(&devices[1], TEXT("Table 2"), TEXT("maker"), TEXT("model"), TEXT(""), TEXT(password),
                             TEXT("11"), LIST(lamps), 20, 60);
    served(number, "pj_set_up_in_place");
}

static void add(const char *password) { served(pj_panel_add_in_place(&panel, TEXT(password)), "pj_panel_add_in_place"); }

/* What a line was. The panel keeps of it what it shows, and no more: an error and a wrong password are told here alone. */
static void tell(const pj_heard *h) {
    const pj_reading *r = &h->reading;
    switch (h->kind) {
    case PJ_HEARD_GREETING: printf("the greeting\n"); break;
    case PJ_HEARD_ERRA: printf("wrong password\n"); break;
    case PJ_HEARD_REPLY:
        if (r->kind == PJ_READ_OK) printf("done\n");
        else if (r->kind == PJ_READ_ERR) printf("error %d\n", r->first);
        else if (r->kind == PJ_READ_CLASS) printf("class %d\n", r->first);
        else printf("the answer\n");
        break;
    case PJ_HEARD_LATE: printf("late\n"); break;
    case PJ_HEARD_FOREIGN: printf("foreign, %s\n", pj_number_text(r->number)); break;
    default: printf("malformed\n"); break;
    }
}

/* A line comes from the projector. */
static void comes(size_t projector, const uint8_t *bytes, size_t len) {
    pj_heard h = pj_panel_hear_in_place(&panel, projector, bytes, len);
    served(h.number, "pj_panel_hear_in_place");
    printf("%zu < %.*s: ", projector, (int)len - 1, (const char *)bytes);
    tell(&h);
}

/* The panel connects to the projector, whose greeting comes. A real host draws a random number for each connection;
   this one has the specification's each time, to show its digest. */
static void connect_to(size_t projector) {
    pj_opening o = pj_open_in_place(&devices[projector], 0x498e4a67, line, sizeof line);
    served(o.number, "pj_open_in_place");
    places[projector] = o.place;
    comes(projector, line, o.length);
}

/* A command goes to the projector. Gives the length of its reply, which has not come to the panel yet. */
static size_t go(size_t projector, uint8_t code, uint8_t first, uint8_t second) {
    uint8_t sent[PJ_COMMAND_ROOM];
    pj_command command = {code, first, second};
    pj_written w = pj_panel_command_in_place(&panel, projector, command, sent, sizeof sent);
    served(w.number, "pj_panel_command_in_place");
    printf("%zu > %.*s\n", projector, (int)w.length - 1, (const char *)sent);
    pj_receiving r = pj_receive_in_place(&devices[projector], places[projector], sent, w.length, line, sizeof line);
    served(r.number, "pj_receive_in_place");
    return r.length;
}

/* A command goes, and its reply comes. */
static void ask(size_t projector, uint8_t code, uint8_t first, uint8_t second) {
    comes(projector, line, go(projector, code, first, second));
    show(projector);
}

/* A command that the panel does not take now. */
static void too_soon(size_t projector, const char *why) {
    uint8_t sent[PJ_COMMAND_ROOM];
    pj_command command = {PJ_POWR_ASK, 0, 0};
    pj_written w = pj_panel_command_in_place(&panel, projector, command, sent, sizeof sent);
    printf("%s: refused %d\n", why, w.number == PJ_NOT_READY);
}

/* The connection to the projector is gone. */
static void lose(size_t projector) {
    served(pj_panel_lost_in_place(&panel, projector), "pj_panel_lost_in_place");
    show(projector);
}

static void without_a_password(void) {
    too_soon(0, "before the greeting");
    connect_to(0);
    show(0);
    ask(0, PJ_POWR_ASK, 0, 0);
    ask(0, PJ_INPT_SET, 3, 2); /* ERR3, since the power is off: no reading changes */
    ask(0, PJ_POWR_SET, 1, 0); /* OK: what the power is now, the panel does not know before it asks */
    served(pj_pass_in_place(&devices[0], 20), "pj_pass_in_place");
    ask(0, PJ_POWR_ASK, 0, 0);
    ask(0, PJ_INPT_SET, 3, 2);
    ask(0, PJ_INPT_ASK, 0, 0);

    /* the reply is slow: no other command until it comes, and a reply to another one is foreign */
    size_t length = go(0, PJ_LAMP, 0, 0);
    too_soon(0, "over another");
    comes(0, TEXT("%1POWR=1\r"));
    show(0);
    comes(0, line, length);
    show(0);

    /* it comes a second time, when nothing is asked: late, so it is counted, and nothing else changes */
    comes(0, line, length);
    show(0);
}

/* A projector of Class 1 gives no reply to a command of Class 2, and no call of a panel counts time: the host does. */
static void without_a_reply(void) {
    go(0, PJ_SNUM, 0, 0);
    show(0);
    too_soon(0, "no reply");

    /* after 30 seconds without one the host gives the connection up, tells the panel, and connects again */
    served(pj_pass_in_place(&devices[0], 30), "pj_pass_in_place");
    served(pj_close_in_place(&devices[0], places[0]), "pj_close_in_place");
    lose(0);
    connect_to(0);
    ask(0, PJ_CLSS, 0, 0); /* what a host asks first, and then it sends no such command */
}

static void with_a_password(void) {
    connect_to(1);
    show(1);
    ask(1, PJ_LAMP, 0, 0); /* led by the digest that the specification prints */
    ask(1, PJ_POWR_ASK, 0, 0);

    /* somebody sets the projector up with another password: the connection is gone, what is known stays */
    set_up(1, "Schnitt8");
    lose(1);

    /* the panel's password is wrong now: nothing is known any more, and a new greeting is awaited */
    connect_to(1);
    ask(1, PJ_POWR_ASK, 0, 0);
    too_soon(1, "after ERRA");

    set_up(1, "JBMIAProjectorLink"); /* put right */
    connect_to(1);
    ask(1, PJ_POWR_ASK, 0, 0);
}

int main(void) {
    set_up(0, "");
    set_up(1, "JBMIAProjectorLink");
    served(pj_panel_none_in_place(&panel), "pj_panel_none_in_place");
    add("");
    add("JBMIAProjectorLink");
    without_a_password();
    without_a_reply();
    with_a_password();
    show(0); /* nothing of this touched the other */
    return 0;
}
