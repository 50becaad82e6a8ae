/* The control software of a ceiling projector: PJLink Class 1, version 1.04, and the part of Class 2 that docs/RULES.md
   describes, both sides, with the MD5 of RFC 1321. Class 2 was not checked against its specification, which was not
   available. The archive is for 64-bit processors only.

   This declares what the archive libboard.a defines. `./archive` writes the archive for every x86-64 processor, with
   the System V calling convention for AMD64; `./archive aarch64` writes the one for every AArch64 processor, with the
   calling convention AAPCS64. `./archive x86-64-v2` and `./archive x86-64-v3` are faster and need a newer processor. No
   call tests the processor: on an older one the host ends by an illegal instruction. The layout of the records is the
   same in all of them.

   Every call ends, stays inside the memory that it is given, allocates nothing and keeps no state. The projector is a
   record, pj_device, which the host keeps. The calls `.._in_place` take a pointer to the record and change it in place.
   Each has a form by value, which takes the record and returns the changed one, to be stored over the old one; this
   costs some copies of the record. A host with several threads makes the calls on one record one after the other.

   A call requires only what C cannot express:
   - A pointer is valid for its length, and a pointer to a record for a record. It is never NULL, even with length 0;
     the result of a NULL pointer is unspecified, whatever an archive of today does. A setting by name (pj_setup) may be
     NULL if its count is 0.
   - A bool is 0 or 1. It is a parameter, which C makes so, or a result; no record has one. A record has flags, which
     are bytes. So a record or a panel may have any bytes at all: every call then gives its one number, PJ_NOT_LEGAL if
     the record is not legal.
   - Memory that a call writes (reply memory, a result list or a record) overlaps no other memory of that call. So
     received bytes and the reply need a buffer each.
   No proof sees a violation of these. In the calls that receive, a debug build tests the first and the last ("Debug
   builds").

   Text is bytes with a length, and no NUL ends it. A line ends with CR (0x0D) alone. */
#ifndef CEILING_H
#define CEILING_H

#include <stdbool.h>
#include <stddef.h>
#include <stdint.h>

/* The version of this face. It changes with each change of a struct or a call; CHANGELOG.md says what changed. A host
   that was written for one version can test it: #if CEILING_FACE != 13 .. #error. Header and archive must have the same
   version; if they do not, the host does not link: pj_face_13, below. */
#define CEILING_FACE 13

/* Precedes each call that returns something: a compiler warns if its result, with the number or the record in it, is
   dropped. */
#if defined(__cplusplus) && __cplusplus >= 201703L || defined(__STDC_VERSION__) && __STDC_VERSION__ >= 202311L
#define CEILING_KEEP [[nodiscard]]
#elif defined(__GNUC__)
#define CEILING_KEEP __attribute__((warn_unused_result))
#else
#define CEILING_KEEP
#endif

#ifdef __cplusplus
#define CEILING_IS(fact) static_assert(fact, #fact)
extern "C" {
#else
#define CEILING_IS(fact) _Static_assert(fact, #fact)
#endif

/* Returns the version of the archive's face. Refuses nothing. */
CEILING_KEEP
uint32_t pj_face(void);

/* The same, by a name that has the version in it; a host calls pj_face. Each object that is compiled with this header
   needs the name, so an archive of another version does not link: "undefined reference to `pj_face_13'". With GCC
   before 11 and clang before 13 a link that drops sections (--gc-sections) may drop this one, and with other compilers
   an optimiser may. */
CEILING_KEEP
uint32_t pj_face_13(void);

#if defined(__has_attribute)
#if __has_attribute(retain)
#define CEILING_STAYS __attribute__((used, retain))
#endif
#endif
#if !defined(CEILING_STAYS) && defined(__GNUC__)
#define CEILING_STAYS __attribute__((used))
#elif !defined(CEILING_STAYS)
#define CEILING_STAYS
#endif
static uint32_t (*const pj_face_needed)(void) CEILING_STAYS = pj_face_13;

/* The number that a call gives: PJ_SERVED, or the first of the others that applies, in this order. Below, each call
   lists the numbers with which it refuses. With 1 to 9 the record is returned, or stays, as it was (pj_set_up,
   pj_set_up_2 and pj_load give the blank record with any number that is not 0: all zero, and not legal), a pj_log
   stays, counts and lengths are 0, and no byte of the other memory is written. With PJ_SERVED a reply or a line fills
   the start of its memory for its length, and every later byte there stays as it was. */
enum pj_number {
    PJ_SERVED = 0,
    PJ_NOT_LEGAL = 1,           /* the device record is not legal (pj_legal), or the panel's record is not */
    PJ_NO_ROOM = 2,             /* the reply memory is under PJ_REPLY_ROOM bytes, for pj_write and pj_panel_command
                                   PJ_COMMAND_ROOM, for a line of a log PJ_LOG_ROOM, for pj_store shorter than the
                                   form */
    PJ_OUT_OF_RANGE = 3,        /* a setting, an error digit, a command or a password is out of its range, a panel has
                                   no such projector or no room for one more, there is no such place for a
                                   controller, there is no such lamp or its mark is the last, two tables cannot be
                                   compared, the jobs, rigs or lists of a day are out of theirs, no line of a log can
                                   say it, or a line of a log does not belong at this point of the log */
    PJ_NOT_CONNECTED = 4,       /* receiving or closing at a place whose connection is closed, or is not the session
                                   that is named */
    PJ_CONNECTED = 5,           /* of the program replay alone: the log opens a connection that is not closed */
    PJ_NO_PLACE = 6,            /* opening while no place is closed */
    PJ_NOT_OFF = 7,             /* setting or clearing a lamp's mark while the power is not off */
    PJ_SHORT_PASSWORD = 8,      /* a set-up's password has 1 to 7 characters, and nothing is out of its range */
    PJ_NOT_READY = 9,           /* a panel's command before the projector's greeting, or over another command */
    PJ_NOT_A_LINE = 10,         /* the line is not a greeting or a reply, or a reply of another class than the
                                   command's */
    PJ_OTHER_COMMAND = 11,      /* it is a reply to another command */
    PJ_NOT_ALLOWED = 12,        /* it is a reply to the command, with a parameter that is not allowed there */
    PJ_OTHER_VERSION = 20,      /* a stored form whose version byte is not known */
    PJ_CUT_SHORT = 21,          /* it ends before the form does; no bytes at all are that too */
    PJ_LEFT_OVER = 22,          /* bytes are left over after it */
    PJ_CONTENTS = 23            /* it has contents that pj_set_up or, of Class 2, pj_set_up_2 would refuse, a class that
                                   is neither, or marks that are not one for each lamp, not 0 or 1, or none set though
                                   there are lamps */
};

enum pj_limit {
    PJ_NAME_MOST = 64,          /* bytes of the projector's name */
    PJ_INFO_MOST = 32,          /* bytes of maker, model and other information */
    PJ_SERIAL_MOST = 32,        /* bytes of the serial number, and of the software version */
    PJ_INPUT_NAME_MOST = 128,   /* bytes of an input's name */
    PJ_PASSWORD_MOST = 32,
    PJ_INPUTS_MOST = 32,        /* of a projector */
    PJ_INPUTS_READ_MOST = 32,   /* of a reply that is read */
    PJ_LAMPS_MOST = 8,
    PJ_LAMP_MOST = 359999999,   /* seconds of a lamp: 99,999 hours and 3,599 seconds */
    PJ_HOURS_MOST = 99999,      /* hours of a lamp in a reply */
    PJ_WARM_COOL_MOST = 600,    /* seconds of warm-up, and of cooling */
    PJ_VOLUME_MOST = 20,        /* the loudest level; the lowest is 0 */
    PJ_VOLUME_FIRST = 10,       /* the level at set-up */
    PJ_PLACES = 4,              /* controllers that are connected at once */
    PJ_WAIT_MOST = 30,          /* seconds: at this age an awaiting or failed connection is closed */
    PJ_PANEL_MOST = 8,          /* projectors of a panel */
    PJ_STRAYS_MOST = 65535,     /* the count of a projector's stray lines stops here */
    PJ_TABLE_MOST = 64,         /* places of a table of lamp seconds */
    PJ_JOBS_MOST = 64,          /* of a cutting day */
    PJ_RIGS_MOST = 8,
    PJ_DAY_SECONDS = 86400,     /* no job ends later */

    PJ_TEXT_ROOM = 64,          /* of the record: bytes of a text */
    PJ_NAME_ROOM = 128,         /* of the record: bytes of an input's name; also of a text that is read */
    PJ_LINE_ROOM = 167,         /* of the record: bytes of a line that is being collected */
    PJ_ERRORS = 6,              /* error digits */
    PJ_REPLY_ROOM = 136,        /* the least memory for pj_open and pj_receive; enough to collect any reply */
    PJ_COMMAND_ROOM = 168,      /* the least memory for pj_write */
    PJ_FORM_MOST = 4504,        /* bytes of the longest stored form: room for pj_store with every record */
    PJ_LOG_ROOM = 4097,         /* the least memory for a line of a recorded log: no line is longer, its LF included */
    PJ_LOG_BYTES = 2046         /* the most bytes that one line of a recorded log says were received */
};

enum pj_phase {                 /* of a connection */
    PJ_PHASE_CLOSED = 0,        /* there is none: the place is free, and the host closes its socket */
    PJ_PHASE_AWAITING = 1,      /* greeted; the first line, led by the digest, has not come */
    PJ_PHASE_OPEN = 2,          /* commands are served */
    PJ_PHASE_FAILED = 3         /* the digest did not match: what comes is ignored */
};

enum pj_power {                 /* as POWR answers, and as it is read (PJ_READ_POWER) */
    PJ_POWER_OFF = 0,
    PJ_POWER_ON = 1,
    PJ_POWER_COOLING = 2,
    PJ_POWER_WARM_UP = 3
};

/* The device record. A host may read it, and changes it by the calls only. Unused room is zero, everywhere. */

typedef struct {
    size_t len;
    uint8_t bytes[PJ_TEXT_ROOM];
} pj_text;

typedef struct {                            /* an input's name */
    size_t len;
    uint8_t bytes[PJ_NAME_ROOM];
} pj_name;

typedef struct {
    pj_text name, maker, model, other, password;
    size_t input_count;
    uint8_t inputs[2 * PJ_INPUTS_MOST];     /* two ASCII characters an input: "11", "59"; of Class 2 also "6A" */
    size_t lamp_count;
    uint32_t warm, cool;                    /* seconds */
    uint8_t class_number;                   /* 1 or 2; what follows is all zero in Class 1 */
    pj_text serial, version;                /* the serial number, and the version of the projector's software */
    pj_name names[PJ_INPUTS_MOST];          /* one an input, in the inputs' order; all zero past the inputs */
} pj_settings;

typedef struct {                            /* what is collected of a line */
    uint8_t overlong;                       /* a flag */
    size_t held;
    uint8_t bytes[PJ_LINE_ROOM];
} pj_line;

typedef struct {                            /* what a controller has for itself at its place */
    uint8_t phase;                          /* enum pj_phase */
    uint32_t age, random;
    pj_line line;
} pj_connection;

typedef struct {
    uint8_t power;                          /* enum pj_power */
    uint32_t left;                          /* seconds of warm-up or cooling */
    size_t chosen;                          /* the place of the chosen input in the list */
    uint8_t video_muted, audio_muted, fault; /* flags, each 0 or 1 */
    uint8_t errors[PJ_ERRORS];              /* numbers 0 to 2: fan, lamp, temperature, cover, filter, other */
    uint32_t lamps[PJ_LAMPS_MOST];          /* seconds. Lamps are numbered from 0 here and in the calls, and from 1 in
                                               lines of logs, on pages and by the programs */
    uint8_t enabled[PJ_LAMPS_MOST];         /* each lamp's mark, a flag: without it the lamp stays dark; at least one is
                                               set if there are lamps, and none past them */
    uint8_t frozen;                         /* a flag: the picture is frozen */
    uint8_t speaker, microphone;            /* levels, 0 to PJ_VOLUME_MOST. As lines of Class 2 alone change these
                                               three, in Class 1 they stay as they were at set-up */
} pj_own;

typedef struct {
    pj_settings settings;
    pj_own own;                             /* what all controllers share */
    pj_connection connections[PJ_PLACES];   /* one a place: the host keeps one socket a place */
} pj_device;

typedef struct {
    uint32_t number;                        /* enum pj_number, here and in every result */
    pj_device device;
} pj_changed;

typedef struct {
    uint32_t number;
    size_t length;                          /* of the reply */
    size_t place;                           /* the place of the connection; 0 with a refusal */
    pj_device device;
} pj_opened;

typedef struct {
    uint32_t number;
    size_t taken, length;                   /* bytes taken; length of the reply, 0 if none is due */
    pj_device device;
} pj_received;

/* The projector. */

/* Makes the record of a Class 1 projector that is off, with every place closed. This, pj_set_up_2 or pj_load comes
   first, and once after each start of the board.
   - Texts: the name to PJ_NAME_MOST bytes, maker, model and other information to PJ_INFO_MOST, each byte 0x20 to 0xFF;
     none of them is exactly ERR1, ERR2, ERR3 or ERR4. The name is also well-formed UTF-8 (RFC 3629): no overlong form,
     no surrogate, nothing over U+10FFFF, and no character cut off at the end.
   - The password: 0 to PJ_PASSWORD_MOST ASCII letters and digits, and not 1 to 7. Length 0 means no security.
   - Inputs: 1 to PJ_INPUTS_MOST, all different, two ASCII characters each, a type '1' to '5' (RGB, VIDEO, DIGITAL,
     STORAGE, NETWORK) and a number '1' to '9'; inputs_len counts the characters. The first one is chosen.
   - Lamps: 0 to PJ_LAMPS_MOST, with the seconds that each has burnt, at most PJ_LAMP_MOST. The archive keeps nothing: a
     host saves own.lamps where they survive a loss of power (every minute, say) and passes them here at the next start.
     Each lamp's mark is set: a host that had cleared some clears them again, by pj_set_mark.
   - Warm-up and cooling: 1 to PJ_WARM_COOL_MOST seconds each.
   Refuses with PJ_OUT_OF_RANGE if anything is out of its range; then with PJ_SHORT_PASSWORD a password of 1 to 7
   letters and digits. pj_which_setting returns which setting it was. */
CEILING_KEEP
pj_changed pj_set_up(const uint8_t *name, size_t name_len, const uint8_t *maker, size_t maker_len,
                     const uint8_t *model, size_t model_len, const uint8_t *other, size_t other_len,
                     const uint8_t *password, size_t password_len, const uint8_t *inputs, size_t inputs_len,
                     const uint32_t *lamps, size_t lamp_count, uint32_t warm, uint32_t cool);

/* Makes the record of a Class 2 projector, as pj_set_up makes one of Class 1, with the differences below. It answers
   `%1` lines as one of Class 1 does, and CLSS with 2. It also answers `%2` lines, which one of Class 1 discards without
   a reply:

       body   set                                      query                 answers
       INPT   an input of the list                     ?                     the input that is chosen
       INST                                            ?                     the inputs, as under `%1`
       FREZ   0 off, 1 on                              ?                     0 or 1
       SVOL   0 a step down, 1 a step up: speaker
       MVOL   the same: microphone
       SNUM                                            ?                     the serial number
       SVER                                            ?                     the software version
       INNM                                            ? and an input: ?31   the input's name

   Every other body is ERR1 under `%2`, those of Class 1 too (CLSS, POWR, ..), and so is INST, SNUM or SVER with a
   parameter other than `?`. INPT, FREZ, SVOL, MVOL or INNM with a parameter that the table does not have is ERR2,
   including `SVOL ?`: a level has no query. Then INPT, FREZ, SVOL and MVOL, set or query, are ERR4 under the fault
   flag, and ERR3 unless the power is on. A level stops at 0 and at PJ_VOLUME_MOST, and a step that goes no further is
   OK too. Only FREZ changes the freeze, and only a step changes a level: the host reads both from the record.
   - Inputs: a type '1' to '6' (6 is INTERNAL) and a number '1' to '9' or a letter 'A' to 'Z', under `%1` too.
   - The serial number and the software version: to PJ_SERIAL_MOST bytes each, by the rule for maker and model.
   - A name for each input, in the inputs' order: the bytes of all of them one after the other, and the length of each.
     A name has at most PJ_INPUT_NAME_MOST bytes, by the same rule; it need not be UTF-8. name_count counts names, and
     names_len bytes.
   The projector starts not frozen and with both levels at PJ_VOLUME_FIRST, as one of Class 1 does.
   Refuses with PJ_OUT_OF_RANGE what pj_set_up would, but inputs by the rule above; a serial number, a software version
   or a name that is out of its range; other than one name for each input; lengths that do not add up to names_len. Then
   with PJ_SHORT_PASSWORD a password of 1 to 7 letters and digits. pj_which_setting_2 returns which setting it was. */
CEILING_KEEP
pj_changed pj_set_up_2(const uint8_t *name, size_t name_len, const uint8_t *maker, size_t maker_len,
                       const uint8_t *model, size_t model_len, const uint8_t *other, size_t other_len,
                       const uint8_t *password, size_t password_len, const uint8_t *inputs, size_t inputs_len,
                       const uint32_t *lamps, size_t lamp_count, uint32_t warm, uint32_t cool,
                       const uint8_t *serial, size_t serial_len, const uint8_t *version, size_t version_len,
                       const uint8_t *names, size_t names_len, const size_t *name_lengths, size_t name_count);

enum pj_setting {               /* in the order of the parameters of pj_set_up and pj_set_up_2 */
    PJ_SETTING_NONE = 0,        /* set-up gives PJ_SERVED */
    PJ_SETTING_NAME = 1,
    PJ_SETTING_MAKER = 2,
    PJ_SETTING_MODEL = 3,
    PJ_SETTING_OTHER = 4,
    PJ_SETTING_PASSWORD = 5,
    PJ_SETTING_INPUTS = 6,
    PJ_SETTING_LAMPS = 7,
    PJ_SETTING_WARM = 8,
    PJ_SETTING_COOL = 9,
    PJ_SETTING_SERIAL = 10,     /* this and what follows of Class 2 alone */
    PJ_SETTING_VERSION = 11,
    PJ_SETTING_NAMES = 12       /* a name that is out of its range, other than one name an input, or lengths that do
                                   not add up to names_len */
};

/* Returns why pj_set_up refuses the same settings: the first setting that is out of its range, an enum pj_setting. A
   password of 1 to 7 letters and digits is in range here; it is returned as PJ_SETTING_PASSWORD if nothing else is
   wrong, where pj_set_up gives PJ_SHORT_PASSWORD. The result is PJ_SETTING_NONE exactly if pj_set_up gives PJ_SERVED.
   For Class 1: inputs that only pj_set_up_2 takes are out of range here. Refuses nothing. */
CEILING_KEEP
uint32_t pj_which_setting(const uint8_t *name, size_t name_len, const uint8_t *maker, size_t maker_len,
                          const uint8_t *model, size_t model_len, const uint8_t *other, size_t other_len,
                          const uint8_t *password, size_t password_len, const uint8_t *inputs, size_t inputs_len,
                          const uint32_t *lamps, size_t lamp_count, uint32_t warm, uint32_t cool);

/* Returns why pj_set_up_2 refuses, as pj_which_setting does for pj_set_up. Inputs are in range by the rule of Class 2;
   after the cooling come the serial number, the software version and the names, in this order. Refuses nothing. */
CEILING_KEEP
uint32_t pj_which_setting_2(const uint8_t *name, size_t name_len, const uint8_t *maker, size_t maker_len,
                            const uint8_t *model, size_t model_len, const uint8_t *other, size_t other_len,
                            const uint8_t *password, size_t password_len, const uint8_t *inputs, size_t inputs_len,
                            const uint32_t *lamps, size_t lamp_count, uint32_t warm, uint32_t cool,
                            const uint8_t *serial, size_t serial_len, const uint8_t *version, size_t version_len,
                            const uint8_t *names, size_t names_len, const size_t *name_lengths, size_t name_count);

/* Opens a connection when a controller has connected, at the lowest place that is closed, and returns the place: the
   host names it in every later call for that socket. The reply is the greeting, and the host sends it. The random
   number must be unpredictable: draw it anew for each connection from the system's source. If it can be predicted, or
   repeats, an overheard digest lets an outsider in. Without a password any number will do; a host that names sessions,
   below, draws a new one nevertheless.
   Refuses, in this order, with PJ_NOT_LEGAL, PJ_NO_ROOM, PJ_NO_PLACE. */
CEILING_KEEP
pj_opened pj_open(pj_device d, uint32_t random, uint8_t *out, size_t out_len);

/* Closes the connection at a place: the peer has gone, or the host ends it. What was collected of a line is dropped,
   and the place is free. No other place changes.
   Refuses, in this order, with PJ_NOT_LEGAL, PJ_OUT_OF_RANGE (a place of PJ_PLACES or more), PJ_NOT_CONNECTED. */
CEILING_KEEP
pj_changed pj_close(pj_device d, size_t place);

/* Takes bytes from the network at a place, cut in any way, and serves the line that they end. It takes the bytes up to
   and including the first CR, or all if there is none: the host sends the reply, if there is one, to that place's peer,
   and calls again with the rest until all are taken. No other place's connection changes.
   Refuses, in this order, with PJ_NOT_LEGAL, PJ_NO_ROOM, PJ_OUT_OF_RANGE (a place of PJ_PLACES or more),
   PJ_NOT_CONNECTED, also if there are no bytes. */
CEILING_KEEP
pj_received pj_receive(pj_device d, size_t place, const uint8_t *bytes, size_t len, uint8_t *out, size_t out_len);

/* Lets seconds pass, any number at once, for the projector and each of its places: enabled lamps burn, warm-up and
   cooling end, and a connection that is awaiting or failed is closed when its age reaches PJ_WAIT_MOST seconds. Nothing
   is sent for that: if connections[place].phase is PJ_PHASE_CLOSED afterwards, the host closes that place's socket. An
   open connection never times out, so an idle peer keeps its place until the host calls pj_close. Count the seconds by
   a clock that nobody sets (CLOCK_MONOTONIC), and keep the rest of a second for the next call.
   Refuses with PJ_NOT_LEGAL. */
CEILING_KEEP
pj_changed pj_pass(pj_device d, uint32_t seconds);

/* Sets or clears the fault flag, and changes nothing else: with it POWR, INPT and AVMT answer ERR4, and in Class 2
   FREZ, SVOL and MVOL too. Refuses with PJ_NOT_LEGAL. */
CEILING_KEEP
pj_changed pj_set_fault(pj_device d, bool mark);

/* Sets the six error digits that ERST answers, and changes nothing else: fan, lamp, temperature, cover, filter, other.
   A digit is a number, 0 (none or not known), 1 (warning) or 2 (error), and not a character: 1, not '1'. (The inputs of
   pj_set_up are characters.)
   Refuses, in this order, with PJ_NOT_LEGAL, PJ_OUT_OF_RANGE (a count other than PJ_ERRORS, or a digit over 2). */
CEILING_KEEP
pj_changed pj_set_errors(pj_device d, const uint8_t *digits, size_t count);

/* Sets or clears a lamp's mark, and changes nothing else. Lamps are numbered from 0. In warm-up and power-on only a
   lamp with its mark gains seconds and shows as lit. Setting a mark that is set, or clearing one that is clear, is
   served and changes nothing.
   Refuses, in this order, with PJ_NOT_LEGAL, PJ_OUT_OF_RANGE (a lamp that does not exist, or clearing the last mark
   that is set), PJ_NOT_OFF (the power is not off: in warm-up, power-on and cooling). */
CEILING_KEEP
pj_changed pj_set_mark(pj_device d, size_t lamp, bool enabled);

/* Returns whether the record is one that the other calls serve. Every record that a call gave with PJ_SERVED is; this
   is for one that was stored elsewhere, and may have been damaged. Refuses nothing. */
CEILING_KEEP
bool pj_legal(pj_device d);

/* The stored form: settings that survive a board swap. It is bytes, the same on every processor: the version byte 3,
   then eight sections, each after its count in one byte: name, maker, model, other information and password (count of
   bytes), inputs (count of inputs, two ASCII characters each), lamps (count of lamps, the seconds of each as four
   bytes), marks (count of lamps again, 0 or 1 for each as one byte); then warm-up and cooling as two bytes each; then
   the class as one byte, 1 or 2. In Class 1 this byte is the last, and so is a byte that is no class. In Class 2 the
   serial number, the software version and a name for each of the inputs follow, each text after its count of bytes in
   one byte; the names themselves are not counted again. Every number has its highest byte first. One set-up with its
   marks has one form. Version 2 ends with the cooling, and version 1 is as version 2 without the marks: both are still
   read, as Class 1, and no longer written. */

typedef struct {
    uint32_t number;
    size_t length;                          /* of what was written: of a line with its CR */
} pj_written;

/* Writes the stored form of the record, of version 3, to the start of `out`: its settings, and each lamp's seconds and
   mark as they are now. Power, mutes, freeze, levels, faults and connections are not stored. Store at every stop, and
   as often as own.lamps would be saved. The form holds the password in clear: protect it like a key. It has no
   checksum: keep its MD5 with it.
   Refuses, in this order, with PJ_NOT_LEGAL, PJ_NO_ROOM (memory shorter than this form; PJ_FORM_MOST bytes are always
   enough). */
CEILING_KEEP
pj_written pj_store(pj_device d, uint8_t *out, size_t out_len);

/* Makes the record of the projector of a stored form: pj_set_up, or in Class 2 pj_set_up_2, with the settings and the
   lamps' seconds in it, so off, with every place closed. The marks are the form's; with version 1 all are set. Versions
   1 and 2 are of Class 1. The bytes are the whole form and nothing else.
   Refuses, in this order, with PJ_OTHER_VERSION, PJ_CUT_SHORT, PJ_LEFT_OVER, PJ_CONTENTS. */
CEILING_KEEP
pj_changed pj_load(const uint8_t *bytes, size_t len);

/* The same calls in place. Each refuses as the call by value does, with the same number, and serves as it does; the
   record changes in place. A call that is refused leaves the record as it was, except set-up and loading, which fill it
   with the blank record. A host uses these calls. */

typedef struct {
    uint32_t number;
    size_t taken, length;                   /* bytes taken; length of the reply, 0 if none is due */
} pj_receiving;

typedef struct {
    uint32_t number;
    size_t length;                          /* of the greeting */
    size_t place;                           /* the place of the connection; 0 with a refusal */
} pj_opening;

/* pj_set_up, into *d. */
CEILING_KEEP
uint32_t pj_set_up_in_place(pj_device *d, const uint8_t *name, size_t name_len, const uint8_t *maker, size_t maker_len,
                            const uint8_t *model, size_t model_len, const uint8_t *other, size_t other_len,
                            const uint8_t *password, size_t password_len, const uint8_t *inputs, size_t inputs_len,
                            const uint32_t *lamps, size_t lamp_count, uint32_t warm, uint32_t cool);

/* pj_set_up_2, into *d. */
CEILING_KEEP
uint32_t pj_set_up_2_in_place(pj_device *d, const uint8_t *name, size_t name_len,
                              const uint8_t *maker, size_t maker_len, const uint8_t *model, size_t model_len,
                              const uint8_t *other, size_t other_len, const uint8_t *password, size_t password_len,
                              const uint8_t *inputs, size_t inputs_len, const uint32_t *lamps, size_t lamp_count,
                              uint32_t warm, uint32_t cool, const uint8_t *serial, size_t serial_len,
                              const uint8_t *version, size_t version_len, const uint8_t *names, size_t names_len,
                              const size_t *name_lengths, size_t name_count);

/* pj_load, into *d. */
CEILING_KEEP
uint32_t pj_load_in_place(pj_device *d, const uint8_t *bytes, size_t len);

/* pj_store and pj_legal, of *d, which they only read. */
CEILING_KEEP
pj_written pj_store_in_place(const pj_device *d, uint8_t *out, size_t out_len);
CEILING_KEEP
bool pj_legal_in_place(const pj_device *d);

/* pj_open. */
CEILING_KEEP
pj_opening pj_open_in_place(pj_device *d, uint32_t random, uint8_t *out, size_t out_len);

/* pj_close. */
CEILING_KEEP
uint32_t pj_close_in_place(pj_device *d, size_t place);

/* pj_receive. */
CEILING_KEEP
pj_receiving pj_receive_in_place(pj_device *d, size_t place, const uint8_t *bytes, size_t len,
                                 uint8_t *out, size_t out_len);

/* pj_pass: this is the board's own clock call. */
CEILING_KEEP
uint32_t pj_pass_in_place(pj_device *d, uint32_t seconds);

/* pj_set_fault, pj_set_errors and pj_set_mark. */
CEILING_KEEP
uint32_t pj_set_fault_in_place(pj_device *d, bool mark);
CEILING_KEEP
uint32_t pj_set_errors_in_place(pj_device *d, const uint8_t *digits, size_t count);
CEILING_KEEP
uint32_t pj_set_mark_in_place(pj_device *d, size_t lamp, bool enabled);

/* Sessions: calls for a host with sockets. A connection is named by its place and the random number with which pj_open
   opened it, and the host keeps both with the socket. A place is closed by time, or by pj_close, and opened again. Late
   bytes of the old socket of that place would then be served as the new connection's, past its password. With the
   number they are refused, and nothing changes. Sessions differ by their numbers alone: draw a new one for each
   connection, without a password too. These calls have no form by value: the record of such a host is in one place. */

/* pj_receive, for the connection at that place which was opened with that random number.
   Refuses, in this order, with PJ_NOT_LEGAL, PJ_NO_ROOM, PJ_OUT_OF_RANGE (a place of PJ_PLACES or more),
   PJ_NOT_CONNECTED (the connection there is closed, or was opened with another number), also if there are no bytes. */
CEILING_KEEP
pj_receiving pj_receive_session_in_place(pj_device *d, size_t place, uint32_t random, const uint8_t *bytes, size_t len,
                                         uint8_t *out, size_t out_len);

/* pj_close, for the connection at that place which was opened with that random number: closing an old socket leaves the
   connection that took its place.
   Refuses, in this order, with PJ_NOT_LEGAL, PJ_OUT_OF_RANGE, PJ_NOT_CONNECTED, as above. */
CEILING_KEEP
uint32_t pj_close_session_in_place(pj_device *d, size_t place, uint32_t random);

typedef struct {
    uint32_t number;
    uint32_t closed;                        /* bit p, 1 << p: time closed the connection at place p. 0 with a refusal */
} pj_passing;

/* pj_pass, which also returns the places whose connection it closed: the host closes their sockets before it opens
   another connection.
   Refuses with PJ_NOT_LEGAL. */
CEILING_KEEP
pj_passing pj_pass_telling_in_place(pj_device *d, uint32_t seconds);

/* The recorded log: the history of a board as lines of text. From it the record is made again, to the second, and the
   programs `replay` and `burnt` report on it (RULES, History of a board). The host records every call that can change
   the record, at any place, once it is served: each call below writes its line, and the host appends these bytes to the
   log's file before it sends the reply. A refused call is not recorded. docs/LINKING.md has the recipe, "A recorded
   log".

   A log begins where a board begins, at a set-up or a load, and belongs to the stored form of that record, as pj_store
   writes it then. It is one file or several in a chain; the first line of each is its header (pj_log_file).

   A host keeps a pj_log from line to line. It may have any numbers; those of a log that continues after a loss of power
   come from its files, by pj_log_play. The calls change it in place, and only with PJ_SERVED.

   Bytes are logged as they came, digests among them: protect a log like the stored form, which has the password in
   clear. */

typedef struct {
    uint32_t file;                          /* number of the file in the chain, from 1; 0 before the first header */
    uint32_t lines;                         /* lines of that file, its header not counted */
    uint32_t sum;                           /* CRC-32, as zlib has it, of the stored form and of every line so far */
} pj_log;

/* Returns the pj_log before the first file of a log, for the stored form to which the log belongs. Refuses nothing. */
CEILING_KEEP
pj_log pj_log_begun(const uint8_t *form, size_t form_len);

/* Each of these writes a line to the start of `out`, its LF included; the length is that of the line. The line is not
   compared with any record: it is what the host passes.
   Each refuses first with PJ_NO_ROOM if `out` is under PJ_LOG_ROOM bytes; then with PJ_OUT_OF_RANGE for what it says
   itself, and all but pj_log_file for a log without a header (file 0) and for one more line than a file can count,
   4,294,967,295. */

/* Writes the header of the next file: its number, the sum of everything before, and when it was begun, as the host says
   (RFC 3339 is meant: 2026-11-27T05:45:09Z); time_len 0 is no time. It is the first line of each file, for the first
   file right after pj_log_begun.
   Refuses, in this order, with PJ_NO_ROOM, PJ_OUT_OF_RANGE (a time that is not 0 to 35 characters '!' to '~', or one
   more file than a chain can count, 4,294,967,295). */
CEILING_KEEP
pj_written pj_log_file(pj_log *log, const uint8_t *time, size_t time_len, uint8_t *out, size_t out_len);

/* Records that pj_open was served with this random number, and gave this place. Out of range is a place of PJ_PLACES or
   more. */
CEILING_KEEP
pj_written pj_log_opened(pj_log *log, size_t place, uint32_t random, uint8_t *out, size_t out_len);

/* Records that pj_receive was served at this place, and took these bytes: the first `taken` of those passed. Out of
   range is a place of PJ_PLACES or more, and more than PJ_LOG_BYTES bytes: a host passes at most so many to one
   pj_receive, which gives the same. */
CEILING_KEEP
pj_written pj_log_received(pj_log *log, size_t place, const uint8_t *bytes, size_t len, uint8_t *out, size_t out_len);

/* Records that pj_pass was served with so many seconds. Those of several successive calls may be added up in one line,
   which comes before the line of any other call and before a stated line. */
CEILING_KEEP
pj_written pj_log_passed(pj_log *log, uint32_t seconds, uint8_t *out, size_t out_len);

/* Records that pj_close was served at this place. A connection that time closed is not recorded: it closes again as
   time passes. Out of range is a place of PJ_PLACES or more. */
CEILING_KEEP
pj_written pj_log_closed(pj_log *log, size_t place, uint8_t *out, size_t out_len);

/* Records that pj_set_fault was served with this mark. */
CEILING_KEEP
pj_written pj_log_fault(pj_log *log, bool mark, uint8_t *out, size_t out_len);

/* Records that pj_set_errors was served with these digits, numbers and not characters. Out of range is a count other
   than PJ_ERRORS, and a digit over 2. */
CEILING_KEEP
pj_written pj_log_errors(pj_log *log, const uint8_t *digits, size_t count, uint8_t *out, size_t out_len);

/* Records that pj_set_mark was served with this lamp, from 0, and this mark. (In the line lamps count from 1.) Out of
   range is a lamp of PJ_LAMPS_MOST or more. */
CEILING_KEEP
pj_written pj_log_mark(pj_log *log, size_t lamp, bool enabled, uint8_t *out, size_t out_len);

/* Writes a stated line: how many lines came since the header, the sum of all before it, and the power and the seconds
   of each lamp of the record, which is only read. A player of the log compares it, and so detects a line that was lost,
   doubled or changed before it. State at midnight, say, and as the last line before a new file.
   Refuses first with PJ_NOT_LEGAL, then as above; nothing else is out of range. */
CEILING_KEEP
pj_written pj_log_stated(pj_log *log, const pj_device *d, uint8_t *out, size_t out_len);

/* Plays one line of a log, without its LF: makes its call on the record again, and counts the line in *log. So a board
   starts again after a loss of power: from pj_load of the form and pj_log_begun of its bytes, line by line through the
   files in their order, without what follows the last LF of the last file. The length is that of the reply, which fills
   the start of the reply memory and has been sent. It is 0 if none is due, and for headers and stated lines, which are
   compared and change no record. Afterwards every place that is not closed has lost its socket: close it by pj_close,
   and record that.
   Refuses, in this order, with PJ_NOT_LEGAL; PJ_NO_ROOM (reply memory under PJ_REPLY_ROOM bytes); PJ_OUT_OF_RANGE (what
   is no line of a log, also over 4,096 bytes; a header that has not the next number and the sum; any other line before
   the first header; a stated line with another count, sum, power or seconds); the number of the line's call;
   PJ_OUT_OF_RANGE (an opening that would get another place than its line says). With any of these the record, *log and
   reply memory stay as they were, and the log does not belong to the form, or was damaged, from this line on. */
CEILING_KEEP
pj_written pj_log_play(pj_log *log, pj_device *d, const uint8_t *line, size_t line_len, uint8_t *reply, size_t reply_len);

/* The digest. */

typedef struct {
    uint8_t bytes[16];
} pj_digest;

/* Returns the MD5 of RFC 1321 of any bytes. The other calls compute their digests themselves. Refuses nothing. */
CEILING_KEEP
pj_digest pj_md5(const uint8_t *bytes, size_t len);

/* The controller. It keeps no record: the host remembers the greeting's random number until it has sent the first
   command, and the command until it has read the reply. */

enum pj_code {                              /* the codes of commands */
    PJ_POWR_ASK = 0,
    PJ_POWR_SET = 1,                        /* first: 0 off, 1 on */
    PJ_INPT_ASK = 2,
    PJ_INPT_SET = 3,                        /* first: type 1 to 6, second: number 1 to 9, or 10 to 35 for A to Z */
    PJ_AVMT_ASK = 4,
    PJ_AVMT_SET = 5,                        /* first: 1 video, 2 audio, 3 both; second: 1 on, 0 off */
    PJ_ERST = 6,
    PJ_LAMP = 7,
    PJ_INST = 8,
    PJ_NAME = 9,
    PJ_INF1 = 10,                           /* maker */
    PJ_INF2 = 11,                           /* model */
    PJ_INFO = 12,                           /* other information */
    PJ_CLSS = 13,
    PJ_FREZ_ASK = 14,                       /* from here on of Class 2: a projector of Class 1 gives no reply */
    PJ_FREZ_SET = 15,                       /* first: 0 off, 1 on */
    PJ_SVOL = 16,                           /* the speaker's level; first: 0 a step down, 1 a step up */
    PJ_MVOL = 17,                           /* the microphone's; first: the same */
    PJ_SNUM = 18,                           /* serial number */
    PJ_SVER = 19,                           /* software version */
    PJ_INNM = 20,                           /* an input's name; first: type, second: number, as for PJ_INPT_SET */
    PJ_INPT_ASK_2 = 21,                     /* INPT and INST under `%2`, with the answers of `%1` */
    PJ_INPT_SET_2 = 22,                     /* first: type, second: number, as for PJ_INPT_SET */
    PJ_INST_2 = 23
};

typedef struct {                            /* numbers, not characters; what a code does not use is ignored */
    uint8_t code, first, second;
} pj_command;

/* Writes the command's line, to be sent to a projector. If `secured`, the digest of the random number and the password
   leads the line; otherwise the two are ignored. `secured` is for the first command of a connection whose greeting was
   PJ_GREETING_SECURED, with the random number of that greeting, and for no later one: PJLink 1.04, 5.3 says that a
   digest before later commands does no harm, but by the rule on the form of a line the projector discards such a line,
   and no reply comes (RULES, Connection).
   The writer does not know the projector's class: an input of type 6 or with a letter is written under `%1` too, and a
   projector that does not list it answers ERR2. PJ_CLSS asks for the class.
   Refuses, in this order, with PJ_NO_ROOM, PJ_OUT_OF_RANGE (what is no command and, if `secured`, a password that is
   not 0 to PJ_PASSWORD_MOST letters and digits; 1 to 7 are taken, since other projectors may have such a password). */
CEILING_KEEP
pj_written pj_write(pj_command c, bool secured, uint32_t random, const uint8_t *password, size_t password_len,
                    uint8_t *out, size_t out_len);

enum pj_greeting_kind {
    PJ_GREETING_NONE = 0,                   /* with a number that is not 0 */
    PJ_GREETING_OPEN = 1,                   /* PJLINK 0 */
    PJ_GREETING_SECURED = 2,                /* PJLINK 1, with the random number */
    PJ_GREETING_ERRA = 3                    /* PJLINK ERRA */
};

typedef struct {
    uint32_t number;
    uint8_t kind;                           /* enum pj_greeting_kind */
    uint32_t random;
} pj_greeting;

/* Reads the line that a projector sends to a new connection. The host collects bytes up to and including the CR, as for
   a reply.
   Refuses what is no greeting with PJ_NOT_A_LINE. */
CEILING_KEEP
pj_greeting pj_read_greeting(const uint8_t *line, size_t len);

enum pj_reading_kind {
    PJ_READ_NONE = 0,                       /* no meaning: the number is not 0; or no reply was read (pj_heard) */
    PJ_READ_OK = 1,
    PJ_READ_ERR = 2,                        /* first: n of ERRn, 1 to 4 */
    PJ_READ_POWER = 3,                      /* first: enum pj_power */
    PJ_READ_INPUT = 4,                      /* first: type, second: number, as numbers; 10 to 35 for A to Z */
    PJ_READ_MUTES = 5,                      /* first: video 0 or 1, second: audio 0 or 1 */
    PJ_READ_ERRORS = 6,                     /* text: six numbers 0 to 2, not characters; count 6 */
    PJ_READ_LAMPS = 7,                      /* count, hours, lit */
    PJ_READ_INPUTS = 8,                     /* count, inputs: two ASCII characters each */
    PJ_READ_TEXT = 9,                       /* count, text */
    PJ_READ_CLASS = 10,                     /* first: 1 or 2 */
    PJ_READ_ERRA = 11,                      /* the digest was wrong, or was asked for and not sent */
    PJ_READ_FREEZE = 12                     /* first: 0 or 1 */
};

typedef struct {                            /* what a kind does not use is zero */
    uint32_t number;
    uint8_t kind, first, second;            /* kind: enum pj_reading_kind */
    size_t count;
    uint32_t hours[PJ_LAMPS_MOST];
    bool lit[PJ_LAMPS_MOST];
    uint8_t inputs[2 * PJ_INPUTS_READ_MOST];
    uint8_t text[PJ_NAME_ROOM];
} pj_reading;

/* Reads the reply to a command. The host collects bytes up to and including the CR and passes them with the command
   that it sent. PJ_REPLY_ROOM bytes are enough: a reply that has no CR by then is no reply, and may be given up.
   A lamp's hours are read in one to five digits, leading zeros included, as other makers' projectors write them. A
   reply begins with the command's own class, `%1` or `%2`, or it is PJ_NOT_A_LINE. The projector's class is not known
   here: an input of type 6 or with a letter is read under `%1` too, and CLSS as 1 or 2. ERR2 is allowed for a command
   that sets something, and for PJ_INNM, since a projector may answer it for an input that it does not have.
   Refuses, in this order, with PJ_OUT_OF_RANGE (what is no command), PJ_NOT_A_LINE, PJ_OTHER_COMMAND, PJ_NOT_ALLOWED.
   */
CEILING_KEEP
pj_reading pj_read_reply(pj_command c, const uint8_t *line, size_t len);

/* The workroom panel. It drives up to PJ_PANEL_MOST projectors, each over a connection of its own that the host makes:
   the host collects each line to its CR and passes it with the number of the projector that it came from, from 0 in the
   order in which they were added. The panel is a record, pj_panel, as the projector is pj_device: a host uses the calls
   `.._in_place`, and after one by value it stores the result over the panel it had.

   The panel writes commands and reads lines as pj_write, pj_read_greeting and pj_read_reply do. One command is under
   way at a time for each projector. A line that is late, foreign or malformed is a stray: it is counted, and changes
   nothing else.

   A command that gets no reply blocks its projector's entry: every other command is refused with PJ_NOT_READY until the
   host closes the connection, calls pj_panel_lost_in_place, and connects again. No call of a panel counts time, so the
   host does; by the specification no reply comes later than 30 seconds. A projector of Class 1 gives no reply to a
   command of Class 2 (PJ_FREZ_ASK and after). So ask PJ_CLSS first, once in each connection, and send such a command
   only if the reading was class 2. */

enum pj_awaited {                           /* the greeting that a projector has sent */
    PJ_AWAITED_GREETING = 0,                /* none yet: a greeting is awaited, and any other line is malformed */
    PJ_AWAITED_OPEN = 1,                    /* PJLINK 0 */
    PJ_AWAITED_SECURED = 2                  /* PJLINK 1 */
};

typedef struct {                            /* one projector of a panel */
    pj_text password;                       /* 0 to PJ_PASSWORD_MOST ASCII letters and digits */
    uint8_t greeting;                       /* enum pj_awaited */
    uint32_t random;                        /* of a greeting that is PJ_AWAITED_SECURED, else 0 */
    uint8_t led;                            /* a flag: the digest was sent since that greeting; 0 with any other */
    uint8_t under_way;                      /* a flag: a command was sent, its reply is awaited; 0 without a greeting */
    pj_command command;                     /* that command, as it was given; else all three 0 */
    uint8_t power_known, input_known, lamps_known; /* flags */
    uint8_t power;                          /* enum pj_power; 0 if it is not known */
    uint8_t input_type, input_number;       /* 1 to 6 and 1 to 35; both 0 if the input is not known */
    size_t lamp_count;                      /* 1 to PJ_LAMPS_MOST; 0 if the lamps are not known */
    uint32_t hours[PJ_LAMPS_MOST];          /* at most PJ_HOURS_MOST; 0 past the count */
    uint8_t lit[PJ_LAMPS_MOST];             /* flags; 0 past the count */
    uint32_t strays;                        /* at most PJ_STRAYS_MOST */
} pj_entry;

typedef struct {
    size_t count;                           /* of projectors */
    pj_entry entries[PJ_PANEL_MOST];        /* all zero past the count */
} pj_panel;                                 /* legal if it is as described here; unused room is zero */

typedef struct {
    uint32_t number;
    pj_panel panel;
} pj_panel_changed;

typedef struct {
    uint32_t number;
    size_t length;                          /* of the line that was written, with its CR */
    pj_panel panel;
} pj_panel_sent;

/* Makes the panel of no projector, all zero. Refuses nothing. */
CEILING_KEEP
pj_panel_changed pj_panel_none(void);

/* Adds a projector, the last so far: its greeting is awaited, nothing of it is known, and it has no strays. The
   password is the one that the projector was set up with, of length 0 if it has none; short ones are taken too.
   Refuses, in this order, with PJ_NOT_LEGAL, PJ_OUT_OF_RANGE (a password that is not 0 to PJ_PASSWORD_MOST ASCII
   letters and digits, or a projector more than PJ_PANEL_MOST). */
CEILING_KEEP
pj_panel_changed pj_panel_add(pj_panel p, const uint8_t *password, size_t password_len);

/* Writes the command's line, to be sent to the projector; the command is then under way. The digest of the greeting's
   random number and the projector's password leads the first command after a greeting that is PJ_AWAITED_SECURED, and
   no later one.
   Refuses, in this order, with PJ_NOT_LEGAL, PJ_NO_ROOM (under PJ_COMMAND_ROOM bytes), PJ_OUT_OF_RANGE (a projector
   that does not exist, or what is no command), PJ_NOT_READY (a command before the greeting, or while another is under
   way). */
CEILING_KEEP
pj_panel_sent pj_panel_command(pj_panel p, size_t projector, pj_command c, uint8_t *out, size_t out_len);

/* Takes a line that came from the projector, with its CR.
   - Until its greeting the line is read by pj_read_greeting. PJLINK 0 and PJLINK 1 are the greeting; any other line,
     PJLINK ERRA too, is malformed.
   - With no command under way any line is late.
   - With one the line is read by pj_read_reply. A line that it refuses with PJ_NOT_A_LINE or PJ_NOT_ALLOWED is
     malformed (a second greeting is), one with PJ_OTHER_COMMAND foreign; the command stays under way. PJLINK ERRA ends
     it, makes power, input and lamps unknown, and a new greeting is awaited. Any other reply ends it: its power, its
     input (under `%1` or `%2`) or its lamps are now known and shown; a reply with none of them (OK, ERR1 to ERR4)
     changes none. A Class 1 projector gives no reply to a command of Class 2: it stays under way until pj_panel_lost
     (above).
   Refuses, in this order, with PJ_NOT_LEGAL, PJ_OUT_OF_RANGE (a projector that does not exist). A stray is not refused.
   */
CEILING_KEEP
pj_panel_changed pj_panel_line(pj_panel p, size_t projector, const uint8_t *line, size_t len);

/* Reports to the panel that the connection to the projector is gone: a command under way ends, and a new greeting is
   awaited. What is known of power, input and lamps stays, and so does the count of strays.
   Refuses, in this order, with PJ_NOT_LEGAL, PJ_OUT_OF_RANGE (a projector that does not exist). */
CEILING_KEEP
pj_panel_changed pj_panel_lost(pj_panel p, size_t projector);

/* The same calls in place. Each refuses as the call by value does, with the same number, and serves as it does; the
   panel changes in place, and a refused call leaves it as it was. */

/* pj_panel_none, into *p. */
CEILING_KEEP
uint32_t pj_panel_none_in_place(pj_panel *p);

/* pj_panel_add. */
CEILING_KEEP
uint32_t pj_panel_add_in_place(pj_panel *p, const uint8_t *password, size_t password_len);

/* pj_panel_command. */
CEILING_KEEP
pj_written pj_panel_command_in_place(pj_panel *p, size_t projector, pj_command c, uint8_t *out, size_t out_len);

/* pj_panel_line, for a host that does not need to know what the line was. */
CEILING_KEEP
uint32_t pj_panel_line_in_place(pj_panel *p, size_t projector, const uint8_t *line, size_t len);

enum pj_heard_kind {                        /* what a line was */
    PJ_HEARD_NOTHING = 0,                   /* with a number that is not 0 */
    PJ_HEARD_GREETING = 1,                  /* its greeting, which is accepted */
    PJ_HEARD_REPLY = 2,                     /* an accepted reply: OK, which error, or the reading */
    PJ_HEARD_ERRA = 3,                      /* the projector refused the digest: the password is wrong */
    PJ_HEARD_LATE = 4,                      /* a stray: no command was under way */
    PJ_HEARD_FOREIGN = 5,                   /* a stray: it answers another command */
    PJ_HEARD_MALFORMED = 6                  /* a stray: neither an allowed reply nor, if one is awaited, a
                                               greeting; PJLINK ERRA before a greeting too, from a projector that
                                               refuses this host whatever its password */
};

typedef struct {
    uint32_t number;
    uint8_t kind;                           /* enum pj_heard_kind */
    pj_reading reading;                     /* what pj_read_reply gives for the command that was under way, its own
                                               number (of strays 10, 11 or 12) among it; all zero with
                                               PJ_HEARD_NOTHING, PJ_HEARD_GREETING and PJ_HEARD_LATE, and if a
                                               greeting was awaited */
} pj_heard;

/* pj_panel_line, which also returns what the line was and its reading. The panel changes as by pj_panel_line, and does
   not keep what was returned: a host that shows an error or a wrong password keeps it itself. */
CEILING_KEEP
pj_heard pj_panel_hear_in_place(pj_panel *p, size_t projector, const uint8_t *line, size_t len);

/* pj_panel_lost. */
CEILING_KEEP
uint32_t pj_panel_lost_in_place(pj_panel *p, size_t projector);

/* Service. */

typedef struct {
    uint32_t number;
    bool backwards;                         /* some lamp has fewer seconds than before */
    size_t place;                           /* of the first such lamp; 0 if there is none */
} pj_compared;

/* Compares two months' tables of lamp seconds: writes the later minus the earlier for each place to the start of the
   result list `out`, whose later places stay as they were, and returns the first lamp that went backwards, as a
   replaced lamp does.
   Refuses with PJ_OUT_OF_RANGE (tables of unequal length or over PJ_TABLE_MOST places, or fewer places in `out`). */
CEILING_KEEP
pj_compared pj_compare_lamps(const uint32_t *earlier, size_t earlier_count, const uint32_t *later, size_t later_count,
                             int64_t *out, size_t out_count);

/* A cutting day. Jobs and rigs come as lists of numbers, one list for each field, in the order of the jobs or of the
   rigs; jobs and rigs are numbered from 0. A job has a start and a length in seconds, and the rigs that it may use: bit
   k of its byte for rig k. A rig has warm-up, cooling and seconds of lamp life left. On its rig a job occupies the
   warm-up before its start, its length, and the cooling after it; it burns the warm-up and its length.

   Both calls refuse with PJ_OUT_OF_RANGE: over PJ_JOBS_MOST jobs or PJ_RIGS_MOST rigs, lists of the jobs or of the rigs
   that are not of one length, other than one rig for each job, a length under 1, an end over PJ_DAY_SECONDS, a warm-up
   or cooling that is not 1 to PJ_WARM_COOL_MOST; and the planner a result list shorter than the jobs. */

enum pj_rule {                              /* the first rule that is broken, in this order */
    PJ_DAY_ACCEPTED = 0,                    /* none is; or the call was refused */
    PJ_DAY_NO_RIG = 1,                      /* the rig of job `first` does not exist, or it may not use it */
    PJ_DAY_TOO_EARLY = 2,                   /* job `first` starts before its rig's warm-up has passed */
    PJ_DAY_CLASH = 3,                       /* jobs `first` and `second` share a second on one rig */
    PJ_DAY_SPENT = 4                        /* rig `first` burns more than it has left */
};

typedef struct {
    uint32_t number;
    uint8_t rule;                           /* enum pj_rule */
    size_t first, second;                   /* the lowest concerned; what a rule does not use is 0 */
} pj_verdict;

/* Checks a day for which each job has a rig, and returns the first rule that is broken with the lowest job or rig
   concerned. Refuses as above. */
CEILING_KEEP
pj_verdict pj_check_day(const uint32_t *starts, size_t starts_len, const uint32_t *lengths, size_t lengths_len,
                        const uint8_t *allowed, size_t allowed_len,
                        const uint8_t *rigs_of_jobs, size_t rigs_of_jobs_len,
                        const uint32_t *warm, size_t warm_len, const uint32_t *cool, size_t cool_len,
                        const uint32_t *life, size_t life_len);

typedef struct {
    uint32_t number;
    bool planned;                           /* every job has a rig */
    size_t job;                             /* else the first that finds none */
} pj_plan;

/* Plans a day: gives each job, in the order of the list, the lowest rig that keeps every rule with the jobs before it,
   and writes the rigs to the start of the result list `out`. If some job finds none, `out` stays as it was. Refuses as
   above. */
CEILING_KEEP
pj_plan pj_plan_day(const uint32_t *starts, size_t starts_len, const uint32_t *lengths, size_t lengths_len,
                    const uint8_t *allowed, size_t allowed_len, const uint32_t *warm, size_t warm_len,
                    const uint32_t *cool, size_t cool_len, const uint32_t *life, size_t life_len,
                    uint8_t *out, size_t out_len);

/* Texts for people, in English: a few words of printable ASCII with no full stop, the same that the programs `replay`
   and `burnt` print. They are in the archive, valid as long as the program runs, and a NUL ends each. A host calls
   pj_number_text, pj_setting_text and pj_face_text, which the header makes of the three calls of the archive. Those
   overwrite a pj_bytes, which must be initialized and never contain NULL, with the text and its length with the NUL. */

typedef struct {                            /* bytes that someone else keeps, and their count */
    const uint8_t *bytes;
    size_t len;
} pj_bytes;

void pj_number_words(uint32_t number, pj_bytes *words);
void pj_setting_words(uint32_t setting, pj_bytes *words);
void pj_face_words(pj_bytes *words);

/* Returns the meaning of a number (enum pj_number): "served", "the lent memory is too small", .. For a number that no
   call gives, the text says that. */
CEILING_KEEP
static inline const char *pj_number_text(uint32_t number) {
    pj_bytes words = {(const uint8_t *)"", 1};
    pj_number_words(number, &words);
    return (const char *)words.bytes;
}

/* Returns the name of a setting (enum pj_setting): "the name", "the lamps' seconds", .. For PJ_SETTING_NONE and for a
   number that is no setting, the text says that. */
CEILING_KEEP
static inline const char *pj_setting_text(uint32_t setting) {
    pj_bytes words = {(const uint8_t *)"", 1};
    pj_setting_words(setting, &words);
    return (const char *)words.bytes;
}

/* Returns the archive's version of the face, its date, and its kit: "ceiling 13 of 2026-11-27 (rattle-kit-..)".
   `strings libboard.a` shows it too. */
CEILING_KEEP
static inline const char *pj_face_text(void) {
    pj_bytes words = {(const uint8_t *)"", 1};
    pj_face_words(&words);
    return (const char *)words.bytes;
}

/* Set-up with its settings by name: two calls that the header makes of those above, and the archive does not have. Here
   the bytes of a setting are those that the host keeps, and may be NULL if their count is 0. */

/* The bytes of a string literal, without the NUL that ends it: .name = PJ_BYTES("Table 3") */
#define PJ_BYTES(literal) {(const uint8_t *)("" literal), sizeof("" literal) - 1}

/* The settings of pj_set_up and, if class_2 is set, of pj_set_up_2. Members left out of an initializer are empty: no
   password, no lamp, Class 1. */
typedef struct {
    pj_bytes name, maker, model, other, password, inputs;
    const uint32_t *lamps;                  /* the seconds that each has burnt */
    size_t lamp_count;
    uint32_t warm, cool;                    /* seconds */
    bool class_2;                           /* Class 2; what follows is not looked at in Class 1 */
    pj_bytes serial, version, names;
    const size_t *name_lengths;
    size_t name_count;
} pj_setup;

static inline const uint8_t *pj_bytes_of(pj_bytes b) { return b.len > 0 ? b.bytes : (const uint8_t *)""; }

/* pj_set_up_in_place, or pj_set_up_2_in_place, with these settings. */
CEILING_KEEP
static inline uint32_t pj_set_up_from(pj_device *d, const pj_setup *s) {
    static const uint32_t no_lamp = 0;
    static const size_t no_name = 0;
    const uint32_t *lamps = s->lamp_count > 0 ? s->lamps : &no_lamp;
    if (!s->class_2)
        return pj_set_up_in_place(d, pj_bytes_of(s->name), s->name.len, pj_bytes_of(s->maker), s->maker.len,
                                  pj_bytes_of(s->model), s->model.len, pj_bytes_of(s->other), s->other.len,
                                  pj_bytes_of(s->password), s->password.len, pj_bytes_of(s->inputs), s->inputs.len,
                                  lamps, s->lamp_count, s->warm, s->cool);
    return pj_set_up_2_in_place(d, pj_bytes_of(s->name), s->name.len, pj_bytes_of(s->maker), s->maker.len,
                                pj_bytes_of(s->model), s->model.len, pj_bytes_of(s->other), s->other.len,
                                pj_bytes_of(s->password), s->password.len, pj_bytes_of(s->inputs), s->inputs.len,
                                lamps, s->lamp_count, s->warm, s->cool, pj_bytes_of(s->serial), s->serial.len,
                                pj_bytes_of(s->version), s->version.len, pj_bytes_of(s->names), s->names.len,
                                s->name_count > 0 ? s->name_lengths : &no_name, s->name_count);
}

/* pj_which_setting, or pj_which_setting_2, of these settings. */
CEILING_KEEP
static inline uint32_t pj_which_setting_from(const pj_setup *s) {
    static const uint32_t no_lamp = 0;
    static const size_t no_name = 0;
    const uint32_t *lamps = s->lamp_count > 0 ? s->lamps : &no_lamp;
    if (!s->class_2)
        return pj_which_setting(pj_bytes_of(s->name), s->name.len, pj_bytes_of(s->maker), s->maker.len,
                                pj_bytes_of(s->model), s->model.len, pj_bytes_of(s->other), s->other.len,
                                pj_bytes_of(s->password), s->password.len, pj_bytes_of(s->inputs), s->inputs.len,
                                lamps, s->lamp_count, s->warm, s->cool);
    return pj_which_setting_2(pj_bytes_of(s->name), s->name.len, pj_bytes_of(s->maker), s->maker.len,
                              pj_bytes_of(s->model), s->model.len, pj_bytes_of(s->other), s->other.len,
                              pj_bytes_of(s->password), s->password.len, pj_bytes_of(s->inputs), s->inputs.len,
                              lamps, s->lamp_count, s->warm, s->cool, pj_bytes_of(s->serial), s->serial.len,
                              pj_bytes_of(s->version), s->version.len, pj_bytes_of(s->names), s->names.len,
                              s->name_count > 0 ? s->name_lengths : &no_name, s->name_count);
}

/* Debug builds. If the host defines CEILING_DEBUG before it includes this, the calls that receive are tested before
   they are made: NULL, and memory that overlaps, end the program by assert. It must be asked for by name, since a board
   that ends is a dark table. In any other build nothing is tested, and the result of such a call is unspecified. The
   archive is the same for both. */

/* Whether two pieces of memory have a byte in common. */
CEILING_KEEP
static inline bool pj_overlap(const void *one, size_t one_len, const void *other, size_t other_len) {
    uintptr_t p = (uintptr_t)one, q = (uintptr_t)other;
    return one_len > 0 && other_len > 0 && (p < q ? q - p < one_len : p - q < other_len);
}

/* Whether the memory of a call that receives is there, and what it writes overlaps nothing; the record d is NULL by
   value. */
CEILING_KEEP
static inline bool pj_well_lent(const pj_device *d, const uint8_t *bytes, size_t len,
                                const uint8_t *out, size_t out_len) {
    return bytes && out && !pj_overlap(bytes, len, out, out_len)
           && !(d && (pj_overlap(d, sizeof *d, bytes, len) || pj_overlap(d, sizeof *d, out, out_len)));
}

#ifdef CEILING_DEBUG
#include <assert.h>
CEILING_KEEP
static inline pj_received pj_receive_tested(pj_device d, size_t place, const uint8_t *bytes, size_t len,
                                            uint8_t *out, size_t out_len) {
    assert(pj_well_lent(NULL, bytes, len, out, out_len));
    return pj_receive(d, place, bytes, len, out, out_len);
}

CEILING_KEEP
static inline pj_receiving pj_receive_in_place_tested(pj_device *d, size_t place, const uint8_t *bytes, size_t len,
                                                      uint8_t *out, size_t out_len) {
    assert(d && pj_well_lent(d, bytes, len, out, out_len));
    return pj_receive_in_place(d, place, bytes, len, out, out_len);
}

CEILING_KEEP
static inline pj_receiving pj_receive_session_in_place_tested(pj_device *d, size_t place, uint32_t random,
                                                              const uint8_t *bytes, size_t len,
                                                              uint8_t *out, size_t out_len) {
    assert(d && pj_well_lent(d, bytes, len, out, out_len));
    return pj_receive_session_in_place(d, place, random, bytes, len, out, out_len);
}
#define pj_receive pj_receive_tested
#define pj_receive_in_place pj_receive_in_place_tested
#define pj_receive_session_in_place pj_receive_session_in_place_tested
#endif

/* The layout that the archive has. */
#if SIZE_MAX != UINT64_MAX
#error "the archive is for processors of 64 bits: size_t has to have 8 bytes"
#endif
CEILING_IS(sizeof(bool) == 1 && sizeof(size_t) == 8);
CEILING_IS(sizeof(pj_text) == 72 && offsetof(pj_text, bytes) == 8);
CEILING_IS(sizeof(pj_name) == 136 && offsetof(pj_name, bytes) == 8);
CEILING_IS(sizeof(pj_settings) == 4952 && offsetof(pj_settings, maker) == 72 && offsetof(pj_settings, model) == 144);
CEILING_IS(offsetof(pj_settings, other) == 216 && offsetof(pj_settings, password) == 288);
CEILING_IS(offsetof(pj_settings, input_count) == 360 && offsetof(pj_settings, inputs) == 368);
CEILING_IS(offsetof(pj_settings, lamp_count) == 432 && offsetof(pj_settings, warm) == 440);
CEILING_IS(offsetof(pj_settings, cool) == 444 && offsetof(pj_settings, class_number) == 448);
CEILING_IS(offsetof(pj_settings, serial) == 456 && offsetof(pj_settings, version) == 528);
CEILING_IS(offsetof(pj_settings, names) == 600);
CEILING_IS(sizeof(pj_line) == 184 && offsetof(pj_line, held) == 8 && offsetof(pj_line, bytes) == 16);
CEILING_IS(sizeof(pj_connection) == 200 && offsetof(pj_connection, age) == 4);
CEILING_IS(offsetof(pj_connection, random) == 8 && offsetof(pj_connection, line) == 16);
CEILING_IS(sizeof(pj_own) == 72 && offsetof(pj_own, left) == 4 && offsetof(pj_own, chosen) == 8);
CEILING_IS(offsetof(pj_own, video_muted) == 16 && offsetof(pj_own, audio_muted) == 17 && offsetof(pj_own, fault) == 18);
CEILING_IS(offsetof(pj_own, errors) == 19 && offsetof(pj_own, lamps) == 28 && offsetof(pj_own, enabled) == 60);
CEILING_IS(offsetof(pj_own, frozen) == 68 && offsetof(pj_own, speaker) == 69 && offsetof(pj_own, microphone) == 70);
CEILING_IS(sizeof(pj_device) == 5824 && offsetof(pj_device, own) == 4952 && offsetof(pj_device, connections) == 5024);
CEILING_IS(sizeof(pj_changed) == 5832 && offsetof(pj_changed, device) == 8);
CEILING_IS(sizeof(pj_opened) == 5848 && offsetof(pj_opened, length) == 8 && offsetof(pj_opened, place) == 16);
CEILING_IS(offsetof(pj_opened, device) == 24);
CEILING_IS(sizeof(pj_received) == 5848 && offsetof(pj_received, taken) == 8);
CEILING_IS(offsetof(pj_received, length) == 16 && offsetof(pj_received, device) == 24);
CEILING_IS(sizeof(pj_receiving) == 24 && offsetof(pj_receiving, taken) == 8 && offsetof(pj_receiving, length) == 16);
CEILING_IS(sizeof(pj_opening) == 24 && offsetof(pj_opening, length) == 8 && offsetof(pj_opening, place) == 16);
CEILING_IS(sizeof(pj_passing) == 8 && offsetof(pj_passing, closed) == 4);
CEILING_IS(sizeof(pj_log) == 12 && offsetof(pj_log, lines) == 4 && offsetof(pj_log, sum) == 8);
CEILING_IS(sizeof(pj_bytes) == 16 && offsetof(pj_bytes, len) == 8);
CEILING_IS(sizeof(pj_digest) == 16);
CEILING_IS(sizeof(pj_command) == 3 && offsetof(pj_command, first) == 1 && offsetof(pj_command, second) == 2);
CEILING_IS(sizeof(pj_written) == 16 && offsetof(pj_written, length) == 8);
CEILING_IS(sizeof(pj_greeting) == 12 && offsetof(pj_greeting, kind) == 4 && offsetof(pj_greeting, random) == 8);
CEILING_IS(sizeof(pj_reading) == 248 && offsetof(pj_reading, kind) == 4 && offsetof(pj_reading, first) == 5);
CEILING_IS(offsetof(pj_reading, second) == 6 && offsetof(pj_reading, count) == 8 && offsetof(pj_reading, hours) == 16);
CEILING_IS(offsetof(pj_reading, lit) == 48 && offsetof(pj_reading, inputs) == 56 && offsetof(pj_reading, text) == 120);
CEILING_IS(sizeof(pj_entry) == 152 && offsetof(pj_entry, greeting) == 72 && offsetof(pj_entry, random) == 76);
CEILING_IS(offsetof(pj_entry, led) == 80 && offsetof(pj_entry, under_way) == 81 && offsetof(pj_entry, command) == 82);
CEILING_IS(offsetof(pj_entry, power_known) == 85 && offsetof(pj_entry, input_known) == 86);
CEILING_IS(offsetof(pj_entry, lamps_known) == 87 && offsetof(pj_entry, power) == 88);
CEILING_IS(offsetof(pj_entry, input_type) == 89 && offsetof(pj_entry, input_number) == 90);
CEILING_IS(offsetof(pj_entry, lamp_count) == 96 && offsetof(pj_entry, hours) == 104 && offsetof(pj_entry, lit) == 136);
CEILING_IS(offsetof(pj_entry, strays) == 144);
CEILING_IS(sizeof(pj_panel) == 1224 && offsetof(pj_panel, entries) == 8);
CEILING_IS(sizeof(pj_panel_changed) == 1232 && offsetof(pj_panel_changed, panel) == 8);
CEILING_IS(sizeof(pj_panel_sent) == 1240 && offsetof(pj_panel_sent, length) == 8);
CEILING_IS(offsetof(pj_panel_sent, panel) == 16);
CEILING_IS(sizeof(pj_heard) == 256 && offsetof(pj_heard, kind) == 4 && offsetof(pj_heard, reading) == 8);
CEILING_IS(sizeof(pj_compared) == 16 && offsetof(pj_compared, backwards) == 4 && offsetof(pj_compared, place) == 8);
CEILING_IS(sizeof(pj_verdict) == 24 && offsetof(pj_verdict, rule) == 4 && offsetof(pj_verdict, first) == 8);
CEILING_IS(offsetof(pj_verdict, second) == 16);
CEILING_IS(sizeof(pj_plan) == 16 && offsetof(pj_plan, planned) == 4 && offsetof(pj_plan, job) == 8);

#ifdef __cplusplus
}
#endif

#undef CEILING_IS
#undef CEILING_KEEP
#undef CEILING_STAYS

#endif
