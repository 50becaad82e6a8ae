/* A controller: connects to a projector, asks it one command after the other and prints what it read. The product has
   no sockets; this is an example of what stands around it, and no part of what is proved.

       controller [-p PORT] HOST COMMAND [PARAMETER] ...

       controller table3.local power on
       controller -p 4352 192.168.0.10 power lamps errors
       controller ::1 POWR 1 INPT 31

   HOST is a name or an address. PORT is 4352 where none is said. A COMMAND is a word, or the body of PJLink:

       power POWR [on|off]        input INPT [INPUT]           mute AVMT [on|off|video|audio]
       errors ERST    lamps LAMP    inputs INST    name NAME    maker INF1    model INF2    info INFO    class CLSS

   and of Class 2, to which a projector of Class 1 gives no reply:

       freeze FREZ [on|off]       speaker SVOL up|down         microphone MVOL up|down
       serial SNUM    version SVER    input-name INNM INPUT    %2INPT [INPUT]    %2INST

   Without a parameter, or with `?`, it is a query. An INPUT is rgb1, video1, digital1 or hdmi1, storage1, network1 or
   internal1 (1 to 9 and A to Z), or as PJLink has it, 31. Other parameters may be PJLink's too: POWR 1, AVMT 30. The
   password is that of the environment, PJLINK_PASSWORD.

   The status is that of the first command that was not done: 0, all were done or told; 1, the projector refused one
   (ERR1 to ERR4); 2, the words are none; 3, the projector could not be reached, or hung up, or said nothing for ten
   seconds; 4, the password is wrong, or none was set; 5, what came is not PJLink. After 3, 4 and 5 no more is asked. */
#define _DEFAULT_SOURCE
#include <errno.h>
#include <netdb.h>
#include <stdio.h>
#include <stdlib.h>
#include <string.h>
#include <sys/socket.h>
#include <sys/time.h>
#include <unistd.h>

#include "ceiling.h"

enum { DONE = 0, REFUSED = 1, NO_SUCH_WORDS = 2, UNREACHABLE = 3, WRONG_PASSWORD = 4, NOT_PJLINK = 5 };

#define COMMANDS_MOST 64
#define NONE 255 /* no code: there is no such query, or no such set */

enum parameter { NO_PARAMETER, SWITCH, MUTES, STEP, INPUT };

static const struct command_row {
    const char *word, *body;
    uint8_t ask, set;
    enum parameter parameter;
} rows[] = {
    {"power", "POWR", PJ_POWR_ASK, PJ_POWR_SET, SWITCH},
    {"input", "INPT", PJ_INPT_ASK, PJ_INPT_SET, INPUT},
    {"mute", "AVMT", PJ_AVMT_ASK, PJ_AVMT_SET, MUTES},
    {"errors", "ERST", PJ_ERST, NONE, NO_PARAMETER},
    {"lamps", "LAMP", PJ_LAMP, NONE, NO_PARAMETER},
    {"inputs", "INST", PJ_INST, NONE, NO_PARAMETER},
    {"name", "NAME", PJ_NAME, NONE, NO_PARAMETER},
    {"maker", "INF1", PJ_INF1, NONE, NO_PARAMETER},
    {"model", "INF2", PJ_INF2, NONE, NO_PARAMETER},
    {"info", "INFO", PJ_INFO, NONE, NO_PARAMETER},
    {"class", "CLSS", PJ_CLSS, NONE, NO_PARAMETER},
    {"freeze", "FREZ", PJ_FREZ_ASK, PJ_FREZ_SET, SWITCH},
    {"speaker", "SVOL", NONE, PJ_SVOL, STEP},
    {"microphone", "MVOL", NONE, PJ_MVOL, STEP},
    {"serial", "SNUM", PJ_SNUM, NONE, NO_PARAMETER},
    {"version", "SVER", PJ_SVER, NONE, NO_PARAMETER},
    {"input-name", "INNM", NONE, PJ_INNM, INPUT},
    {"%2INPT", "%2INPT", PJ_INPT_ASK_2, PJ_INPT_SET_2, INPUT},
    {"%2INST", "%2INST", PJ_INST_2, NONE, NO_PARAMETER},
};

/* What PJLink has for the word of a parameter. */
static const struct {
    enum parameter kind;
    const char *word, *digits;
} words[] = {
    {SWITCH, "on", "1"},    {SWITCH, "off", "0"}, {MUTES, "on", "31"}, {MUTES, "off", "30"},
    {MUTES, "video", "11"}, {MUTES, "audio", "21"}, {STEP, "up", "1"}, {STEP, "down", "0"},
};

static const struct {
    const char *word;
    char digit;
} inputs[] = {
    {"rgb", '1'},     {"video", '2'}, {"digital", '3'}, {"hdmi", '3'},
    {"storage", '4'}, {"usb", '4'},   {"network", '5'}, {"internal", '6'},
};

static const char usage[] = "usage: controller [-p PORT] HOST COMMAND [PARAMETER] ...";

static void end(int status, const char *what, const char *why) {
    fprintf(stderr, "controller: %s: %s\n", what, why);
    exit(status);
}

static const struct command_row *row_of(const char *word) {
    for (size_t i = 0; i < sizeof rows / sizeof *rows; i++)
        if (strcmp(word, rows[i].word) == 0 || strcmp(word, rows[i].body) == 0) return &rows[i];
    return NULL;
}

/* The digits of a parameter, if the word has the shape of one: PJLink's own, one or two characters, or a word. */
static bool digits_of(enum parameter kind, const char *word, char digits[3]) {
    size_t count = kind == SWITCH || kind == STEP ? 1 : 2, length = strlen(word);
    if (kind == NO_PARAMETER) return false;
    if (length == count) {
        memcpy(digits, word, length + 1);
        if (strcmp(word, "on") != 0) return true; /* two letters, and no mutes */
    }
    for (size_t i = 0; i < sizeof words / sizeof *words; i++)
        if (words[i].kind == kind && strcmp(word, words[i].word) == 0) {
            memcpy(digits, words[i].digits, strlen(words[i].digits) + 1);
            return true;
        }
    for (size_t i = 0; kind == INPUT && i < sizeof inputs / sizeof *inputs; i++) {
        size_t named = strlen(inputs[i].word);
        if (length == named + 1 && strncmp(word, inputs[i].word, named) == 0) {
            digits[0] = inputs[i].digit;
            digits[1] = word[named];
            digits[2] = '\0';
            return true;
        }
    }
    return false;
}

/* The number of an input: 1 to 9, then A to Z. What is none gives one that no command takes. */
static uint8_t number_of(char character) {
    if (character >= '0' && character <= '9') return (uint8_t)(character - '0');
    return character >= 'A' && character <= 'Z' ? (uint8_t)(character - 'A' + 10) : 255;
}

/* Takes the next command from the words, and its parameter if one comes. */
static pj_command take_command(int count, char **word, int *next) {
    const char *said = word[(*next)++];
    const struct command_row *row = row_of(said);
    uint8_t sent[PJ_COMMAND_ROOM];
    char digits[3];
    if (row == NULL) end(NO_SUCH_WORDS, said, "no such command");
    pj_command command = {row->ask, 0, 0};
    if (*next < count && strcmp(word[*next], "?") == 0) {
        ++*next;
    } else if (*next < count && digits_of(row->parameter, word[*next], digits)) {
        said = word[(*next)++];
        command.code = row->set;
        command.first = (uint8_t)(digits[0] - '0');
        if (digits[1] != '\0') command.second = number_of(digits[1]);
    } else if (row->ask == NONE) {
        end(NO_SUCH_WORDS, said, "has to have a parameter");
    }
    /* what no projector takes, the writer refuses */
    if (pj_write(command, false, 0, (const uint8_t *)"", 0, sent, sizeof sent).number != PJ_SERVED)
        end(NO_SUCH_WORDS, said, "no such command, or no such parameter");
    return command;
}

/* Connects to the first of the host's addresses that answers. */
static int connect_to(const char *host, const char *port) {
    struct addrinfo hints = {0}, *found, *each;
    struct timeval patience = {10, 0};
    hints.ai_socktype = SOCK_STREAM;
    int error = getaddrinfo(host, port, &hints, &found), projector = -1;
    if (error != 0) end(UNREACHABLE, host, gai_strerror(error));
    for (each = found; each != NULL; each = each->ai_next) {
        projector = socket(each->ai_family, each->ai_socktype, each->ai_protocol);
        if (projector < 0) continue;
        if (setsockopt(projector, SOL_SOCKET, SO_RCVTIMEO, &patience, sizeof patience) == 0 &&
            setsockopt(projector, SOL_SOCKET, SO_SNDTIMEO, &patience, sizeof patience) == 0 &&
            connect(projector, each->ai_addr, each->ai_addrlen) == 0)
            break;
        error = errno;
        close(projector);
    }
    if (each == NULL) end(UNREACHABLE, host, strerror(error));
    freeaddrinfo(found);
    return projector;
}

/* Collects a line with its CR. PJ_REPLY_ROOM bytes are enough: what has no CR by then is no line of a projector. */
static size_t collect(int projector, const char *host, uint8_t line[PJ_REPLY_ROOM]) {
    for (size_t held = 0; held < PJ_REPLY_ROOM;) {
        if (recv(projector, line + held, 1, 0) != 1) end(UNREACHABLE, host, "the projector says nothing more");
        if (line[held++] == '\r') return held;
    }
    end(NOT_PJLINK, host, "not a line of a projector");
    return 0;
}

/* Lamps count from 1, as on a projector's own page and in a floor log. */
static void print(const pj_reading *read) {
    static const char *const powers[] = {"off", "on", "cooling", "warm-up"};
    static const char *const parts[] = {"fan", "lamp", "temperature", "cover", "filter", "other"};
    static const char *const levels[] = {"well", "warning", "error"};
    static const char *const refusals[] = {"no such command", "no such parameter", "not now", "failure"};
    switch (read->kind) {
    case PJ_READ_OK: printf("OK\n"); break;
    case PJ_READ_ERR: printf("ERR%d: %s\n", read->first, refusals[read->first - 1]); break;
    case PJ_READ_POWER: printf("%s\n", powers[read->first]); break;
    case PJ_READ_INPUT:
        printf("input %d%c\n", read->first, read->second < 10 ? '0' + read->second : 'A' + read->second - 10);
        break;
    case PJ_READ_MUTES: printf("video muted %d, audio muted %d\n", read->first, read->second); break;
    case PJ_READ_ERRORS:
        for (size_t i = 0; i < read->count; i++) printf("%s: %s\n", parts[i], levels[read->text[i]]);
        break;
    case PJ_READ_LAMPS:
        for (size_t i = 0; i < read->count; i++)
            printf("lamp %zu: %u h, lit %d\n", i + 1, (unsigned)read->hours[i], read->lit[i]);
        break;
    case PJ_READ_INPUTS:
        for (size_t i = 0; i < read->count; i++) printf("input %.2s\n", (const char *)read->inputs + 2 * i);
        break;
    case PJ_READ_TEXT: printf("%.*s\n", (int)read->count, (const char *)read->text); break;
    case PJ_READ_CLASS: printf("class %d\n", read->first); break;
    default: printf("frozen %d\n", read->first); break; /* PJ_READ_FREEZE */
    }
}

/* Asks one command, led by the digest where the greeting asked for it and this is the first, and prints the reply. */
static int ask(int projector, const char *host, pj_command command, bool secured, uint32_t random,
               const char *password) {
    uint8_t line[PJ_REPLY_ROOM], sent[PJ_COMMAND_ROOM];
    pj_written written =
        pj_write(command, secured, random, (const uint8_t *)password, strlen(password), sent, sizeof sent);
    if (written.number != PJ_SERVED) end(NO_SUCH_WORDS, "PJLINK_PASSWORD", "has to be 0 to 32 letters and digits");
    if (send(projector, sent, written.length, MSG_NOSIGNAL) != (ssize_t)written.length)
        end(UNREACHABLE, host, "the projector is gone");
    pj_reading read = pj_read_reply(command, line, collect(projector, host, line));
    if (read.number == PJ_OTHER_COMMAND) end(NOT_PJLINK, host, "a reply to another command");
    if (read.number != PJ_SERVED) end(NOT_PJLINK, host, "not a reply, or not one to this command");
    if (read.kind == PJ_READ_ERRA) end(WRONG_PASSWORD, host, "the password is wrong");
    print(&read);
    return read.kind == PJ_READ_ERR ? REFUSED : DONE;
}

int main(int argc, char **argv) {
    uint8_t line[PJ_REPLY_ROOM];
    pj_command commands[COMMANDS_MOST];
    const char *password = getenv("PJLINK_PASSWORD"), *port = "4352", *host;
    int next = 1, count = 0, status = DONE;
    if (password == NULL) password = "";
    if (argc > 2 && strcmp(argv[1], "-p") == 0) {
        port = argv[2];
        next = 3;
    }
    if (argc < next + 2) {
        fprintf(stderr, "%s\n", usage);
        return NO_SUCH_WORDS;
    }
    host = argv[next++];
    while (next < argc) {
        if (count == COMMANDS_MOST) end(NO_SUCH_WORDS, argv[next], "more than 64 commands");
        commands[count++] = take_command(argc, argv, &next);
    }

    int projector = connect_to(host, port);
    pj_greeting greeting = pj_read_greeting(line, collect(projector, host, line));
    if (greeting.number != PJ_SERVED || greeting.kind == PJ_GREETING_ERRA) end(NOT_PJLINK, host, "not a greeting");
    bool secured = greeting.kind == PJ_GREETING_SECURED;
    if (secured && password[0] == '\0')
        end(WRONG_PASSWORD, host, "asks for a password, and PJLINK_PASSWORD is not set");
    for (int i = 0; i < count; i++) {
        int told = ask(projector, host, commands[i], secured && i == 0, greeting.random, password);
        if (status == DONE) status = told;
    }
    close(projector);
    return status;
}
