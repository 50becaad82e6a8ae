/* A projector on a network: a host with sockets around the record. The product has no sockets and no clock; this is an
   example of what stands around it, and no part of what is proved.

       projector [--background] [--keep FOLDER] [PORT [ADDRESS [IDLE]]]     port 4352, address 127.0.0.1, 300 seconds

   ADDRESS is numeric; 127.0.0.1 is heard on this machine alone, 0.0.0.0 by every network that it is on. Port 0 is any
   free one. The password is that of the environment, PJLINK_PASSWORD, of eight characters or more; none, or an empty
   one, is no security. With PJLINK_CLASS=2 in the environment it is a projector of Class 2.

   Four controllers are answered at a time: the host keeps a socket for each of the record's places. Before it takes a
   new one it reads what the others have sent, to see who has gone; so whoever hangs up and connects again at once is
   greeted. A fifth is hung up on at once. As the record never times an open connection out, the host ends one that got
   no reply for IDLE seconds, or its place would be held for ever. Each socket is a session, named by its place and the
   random number of its opening: bytes that come late, of one that is over, never reach whoever has its place now. The
   numbers are those of draw.h.

   It says where it listens. With --background it then goes on in the background, and the shell goes on: whatever comes
   next finds it listening. It says the number of its process too, for `kill`.

   With --keep it keeps form and log in FOLDER, which has to be there, and goes on where they end: keep.h has how, and
   what becomes of the recording where the disk is full. Settings are then those of the form that lies there, and
   PJLINK_PASSWORD and PJLINK_CLASS are for a folder that has none. The operator gives calls by lines to the pipe
   FOLDER/operator, written as the log writes them, and standard output says with which number each was served or
   refused:

       F 1         the fault flag (F 0: none)
       E 012000    the six error digits
       M 2 0       the second lamp is disabled (M 2 1: enabled)
       LOG         a new file of the log begins

   as in `echo F 1 > FOLDER/operator`. SIGTERM and SIGINT end the recording in order, and the host. With
   PJLINK_CLOCK=operator, for trials, no time passes but what the operator says: `T 3600`. */
#define _DEFAULT_SOURCE
#include <errno.h>
#include <fcntl.h>
#include <netdb.h>
#include <poll.h>
#include <signal.h>
#include <stdio.h>
#include <stdlib.h>
#include <string.h>
#include <sys/socket.h>
#include <sys/stat.h>
#include <time.h>
#include <unistd.h>

#include "ceiling.h"
#include "draw.h"
#include "keep.h"

#define TEXT(s) (const uint8_t *)(s), strlen(s)

static pj_device device;
static uint64_t passed; /* the clock's milliseconds that the record knows of: whole seconds from the start */
static struct {
    int socket;         /* the controller's at this place; -1: none, and the record's connection there is closed */
    uint32_t random;    /* with which the record's connection was opened: its session's name */
    uint64_t answered;  /* the clock's milliseconds at the last greeting or reply */
} peers[PJ_PLACES];
static int operator = -1;       /* the pipe for the operator's lines; -1: none */
static bool operators_clock;
static volatile sig_atomic_t is_over;

static void die(const char *what) {
    perror(what);
    exit(1);
}

/* Every call below is made where it has to be served. Should one not be, the record is not to be trusted any more. */
static void served(uint32_t number, const char *call) {
    if (number == PJ_SERVED) return;
    fprintf(stderr, "%s gives %u\n", call, (unsigned)number);
    exit(1);
}

static uint64_t milliseconds(void) {
    struct timespec t;
    if (clock_gettime(CLOCK_MONOTONIC, &t) != 0) die("clock_gettime");
    return (uint64_t)t.tv_sec * 1000 + (uint64_t)t.tv_nsec / 1000000;
}

static void drop(size_t place) {
    if (peers[place].socket >= 0) close(peers[place].socket);
    peers[place].socket = -1;
}

/* Ends a connection on both sides: in the record and on the network. */
static void hang_up(size_t place) {
    served(pj_close_session_in_place(&device, place, peers[place].random), "pj_close_session_in_place");
    keep_closed(place);
    drop(place);
}

/* Where time closes a connection, its socket is closed, before another can get that place. */
static void pass(uint32_t seconds) {
    pj_passing passing = pj_pass_telling_in_place(&device, seconds);
    served(passing.number, "pj_pass_telling_in_place");
    keep_passed(seconds);
    for (size_t place = 0; place < PJ_PLACES; place++) {
        if (passing.closed & UINT32_C(1) << place) drop(place);
    }
}

/* Whole seconds, as they pass; what is left of one counts next time. */
static void pass_time(void) {
    uint64_t seconds = (milliseconds() - passed) / 1000;
    passed += seconds * 1000;
    if (!operators_clock) pass((uint32_t)seconds);
    keep_time();
}

/* Time closes an awaiting or failed connection, and an open one is ours to end. */
static void end_idle(unsigned long idle) {
    for (size_t place = 0; place < PJ_PLACES; place++) {
        if (peers[place].socket >= 0 && milliseconds() - peers[place].answered >= idle * 1000) hang_up(place);
    }
}

/* Sends all of a reply. Who does not read his replies until no more can be sent is hung up on. */
static void answer(size_t place, const uint8_t *reply, size_t length) {
    peers[place].answered = milliseconds();
    ssize_t sent = send(peers[place].socket, reply, length, MSG_NOSIGNAL | MSG_DONTWAIT);
    if (sent != (ssize_t)length) hang_up(place);
}

/* Takes a new controller to the lowest closed place. Where there is none, its socket is closed, and that is all. */
static void greet(int listener) {
    uint8_t reply[PJ_REPLY_ROOM];
    int peer = accept(listener, NULL, NULL);
    if (peer < 0) return; /* it has gone again */
    uint32_t random = draw();
    pj_opening opened = pj_open_in_place(&device, random, reply, sizeof reply);
    if (opened.number == PJ_NO_PLACE) {
        close(peer);
        return;
    }
    served(opened.number, "pj_open_in_place");
    keep_opened(opened.place, random);
    peers[opened.place].socket = peer;
    peers[opened.place].random = random;
    answer(opened.place, reply, opened.length);
}

/* How many of these bytes the record would pass over: all where the digest has failed, and of a line that is too long
   all before its CR. They are not handed on, so that nobody fills a log with them. */
static size_t passed_over(size_t place, const uint8_t *bytes, size_t length) {
    const pj_connection *connection = &device.connections[place];
    if (connection->phase == PJ_PHASE_FAILED) return length;
    if (!connection->line.overlong) return 0;
    const uint8_t *end = memchr(bytes, '\r', length);
    return end == NULL ? length : (size_t)(end - bytes);
}

/* What has come at a place, in whatever cuts: handed on until all is taken, no more at once than the longest line and
   its CR, which a line of a log can say (PJ_LOG_BYTES). Gives whether there may be more. */
static bool serve(size_t place) {
    uint8_t bytes[4096], reply[PJ_REPLY_ROOM];
    ssize_t got = recv(peers[place].socket, bytes, sizeof bytes, MSG_DONTWAIT);
    if (got < 0 && (errno == EAGAIN || errno == EWOULDBLOCK || errno == EINTR)) return false;
    if (got <= 0) {
        hang_up(place);
        return false;
    }
    for (size_t at = 0; peers[place].socket >= 0 && at < (size_t)got;) {
        at += passed_over(place, bytes + at, (size_t)got - at);
        size_t length = (size_t)got - at <= PJ_LINE_ROOM ? (size_t)got - at : PJ_LINE_ROOM + 1;
        if (length == 0) break;
        pj_receiving r = pj_receive_session_in_place(&device, place, peers[place].random, bytes + at, length, reply,
                                                     sizeof reply);
        served(r.number, "pj_receive_session_in_place");
        keep_received(place, bytes + at, r.taken);
        at += r.taken;
        if (r.length > 0) answer(place, reply, r.length);
    }
    return peers[place].socket >= 0;
}

/* Everybody is served, one after the other, and nobody for so long that the others wait. */
static void serve_all(void) {
    for (size_t place = 0; place < PJ_PLACES; place++) {
        for (int turn = 0; turn < 64 && peers[place].socket >= 0 && serve(place);) turn++;
    }
}

/* The operator's lines. */

static uint32_t set_fault(bool mark) {
    uint32_t number = pj_set_fault_in_place(&device, mark);
    if (number == PJ_SERVED) keep_fault(mark);
    return number;
}

static uint32_t set_errors(const char *characters) {
    uint8_t digits[PJ_ERRORS];
    size_t count = strlen(characters);
    for (size_t k = 0; k < count && k < PJ_ERRORS; k++) digits[k] = (uint8_t)(characters[k] - '0');
    uint32_t number = pj_set_errors_in_place(&device, digits, count < PJ_ERRORS ? count : PJ_ERRORS);
    if (number == PJ_SERVED) keep_errors(digits, PJ_ERRORS);
    return number;
}

static uint32_t set_mark(size_t lamp, bool enabled) {
    uint32_t number = pj_set_mark_in_place(&device, lamp, enabled);
    if (number == PJ_SERVED) keep_mark(lamp, enabled);
    return number;
}

static void operate(const char *line) {
    unsigned first, second;
    char more;
    uint32_t number = PJ_SERVED;
    if (sscanf(line, "F %1u%c", &first, &more) == 1 && first <= 1) {
        number = set_fault(first == 1);
    } else if (strncmp(line, "E ", 2) == 0 && strlen(line) == 2 + PJ_ERRORS) {
        number = set_errors(line + 2);
    } else if (sscanf(line, "M %1u %1u%c", &first, &second, &more) == 2 && first >= 1 && second <= 1) {
        number = set_mark(first - 1, second == 1);
    } else if (operators_clock && sscanf(line, "T %9u%c", &first, &more) == 1) {
        pass(first);
    } else if (strcmp(line, "LOG") == 0) {
        keep_next_file();
    } else {
        printf("%s: no such line\n", line);
        fflush(stdout);
        return;
    }
    printf("%s: %u\n", line, (unsigned)number);
    fflush(stdout);
}

/* What the operator has written: each line by itself, and nothing of one that is too long. */
static void hear_operator(void) {
    static char line[32];
    static size_t held;
    for (char byte; read(operator, &byte, 1) == 1;) {
        if (byte != '\n') {
            if (held < sizeof line) line[held++] = byte;
            continue;
        }
        if (held < sizeof line) {
            line[held] = '\0';
            operate(line);
        }
        held = 0;
    }
}

/* A pipe that the host has open at both its ends never comes to its end. */
static void open_operator(const char *folder) {
    int at = open(folder, O_RDONLY | O_DIRECTORY | O_CLOEXEC);
    if (at >= 0 && (mkfifoat(at, "operator", 0600) == 0 || errno == EEXIST))
        operator = openat(at, "operator", O_RDWR | O_NONBLOCK | O_CLOEXEC);
    if (operator < 0) perror("no operator is heard");
    if (at >= 0) close(at);
}

static void end(int signal) {
    (void)signal;
    is_over = 1;
}

static int listen_at(const char *address, const char *port) {
    struct addrinfo hints = {0}, *found;
    hints.ai_flags = AI_PASSIVE | AI_NUMERICHOST | AI_NUMERICSERV;
    hints.ai_socktype = SOCK_STREAM;
    int error = getaddrinfo(address, port, &hints, &found);
    if (error != 0) {
        fprintf(stderr, "%s, port %s: %s\n", address, port, gai_strerror(error));
        exit(2);
    }
    int on = 1, listener = socket(found->ai_family, found->ai_socktype, found->ai_protocol);
    if (listener < 0 || setsockopt(listener, SOL_SOCKET, SO_REUSEADDR, &on, sizeof on) != 0) die("socket");
    if (fcntl(listener, F_SETFL, O_NONBLOCK) != 0) die("fcntl");
    if (bind(listener, found->ai_addr, found->ai_addrlen) != 0 || listen(listener, 16) != 0) die(address);
    freeaddrinfo(found);

    struct sockaddr_storage at;
    socklen_t length = sizeof at;
    char where[64], which[16];
    if (getsockname(listener, (struct sockaddr *)&at, &length) != 0) die("getsockname");
    if (getnameinfo((struct sockaddr *)&at, length, where, sizeof where, which, sizeof which,
                    NI_NUMERICHOST | NI_NUMERICSERV) != 0) die("getnameinfo");
    printf("listening at %s port %s\n", where, which);
    fflush(stdout);
    return listener;
}

/* Whoever waits for this program to end goes on now, and finds it listening. */
static void go_to_background(void) {
    pid_t process = fork();
    if (process < 0) die("fork");
    if (process > 0) {
        printf("process %ld\n", (long)process);
        exit(0);
    }
    setsid();
}

static uint32_t set_up(const char *password, bool class_2) {
    static const uint32_t lamps[] = {0};
    static const size_t lengths[] = {3, 0, 6}; /* of the inputs' names */
    pj_setup settings = {.name = PJ_BYTES("Table 3"), .maker = PJ_BYTES("maker"), .model = PJ_BYTES("model"),
                         .other = PJ_BYTES("an example"), .password = {TEXT(password)}, .inputs = PJ_BYTES("1132"),
                         .lamps = lamps, .lamp_count = 1, .warm = 20, .cool = 60};
    if (class_2) {
        settings.class_2 = true;
        settings.inputs = (pj_bytes)PJ_BYTES("11326A");
        settings.serial = (pj_bytes)PJ_BYTES("S/N 3");
        settings.version = (pj_bytes)PJ_BYTES("1.4");
        settings.names = (pj_bytes)PJ_BYTES("RGBplayer");
        settings.name_lengths = lengths;
        settings.name_count = 3;
    }
    return pj_set_up_from(&device, &settings);
}

/* Form and log are taken from the folder, or begin there. */
static void begin_keeping(const char *folder, const char *password, const char *class_number) {
    keep_begin(folder, &device);
    const pj_text *kept = &device.settings.password;
    if ((password != NULL && (strlen(password) != kept->len || memcmp(password, kept->bytes, kept->len) != 0)) ||
        (class_number != NULL && atoi(class_number) != device.settings.class_number))
        fprintf(stderr, "%s: password and class are those of the form there, not of the environment\n", folder);
    open_operator(folder);
    const char *clock = getenv("PJLINK_CLOCK");
    operators_clock = clock != NULL && strcmp(clock, "operator") == 0;
    signal(SIGTERM, end);
    signal(SIGINT, end);
}

int main(int argc, char **argv) {
    const char *password = getenv("PJLINK_PASSWORD"), *class_number = getenv("PJLINK_CLASS"), *folder = NULL;
    bool background = false, unknown = false;
    for (; argc > 1 && strncmp(argv[1], "--", 2) == 0; argc--, argv++) {
        if (strcmp(argv[1], "--background") == 0) {
            background = true;
        } else if (strcmp(argv[1], "--keep") == 0 && argc > 2) {
            folder = argv[2];
            argc--;
            argv++;
        } else {
            unknown = true;
        }
    }
    unsigned long idle = argc > 3 ? strtoul(argv[3], NULL, 10) : 300;
    uint32_t made = set_up(password ? password : "", class_number != NULL && strcmp(class_number, "2") == 0);
    if (made != PJ_SERVED || idle == 0 || unknown || argc > 4) {
        fprintf(stderr, "projector [--background] [--keep FOLDER] [PORT [ADDRESS [IDLE]]]\n"
                        "PJLINK_PASSWORD: 8 to %d letters, digits\n", PJ_PASSWORD_MOST);
        return 2;
    }
    if (folder != NULL) begin_keeping(folder, password, class_number);
    draw_begin(folder);

    int listener = listen_at(argc > 2 ? argv[2] : "127.0.0.1", argc > 1 ? argv[1] : "4352");
    if (background) go_to_background();
    for (size_t place = 0; place < PJ_PLACES; place++) peers[place].socket = -1;
    for (passed = milliseconds(); !is_over;) {
        struct pollfd waiting[PJ_PLACES + 2] = {{listener, POLLIN, 0}, {operator, POLLIN, 0}};
        for (size_t place = 0; place < PJ_PLACES; place++) /* poll passes over a socket of -1 */
            waiting[place + 2] = (struct pollfd){peers[place].socket, POLLIN, 0};
        int ready = poll(waiting, PJ_PLACES + 2, (int)(1000 - (milliseconds() - passed) % 1000));
        if (ready < 0 && errno != EINTR) die("poll");
        pass_time();
        if (ready > 0 && waiting[1].revents != 0) hear_operator();
        end_idle(idle);
        if (ready <= 0) continue;
        serve_all();
        if (waiting[0].revents != 0) greet(listener);
    }
    pass_time();
    keep_end();
}
