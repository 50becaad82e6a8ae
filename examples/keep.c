/* keep.h has what this does. */
#define _DEFAULT_SOURCE
#include "keep.h"

#include <dirent.h>
#include <errno.h>
#include <fcntl.h>
#include <signal.h>
#include <stdio.h>
#include <stdlib.h>
#include <string.h>
#include <sys/file.h>
#include <time.h>
#include <unistd.h>

enum { NAME_ROOM = 32, MD5_ROOM = 64, RESERVE = 65536 };

static struct {
    const char *name;        /* of the folder */
    int folder;              /* -1: nothing is kept */
    int file;                /* the last of the chain; -1: nothing is recorded */
    off_t length;            /* of the whole lines of that file */
    unsigned generation;     /* the highest that has a form */
    bool saved;              /* that form was stored since recording stopped */
    const pj_device *device; /* what is recorded */
    pj_log log;
    uint32_t seconds;        /* passed, and not recorded yet */
    time_t synced;
    time_t day;              /* on which the file began */
} kept = {.folder = -1, .file = -1};

static uint8_t line[PJ_LOG_ROOM];

/* Says why of a file of the folder, or where that is none, of the folder. */
static void complain(const char *file, const char *why) {
    fprintf(stderr, "%s%s%s: %s\n", kept.name, file == NULL ? "" : "/", file == NULL ? "" : file, why);
}

static void refuse(const char *file, const char *why) {
    complain(file, why);
    exit(1);
}

static void name_log(char name[NAME_ROOM], unsigned generation, uint32_t file) {
    snprintf(name, NAME_ROOM, "%04u-%04u.log", generation, (unsigned)file);
}

static void name_other(char name[NAME_ROOM], unsigned generation, const char *kind) {
    snprintf(name, NAME_ROOM, "%04u.%s", generation, kind);
}

static bool write_all(int file, const uint8_t *bytes, size_t length) {
    while (length > 0) {
        ssize_t wrote = write(file, bytes, length);
        if (wrote < 0 && errno == EINTR) continue;
        if (wrote <= 0) return false;
        bytes += wrote;
        length -= (size_t)wrote;
    }
    return true;
}

/* Forms. */

/* The file has these bytes, or is as it was before, whenever the power goes. */
static bool put_file(const char *name, const uint8_t *bytes, size_t length) {
    int file = openat(kept.folder, "new", O_WRONLY | O_CREAT | O_TRUNC | O_CLOEXEC, 0600);
    if (file < 0) return false;
    bool put = write_all(file, bytes, length) && fsync(file) == 0;
    put = close(file) == 0 && put;
    put = put && renameat(kept.folder, "new", kept.folder, name) == 0 && fsync(kept.folder) == 0;
    int why = errno;
    if (!put) unlinkat(kept.folder, "new", 0);
    errno = why;
    return put;
}

/* The line that md5sum writes of a form's file; its length. */
static size_t md5_line(char text[MD5_ROOM], unsigned generation, const uint8_t *form, size_t length) {
    pj_digest digest = pj_md5(form, length);
    for (size_t k = 0; k < sizeof digest.bytes; k++) snprintf(text + 2 * k, 3, "%02x", digest.bytes[k]);
    return 32 + (size_t)snprintf(text + 32, MD5_ROOM - 32, "  %04u.form\n", generation);
}

/* Stores the record as the form of a generation. The form's file comes last: where it is, its MD5 is. */
static bool put_form(unsigned generation) {
    static uint8_t form[PJ_FORM_MOST];
    char name[NAME_ROOM], text[MD5_ROOM];
    pj_written stored = pj_store_in_place(kept.device, form, sizeof form);
    if (stored.number != PJ_SERVED) return false;
    size_t length = md5_line(text, generation, form, stored.length);
    name_other(name, generation, "md5");
    if (!put_file(name, (const uint8_t *)text, length)) return false;
    name_other(name, generation, "form");
    return put_file(name, form, stored.length);
}

/* What a file has, at most `room` bytes of it. */
static size_t get_file(const char *name, uint8_t *bytes, size_t room) {
    int file = openat(kept.folder, name, O_RDONLY | O_CLOEXEC);
    if (file < 0) refuse(name, strerror(errno));
    size_t length = 0;
    while (length < room) {
        ssize_t got = read(file, bytes + length, room - length);
        if (got < 0 && errno == EINTR) continue;
        if (got < 0) refuse(name, strerror(errno));
        if (got == 0) break;
        length += (size_t)got;
    }
    close(file);
    return length;
}

/* The record is that of the generation's form, and a log of it has nothing yet. */
static void get_form(pj_device *device) {
    static uint8_t form[PJ_FORM_MOST + 1];
    uint8_t stored[MD5_ROOM];
    char name[NAME_ROOM], text[MD5_ROOM];
    name_other(name, kept.generation, "form");
    size_t length = get_file(name, form, sizeof form);
    size_t text_length = md5_line(text, kept.generation, form, length);
    name_other(name, kept.generation, "md5");
    if (get_file(name, stored, sizeof stored) != text_length || memcmp(stored, text, text_length) != 0)
        refuse(name, "is not the MD5 of the form");
    if (pj_load_in_place(device, form, length) != PJ_SERVED) refuse(name, "is of a form that does not load");
    kept.log = pj_log_begun(form, length);
}

/* Recording. */

/* Ends the recording. What is left of a line that was not written whole is taken off, which the next start would do. */
static void stop_recording(const char *why) {
    char name[NAME_ROOM];
    name_log(name, kept.generation, kept.log.file);
    complain(name, why);
    fprintf(stderr, "nothing is recorded any more; the lamps' seconds are stored every %d seconds\n", KEEP_SYNCED);
    if (kept.file >= 0) {
        if (ftruncate(kept.file, kept.length) != 0) complain(name, strerror(errno));
        close(kept.file);
        kept.file = -1;
    }
    unlinkat(kept.folder, "reserve", 0);
    name_other(name, kept.generation, "ended");
    int mark = openat(kept.folder, name, O_WRONLY | O_CREAT | O_CLOEXEC, 0600);
    if (mark < 0 || fsync(kept.folder) != 0) complain(name, strerror(errno));
    if (mark >= 0) close(mark);
    kept.synced = 0; /* so a form is stored at once */
}

/* Appends the line that was made. */
static void append(pj_written made) {
    if (made.number != PJ_SERVED) {
        stop_recording("a line that can't be said");
    } else if (!write_all(kept.file, line, made.length)) {
        stop_recording(strerror(errno));
    } else {
        kept.length += (off_t)made.length;
    }
}

/* Appends the seconds that were added up, which come before any other line. Gives whether one can be appended. */
static bool append_seconds(void) {
    uint32_t seconds = kept.seconds;
    kept.seconds = 0;
    if (kept.file >= 0 && seconds > 0) append(pj_log_passed(&kept.log, seconds, line, sizeof line));
    return kept.file >= 0;
}

void keep_opened(size_t place, uint32_t random) {
    if (append_seconds()) append(pj_log_opened(&kept.log, place, random, line, sizeof line));
}

void keep_received(size_t place, const uint8_t *bytes, size_t taken) {
    if (append_seconds()) append(pj_log_received(&kept.log, place, bytes, taken, line, sizeof line));
}

void keep_closed(size_t place) {
    if (append_seconds()) append(pj_log_closed(&kept.log, place, line, sizeof line));
}

void keep_fault(bool mark) {
    if (append_seconds()) append(pj_log_fault(&kept.log, mark, line, sizeof line));
}

void keep_errors(const uint8_t *digits, size_t count) {
    if (append_seconds()) append(pj_log_errors(&kept.log, digits, count, line, sizeof line));
}

void keep_mark(size_t lamp, bool enabled) {
    if (append_seconds()) append(pj_log_mark(&kept.log, lamp, enabled, line, sizeof line));
}

void keep_passed(uint32_t seconds) {
    if (seconds > UINT32_MAX - kept.seconds) append_seconds();
    kept.seconds += seconds;
    if (kept.seconds >= KEEP_SECONDS) append_seconds();
}

static void sync_file(void) {
    if (!append_seconds()) return;
    kept.synced = time(NULL);
    if (fdatasync(kept.file) != 0) stop_recording(strerror(errno));
}

static void state(void) {
    if (append_seconds()) append(pj_log_stated(&kept.log, kept.device, line, sizeof line));
    sync_file();
}

/* Begins the file of the chain that comes next. It may be there, with nothing in it: a host was killed just here. */
static void begin_file(void) {
    char name[NAME_ROOM], text[36];
    time_t now = time(NULL);
    struct tm parts;
    name_log(name, kept.generation, kept.log.file + 1);
    kept.day = now / 86400;
    kept.length = 0;
    kept.file = openat(kept.folder, name, O_WRONLY | O_CREAT | O_TRUNC | O_APPEND | O_CLOEXEC, 0600);
    if (kept.file < 0 || fsync(kept.folder) != 0) {
        stop_recording(strerror(errno));
        return;
    }
    size_t length = gmtime_r(&now, &parts) == NULL ? 0 : strftime(text, sizeof text, "%Y-%m-%dT%H:%M:%SZ", &parts);
    append(pj_log_file(&kept.log, (const uint8_t *)text, length, line, sizeof line));
    sync_file();
}

void keep_next_file(void) {
    state();
    if (kept.file < 0) return;
    close(kept.file);
    begin_file();
}

/* Stores the form of a new generation, and takes away the one before if it was stored so too. */
static void store_seconds(void) {
    char name[NAME_ROOM];
    kept.synced = time(NULL);
    name_other(name, kept.generation + 1, "form");
    if (!put_form(kept.generation + 1)) {
        complain(name, strerror(errno));
        return;
    }
    if (kept.saved) {
        name_other(name, kept.generation, "form");
        unlinkat(kept.folder, name, 0);
        name_other(name, kept.generation, "md5");
        unlinkat(kept.folder, name, 0);
    }
    kept.saved = true;
    kept.generation++;
}

void keep_time(void) {
    time_t now = time(NULL);
    bool due = now - kept.synced >= KEEP_SYNCED || now < kept.synced;
    if (kept.folder < 0) return;
    if (kept.file < 0) {
        if (due) store_seconds();
    } else if (now / 86400 != kept.day) {
        keep_next_file();
    } else if (due) {
        sync_file();
    }
}

void keep_end(void) {
    if (kept.folder < 0) return;
    state();
    if (kept.file < 0) store_seconds();
}

/* A start. */

static bool is_there(const char *name) {
    return faccessat(kept.folder, name, F_OK, 0) == 0;
}

/* Takes room on the disk, which is given up where the disk is full: for the forms that are stored then. */
static void take_reserve(void) {
    static const uint8_t room[RESERVE];
    if (kept.file >= 0 && !is_there("reserve") && !put_file("reserve", room, sizeof room))
        complain("reserve", strerror(errno));
}

/* Whether this is the name of a form or a log. Its generation is told, and a log's number in the chain; 0 of a form. */
static bool is_ours(const char *name, unsigned *generation, unsigned *file) {
    char again[NAME_ROOM];
    *file = 0;
    if (sscanf(name, "%9u-%9u", generation, file) < 1) return false;
    if (*file > 0) name_log(again, *generation, *file);
    else name_other(again, *generation, "form");
    return *generation > 0 && strcmp(name, again) == 0;
}

/* Finds the highest generation of a form, 0 where there is none; how many files its log has; and that no other log
   needs a form that is missing. */
static uint32_t find(void) {
    uint32_t files = 0;
    unsigned generation, file, highest_log = 0;
    int folder = openat(kept.folder, ".", O_RDONLY | O_DIRECTORY | O_CLOEXEC);
    DIR *entries = folder < 0 ? NULL : fdopendir(folder);
    if (entries == NULL) refuse(NULL, strerror(errno));
    for (struct dirent *entry; errno = 0, (entry = readdir(entries)) != NULL;) {
        if (!is_ours(entry->d_name, &generation, &file)) continue;
        if (file == 0 && generation > kept.generation) kept.generation = generation;
        if (file > 0 && generation > highest_log) highest_log = generation;
    }
    if (errno != 0) refuse(NULL, strerror(errno));
    rewinddir(entries);
    for (struct dirent *entry; errno = 0, (entry = readdir(entries)) != NULL;) {
        if (is_ours(entry->d_name, &generation, &file) && file > 0 && generation == kept.generation) files++;
    }
    if (errno != 0) refuse(NULL, strerror(errno));
    closedir(entries);
    if (highest_log > kept.generation) {
        char name[NAME_ROOM];
        name_other(name, highest_log, "form");
        refuse(name, "is missing, and its log is there");
    }
    return files;
}

/* Plays a file of the chain on the record: the length of its whole lines. */
static off_t play_file(const char *name, FILE *in, pj_device *device) {
    uint8_t reply[PJ_REPLY_ROOM];
    size_t length = 0;
    off_t at = 0, whole = 0;
    unsigned long lines = 0;
    for (int byte; (byte = getc(in)) != EOF; at++) {
        if (byte != '\n') { /* a line that fills the room is none, whatever else it has */
            if (length < sizeof line) line[length++] = (uint8_t)byte;
            continue;
        }
        lines++;
        pj_written played = pj_log_play(&kept.log, device, line, length, reply, sizeof reply);
        if (played.number != PJ_SERVED) {
            char why[80];
            snprintf(why, sizeof why, "line %lu does not belong there, by number %u", lines, (unsigned)played.number);
            refuse(name, why);
        }
        length = 0;
        whole = at + 1;
    }
    if (ferror(in)) refuse(name, strerror(errno));
    return whole;
}

/* Takes off what stands behind a file's last line end: it was cut off when the host was killed. */
static bool cut(const char *name, off_t length) {
    complain(name, "what stands behind the last line end is taken away");
    int file = openat(kept.folder, name, O_WRONLY | O_CLOEXEC);
    bool done = file >= 0 && ftruncate(file, length) == 0 && fsync(file) == 0;
    if (!done) complain(name, strerror(errno));
    if (file >= 0) close(file);
    return done;
}

/* Plays the chain on the record that its form gave. Gives whether the last file now ends with a line end. */
static bool play(pj_device *device, uint32_t files) {
    char name[NAME_ROOM];
    bool is_whole = true;
    for (uint32_t k = 1; k <= files; k++) {
        name_log(name, kept.generation, k);
        int file = openat(kept.folder, name, O_RDONLY | O_CLOEXEC);
        if (file < 0) refuse(name, errno == ENOENT ? "is missing, and a later one is there" : strerror(errno));
        FILE *in = fdopen(file, "r");
        if (in == NULL) refuse(name, strerror(errno));
        off_t whole = play_file(name, in, device);
        off_t all = lseek(file, 0, SEEK_END);
        fclose(in);
        if (whole < all && k < files) refuse(name, "has no line end at its end");
        if (whole > 0 && kept.log.file != k) refuse(name, "has not the header that its name says");
        if (whole < all) is_whole = cut(name, whole);
    }
    return is_whole;
}

/* Goes on with the last file of the chain that has a header: it is stated in, and a new file begins. */
static void go_on(void) {
    char name[NAME_ROOM];
    if (kept.log.file > 0) {
        name_log(name, kept.generation, kept.log.file);
        kept.file = openat(kept.folder, name, O_WRONLY | O_APPEND | O_CLOEXEC);
        kept.length = kept.file < 0 ? 0 : lseek(kept.file, 0, SEEK_END);
        if (kept.file < 0) {
            stop_recording(strerror(errno));
        } else {
            keep_next_file();
        }
    } else {
        begin_file();
    }
}

void keep_begin(const char *folder, pj_device *device) {
    char name[NAME_ROOM];
    signal(SIGXFSZ, SIG_IGN); /* a file that may not grow, and standard error that nobody reads, are failed writes */
    signal(SIGPIPE, SIG_IGN);
    kept.name = folder;
    kept.device = device;
    kept.folder = open(folder, O_RDONLY | O_DIRECTORY | O_CLOEXEC);
    if (kept.folder < 0) refuse(NULL, strerror(errno));
    if (flock(kept.folder, LOCK_EX | LOCK_NB) != 0)
        refuse(NULL, errno == EWOULDBLOCK ? "another host keeps its log there" : strerror(errno));

    uint32_t files = find();
    if (kept.generation == 0) {
        if (!put_form(1)) refuse("0001.form", strerror(errno));
        kept.generation = 1;
    }
    get_form(device);
    bool is_whole = play(device, files);

    name_other(name, kept.generation, "ended");
    if (is_there(name)) { /* the next generation begins with what this one tells of the lamps */
        if (put_form(kept.generation + 1)) {
            kept.generation++;
            get_form(device);
            begin_file();
        } else {
            stop_recording(strerror(errno));
        }
    } else if (is_whole) {
        go_on();
    } else {
        stop_recording("no line can stand behind its end");
    }
    for (size_t place = 0; place < PJ_PLACES; place++) {
        if (device->connections[place].phase == PJ_PHASE_CLOSED) continue;
        if (pj_close_in_place(device, place) != PJ_SERVED) refuse(NULL, "a place can't be closed");
        keep_closed(place);
    }
    take_reserve();
}
