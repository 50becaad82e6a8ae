/* Keeps a projector's stored form and recorded log in a folder: for examples/projector.c, and to be copied. As the
   sockets are, this is what stands around the record, and no part of what is proved. docs/LINKING.md, "A recorded log",
   is the recipe; it also says what is lost at a loss of power.

       0001.form       the stored form that the log begins with
       0001.md5        its MD5, as md5sum writes it: `md5sum -c 0001.md5` tells whether the form is whole
       0001-0001.log   the files of the log's chain, in order
       0001-0002.log
       0001.ended      nothing in it: the log does not go on
       reserve         room on the disk

   The first number is the generation. It is 1 at the set-up; a start begins a later one, off, where the log had ended.
   Both numbers have more digits from 10,000 on. All files are their owner's alone to read: a form has the password in
   clear, and a log what a dictionary can be tried on.

   Each line is written before the call that says it returns from here, so a host that is killed loses no line; the
   files are synced every KEEP_SYNCED seconds, before a new file and at a stop. A new file begins at midnight (UTC), at
   each start and where keep_next_file is called.

   What can't be written ends the recording, and never the projector: standard error says so, the log has ended, the
   room on the disk is given up, and every KEEP_SYNCED seconds the form of a new generation is stored, with the lamps'
   seconds as they are then. The next start begins with the last of these; where there is none, with what the log
   tells. */
#ifndef KEEP_H
#define KEEP_H

#include "ceiling.h"

enum {
    KEEP_SECONDS = 60, /* that pass are added up to so many, or until another line is written */
    KEEP_SYNCED = 60   /* seconds */
};

/* Takes up what the folder has, or begins there with the device as it was set up, and leaves in *device what is
   recorded from here on. Places that were open are closed. Ends the program where the folder is not there or another
   host keeps its log there, where a form does not match its MD5, where a log is damaged, has a gap or does not belong
   to its form, and where a first form can't be written. */
void keep_begin(const char *folder, pj_device *device);

/* A call that was served, after it was made and before its reply is sent. Without keep_begin, or where recording has
   stopped, these do nothing. */
void keep_opened(size_t place, uint32_t random);
void keep_received(size_t place, const uint8_t *bytes, size_t taken);
void keep_passed(uint32_t seconds);
void keep_closed(size_t place);
void keep_fault(bool mark);
void keep_errors(const uint8_t *digits, size_t count);
void keep_mark(size_t lamp, bool enabled);

/* States, and begins the next file of the chain. */
void keep_next_file(void);

/* What is due by the clock. To be called every second or so. */
void keep_time(void);

/* States, and ends. */
void keep_end(void);

#endif
