/* Draws the random numbers of a projector's openings: unpredictable, and none of them a second time, over a restart
   either. For examples/projector.c, and to be copied. It is what stands around the record, and no part of what is proved.

   A number is what a secret seed makes of a count: ten rounds of a Feistel network over its two halves, each round by
   the MD5 (pj_md5) of the seed, the round and a half. Whatever the seed, this takes the 2^32 counts to 2^32 numbers, all
   different; and who does not know it can foresee none. After so many openings there are no more numbers of 32 bits: then
   the next seed is made of this one, and they come in another order.

   With a folder, the file `random` there has the seed, 32 hexadecimal digits, and behind a space how many counts may
   have been used, ten digits. They are reserved by DRAW_RESERVED, and are on the disk before the first of them is used:
   a loss of power skips some and repeats none. Who can read that file can foresee the numbers.

   The seed is the system's (getrandom), drawn once. A board without a generator has it from whoever sets it up, each
   board its own, at a computer that has one:

       printf '%s %010d\n' "$(head -c 16 /dev/urandom | od -An -tx1 | tr -d ' \n')" 0 > table3/random

   Compiled with DRAW_NO_GENERATOR the program asks the system for none. Without a folder a seed is of one start alone,
   and numbers come again over a restart, though by chance only. */
#ifndef DRAW_H
#define DRAW_H

#include <stdint.h>

enum { DRAW_RESERVED = 256 };

/* Takes up what the folder has, or makes a seed there; NULL: no folder. Ends the program where the file can't be read
   or written or is none of this form, and where there is no generator and no seed. */
void draw_begin(const char *folder);

/* The next number. Where the count can't be written it says so on standard error, once, and goes on. */
uint32_t draw(void);

#endif
