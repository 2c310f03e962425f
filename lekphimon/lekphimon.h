/* The proved day engine and reader for the Low Speed Ticker, for C. `tools/library` builds target/staticlib/libexports.a; the
   promises stand in crates/exports_c, crates/exports, crates/facts_numbers and crates/read_numbers as equations, here in words.

   None of the functions requires anything of the values that it is handed: any line, any tape, any contents of the lent
   memory. The memory must be there: no pointer is NULL, also not one with length 0, and what a function writes to overlaps
   nothing else that it is lent. The functions keep nothing between calls; calls on different memory may run side by side. */
#ifndef LEKPHIMON_H
#define LEKPHIMON_H

#include <stddef.h>
#include <stdint.h>

#ifdef __cplusplus
extern "C" {
#endif

/* A day's state, lent to every call: settings, and the tables of 512 securities and of their names. A call finds a fresh
   state or what an earlier call left.

   settings: the date, yyyymmdd, 0 before a D line is accepted; the letter of the mode as in an M line ('N', 'D', 'R', 'P';
   any other number is normal); the volume delete level; the MPV level.
   table: eleven numbers a security: unit of trading (0 where none is entered), network and primary market as in the S line,
   first-day issue, last printed price, high, low, last (in units of 10^-8 dollars, 0 for none), and three counts.
   names: nineteen bytes a security, columns 6 to 24 of its S line. */
enum { LEKPHIMON_SETTINGS = 4, LEKPHIMON_TABLE = 5632, LEKPHIMON_NAMES = 9728 };

/* The settings of a fresh state: no D line accepted yet. The tables may then hold anything; a D line clears them. */
void lekphimon_fresh(uint64_t settings[LEKPHIMON_SETTINGS]);

/* One line, of any bytes and any length, without its line feed. Answers 0 where it is accepted, and document 01's number of
   the refusal, 1 to 13, where it is not.

   Accepted: the print stands at the start of the lent tape, and *count is its length, 0 where nothing prints; the bytes of
   the tape after the print keep their values; settings and tables are those after the line.
   Refused: *count is 0; settings, tables and tape are byte for byte as they were. 13 is answered exactly where nothing
   else stops the line and tape_length is below the print's length. */
uint64_t lekphimon_take_line(uint64_t settings[LEKPHIMON_SETTINGS], uint64_t table[LEKPHIMON_TABLE],
                             uint8_t names[LEKPHIMON_NAMES], const uint8_t *line, size_t line_length, uint8_t *tape,
                             size_t tape_length, uint64_t *count);

/* A side as five numbers, 0 for none. */
enum {
    LEKPHIMON_PRICE,    /* in units of 10^-8 dollars */
    LEKPHIMON_LETTERS,  /* a bit for each letter of LEKPHIMON_LETTER_ORDER, the first the lowest */
    LEKPHIMON_DAYS,     /* seller's days */
    LEKPHIMON_PREVIOUS, /* previous last, in units of 10^-8 dollars */
    LEKPHIMON_VOLUME
};

/* The condition letters as a print shows them: N as M, C as K. */
#define LEKPHIMON_LETTER_ORDER "OSLMKRBTJG"

/* Where the numbers of lekphimon_shown stand. The first side is the only one but in a correction, where it is the original
   and the second the correcting trade. A kind is 'A' announcement, 'T' trade, 'X' cancel, 'E' error, 'C' correction. */
enum {
    LEKPHIMON_SHOWN_SECURITY,                                /* its number, 0 at an announcement */
    LEKPHIMON_SHOWN_TEMPORARY,                               /* 1: the temporary suffix is shown */
    LEKPHIMON_SHOWN_KIND,                                    /* 0: nothing is shown */
    LEKPHIMON_SHOWN_SIDE,                                    /* five numbers */
    LEKPHIMON_SHOWN_CORRECTING = LEKPHIMON_SHOWN_SIDE + 5,   /* five more */
    LEKPHIMON_SHOWN_NUMBERS = LEKPHIMON_SHOWN_CORRECTING + 5
};

/* What lekphimon_take_line would add to the shown facts with this line and a tape of `room` bytes; all numbers are 0 where
   the line is refused or prints nothing. An announcement's text is the print. Outside normal mode a cancel, an error and a
   correction show no price and no volume, and a trade a volume only if that put characters on the tape: 0 for none. Nothing
   but `numbers` is written. */
void lekphimon_shown(const uint64_t settings[LEKPHIMON_SETTINGS], const uint64_t table[LEKPHIMON_TABLE],
                     const uint8_t names[LEKPHIMON_NAMES], const uint8_t *line, size_t line_length, size_t room,
                     uint64_t numbers[LEKPHIMON_SHOWN_NUMBERS]);

/* Where the numbers of lekphimon_read_at stand; kinds and sides as above. */
enum {
    LEKPHIMON_READ_LENGTH,      /* of the print, in bytes */
    LEKPHIMON_READ_NAME_AT,     /* where in the print its undivided name begins */
    LEKPHIMON_READ_NAME_LENGTH, /* 0 at an announcement */
    LEKPHIMON_READ_KIND,
    LEKPHIMON_READ_SIDE,                                   /* five numbers */
    LEKPHIMON_READ_CORRECTING = LEKPHIMON_READ_SIDE + 5,   /* five more */
    LEKPHIMON_READ_NUMBERS = LEKPHIMON_READ_CORRECTING + 5
};

/* The reader: the longest normal print at a place of a tape. Answers 0 where there is one, and then its numbers; 14 exactly
   where no normal print begins there or the place is past the end, and then all numbers are 0. */
uint64_t lekphimon_read_at(const uint8_t *tape, size_t tape_length, size_t place,
                           uint64_t numbers[LEKPHIMON_READ_NUMBERS]);

#ifdef __cplusplus
}
#endif

#endif
