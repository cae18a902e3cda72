/* A replicated register under mobile Byzantine faults, rehearsed from a packed plan; the packing, the
 * carrying of a plan from one form to the other, a forecast of what playing it takes, and a sheet of the
 * answers.
 *
 * Link with target/staticlib/libcapi.a, which `tools/build library` writes.  docs/FORMATS.md has the
 * bytes of plans and answers, the lists that a plan is packed from and the numbers of the refusals,
 * docs/SHEET.md the columns of a sheet, docs/RULES.md what the numbers of a forecast count.
 *
 * A plan and its answers are in one of two forms: a value has 16 bits in form one and 24 in form two.
 * Their bytes do not say which; the caller names the form by its number, REGISTER_FORM_ONE or
 * REGISTER_FORM_TWO.
 *
 * All functions take any bytes, any numbers and any lengths.  A pointer must be valid for its length
 * and not null, also where the length is 0; lent bytes that are written must overlap nothing else in
 * the same call.
 *
 * Of check, forecast, play, look, judge, sheet, pack, carry and carry_back a result of REGISTER_REFUSED
 * or more is a refusal: REGISTER_REFUSED plus its number.  A refusal leaves all lent bytes as they were.
 *
 * Stack: play and look take under 20 KB, pack under 38 KB, the other functions under 4 KB (measured
 * with the longest plan of each form, on x86-64).  In a build that binds functions lazily the very first
 * call may take up to some 6 KB more.  Nothing is allocated.
 * Threads: there is no global state and nothing is kept between calls.  Calls may run at once if
 * none writes to bytes that another one uses.
 */
#ifndef REGISTER_H
#define REGISTER_H

#include <stddef.h>
#include <stdint.h>

#ifdef __cplusplus
extern "C" {
#endif

/* The forms: values of 16 bits and of 24 bits. */
#define REGISTER_FORM_ONE 1
#define REGISTER_FORM_TWO 2

/* Bytes of the longest plan that check accepts in each form. */
#define REGISTER_LONGEST_PLAN_ONE 34362
#define REGISTER_LONGEST_PLAN_TWO 35619

/* Bytes of a plan worth reading: one more than any header in range implies in either form.  What follows them
 * changes nothing, as the plan is refused for its header or its length by then. */
#define REGISTER_LONGEST_INPUT 35718

/* Bytes of one answer in each form. */
#define REGISTER_ANSWER_ONE 5
#define REGISTER_ANSWER_TWO 6

/* The most reads of a plan that check accepts, in either form: that many times the bytes of one answer
 * hold the answers of any plan. */
#define REGISTER_MOST_READS 168

/* How many numbers a forecast has. */
#define REGISTER_FORECAST 6

/* Bytes of workspace that play and look ask for.  They are zero after a call that was not refused,
 * and later ones unchanged. */
#define REGISTER_WORKSPACE 60000

/* The most stamped values that a server keeps; the bytes of one that look writes, in either form, and of
 * so many. */
#define REGISTER_DEPTH 5
#define REGISTER_PAIR 4
#define REGISTER_PAIRS 20

/* Bytes of one line of a sheet, its line feed among them; a sheet has three lines more than the plan has
 * reads.  Bytes of the longest sheet, in either form. */
#define REGISTER_LINE 81
#define REGISTER_MOST_SHEET 13851

/* What a refusal's number is added to: no other result of the functions that refuse is as large. */
#define REGISTER_REFUSED 16777216

/* Where several apply it is the lowest.  Of a list, a number too wide for its field is the refusal of
 * its part: 2 and 5 to 8. */
enum register_refusal {
    REGISTER_PLAN_SHORT = 1,        /* no such form, or a plan shorter than its form's header: under
                                     * 8 bytes in form one, under 9 in form two */
    REGISTER_HEADER = 2,            /* a header field outside its range; pack: or not ten of them */
    REGISTER_TOO_FEW_SERVERS = 3,   /* fewer than the faults ask for */
    REGISTER_PLAN_LENGTH = 4,       /* length of the plan, or of a list, other than the header implies */
    REGISTER_PLACEMENT = 5,         /* too many servers, or one that isn't there */
    REGISTER_OPERATION = 6,         /* order, party, value, overlap or end */
    REGISTER_FORGERY = 7,           /* order, tick, sender or receiver */
    REGISTER_DELAY = 8,             /* a delay or a final bit */
    REGISTER_ANSWERS_SHORT = 9,     /* play: under 5 bytes for each read, in form two under 6 */
    REGISTER_WORKSPACE_SHORT = 10,  /* play, look: under 60,000 bytes */
    REGISTER_OUT_OF_RANGE = 11,     /* look: no such server or tick */
    REGISTER_ANSWERS_LENGTH = 12,   /* judge, sheet: length other than 5 times the reads, in form two 6
                                     * times */
    REGISTER_OTHER_READ = 13,       /* judge, sheet: begin, reader or zero bit isn't that of the read */
    REGISTER_BUFFER_SHORT = 14,     /* pack: the buffer is shorter than the plan */
    REGISTER_PAGE_SHORT = 15,       /* sheet: the page is shorter than the sheet */
    REGISTER_VALUE_TOO_WIDE = 19,   /* carry_back: a value above 65,535, initial, written or forged */
    REGISTER_CARRIED_SHORT = 20     /* carry, carry_back: the buffer is shorter than the carried plan */
};

/* Checks a plan.  Returns its number of reads. */
size_t register_check(size_t form, const uint8_t *plan, size_t plan_length);

/* The numbers of a forecast, by their place. */
enum register_forecast_number {
    REGISTER_BYTES_OF_ANSWERS = 0,  /* bytes of the answers that play writes */
    REGISTER_MOVES = 1,             /* movements of the faults, the one in tick 0 among them */
    REGISTER_WRITE_MESSAGES = 2,    /* WRITE messages sent: for each write one to each server */
    REGISTER_READ_MESSAGES = 3,     /* READ messages sent: for each read one to each server */
    REGISTER_VOTES = 4,             /* votes sent on receipt of a WRITE: to each other server, by every
                                     * server that is not faulty when the WRITE arrives; a tick's
                                     * deliveries come before its movement */
    REGISTER_MOST_FORGERIES = 5     /* the most forged messages, votes and replies, that arrive in one
                                     * tick, also at a faulty server or after the read's end */
};

/* Forecasts what playing a plan takes, without playing it.  Each number is exactly what playing the plan
 * counts; only ticks below H count (docs/RULES.md, 'What a play counts').  As many of the six as fit stand
 * at the start of numbers, and later ones stay.  numbers_length counts numbers, not bytes; a list of any
 * length may be lent, also of none, and REGISTER_FORECAST has room for all.  Returns REGISTER_FORECAST,
 * however many fit; refuses what check refuses and nothing else. */
size_t register_forecast(size_t form, const uint8_t *plan, size_t plan_length,
                         uint32_t *numbers, size_t numbers_length);

/* Plays a plan and writes the answer to read i into the five bytes from 5 * i on, in form two into the
 * six bytes from 6 * i on; later bytes of the buffer stay.  Returns the number of reads. */
size_t register_play(size_t form, const uint8_t *plan, size_t plan_length,
                     uint8_t *answers, size_t answers_length,
                     uint8_t *workspace, size_t workspace_length);

/* The state of a server, as the low two bits of what look returns. */
enum register_condition {
    REGISTER_FAULTY = 0,    /* taken over; shows nothing */
    REGISTER_CURED = 1,     /* reset after a fault, and learning again */
    REGISTER_CORRECT = 2
};

/* Looks at a server after a tick.  Returns its condition plus 4 times the number of stamped values
 * that it keeps, 0 to 5.  As many of them as fit whole stand at the start of pairs, highest first,
 * in four bytes each: three of the value, the highest first, then its number; later bytes of pairs
 * stay.  In form one the first of the four is 0.  pairs_length may be anything; REGISTER_PAIRS has room
 * for all. */
size_t register_look(size_t form, const uint8_t *plan, size_t plan_length,
                     uint8_t *workspace, size_t workspace_length,
                     size_t server, size_t tick,
                     uint8_t *pairs, size_t pairs_length);

/* Judges answers.  Returns 1 if each is one that a regular register may give, else 0.  It may give
 * the value of the last write that ended at or below the read's begin (the initial value if none
 * did), and that of a write that ended after it and began by the read's end. */
size_t register_judge(size_t form, const uint8_t *plan, size_t plan_length,
                      const uint8_t *answers, size_t answers_length);

/* Writes answers as a sheet to pin up, a page of lines of 80 characters and a line feed each: a heading,
 * a rule, a line for each read, an empty line.  A read's line has begin, reader, end, value, number and
 * count, headed begin, screen, end, cue, number and count, and in its last column, headed writing, a *
 * exactly where some write of the plan was concurrent with the read.
 * The answers need not be those of play; nothing is judged.  They can be read back from the page.
 *
 * The sheet stands at the start of page, and later bytes of page stay; any page may be lent, and
 * REGISTER_MOST_SHEET bytes have room for every sheet.  Returns the number of its bytes,
 * REGISTER_LINE for each read and for three lines more. */
size_t register_sheet(size_t form, const uint8_t *plan, size_t plan_length,
                      const uint8_t *answers, size_t answers_length,
                      uint8_t *page, size_t page_length);

/* The fields of an answer. */
enum register_answer_field {
    REGISTER_BEGIN = 0,     /* the tick in which the read begins; it ends 2δ ticks later */
    REGISTER_READER = 1,    /* the reader, counted from 1 */
    REGISTER_VALUE = 2,     /* the value read */
    REGISTER_NUMBER = 3,    /* its number: 0 for the initial value, 1 for the first one written */
    REGISTER_COUNT = 4      /* how many servers named it to the reader */
};

/* Reads a field of answer i, counted from 0.  Returns 0 where the bytes end before answer i does,
 * and for any other form or field.  Nothing is checked. */
size_t register_answer(size_t form, const uint8_t *answers, size_t answers_length,
                       size_t i, size_t field);

/* The numbers in a plan's header. */
enum register_header_field {
    REGISTER_SERVERS = 0,       /* n */
    REGISTER_FAULTS = 1,        /* f: the most servers that are faulty at a time */
    REGISTER_DELTA = 2,         /* δ: the longest delay */
    REGISTER_PERIOD = 3,        /* Δ: the ticks from one movement of the faults to the next */
    REGISTER_READERS = 4,       /* s */
    REGISTER_TICKS = 5,         /* H */
    REGISTER_INITIAL = 6,       /* the initial value */
    REGISTER_OPERATIONS = 7,    /* how many operations the plan has */
    REGISTER_FORGERIES = 8      /* how many forged messages it has */
};

/* Reads a number of a plan's header.  Returns 0 for a plan shorter than its form's header, and for any
 * other form or field.  Nothing is checked: the numbers of an accepted plan are in their ranges. */
size_t register_header(size_t form, const uint8_t *plan, size_t plan_length, size_t field);

/* Packs a plan from five lists of numbers, which are the same in either form, one number for each field
 * in packed order:
 *
 *   header      ten: the fields of enum register_header_field in their order, then 0
 *   placements  one for each movement below H: the faulty servers as a number of 16 bits, in which
 *               server 0 is the top bit, 32768, server 1 the next, 16384, and so on
 *   operations  three for each: tick, party (0 the writer, else the reader), value (0 for a read)
 *   forgeries   five for each: tick, sender, receiver, value, number.  Servers are 0 to n - 1, the
 *               writer n, reader r is n + r
 *   delays      one for each tick, sender and receiver, in that order, the parties numbered as under
 *               forgeries: 1 to δ, or 0 where no messages go from the one to the other
 *
 * The lengths count numbers, not bytes.  A list of no numbers may have any pointer that is not null.
 *
 * The plan stands at the start of out, and later bytes of out stay; REGISTER_LONGEST_PLAN_ONE has room
 * for any of form one, REGISTER_LONGEST_PLAN_TWO for any.  Returns the number of its bytes.  Check
 * accepts what pack writes, and pack refuses what check would, by the same numbers, and last of all a
 * buffer that is too short (14). */
size_t register_pack(size_t form, const uint32_t *header, size_t header_length,
                     const uint32_t *placements, size_t placements_length,
                     const uint32_t *operations, size_t operations_length,
                     const uint32_t *forgeries, size_t forgeries_length,
                     const uint32_t *delays, size_t delays_length,
                     uint8_t *out, size_t out_length);

/* Carries a plan from form one to form two, and from form two back to form one.  Every field has the
 * number that it had.  The carried plan stands at the start of out, and later bytes of out stay;
 * REGISTER_LONGEST_PLAN_TWO and REGISTER_LONGEST_PLAN_ONE have room for any.  Returns the number of its
 * bytes: that of the plan and one more, and one for each operation and forged message; on the way back
 * as many less.
 *
 * Check accepts what is carried, and played it gets the same answers.  A plan that is carried to form
 * two and back is the same bytes.  What check refuses is refused by the same number; then, on the way
 * back alone, a value that form one has no room for (19); then a buffer that is too short (20). */
size_t register_carry(const uint8_t *plan, size_t plan_length, uint8_t *out, size_t out_length);
size_t register_carry_back(const uint8_t *plan, size_t plan_length, uint8_t *out, size_t out_length);

/* The limits above as the library has them; 0 where there is no such form. */
size_t register_most_bytes(size_t form);    /* REGISTER_LONGEST_PLAN_ONE, REGISTER_LONGEST_PLAN_TWO */
size_t register_most_reads(void);           /* REGISTER_MOST_READS */
size_t register_answer_bytes(size_t form);  /* REGISTER_ANSWER_ONE, REGISTER_ANSWER_TWO */
size_t register_workspace_bytes(void);      /* REGISTER_WORKSPACE */

#ifdef __cplusplus
}
#endif

#endif
