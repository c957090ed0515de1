/*
 * Justrave: the arbiter of a dosing unit's field line, for firmware in C. Clauses are those of docs/SPECIFICATION.md.
 *
 * Link target/staticlib/libjustrave.a, which `make library` proves and builds (x86-64). It needs no heap, no set-up and of
 * the C library at most memcpy and memset, and keeps nothing between two calls: all there is of an arbiter is the state that the
 * caller lends.
 *
 * A state is words of 64 bits, JUSTRAVE_STATE_WORDS(places) of them. They are the library's own, and it works on them where they lie;
 * nothing but these functions should write them. They are plain data: they may be copied, compared, and kept over a power cut, in a copy
 * that was made between two calls. Words that were damaged meanwhile are refused (JUSTRAVE_BROKEN_STATE) wherever they break a rule of
 * the arbiter's state.
 *
 * Room (clause 15.2): words have room for 1 to JUSTRAVE_MAX_PLACES places, and their length says for how many. A unit lends room for as
 * many places as its line has, or for more, and pays in memory and in time for the room that it lends. A table whose N is above the room
 * is refused 2, as N above the largest is. But for that the room changes no answer: zeros put behind the words, up to those of a larger
 * room, leave every call's answer what it was, and the words what they were with the zeros behind them. That is proved.
 *
 * The layout (clause 15.6). Words are for calls of one layout: a library that keeps them in another way has another number,
 * JUSTRAVE_LAYOUT, which justrave_layout() tells of the one that was linked. Words of different layouts can be as many, so that no length
 * tells them apart: a unit that keeps words keeps the number beside them, and looks at it when it has been updated.
 * - With JUSTRAVE_LAYOUT the words are used as they are, with zeros behind them where there is more room now.
 * - With JUSTRAVE_OLD_LAYOUT they were written while N was at most JUSTRAVE_OLD_PLACES. justrave_carry makes a state of them that goes on
 *   where the old one stood. From then on JUSTRAVE_LAYOUT is the number to keep, beside the new words.
 * - With any other number, with damaged words, or with more than there is room for, the unit starts anew:
 *
 *       memset(state, 0, sizeof state);
 *       if (kept_layout == JUSTRAVE_LAYOUT && kept_length <= STATE_WORDS
 *           && justrave_standing(kept, kept_length, line, JUSTRAVE_STANDING_ANSWER) == JUSTRAVE_ACCEPTED) {
 *           memcpy(state, kept, kept_length * sizeof state[0]);
 *       } else if (kept_layout == JUSTRAVE_OLD_LAYOUT) {
 *           justrave_carry(kept, kept_length, state, STATE_WORDS);
 *       }
 *       if (justrave_standing(state, STATE_WORDS, line, JUSTRAVE_STANDING_ANSWER) != JUSTRAVE_ACCEPTED) {
 *           justrave_start(table, table_length, 0, state, STATE_WORDS);
 *       }
 *
 *   justrave_standing refuses damaged words, and those that are cut short, before zeros are put behind them. Where nothing was taken the
 *   state is all 0, which it refuses too.
 *
 * What the caller owes, since C cannot say it in a type (clause 15.7):
 * - a pointer is aligned for its type and has as many elements behind it as its length says. With length 0 nothing is read or written
 *   behind it, and NULL may be lent;
 * - memory that is lent for writing overlaps no other memory of the same call;
 * - while a call runs nobody else writes its memory, and nobody else reads what is lent to it for writing.
 *
 * Nothing else is asked. Any number, any bytes and any words may be handed in: every call has an answer. But C cuts a number down to
 * the type of its parameter before the call: the numbers of a table have 32 bits, and a larger one arrives as another number.
 *
 * The stack. The library follows the System V calling convention of x86-64. It finds the stack aligned to 16 bytes, as every caller
 * leaves it, and keeps it so; and it uses the red zone, the 128 bytes below the stack pointer. An interrupt handler that runs on the same
 * stack must skip these 128 bytes before it writes, as the handlers of a process's signals do. How many bytes of stack an accepted
 * call takes, its return address and the red zone included, measured with the largest N by tests/stack: an order 4,360, a write 1,256, a
 * start from bytes 488, a chain 176, one from numbers 152, a carrying over and a lead 144, figures 128, a slot and a run 112, an account
 * and a standing 96, a post 80, the layout and the number of a state's words 24. JUSTRAVE_STACK is more than each.
 */
#ifndef JUSTRAVE_H
#define JUSTRAVE_H

#include <stddef.h>
#include <stdint.h>

#if SIZE_MAX != UINT64_MAX
#error "justrave is built for machines whose sizes have 64 bits"
#endif

#ifdef __cplusplus
extern "C" {
#endif

/* The layout that this header is for. If justrave_layout() differs, header and library are of different versions. */
#define JUSTRAVE_LAYOUT 3

/* The largest N: for at most so many places words have room. */
#define JUSTRAVE_MAX_PLACES 64

/*
 * How many words a state has that has room for so many places, 1 to JUSTRAVE_MAX_PLACES; a macro, so that a state can be declared
 * without a heap. justrave_state_words() is the library's own count.
 */
#define JUSTRAVE_STATE_WORDS(places) (3 + 6 * (places))

/*
 * The layout that justrave_carry takes, the most places that its words had room for, and how many words had room for so many places. These
 * three stay what they are, whatever becomes of the present layout.
 */
#define JUSTRAVE_OLD_LAYOUT 2
#define JUSTRAVE_OLD_PLACES 16
#define JUSTRAVE_OLD_WORDS(places) (3 + 6 * (places))

/*
 * How many numbers a table has that is given as numbers, and that is started in words with room for so many places: D, N and four to each
 * of these places.
 */
#define JUSTRAVE_TABLE_NUMBERS(places) (2 + 4 * (places))

/* More bytes of stack than any call was measured to take. */
#define JUSTRAVE_STACK 6144

/* How many words, or for the lead how many signed numbers, each answer has. */
#define JUSTRAVE_SLOT_ANSWER 2
#define JUSTRAVE_FIGURES_ANSWER 2
#define JUSTRAVE_CHAIN_ANSWER 1
#define JUSTRAVE_LEAD_ANSWER 1
#define JUSTRAVE_WRITE_ANSWER 1
#define JUSTRAVE_ORDER_ANSWER 1
#define JUSTRAVE_ACCOUNT_ANSWER 2
#define JUSTRAVE_STANDING_ANSWER 2

/* What a run writes into its log for a slot in which nobody was granted. */
#define JUSTRAVE_LOG_IDLE 255

/* The name, in a chain call, of a place that follows nobody. */
#define JUSTRAVE_NOBODY 255

/* The longest log, in bytes, and so the most slots of one run. */
#define JUSTRAVE_MAX_LOG 65536

/* Room for the bytes of any table: at most 5 for each of its numbers. */
#define JUSTRAVE_TABLE_ROOM (5 * JUSTRAVE_TABLE_NUMBERS(JUSTRAVE_MAX_PLACES))

/* The highest slot number, two to the power 62: no slot is done at it. */
#define JUSTRAVE_MAX_SLOT ((uint64_t)1 << 62)

/*
 * An outcome (clause 15.4), which every call returns but justrave_layout and justrave_state_words. 0 is accepted. Any other is a refusal:
 * its number, of those below, in the low 8 bits, and above them the place that the refusal names, plus 1, or 0 if it names none. Refusals
 * 3, 4, 5, 7, 16 and 17 always name a place, so an outcome is never equal to their names: compare JUSTRAVE_NUMBER(outcome) with a name,
 * and the outcome itself with nothing but JUSTRAVE_ACCEPTED.
 *
 * A refused call changes nothing (clause 1.5): the state, the log, the buffer and the answer are what they were. Only a call that makes a
 * state writes when it is refused (clause 1.6), unless for a length (255): it sets every word of the state to 0, and every call on such
 * words but one that makes a state is refused 23. Make a state in memory of its own where the one that was there is still wanted.
 */
enum {
    JUSTRAVE_ACCEPTED = 0,

    /* caused by the input: clauses 12.1 to 12.17 */
    JUSTRAVE_DENOMINATOR = 1,  /* D is not 1 to 65,535 */
    JUSTRAVE_PLACES = 2,       /* N is not 1 to JUSTRAVE_MAX_PLACES or is above the room, or of numbers given past place N-1 one is not 0 */
    JUSTRAVE_RATE = 3,         /* a rate is not 1 to D; names the place */
    JUSTRAVE_BURST = 4,        /* a burst is not D to 16,777,216; names the place */
    JUSTRAVE_NEED = 5,         /* a need's j is not 1 to 255, or its L not 1 to 1,073,741,824; names the place */
    JUSTRAVE_RATE_SUM = 6,     /* the rates sum to more than D */
    JUSTRAVE_FINISH = 7,       /* a finish figure is above its need's L; names the lowest such place */
    JUSTRAVE_ENDED = 8,        /* the bytes end inside or before a number */
    JUSTRAVE_MALFORMED = 9,    /* a number has more than 32 bits or five bytes, or is not in its shortest form */
    JUSTRAVE_BYTES_LEFT = 10,  /* bytes are left after the last place */
    JUSTRAVE_NO_SUCH_PLACE = 11, /* the place, or one that is followed, is not below N */
    JUSTRAVE_FIRST_SLOT = 12,  /* the first slot number is above JUSTRAVE_MAX_SLOT */
    JUSTRAVE_LOG_LENGTH = 13,  /* the log is longer than JUSTRAVE_MAX_LOG bytes */
    JUSTRAVE_BUFFER = 14,      /* the lent buffer is shorter than the table's bytes */
    JUSTRAVE_NO_ORDER = 15,    /* no order of the requestors passes */
    JUSTRAVE_CIRCLE = 16,      /* places follow one another in a circle; names the lowest place that is on one */
    JUSTRAVE_NEED_ABOVE_BURST = 17, /* a need's j times D is above the burst of its place; names the place */

    /* caused by the state: clauses 12.21 to 12.23 */
    JUSTRAVE_BACKLOG = 21,     /* more than 65,535 transfers would wait at the place */
    JUSTRAVE_SLOT_LIMIT = 22,  /* no slot number is left, or for a run too few */
    JUSTRAVE_BROKEN_STATE = 23, /* the state, or the old words, break a rule: no accepted start and calls lead to them */

    /* clauses 12.255 and 15.3, caused by the input and tested before all else: a lent state is not as long as one with room for 1 to
       JUSTRAVE_MAX_PLACES places; a lent answer does not have its length; names or a table's numbers are not as many as the state's room
       asks; old words are not JUSTRAVE_OLD_WORDS of 1 to JUSTRAVE_OLD_PLACES places, or the state has less room than they had */
    JUSTRAVE_LENGTH = 255
};

/* The number of an outcome: one of the names above. */
#define JUSTRAVE_NUMBER(outcome) ((int)((uint64_t)(outcome) & 255))

/* Whether an outcome names a place, and which. JUSTRAVE_PLACE means something only if JUSTRAVE_NAMES_PLACE holds. */
#define JUSTRAVE_NAMES_PLACE(outcome) (((uint64_t)(outcome) >> 8) != 0)
#define JUSTRAVE_PLACE(outcome) ((size_t)(((uint64_t)(outcome) >> 8) - 1))

/* Whether a refusal was caused by the state (21 to 29) or else by the input. */
#define JUSTRAVE_CAUSED_BY_STATE(outcome) ((unsigned)JUSTRAVE_NUMBER(outcome) - 21u <= 8u)

/*
 * Of the answer of an accepted slot: its stamp, whether a place was granted, and which. JUSTRAVE_GRANTED means something only if
 * JUSTRAVE_IS_GRANTED holds.
 */
#define JUSTRAVE_STAMP(answer) ((answer)[0])
#define JUSTRAVE_IS_GRANTED(answer) ((answer)[1] != 0)
#define JUSTRAVE_GRANTED(answer) ((size_t)((answer)[1] - 1))

/* The number of the layout in which the library keeps a state's words. */
uint64_t justrave_layout(void);

/* How many words a state has that has room for so many places; 0 for a room that no state has. */
size_t justrave_state_words(size_t places);

/*
 * Reads a table's bytes and makes a state that stands at slot number `first`: every credit is its burst, every backlog 0 (clause 4.2). The
 * words may hold anything before. Refused 255; then 8, 9 and 1 to 5 number by number, with 17 behind the last number of each place and
 * ahead of the next one's first; then 10, 6, 7; then 12 (clause 13.3). The words are then all 0, but for 255, which changes nothing.
 */
uint64_t justrave_start(const uint8_t *table, size_t table_length, uint64_t first, uint64_t *state, size_t state_length);

/*
 * The same for a table given as numbers, JUSTRAVE_TABLE_NUMBERS(places) of them for words with room for so many places: D, N, then rate,
 * burst and the need's j and L of each place (clause 15.1). The four numbers of every place past N-1 are 0, or the table is refused 2. Of a
 * table that is accepted nobody has to encode the bytes: start it from its numbers, and justrave_write writes them. Refused 255; then 1 and
 * 2; then 3, 4, 5 and 17 of each place before the next; then 6, 7 and 12 (clause 13.3). The words are then all 0, but for 255, which
 * changes nothing.
 */
uint64_t justrave_start_numbers(const uint32_t *numbers, size_t numbers_length, uint64_t first, uint64_t *state,
                                size_t state_length);

/*
 * Makes a state of words of the old layout, JUSTRAVE_OLD_WORDS(places) of them for 1 to JUSTRAVE_OLD_PLACES places: with the same table,
 * slot number, credits and backlogs, and 0 past its last place (clauses 11.4 and 11.5). Every call on it but a write then answers as it
 * would have answered before; only names for a chain, and numbers for a start in the same words, are lent for the new room. A write does so
 * too, unless the table has a need above its burst, which a start took at that time: this is carried over, and refused by a write alone.
 * From then on JUSTRAVE_LAYOUT is kept beside its words. The words of the state have room for as many places as the old ones, or for more,
 * and may hold anything before. The old words are only read, and are other memory than the state's: a state is not made over the words that
 * it is made of.
 *
 * Refused 255, which changes nothing; and 23 where the old words break a rule, for which N is held to the places that they had room for.
 * The words of the state are then all 0 (clauses 13.14 and 1.6).
 */
uint64_t justrave_carry(const uint64_t *old, size_t old_length, uint64_t *state, size_t state_length);

/*
 * For whoever knows the requestors and not their priorities (clauses 8.1 to 8.3). The table's bytes list them in any order, up to
 * JUSTRAVE_MAX_PLACES of them, as no words are lent; written to the buffer's start are the bytes of a table with the same requestors that a
 * start takes, and the rest of the buffer is left. The answer is how many bytes were written: as many as were read. justrave_write cannot
 * write a list that no start takes. The bytes of one are D, N, then rate, burst, j and L of each requestor: seven bits of a number to a
 * byte, the low ones first, in as few bytes as it takes, with the top bit set in every byte of a number but its last (clause 3.1).
 *
 * Where several orders would do, the list decides. The lowest priority goes to the last requestor in the list that can bear all others
 * above it, which is to say that its finish figure there is at most its need's L; it leaves the list, the others stay as they stood, and
 * the next higher priority is given away in the same way. So a table that a start takes comes back as it is. Refused 255; then 8, 9 and
 * 1 to 5 number by number, with 17 behind the last number of each place, where a place is one of the list; then 10, 6, 15, 14; never 7
 * (clause 13.6).
 */
uint64_t justrave_order(const uint8_t *table, size_t table_length, uint8_t *buffer, size_t buffer_length, uint64_t *answer,
                        size_t answer_length);

/* Adds `count` transfers (0 is allowed) to a place's backlog (clause 5.1). Refused 255, 23, 11, 21 (clause 13.7). */
uint64_t justrave_post(uint64_t *state, size_t state_length, size_t place, uint64_t count);

/*
 * Does one slot (clauses 5.2 to 5.6). The answer is the slot's stamp, and the place that was granted plus 1, or 0 if the slot is idle.
 * Refused 255, 23, 22 (clause 13.8); a refused slot uses no stamp up.
 */
uint64_t justrave_slot(uint64_t *state, size_t state_length, uint64_t *answer, size_t answer_length);

/*
 * Does as many slots as the log has bytes, and writes for each the place that was granted, or JUSTRAVE_LOG_IDLE (clause 6.1). A log
 * without a byte leaves all as it is. Refused 255, 23, 13, 22 (clause 13.9).
 */
uint64_t justrave_run(uint64_t *state, size_t state_length, uint8_t *log, size_t log_length);

/*
 * Answers two numbers of slots. The wait: at most so many slots in a row go to the places above. The finish figure: where at least
 * `transfers`, 1 to 255, wait at the place, as many are granted to it within that figure. The wait is B / R rounded up, where B sums the
 * bursts above the place, and R is what the rates above it leave of D. The finish figure is the sum of the fractions B / R and
 * transfers x D / rate, and only that sum is rounded up (clauses 7.1 to 7.4). The place's burst is no limit to what is asked. Refused 255,
 * 23, 11, 5 (clause 13.11).
 */
uint64_t justrave_figures(const uint64_t *state, size_t state_length, size_t place, uint64_t transfers, uint64_t *answer,
                          size_t answer_length);

/*
 * For a device that waits for another one's grant, which may wait for a third, and so on. The names, one byte for each place that the
 * words have room for, say whom each place follows: a place, or JUSTRAVE_NOBODY. A byte left out of a C initialiser is 0, which says that
 * the place follows place 0 and not nobody. What stands past place N-1 makes no difference. The chain of a place is this place, the one
 * that it follows, the one that that one follows, and so on to one that follows nobody, which is the chain's first link
 * (clauses 9.1 and 9.2).
 *
 * Answers the chain figure, a number of slots: each link's finish figure for one transfer, all added up. Let one transfer be posted to the
 * first link, and to each next link one between the grant to the link that it follows and the slot after it, each where nothing waits yet.
 * Then the place is granted within as many slots after the first post as the figure says, whatever else is posted (clause 9.4).
 *
 * Refused 255, 23, 11, 16 (clause 13.12). The last two look at the names of the whole table and not at the chain alone: 11 comes where the
 * place or any that is followed is not below N, and 16 where some place is on a circle. A place that follows itself is on a circle too. A
 * place that is on none and leads into one is not named.
 */
uint64_t justrave_chain(const uint64_t *state, size_t state_length, size_t place, const uint8_t *names, size_t names_length,
                        uint64_t *answer, size_t answer_length);

/*
 * Answers the lead of a place over a log (clause 6.3): D times the log's bytes that are the place, less its rate times the log's length.
 * Below 0 the place has fallen behind its rate. Refused 255, 23, 11, 13 (clause 13.10).
 */
uint64_t justrave_lead(const uint64_t *state, size_t state_length, size_t place, const uint8_t *log, size_t log_length,
                       int64_t *answer, size_t answer_length);

/*
 * Writes the bytes of the state's table to the buffer's start, and leaves the rest of the buffer (clause 3.5). The answer is how many bytes
 * they are; JUSTRAVE_TABLE_ROOM is always enough. Refused 255, 23, 17, 7, 14 (clause 13.4). 17 and 7 come only of a table that no start of
 * today takes: 17 with the lowest place that it holds of, and if there is none 7 with its own. A state may have such a table all the same,
 * if it was started before 17 was tested or no start made it, and every other call serves it (clause 2.5).
 */
uint64_t justrave_write(const uint64_t *state, size_t state_length, uint8_t *buffer, size_t buffer_length, uint64_t *answer,
                        size_t answer_length);

/* Answers the credit of a place, and how many transfers wait there (clause 11.3). Refused 255, 23, 11 (clause 13.13). */
uint64_t justrave_account(const uint64_t *state, size_t state_length, size_t place, uint64_t *answer, size_t answer_length);

/* Answers the slot number, which is the stamp of the next slot, and N (clause 11.3). Refused 255, 23 (clause 13.13). */
uint64_t justrave_standing(const uint64_t *state, size_t state_length, uint64_t *answer, size_t answer_length);

#ifdef __cplusplus
}
#endif

#endif
