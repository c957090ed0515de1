/*
 * A firmware's main loop over the arbiter: the basin of README.md, whose table and posts stand in basin.hex too.
 *
 * The loop is the one that a unit runs for ever, cut off after 25 slots: hand in what has fallen due, do a slot, and give the line
 * to whoever was granted. Then a unit is updated, and goes on with the words that it kept.
 */
#include <stdio.h>
#include <string.h>

#include "justrave.h"

#define PLACES 5
#define SLOTS 25

/* Room for the places that there are, and no more. */
#define STATE_WORDS JUSTRAVE_STATE_WORDS(PLACES)
#define TABLE_NUMBERS JUSTRAVE_TABLE_NUMBERS(PLACES)

enum { PUMP, PH_PROBE, CHLORINE_PROBE, HANDSET, SERVICE_LOG };

static const char *const who[PLACES] = {"pump", "pH probe", "chlorine probe", "handset", "service log"};

/* D, N, and for each place rate, burst, and the need's j and L */
static const uint32_t table[TABLE_NUMBERS] = {
    20, PLACES,
    4, 40, 2, 10,
    2, 20, 1, 15,
    2, 20, 1, 15,
    4, 60, 3, 25,
    8, 160, 8, 50,
};

/* The same devices as a fitter might list them, as bytes: nobody has said yet which is the most urgent. */
static const uint8_t listed[] = {
    20, PLACES,
    8, 0xA0, 1, 8, 50, /* 160 takes two bytes */
    4, 60, 3, 25,
    2, 20, 1, 15,
    2, 20, 1, 15,
    4, 40, 2, 10,
};

/* Who waits for whom: the handset shows a chlorine reading once there is one, and the log notes it once it was shown. */
static const uint8_t follows[PLACES] = {JUSTRAVE_NOBODY, JUSTRAVE_NOBODY, JUSTRAVE_NOBODY, CHLORINE_PROBE, HANDSET};

/* What falls due before which slot. A real unit has its interrupts here. */
static const struct {
    uint64_t slot;
    size_t place;
    uint64_t transfers;
} due[] = {
    {0, SERVICE_LOG, 14}, {3, PUMP, 2}, {3, PH_PROBE, 1}, {3, CHLORINE_PROBE, 1},
    {3, HANDSET, 3},      {9, PUMP, 1}, {9, PH_PROBE, 1}, {12, CHLORINE_PROBE, 1},
};

/* The state is the caller's: no heap, and nothing hidden in the library. */
static uint64_t state[STATE_WORDS];

/* The words that a unit kept over a power cut, with the layout beside them. Before it was updated it had done three slots of this basin. */
static const uint64_t kept_layout = JUSTRAVE_OLD_LAYOUT;
static const uint64_t kept[JUSTRAVE_OLD_WORDS(PLACES)] = {
    20, PLACES, 3,
    4, 40, 2, 10, 40, 0,
    2, 20, 1, 15, 20, 0,
    2, 20, 1, 15, 20, 0,
    4, 60, 3, 25, 60, 0,
    8, 160, 8, 50, 124, 11,
};

/* Since the update there is room for more heads on its line. */
#define UPDATED_PLACES 40
#define UPDATED_WORDS JUSTRAVE_STATE_WORDS(UPDATED_PLACES)
static uint64_t updated[UPDATED_WORDS];

/* Says what a call was refused with, and answers whether it was. */
static int refused(const char *call, uint64_t outcome)
{
    if (outcome == JUSTRAVE_ACCEPTED) {
        return 0;
    }
    printf("%s: refused %d", call, JUSTRAVE_NUMBER(outcome));
    if (JUSTRAVE_NAMES_PLACE(outcome)) {
        printf(" at place %zu", JUSTRAVE_PLACE(outcome));
    }
    printf(", caused by the %s\n", JUSTRAVE_CAUSED_BY_STATE(outcome) ? "state" : "input");
    return 1;
}

/* Posts what falls due before a slot. A refused post changes nothing, so the loop can go on after it. */
static void post_due(uint64_t slot)
{
    for (size_t i = 0; i < sizeof due / sizeof due[0]; i++) {
        if (due[i].slot == slot) {
            refused("post", justrave_post(state, STATE_WORDS, due[i].place, due[i].transfers));
        }
    }
}

/* One turn of the main loop; answers whether there is a next one. */
static int turn(uint64_t slot)
{
    uint64_t answer[JUSTRAVE_SLOT_ANSWER];

    post_due(slot);
    if (refused("slot", justrave_slot(state, STATE_WORDS, answer, JUSTRAVE_SLOT_ANSWER))) {
        return 0;
    }
    printf("%llu %s\n", (unsigned long long)JUSTRAVE_STAMP(answer),
           JUSTRAVE_IS_GRANTED(answer) ? who[JUSTRAVE_GRANTED(answer)] : "-");
    return 1;
}

/* What an attendant may count on: the handset's three transfers, from asking to the last grant. */
static void tell_handset(void)
{
    uint64_t answer[JUSTRAVE_FIGURES_ANSWER];

    if (!refused("figures", justrave_figures(state, STATE_WORDS, HANDSET, 3, answer, JUSTRAVE_FIGURES_ANSWER))) {
        printf("handset: at most %llu slots in a row go to the places above, 3 transfers are done within %llu\n",
               (unsigned long long)answer[0], (unsigned long long)answer[1]);
    }
}

/* How long those take who wait for another one's grant: both figures count from the probe's post on. */
static void tell_chain(void)
{
    uint64_t shown[JUSTRAVE_CHAIN_ANSWER], noted[JUSTRAVE_CHAIN_ANSWER];

    if (!refused("chain", justrave_chain(state, STATE_WORDS, HANDSET, follows, PLACES, shown, JUSTRAVE_CHAIN_ANSWER))
        && !refused("chain", justrave_chain(state, STATE_WORDS, SERVICE_LOG, follows, PLACES, noted, JUSTRAVE_CHAIN_ANSWER))) {
        printf("chlorine probe: a reading is shown on the handset within %llu slots, and noted in the log within %llu\n",
               (unsigned long long)shown[0], (unsigned long long)noted[0]);
    }
}

/* Where the line stands, and what the service log has saved up and still has to send. */
static void tell_standing(void)
{
    uint64_t line[JUSTRAVE_STANDING_ANSWER], account[JUSTRAVE_ACCOUNT_ANSWER];

    if (refused("standing", justrave_standing(state, STATE_WORDS, line, JUSTRAVE_STANDING_ANSWER))
        || refused("account", justrave_account(state, STATE_WORDS, SERVICE_LOG, account, JUSTRAVE_ACCOUNT_ANSWER))) {
        return;
    }
    printf("%llu places, and slot %llu comes next\n", (unsigned long long)line[1], (unsigned long long)line[0]);
    printf("service log: credit %llu, %llu waiting\n", (unsigned long long)account[0], (unsigned long long)account[1]);
}

/* The table's bytes, as they are kept or sent: nobody needs an encoder. A start from them makes the same state. */
static void tell_bytes(void)
{
    uint8_t bytes[JUSTRAVE_TABLE_ROOM];
    uint64_t length[JUSTRAVE_WRITE_ANSWER];
    uint64_t other[STATE_WORDS];

    if (refused("write", justrave_write(state, STATE_WORDS, bytes, sizeof bytes, length, JUSTRAVE_WRITE_ANSWER))) {
        return;
    }
    printf("table:");
    for (size_t i = 0; i < length[0]; i++) {
        printf(" %02X", (unsigned)bytes[i]);
    }
    printf("\n");
    if (!refused("start", justrave_start(bytes, length[0], 0, other, STATE_WORDS))) {
        printf("a start from its bytes makes %s state\n", memcmp(state, other, sizeof state) == 0 ? "the same" : "another");
    }
}

/* Priorities that nobody knows are found from the needs. The probes are alike, so that the list comes to the table above. */
static void tell_order(void)
{
    uint8_t ordered[sizeof listed];
    uint64_t length[JUSTRAVE_ORDER_ANSWER];
    uint64_t other[STATE_WORDS];

    if (!refused("order", justrave_order(listed, sizeof listed, ordered, sizeof ordered, length, JUSTRAVE_ORDER_ANSWER))
        && !refused("start", justrave_start(ordered, length[0], 0, other, STATE_WORDS))) {
        printf("a list of its devices, put in order, makes %s state\n", memcmp(state, other, sizeof state) == 0 ? "the same" : "another");
    }
}

/*
 * Wakes the updated unit: words of the present layout are used as they are, with zeros behind them where there is more room now, and
 * those of the old one are carried over. With any others, and with damaged ones, there is nothing to go on with. `line` is where the unit
 * stands. Answers 1 if the unit goes on, 0 if it has to start anew.
 */
static int wake(uint64_t layout, const uint64_t *words, size_t length, uint64_t line[JUSTRAVE_STANDING_ANSWER])
{
    memset(updated, 0, sizeof updated);
    if (layout == JUSTRAVE_LAYOUT && length <= UPDATED_WORDS
        && justrave_standing(words, length, line, JUSTRAVE_STANDING_ANSWER) == JUSTRAVE_ACCEPTED) {
        memcpy(updated, words, length * sizeof updated[0]);
    } else if (layout == JUSTRAVE_OLD_LAYOUT) {
        justrave_carry(words, length, updated, UPDATED_WORDS);
    }
    /* 0 in every word is no state, so that this is refused too where nothing was taken */
    return justrave_standing(updated, UPDATED_WORDS, line, JUSTRAVE_STANDING_ANSWER) == JUSTRAVE_ACCEPTED;
}

/* What the updated unit wakes up with, and whose the next slot is. */
static void tell_woken(const char *how, uint64_t layout, const uint64_t *words, size_t length)
{
    uint64_t line[JUSTRAVE_STANDING_ANSWER], account[JUSTRAVE_ACCOUNT_ANSWER], answer[JUSTRAVE_SLOT_ANSWER];

    if (!wake(layout, words, length, line)) {
        printf("%s: start anew\n", how);
        return;
    }
    if (refused("account", justrave_account(updated, UPDATED_WORDS, SERVICE_LOG, account, JUSTRAVE_ACCOUNT_ANSWER))
        || refused("slot", justrave_slot(updated, UPDATED_WORDS, answer, JUSTRAVE_SLOT_ANSWER))) {
        return;
    }
    printf("%s: %llu places and room for %d, slot %llu comes next, %llu wait at the service log; it is granted to: %s\n", how,
           (unsigned long long)line[1], UPDATED_PLACES, (unsigned long long)line[0], (unsigned long long)account[1],
           JUSTRAVE_IS_GRANTED(answer) ? who[JUSTRAVE_GRANTED(answer)] : "-");
}

/* An update, and another power cut after it, before which the unit kept its words with the present layout. */
static void show_update(void)
{
    uint64_t again[UPDATED_WORDS];

    tell_woken("carried over", kept_layout, kept, JUSTRAVE_OLD_WORDS(PLACES));
    memcpy(again, updated, sizeof again);
    tell_woken("as they are", JUSTRAVE_LAYOUT, again, UPDATED_WORDS);
    tell_woken("the main loop's, in more room", JUSTRAVE_LAYOUT, state, STATE_WORDS);
    again[7] = 41; /* the pump cannot have saved more than its burst */
    tell_woken("damaged words", JUSTRAVE_LAYOUT, again, UPDATED_WORDS);
    tell_woken("words of any other layout", 1, kept, JUSTRAVE_OLD_WORDS(PLACES));
}

/*
 * What bad input gets: a number. The state stays what it was; only the words in which a start, or a carrying over, was to make a state are
 * set to 0.
 */
static void show_refusals(void)
{
    uint64_t other[STATE_WORDS], broken[JUSTRAVE_OLD_WORDS(PLACES)];
    uint32_t hasty[TABLE_NUMBERS], greedy[TABLE_NUMBERS];
    uint8_t round[PLACES];
    uint64_t figure[JUSTRAVE_CHAIN_ANSWER];

    refused("post", justrave_post(state, STATE_WORDS, PLACES, 1));
    refused("post", justrave_post(state, STATE_WORDS, PUMP, 65536));
    memcpy(hasty, table, sizeof hasty);
    hasty[5] = 9; /* the pump's two transfers within 9 slots: its finish figure is 10 */
    refused("start", justrave_start_numbers(hasty, TABLE_NUMBERS, 0, other, STATE_WORDS));
    memcpy(greedy, table, sizeof greedy);
    greedy[4] = 10; /* ten transfers of the pump, whose burst holds two */
    refused("start", justrave_start_numbers(greedy, TABLE_NUMBERS, 0, other, STATE_WORDS));
    memcpy(round, follows, sizeof round);
    round[CHLORINE_PROBE] = SERVICE_LOG; /* probe, log and handset would wait for one another for ever */
    refused("chain", justrave_chain(state, STATE_WORDS, HANDSET, round, PLACES, figure, JUSTRAVE_CHAIN_ANSWER));
    memcpy(broken, kept, sizeof broken);
    broken[7] = 41; /* the pump's credit again */
    refused("carry", justrave_carry(broken, JUSTRAVE_OLD_WORDS(PLACES), other, STATE_WORDS));
    refused("carry", justrave_carry(kept, JUSTRAVE_OLD_WORDS(PLACES), other, JUSTRAVE_STATE_WORDS(PLACES - 1)));
}

int main(void)
{
    if (justrave_layout() != JUSTRAVE_LAYOUT) {
        printf("header and library do not fit: the library's layout is %llu\n", (unsigned long long)justrave_layout());
        return 1;
    }
    if (refused("start", justrave_start_numbers(table, TABLE_NUMBERS, 0, state, STATE_WORDS))) {
        return 1;
    }
    tell_bytes();
    tell_order();
    tell_handset();
    tell_chain();
    for (uint64_t slot = 0; slot < SLOTS && turn(slot); slot++) {
    }
    tell_standing();
    show_update();
    show_refusals();
    return 0;
}
