/*
 * How much stack each exported call uses, in bytes: each is made on a stack of its own that was painted before. The table has as many
 * places as there may be and numbers of all lengths, so that every loop over places and the reading of a number go as far as they can;
 * the list that is put in order has as many, the worst way round, and the chain as many links. The old words that are carried over have
 * all places of their time. What is counted begins where the caller's own frame ends, so that the return address and the red zone are in
 * it.
 */
#define _XOPEN_SOURCE 700
#include <stdio.h>
#include <string.h>
#include <ucontext.h>

#include "justrave.h"

#define PLACES JUSTRAVE_MAX_PLACES
#define WORDS JUSTRAVE_STATE_WORDS(PLACES)
#define NUMBERS JUSTRAVE_TABLE_NUMBERS(PLACES)
#define OLD_PLACES JUSTRAVE_OLD_PLACES
#define OLD_WORDS JUSTRAVE_OLD_WORDS(OLD_PLACES)
#define STACK_BYTES 65536
#define PAINT 0xA5

static unsigned char stack[STACK_BYTES];
static ucontext_t caller, callee;
static unsigned char *top;

static uint32_t numbers[NUMBERS];
static uint8_t bytes[JUSTRAVE_TABLE_ROOM];
static uint8_t log_bytes[JUSTRAVE_MAX_LOG];
static uint64_t state[WORDS];
static uint64_t answer[2], length[1];
static int64_t lead[1];

static uint8_t listed[JUSTRAVE_TABLE_ROOM], ordered[JUSTRAVE_TABLE_ROOM];
static size_t listed_length;
static uint8_t names[PLACES];
static uint64_t old[OLD_WORDS], carried[WORDS];

/* The two that answer a number and no outcome: it is accepted if it is the header's. */
static uint64_t layout(void)
{
    return justrave_layout() != JUSTRAVE_LAYOUT;
}
static uint64_t state_words(void)
{
    return justrave_state_words(PLACES) != WORDS;
}
static uint64_t start_numbers(void)
{
    return justrave_start_numbers(numbers, NUMBERS, 0, state, WORDS);
}
static uint64_t write_bytes(void)
{
    return justrave_write(state, WORDS, bytes, sizeof bytes, length, 1);
}
static uint64_t start(void)
{
    return justrave_start(bytes, length[0], 0, state, WORDS);
}
static uint64_t order(void)
{
    return justrave_order(listed, listed_length, ordered, sizeof ordered, answer, 1);
}
static uint64_t carry(void)
{
    return justrave_carry(old, OLD_WORDS, carried, WORDS);
}
static uint64_t post(void)
{
    return justrave_post(state, WORDS, PLACES - 1, 3);
}
static uint64_t slot(void)
{
    return justrave_slot(state, WORDS, answer, 2);
}
static uint64_t run(void)
{
    return justrave_run(state, WORDS, log_bytes, sizeof log_bytes);
}
static uint64_t figures(void)
{
    return justrave_figures(state, WORDS, PLACES - 1, 255, answer, 2);
}
static uint64_t chain(void)
{
    return justrave_chain(state, WORDS, PLACES - 1, names, sizeof names, answer, 1);
}
static uint64_t account(void)
{
    return justrave_account(state, WORDS, PLACES - 1, answer, 2);
}
static uint64_t standing(void)
{
    return justrave_standing(state, WORDS, answer, 2);
}
static uint64_t lead_of(void)
{
    return justrave_lead(state, WORDS, PLACES - 1, log_bytes, sizeof log_bytes, lead, 1);
}

static const struct {
    const char *name;
    uint64_t (*make)(void);
} calls[] = {
    {"start_numbers", start_numbers}, {"write", write_bytes}, {"start", start},     {"order", order},
    {"post", post},                   {"slot", slot},         {"run", run},         {"figures", figures},
    {"chain", chain},                 {"lead", lead_of},      {"account", account}, {"standing", standing},
    {"carry", carry},                 {"layout", layout},     {"state_words", state_words},
};

static uint64_t (*present)(void);
static uint64_t outcome;

static void on_painted_stack(void)
{
    top = (unsigned char *)__builtin_frame_address(0);
    outcome = present();
}

/* The bytes between the lowest one that was written and the frame of the function that calls. */
static size_t used_by(uint64_t (*make)(void))
{
    size_t lowest = 0;

    memset(stack, PAINT, sizeof stack);
    present = make;
    getcontext(&callee);
    callee.uc_stack.ss_sp = stack;
    callee.uc_stack.ss_size = sizeof stack;
    callee.uc_link = &caller;
    makecontext(&callee, on_painted_stack, 0);
    swapcontext(&caller, &callee);
    while (stack[lowest] == PAINT) {
        lowest++;
    }
    return (size_t)(top - &stack[lowest]);
}

/* Equal shares of a line, the largest bursts, j and L. */
static void fill_numbers(void)
{
    numbers[0] = 65535;
    numbers[1] = PLACES;
    for (int place = 0; place < PLACES; place++) {
        uint32_t *row = &numbers[2 + 4 * place];
        row[0] = 65535 / PLACES;
        row[1] = 16777216;
        row[2] = 255;
        row[3] = 1073741824;
    }
}

/* The same of as many places as the old limit allowed, with full credit and backlog. */
static void fill_old(void)
{
    old[0] = 65535;
    old[1] = OLD_PLACES;
    for (int place = 0; place < OLD_PLACES; place++) {
        uint64_t *words = &old[JUSTRAVE_OLD_WORDS(place)];
        words[0] = 65535 / OLD_PLACES;
        words[1] = 16777216;
        words[2] = 255;
        words[3] = 1073741824;
        words[4] = 16777216;
        words[5] = 65535;
    }
}

/* Puts a number behind the list, seven bits to a byte. */
static void list_number(uint32_t number)
{
    while (number >= 128) {
        listed[listed_length++] = (uint8_t)(number % 128 + 128);
        number /= 128;
    }
    listed[listed_length++] = (uint8_t)number;
}

/* Equal shares of a line with D = N, each need but the first with the slots of just one place, and the lowest place's first: every search
 * goes to its end. The first L is the largest, which takes as many bytes as a number can. */
static void fill_list(void)
{
    list_number(PLACES);
    list_number(PLACES);
    for (uint32_t place = PLACES; place > 0; place--) {
        uint32_t left = PLACES - place + 1; /* what the rates above it leave of D */
        list_number(1);
        list_number(PLACES);
        list_number(1);
        list_number(left == 1 ? 1073741824u : (PLACES * PLACES + left - 1) / left);
    }
}

/* Each place but the first follows the one above it, so that every walk goes as far as it can. */
static void fill_names(void)
{
    names[0] = JUSTRAVE_NOBODY;
    for (int place = 1; place < PLACES; place++) {
        names[place] = (uint8_t)(place - 1);
    }
}

int main(void)
{
    int failed = 0;

    fill_numbers();
    fill_old();
    fill_list();
    fill_names();
    for (size_t i = 0; i < sizeof calls / sizeof calls[0]; i++) {
        size_t used = used_by(calls[i].make);
        printf("%s %zu\n", calls[i].name, used);
        if (outcome != JUSTRAVE_ACCEPTED || used > JUSTRAVE_STACK) {
            printf("%s: outcome %llu, and at most %d bytes are promised\n", calls[i].name, (unsigned long long)outcome, JUSTRAVE_STACK);
            failed = 1;
        }
    }
    return failed;
}
