/*
 * A host that keeps one meter: Plan A of document 01, 100 yuan, and the gas of 31 January 2020 up to its midnight.
 *
 *     gcc -std=c11 -Wall -Wextra -pedantic -Iinclude examples/one_day.c crates/harpdapple/out/libharpdapple.a -o one_day
 */
#include "harpdapple.h"

#include <inttypes.h>
#include <stdio.h>
#include <stdlib.h>

#define LAST_SECOND 86399
#define YUAN 10000 /* ten-thousandths */

/* 20200101 to 20210101, two steps, calendar months: 25 m3 at 2.60 yuan, the rest at 3.15; then unread bytes. */
static const uint8_t plan_a[HARPDAPPLE_RECORD_BYTES] = {
    0x20, 0x20, 0x01, 0x01, 0x20, 0x21, 0x01, 0x01, 0x02, 0x01, 0x00, 0x00, 0x00, 0x00, 0x00, 0x00, 0x00,
    0x00, 0x00, 0x00, 0x25, 0x00, 0x00, 0x02, 0x60, 0x00, 0x99, 0x99, 0x99, 0x99, 0x00, 0x03, 0x15, 0x00};

/* An answer that this host did not expect: it says why and stops. */
static void must(bool accepted, uint8_t refusal, const char *what)
{
    if (!accepted) {
        printf("%s: refused %u, %s\n", what, (unsigned)refusal, harpdapple_refusal_text(refusal));
        exit(EXIT_FAILURE);
    }
}

/* Ten-thousandths as yuan with four decimals. The sign stands apart, so that -1 prints -0.0001. */
static void print_yuan(int64_t amount)
{
    uint64_t size = amount < 0 ? (uint64_t)0 - (uint64_t)amount : (uint64_t)amount;
    printf("%s%" PRIu64 ".%04" PRIu64 " yuan", amount < 0 ? "-" : "", size / YUAN, size % YUAN);
}

static void print_volume(uint32_t hundredths)
{
    printf("%" PRIu32 ".%02" PRIu32 " m3", hundredths / 100, hundredths % 100);
}

static void print_display(const struct harpdapple_meter *meter)
{
    struct harpdapple_display_reply display = harpdapple_display(meter);
    must(display.accepted, display.refusal, "display");
    printf("    display ");
    print_yuan(display.shown);
    struct harpdapple_step_reply step = harpdapple_step(meter);
    if (step.accepted) {
        printf(", step %u at ", (unsigned)step.step.number);
        print_yuan((int64_t)step.step.price);
        printf(" for a m3");
    } else {
        printf(", no step: %s", harpdapple_refusal_text(step.refusal));
    }
    printf(", the valve is %s\n", meter->valve.open ? "open" : "closed");
}

/* What a call answered: its codes as they came, or why it was refused. */
static void print_reply(const struct harpdapple_meter *meter, const char *what, struct harpdapple_stamp stamp,
                        struct harpdapple_codes_reply reply)
{
    printf("%08" PRIu32 " second %5" PRIu32 ": %s", stamp.date, stamp.second, what);
    if (!reply.accepted) {
        printf(": refused %u, %s\n", (unsigned)reply.refusal, harpdapple_refusal_text(reply.refusal));
        return;
    }
    for (size_t i = 0; i < reply.codes.count; i++) {
        printf("%s %" PRIX32 " (%s)", i == 0 ? ": code" : ",", reply.codes.list[i], harpdapple_code_text(reply.codes.list[i]));
    }
    printf("\n");
    print_display(meter);
}

static void draw(struct harpdapple_meter *meter, uint32_t date, uint32_t second, uint32_t pulses)
{
    struct harpdapple_pulses_call call = {.stamp = {date, second}, .count = pulses};
    struct harpdapple_codes_reply reply = harpdapple_pulses(meter, call);
    char what[40];
    snprintf(what, sizeof what, "%" PRIu32 " pulse%s", pulses, pulses == 1 ? "" : "s");
    print_reply(meter, what, call.stamp, reply);
}

static void print_record(const char *what, struct harpdapple_record_reply reply)
{
    must(reply.accepted, reply.refusal, what);
    printf("%s of %08" PRIu32 ": ", what, reply.held.date);
    print_volume(reply.held.volume);
    printf(", charge ");
    print_yuan(harpdapple_shown((int64_t)reply.held.charge));
    printf(", closing balance ");
    print_yuan(harpdapple_shown(reply.held.closing));
    printf("\n");
}

/* The plan, the money and the key: what a household does on its first morning. */
static void begin(struct harpdapple_meter *meter, uint32_t day)
{
    struct harpdapple_load_call load = {.stamp = {day, 0}, .slot = 1};
    struct harpdapple_codes_reply reply = harpdapple_load(meter, load, plan_a, sizeof plan_a);
    must(reply.accepted, reply.refusal, "loading Plan A");
    print_reply(meter, "Plan A loaded", load.stamp, reply);

    struct harpdapple_key_call early = {.stamp = {day, 25000}};
    reply = harpdapple_key(meter, early); /* no money yet: refused */
    print_reply(meter, "key", early.stamp, reply);

    struct harpdapple_recharge_call paid = {.stamp = {day, 25200}, .amount = 100 * YUAN, .serial = 1};
    reply = harpdapple_recharge(meter, paid);
    must(reply.accepted, reply.refusal, "recharge");
    print_reply(meter, "100 yuan paid in", paid.stamp, reply);

    struct harpdapple_key_call key = {.stamp = {day, 25260}};
    reply = harpdapple_key(meter, key);
    must(reply.accepted, reply.refusal, "key");
    print_reply(meter, "key", key.stamp, reply);
}

int main(void)
{
    struct harpdapple_meter meter = harpdapple_fresh();
    const uint32_t day = 20200131, next = 20200201;
    begin(&meter, day);

    /* The day's gas, in bunches and singly as the processor wakes. */
    draw(&meter, day, 27000, 1400);
    draw(&meter, day, 43200, 1);
    draw(&meter, day, 43201, 1);
    draw(&meter, day, 64800, 1098);
    draw(&meter, day, 64799, 1); /* a stamp that goes back: refused */
    draw(&meter, day, 72000, 476);

    /* The ticket's midnight: one hundredth on each side of it, each in its own month and at its own step. */
    draw(&meter, day, LAST_SECOND, 1);
    draw(&meter, next, 0, 1);

    /* The next morning, into debt. */
    draw(&meter, next, 30000, 769);

    print_record("day", harpdapple_day(&meter, 0));
    print_record("month", harpdapple_month(&meter, 0));
    printf("open day of %08" PRIu32 ": ", meter.clock.date);
    print_volume(meter.records.day.volume);
    printf("\n");
    return EXIT_SUCCESS;
}
