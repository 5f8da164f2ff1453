/*
 * Calls every function of the header through the header, each argument with a value of its own, and compares what comes back
 * with sums worked by hand. It is C11 and C++17 at once, so that both see the same prototypes. Exits 1 at a difference.
 */
#include "harpdapple.h"

#include <stdio.h>
#include <string.h>

static int wrong = 0;

#define SAME(have, want)                                                                                        \
    do {                                                                                                        \
        long long have_ = (long long)(have), want_ = (long long)(want);                                         \
        if (have_ != want_) {                                                                                   \
            printf("header: line %d: %s is %lld, not %lld\n", __LINE__, #have, have_, want_);                   \
            wrong++;                                                                                            \
        }                                                                                                       \
    } while (0)

/* 20200101 to 20210101 and 20210101 to 20220101, calendar months: 25 m3 at 2.60 yuan, the rest at 3.15. */
static const uint8_t plan_2020[HARPDAPPLE_RECORD_BYTES] = {
    0x20, 0x20, 0x01, 0x01, 0x20, 0x21, 0x01, 0x01, 0x02, 0x01, 0x00, 0x00, 0x00, 0x00, 0x00, 0x00, 0x00,
    0x00, 0x00, 0x00, 0x25, 0x00, 0x00, 0x02, 0x60, 0x00, 0x99, 0x99, 0x99, 0x99, 0x00, 0x03, 0x15, 0x00};
static const uint8_t plan_2021[HARPDAPPLE_RECORD_BYTES] = {
    0x20, 0x21, 0x01, 0x01, 0x20, 0x22, 0x01, 0x01, 0x02, 0x01, 0x00, 0x00, 0x00, 0x00, 0x00, 0x00, 0x00,
    0x00, 0x00, 0x00, 0x25, 0x00, 0x00, 0x02, 0x60, 0x00, 0x99, 0x99, 0x99, 0x99, 0x00, 0x03, 0x15, 0x00};

static struct harpdapple_stamp at(uint32_t date, uint32_t second)
{
    struct harpdapple_stamp stamp;
    stamp.date = date;
    stamp.second = second;
    return stamp;
}

/* An accepted call with these codes, 0 for none, that left its stamp in the clock. */
static void took(const struct harpdapple_meter *meter, struct harpdapple_stamp stamp, struct harpdapple_codes_reply reply,
                 uint32_t first, uint32_t second)
{
    SAME(reply.accepted, true);
    SAME(reply.refusal, 0);
    SAME(reply.codes.count, (first != 0) + (second != 0));
    SAME(reply.codes.list[0], first);
    SAME(reply.codes.list[1], second);
    SAME(meter->clock.date, stamp.date);
    SAME(meter->clock.second, stamp.second);
}

static void pulses(struct harpdapple_meter *meter, struct harpdapple_stamp stamp, uint32_t count, uint32_t code)
{
    struct harpdapple_pulses_call call;
    call.stamp = stamp;
    call.count = count;
    took(meter, stamp, harpdapple_pulses(meter, call), code, 0);
}

static void fresh(struct harpdapple_meter *meter)
{
    *meter = harpdapple_fresh();
    SAME(meter->clock.date, 0);
    SAME(meter->account.alarm_1, 20);
    SAME(meter->account.alarm_2, 5);
    SAME(meter->valve.allow, true);
    SAME(meter->valve.open, false);
    SAME(meter->records.days.count + meter->records.months.count, 0);
}

static void first_morning(struct harpdapple_meter *meter)
{
    struct harpdapple_load_call load;
    load.stamp = at(20200131, 100);
    load.slot = 2;
    SAME(harpdapple_load(meter, load, plan_2020, 65).refusal, HARPDAPPLE_REFUSED_LENGTH);
    took(meter, load.stamp, harpdapple_load(meter, load, plan_2020, sizeof plan_2020), HARPDAPPLE_CODE_SETTINGS, 0);
    SAME(meter->slots.slot_1.loaded, false);
    SAME(meter->slots.slot_2.loaded, true);
    SAME(meter->slots.slot_2.plan.end, 20210101);

    struct harpdapple_recharge_call paid;
    paid.stamp = at(20200131, 200);
    paid.amount = 1234567;
    paid.serial = 1;
    took(meter, paid.stamp, harpdapple_recharge(meter, paid), HARPDAPPLE_CODE_RECHARGED, 0);
    SAME(meter->account.balance, 123456700);
    SAME(meter->account.serial, 1);

    struct harpdapple_alarms_call alarms;
    alarms.stamp = at(20200131, 300);
    alarms.alarm_1 = 50;
    alarms.alarm_2 = 7;
    took(meter, alarms.stamp, harpdapple_alarms(meter, alarms), HARPDAPPLE_CODE_SETTINGS, 0);
    SAME(meter->account.alarm_1, 50);
    SAME(meter->account.alarm_2, 7);

    struct harpdapple_key_call key;
    key.stamp = at(20200131, 400);
    took(meter, key.stamp, harpdapple_key(meter, key), HARPDAPPLE_CODE_VALVE_OPENED, 0);
    SAME(meter->valve.open, true);
}

/* 26 m3 on 31 January, 25 at 2.60 yuan and one at 3.15; 3 m3 on 1 February at 2.60, below alarm 1. */
static void two_days(struct harpdapple_meter *meter)
{
    pulses(meter, at(20200131, 500), 2600, 0);
    SAME(meter->account.balance, 55306700);
    SAME(meter->slots.usage, 2600);
    struct harpdapple_step_reply step = harpdapple_step(meter);
    SAME(step.accepted, true);
    SAME(step.step.number, 2);
    SAME(step.step.price, 31500);
    struct harpdapple_display_reply display = harpdapple_display(meter);
    SAME(display.accepted, true);
    SAME(display.shown, 553067);

    pulses(meter, at(20200201, 10), 300, HARPDAPPLE_CODE_ALARM_1);
    struct harpdapple_tick_call tick;
    tick.stamp = at(20200202, 5);
    took(meter, tick.stamp, harpdapple_tick(meter, tick), 0, 0);

    struct harpdapple_command_call forbid;
    forbid.stamp = at(20200202, 6);
    forbid.code = 0;
    took(meter, forbid.stamp, harpdapple_command(meter, forbid), HARPDAPPLE_CODE_COMMAND, HARPDAPPLE_CODE_VALVE_CLOSED);
    SAME(meter->valve.allow, false);
    SAME(meter->valve.open, false);
}

static void is(struct harpdapple_record_reply reply, size_t place, uint32_t date, uint32_t volume, uint64_t charge, int64_t closing)
{
    SAME(reply.accepted, true);
    SAME(reply.refusal, 0);
    SAME(reply.place, place);
    SAME(reply.held.date, date);
    SAME(reply.held.volume, volume);
    SAME(reply.held.charge, charge);
    SAME(reply.held.closing, closing);
}

static void records(const struct harpdapple_meter *meter)
{
    is(harpdapple_day(meter, 0), 0, 20200201, 300, 7800000, 47506700);
    is(harpdapple_day(meter, 1), 1, 20200131, 2600, 68150000, 55306700);
    is(harpdapple_month(meter, 0), 0, 20200101, 2600, 68150000, 55306700);
    is(harpdapple_heavy(meter, 301), 1, 20200131, 2600, 68150000, 55306700);
    SAME(harpdapple_day(meter, 2).refusal, HARPDAPPLE_REFUSED_NOT_HELD);
    SAME(harpdapple_month(meter, 1).refusal, HARPDAPPLE_REFUSED_NOT_HELD);
    SAME(harpdapple_heavy(meter, 2601).refusal, HARPDAPPLE_REFUSED_NO_HEAVY_DAY);

    struct harpdapple_record days[3];
    for (uint32_t k = 0; k < 3; k++) {
        days[k].date = 20200101 + k;
        days[k].volume = k == 0 ? 1 : k == 1 ? 20 : 300;
        days[k].charge = 4000 + k;
        days[k].closing = 50000 + (int64_t)k;
    }
    SAME(harpdapple_sum(days, 2).volume, 21);
    SAME(harpdapple_sum(days, 3).volume, 321);
    SAME(harpdapple_sum(days, 3).accepted, true);
}

static void plans(void)
{
    struct harpdapple_plan_reply reply = harpdapple_plan_read(plan_2020, sizeof plan_2020);
    SAME(reply.accepted, true);
    SAME(reply.plan.start, 20200101);
    SAME(reply.plan.end, 20210101);
    SAME(reply.plan.steps, 2);
    SAME(reply.plan.word, 1);
    SAME(reply.plan.widths[0], 2500);
    SAME(reply.plan.widths[1], 99999999);
    SAME(reply.plan.prices[0], 26000);
    SAME(reply.plan.prices[1], 31500);
    SAME(harpdapple_plan_read(plan_2020, 65).refusal, HARPDAPPLE_REFUSED_LENGTH);

    uint8_t out[HARPDAPPLE_RECORD_BYTES + 1];
    memset(out, 0xEE, sizeof out);
    SAME(harpdapple_plan_write(&reply.plan, out, 65).refusal, HARPDAPPLE_REFUSED_BUFFER);
    SAME(out[0], 0xEE);
    SAME(harpdapple_plan_write(&reply.plan, out, HARPDAPPLE_RECORD_BYTES).accepted, true);
    SAME(memcmp(out, plan_2020, sizeof plan_2020), 0);
    SAME(out[HARPDAPPLE_RECORD_BYTES], 0xEE);

    SAME(harpdapple_record_in_force(plan_2020, 66, plan_2021, 66, 20200615).which, 1);
    SAME(harpdapple_record_in_force(plan_2020, 66, plan_2021, 66, 20210615).which, 2);
    SAME(harpdapple_record_in_force(plan_2020, 66, plan_2021, 65, 20200615).refusal, HARPDAPPLE_REFUSED_LENGTH);
    SAME(harpdapple_record_in_force(plan_2020, 66, plan_2021, 66, 20220615).refusal, HARPDAPPLE_REFUSED_NO_PLAN);
    SAME(harpdapple_record_in_force(plan_2020, 66, plan_2021, 66, 20220632).refusal, HARPDAPPLE_REFUSED_STAMP);
}

/* Any balance as the display shows it, and a text for each number of document 01 and for no other. */
static void texts(void)
{
    SAME(harpdapple_shown(55306700), 553067);
    SAME(harpdapple_shown(99), 0);
    SAME(harpdapple_shown(-1), -1);
    SAME(harpdapple_shown(-101), -2);
    SAME(harpdapple_shown(INT64_MIN), -92233720368547759);
    SAME(harpdapple_shown(INT64_MAX), 92233720368547758);
    for (unsigned n = 0; n < 256; n++) {
        SAME(strcmp(harpdapple_refusal_text((uint8_t)n), "unknown") != 0, n <= 27);
    }
    SAME(strcmp(harpdapple_refusal_text(HARPDAPPLE_REFUSED_BOTH), "both plans would be in force on one date"), 0);
    SAME(strcmp(harpdapple_code_text(HARPDAPPLE_CODE_PLAN_EXPIRED), "plan expired"), 0);
    SAME(strcmp(harpdapple_code_text(HARPDAPPLE_CODE_ALARM_2), "balance at alarm 2"), 0);
    SAME(strcmp(harpdapple_code_text(0x99), "unknown"), 0);
    SAME(HARPDAPPLE_VERSION_MAJOR * 10000 + HARPDAPPLE_VERSION_MINOR * 100 + HARPDAPPLE_VERSION_PATCH, 300);
    SAME(strcmp(HARPDAPPLE_VERSION, "0.3.0"), 0);
}

int main(void)
{
    static struct harpdapple_meter meter;
    fresh(&meter);
    first_morning(&meter);
    two_days(&meter);
    records(&meter);
    plans();
    texts();
    return wrong == 0 ? 0 : 1;
}
