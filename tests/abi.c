/* Prints the sizes, offsets and numbers of the header; tests/model/abi.rs prints those of the model's program. */
#include "harpdapple.h"

#include <inttypes.h>
#include <stdalign.h>
#include <stdio.h>

#define SIZE(type) \
    printf("%s size %zu align %zu\n", #type, sizeof(struct harpdapple_##type), alignof(struct harpdapple_##type))
#define AT(type, field)                                                                            \
    printf("%s.%s at %zu size %zu\n", #type, #field, offsetof(struct harpdapple_##type, field),    \
           sizeof(((struct harpdapple_##type *)0)->field))
#define CODE(name, code) printf("code %s %" PRIX32 "\n", name, code)

_Static_assert(sizeof(bool) == 1, "a bool is a byte");
_Static_assert(sizeof(size_t) == 8, "a size has 64 bits");
_Static_assert(sizeof(struct harpdapple_record) == 24, "a record has no gaps");
_Static_assert(offsetof(struct harpdapple_meter, clock) == 0, "the meter begins with its clock");

/* The refusal numbers of document 01. */
_Static_assert(HARPDAPPLE_REFUSED_METER == 0 && HARPDAPPLE_REFUSED_LENGTH == 1 && HARPDAPPLE_REFUSED_STEPS == 2, "");
_Static_assert(HARPDAPPLE_REFUSED_WORD == 3 && HARPDAPPLE_REFUSED_DIGIT == 4 && HARPDAPPLE_REFUSED_DATE == 5, "");
_Static_assert(HARPDAPPLE_REFUSED_NO_DAY == 6 && HARPDAPPLE_REFUSED_PRICE == 7 && HARPDAPPLE_REFUSED_STAMP == 8, "");
_Static_assert(HARPDAPPLE_REFUSED_EARLIER == 9 && HARPDAPPLE_REFUSED_SLOT == 10 && HARPDAPPLE_REFUSED_BUSY == 11, "");
_Static_assert(HARPDAPPLE_REFUSED_BOTH == 12 && HARPDAPPLE_REFUSED_PULSES == 13, "");
_Static_assert(HARPDAPPLE_REFUSED_TOTAL == 14 && HARPDAPPLE_REFUSED_SERIAL == 15, "");
_Static_assert(HARPDAPPLE_REFUSED_SERIAL_AGAIN == 16 && HARPDAPPLE_REFUSED_SERIAL_BELOW == 17, "");
_Static_assert(HARPDAPPLE_REFUSED_SERIAL_SKIPPED == 18 && HARPDAPPLE_REFUSED_NO_AMOUNT == 19, "");
_Static_assert(HARPDAPPLE_REFUSED_TOP_BALANCE == 20 && HARPDAPPLE_REFUSED_COMMAND == 21, "");
_Static_assert(HARPDAPPLE_REFUSED_KEY == 22 && HARPDAPPLE_REFUSED_ALARMS == 23, "");
_Static_assert(HARPDAPPLE_REFUSED_NO_PLAN == 24 && HARPDAPPLE_REFUSED_NOT_HELD == 25, "");
_Static_assert(HARPDAPPLE_REFUSED_BUFFER == 26 && HARPDAPPLE_REFUSED_NO_HEAVY_DAY == 27, "");

static void meter(void)
{
    SIZE(stamp), AT(stamp, date), AT(stamp, second);
    SIZE(account), AT(account, balance), AT(account, serial), AT(account, alarm_1), AT(account, alarm_2);
    SIZE(plan), AT(plan, start), AT(plan, end), AT(plan, steps), AT(plan, word), AT(plan, extra_1), AT(plan, extra_2);
    AT(plan, widths), AT(plan, prices);
    SIZE(slot), AT(slot, loaded), AT(slot, plan);
    SIZE(slots), AT(slots, slot_1), AT(slots, slot_2), AT(slots, usage);
    SIZE(volumes), AT(volumes, total), AT(volumes, unpriced);
    SIZE(valve), AT(valve, allow), AT(valve, open);
    SIZE(record), AT(record, date), AT(record, volume), AT(record, charge), AT(record, closing);
    SIZE(open_period), AT(open_period, volume), AT(open_period, charge);
    SIZE(days), AT(days, count), AT(days, held);
    SIZE(months), AT(months, count), AT(months, held);
    SIZE(records), AT(records, day), AT(records, month), AT(records, days), AT(records, months);
    SIZE(meter), AT(meter, clock), AT(meter, account), AT(meter, slots), AT(meter, volumes), AT(meter, valve);
    AT(meter, records);
}

static void calls(void)
{
    SIZE(codes), AT(codes, count), AT(codes, list);
    SIZE(codes_reply), AT(codes_reply, accepted), AT(codes_reply, refusal), AT(codes_reply, codes);
    SIZE(pulses_call), AT(pulses_call, stamp), AT(pulses_call, count);
    SIZE(recharge_call), AT(recharge_call, stamp), AT(recharge_call, amount), AT(recharge_call, serial);
    SIZE(load_call), AT(load_call, stamp), AT(load_call, slot);
    SIZE(alarms_call), AT(alarms_call, stamp), AT(alarms_call, alarm_1), AT(alarms_call, alarm_2);
    SIZE(command_call), AT(command_call, stamp), AT(command_call, code);
    SIZE(key_call), AT(key_call, stamp);
    SIZE(tick_call), AT(tick_call, stamp);
}

static void replies(void)
{
    SIZE(step_price), AT(step_price, number), AT(step_price, price);
    SIZE(step_reply), AT(step_reply, accepted), AT(step_reply, refusal), AT(step_reply, step);
    SIZE(display_reply), AT(display_reply, accepted), AT(display_reply, refusal), AT(display_reply, shown);
    SIZE(record_reply), AT(record_reply, accepted), AT(record_reply, refusal), AT(record_reply, place);
    AT(record_reply, held);
    SIZE(sum_reply), AT(sum_reply, accepted), AT(sum_reply, refusal), AT(sum_reply, volume);
    SIZE(plan_reply), AT(plan_reply, accepted), AT(plan_reply, refusal), AT(plan_reply, plan);
    SIZE(acceptance), AT(acceptance, accepted), AT(acceptance, refusal);
    SIZE(part_reply), AT(part_reply, accepted), AT(part_reply, refusal), AT(part_reply, which);
}

int main(void)
{
    meter();
    calls();
    replies();
    printf("counts %d %d %d %d %d\n", HARPDAPPLE_RECORD_BYTES, HARPDAPPLE_STEPS, HARPDAPPLE_DAYS, HARPDAPPLE_MONTHS,
           HARPDAPPLE_CODES);
    CODE("plan expired", HARPDAPPLE_CODE_PLAN_EXPIRED);
    CODE("valve closed", HARPDAPPLE_CODE_VALVE_CLOSED);
    CODE("valve opened", HARPDAPPLE_CODE_VALVE_OPENED);
    CODE("recharged", HARPDAPPLE_CODE_RECHARGED);
    CODE("settings", HARPDAPPLE_CODE_SETTINGS);
    CODE("command", HARPDAPPLE_CODE_COMMAND);
    CODE("alarm 1", HARPDAPPLE_CODE_ALARM_1);
    CODE("alarm 2", HARPDAPPLE_CODE_ALARM_2);
    CODE("zero", HARPDAPPLE_CODE_ZERO);
    CODE("debt", HARPDAPPLE_CODE_DEBT);
    return 0;
}
