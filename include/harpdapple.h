/*
 * Harpdapple: the billing core of a prepaid household gas meter.
 *
 * The library keeps nothing. The host keeps one struct for each meter, lends it to the calls, and may copy it with
 * `=` or memcpy. There is no allocation, no lock and no global: two threads may work on two meters at once, not on one.
 *
 * What it takes: 4,680 bytes for a meter, at most 2.5 KB of stack for a call and 1 KB for a query, some 32 KB of code.
 *
 * Every function answers any argument and any meter. An answer has `accepted`; where it is false, `refusal` holds one
 * of the HARPDAPPLE_REFUSED numbers, every other field of the answer is 0, and the meter and all lent bytes stand as
 * they were before the call. `refusal` is 0 too where `accepted` is true, so look at `accepted` first.
 *
 * What the host owes: pointers that are not NULL and point to as many elements as the count says (with a count of 0
 * any non-NULL pointer); `bool` fields that hold 0 or 1; a lent meter that nothing else writes during the call.
 *
 * Units. A hundredth is 0.01 m3 of gas, one pulse. A ten-thousandth and a millionth are parts of a yuan; a price in
 * ten-thousandths for a m3 times a volume in hundredths is an amount in millionths. Dates are the decimal number
 * YYYYMMDD, 20000101 to 20991231. A stamp is a date and a second of it; second 0 belongs to the day that it begins.
 *
 * The archive is for x86-64 Linux, little-endian: `rt lib` in crates/harpdapple writes libharpdapple.a, `make install` puts it and this
 * header in place, and `pkg-config --cflags --libs harpdapple` tells where; by hand, link with -lharpdapple.
 */
#ifndef HARPDAPPLE_H
#define HARPDAPPLE_H

#include <stdbool.h>
#include <stddef.h>
#include <stdint.h>

#ifdef __cplusplus
extern "C" {
#endif

/* The version of the rules, of these functions and of the layout of a meter together; CHANGELOG.md says what changed. */
#define HARPDAPPLE_VERSION_MAJOR 0
#define HARPDAPPLE_VERSION_MINOR 3
#define HARPDAPPLE_VERSION_PATCH 0
#define HARPDAPPLE_VERSION "0.3.0"

#define HARPDAPPLE_RECORD_BYTES 66 /* length of a plan record */
#define HARPDAPPLE_STEPS 6         /* most steps of a plan */
#define HARPDAPPLE_DAYS 62         /* most day records held */
#define HARPDAPPLE_MONTHS 120      /* most month records held */
#define HARPDAPPLE_CODES 8         /* places for the codes of one call; none gives more than 5 */

/* Refusal numbers, in the order in which a call looks for them where it can give several. */
enum harpdapple_refusal {
    /* every call on a meter, and the queries on a meter (the first alone) */
    HARPDAPPLE_REFUSED_METER = 0,  /* the meter handed in breaks its bounds; never one grown from a fresh one by calls */
    HARPDAPPLE_REFUSED_STAMP = 8,  /* not a date of the calendar, or a second above 86,399 */
    HARPDAPPLE_REFUSED_EARLIER = 9, /* stamp before that of the last accepted call */
    /* reading a plan; also loading one, and, from 2 on, writing one */
    HARPDAPPLE_REFUSED_LENGTH = 1, /* a record that has not 66 bytes */
    HARPDAPPLE_REFUSED_STEPS = 2,  /* steps not 1 to 6 */
    HARPDAPPLE_REFUSED_WORD = 3,   /* cycle word read and not 1 to 5 */
    HARPDAPPLE_REFUSED_DIGIT = 4,  /* a digit above 9 in a read field; writing: a number above 99,999,999 */
    HARPDAPPLE_REFUSED_DATE = 5,   /* a read date that is not in the calendar */
    HARPDAPPLE_REFUSED_NO_DAY = 6, /* no day in force, or 0 days in a cycle */
    HARPDAPPLE_REFUSED_PRICE = 7,  /* a price of 0 among the steps */
    HARPDAPPLE_REFUSED_BUFFER = 26, /* writing, before all others: a buffer that has not 66 bytes */
    /* loading a plan */
    HARPDAPPLE_REFUSED_SLOT = 10,  /* slot not 1 or 2; comes before 1 to 7 */
    HARPDAPPLE_REFUSED_BUSY = 11,  /* the slot's plan is in force on the stamp's date */
    HARPDAPPLE_REFUSED_BOTH = 12,  /* a date from the stamp's on would have both plans in force */
    /* pulses */
    HARPDAPPLE_REFUSED_PULSES = 13, /* more than 65,535 in one call */
    HARPDAPPLE_REFUSED_TOTAL = 14, /* the total volume would pass 99,999,999 hundredths */
    /* recharge */
    HARPDAPPLE_REFUSED_SERIAL = 15, /* serial 0 or above 65,535 */
    HARPDAPPLE_REFUSED_SERIAL_AGAIN = 16, /* the last serial again */
    HARPDAPPLE_REFUSED_SERIAL_BELOW = 17, /* below the last serial */
    HARPDAPPLE_REFUSED_SERIAL_SKIPPED = 18, /* more than one above the last serial */
    HARPDAPPLE_REFUSED_NO_AMOUNT = 19, /* amount 0 */
    HARPDAPPLE_REFUSED_TOP_BALANCE = 20, /* the balance would pass 999,999.99 yuan */
    /* command, key, alarms */
    HARPDAPPLE_REFUSED_COMMAND = 21, /* neither 0 nor 1 */
    HARPDAPPLE_REFUSED_KEY = 22,   /* mark "forbid", balance not above zero, or no plan in force on the stamp's date */
    HARPDAPPLE_REFUSED_ALARMS = 23, /* unless 0 < alarm 2 < alarm 1 <= 999,999 */
    /* queries */
    HARPDAPPLE_REFUSED_NO_PLAN = 24, /* step: no plan in force on the clock's date; record in force: neither (12: both) */
    HARPDAPPLE_REFUSED_NOT_HELD = 25, /* day or month k not held; sum: above 62 records or a volume above 99,999,999 */
    HARPDAPPLE_REFUSED_NO_HEAVY_DAY = 27 /* no held day of at least that volume */
};

/* Event codes, in the order in which one call may give them. */
#define HARPDAPPLE_CODE_PLAN_EXPIRED UINT32_C(0x80020012) /* a plan was in force on the old date, none is on the new */
#define HARPDAPPLE_CODE_VALVE_CLOSED UINT32_C(0x12)       /* an open valve closed; follows the code of its reason */
#define HARPDAPPLE_CODE_VALVE_OPENED UINT32_C(0x11)       /* the key opened the valve */
#define HARPDAPPLE_CODE_RECHARGED UINT32_C(0x21)          /* recharge accepted */
#define HARPDAPPLE_CODE_SETTINGS UINT32_C(0x27)           /* plan loaded, or alarms set */
#define HARPDAPPLE_CODE_COMMAND UINT32_C(0x2B)            /* station command carried out */
#define HARPDAPPLE_CODE_ALARM_1 UINT32_C(0x2E)            /* balance fell to alarm 1 or below */
#define HARPDAPPLE_CODE_ALARM_2 UINT32_C(0x2F)            /* balance fell to alarm 2 or below */
#define HARPDAPPLE_CODE_ZERO UINT32_C(0x30)               /* balance fell to zero or below */
#define HARPDAPPLE_CODE_DEBT UINT32_C(0x33)               /* balance fell below zero */

/* ---- The meter ---- */

struct harpdapple_stamp {
    uint32_t date;   /* YYYYMMDD; 0 in the clock of a fresh meter */
    uint32_t second; /* of the date, 0 to 86,399 */
};

struct harpdapple_account {
    int64_t balance;    /* millionths of a yuan; below zero is a debt */
    uint32_t serial;    /* of the last recharge, 0 before the first */
    uint32_t alarm_1;   /* whole yuan */
    uint32_t alarm_2;   /* whole yuan, below alarm_1 */
};

/* A plan. What its steps and cycle word leave unread may hold anything and has no effect. */
struct harpdapple_plan {
    uint32_t start;   /* date, the first in force */
    uint32_t end;     /* date, the first no longer in force */
    uint8_t steps;    /* 1 to 6 */
    uint8_t word;     /* cycle word, unread with one step: 1 month, 2 quarter, 3 year, 4 window, 5 runs of days */
    uint32_t extra_1; /* word 4: date on which the window starts; word 5: date of the first cycle day */
    uint32_t extra_2; /* word 4: date on which the window ends, not in it; word 5: days in a cycle */
    uint32_t widths[HARPDAPPLE_STEPS]; /* hundredths in each step; the last step is endless */
    uint64_t prices[HARPDAPPLE_STEPS]; /* ten-thousandths of a yuan for a m3 in each step */
};

struct harpdapple_slot {
    bool loaded;
    struct harpdapple_plan plan;
};

struct harpdapple_slots {
    struct harpdapple_slot slot_1;
    struct harpdapple_slot slot_2;
    uint32_t usage; /* hundredths in the present cycle of the plan in force; 0 with none in force */
};

struct harpdapple_volumes {
    uint32_t total;    /* hundredths since the meter was fresh */
    uint32_t unpriced; /* hundredths of them with no plan in force */
};

struct harpdapple_valve {
    bool allow; /* the station's mark: true "allow", false "forbid" */
    bool open;
};

/* A closed day or month. */
struct harpdapple_record {
    uint32_t date;   /* the day, or the month's first day */
    uint32_t volume; /* hundredths */
    uint64_t charge; /* millionths of a yuan */
    int64_t closing; /* balance as the day turned, millionths of a yuan */
};

/* The open day or month. */
struct harpdapple_open_period {
    uint32_t volume; /* hundredths */
    uint64_t charge; /* millionths of a yuan */
};

/*
 * Records, the newest at 0; those from `count` on are not held and mean nothing. The library keeps counts and records as
 * 64-bit words, date and volume in one: these structs show them on a little-endian machine, for which the archive is built.
 */
struct harpdapple_days {
    size_t count;
    struct harpdapple_record held[HARPDAPPLE_DAYS];
};

struct harpdapple_months {
    size_t count;
    struct harpdapple_record held[HARPDAPPLE_MONTHS];
};

struct harpdapple_records {
    struct harpdapple_open_period day;   /* open, of the clock's date */
    struct harpdapple_open_period month; /* open, of the clock's month */
    struct harpdapple_days days;
    struct harpdapple_months months;
};

struct harpdapple_meter {
    struct harpdapple_stamp clock; /* stamp of the last accepted call */
    struct harpdapple_account account;
    struct harpdapple_slots slots;
    struct harpdapple_volumes volumes;
    struct harpdapple_valve valve;
    struct harpdapple_records records;
};

/* No accepted call yet: all amounts 0, no plan, alarms 20 and 5 yuan, mark "allow", valve closed. */
struct harpdapple_meter harpdapple_fresh(void);

/* ---- The seven calls ---- */

struct harpdapple_codes {
    size_t count;
    uint32_t list[HARPDAPPLE_CODES]; /* HARPDAPPLE_CODE_.., in their order; 0 from `count` on */
};

/* What was done. On a refusal the meter is as it was and there are no codes. */
struct harpdapple_codes_reply {
    bool accepted;
    uint8_t refusal; /* enum harpdapple_refusal */
    struct harpdapple_codes codes;
};

struct harpdapple_pulses_call {
    struct harpdapple_stamp stamp;
    uint32_t count; /* pulses, a hundredth each: 0 to 65,535 */
};

struct harpdapple_recharge_call {
    struct harpdapple_stamp stamp;
    uint64_t amount; /* ten-thousandths of a yuan */
    uint32_t serial; /* one above the last, 1 to 65,535 */
};

struct harpdapple_load_call {
    struct harpdapple_stamp stamp;
    uint32_t slot; /* 1 or 2 */
};

struct harpdapple_alarms_call {
    struct harpdapple_stamp stamp;
    uint32_t alarm_1; /* whole yuan */
    uint32_t alarm_2; /* whole yuan, below alarm_1 */
};

struct harpdapple_command_call {
    struct harpdapple_stamp stamp;
    uint32_t code; /* 0 forbids, 1 allows */
};

struct harpdapple_key_call {
    struct harpdapple_stamp stamp;
};

struct harpdapple_tick_call {
    struct harpdapple_stamp stamp;
};

/* Gas was drawn. Refused: 0, 8, 9, 13, 14. Codes: those of turning the day, then 2E, 2F, 12, 30, 12, 33 as reached. */
struct harpdapple_codes_reply harpdapple_pulses(struct harpdapple_meter *meter, struct harpdapple_pulses_call call);

/* Money was paid in. Refused: 0, 8, 9, 15 to 20. Code 21; the valve stays. */
struct harpdapple_codes_reply harpdapple_recharge(struct harpdapple_meter *meter, struct harpdapple_recharge_call call);

/* A plan record put into a slot. Refused: 0, 8, 9, 10, 1 to 7, 11, 12. Code 27. */
struct harpdapple_codes_reply harpdapple_load(struct harpdapple_meter *meter, struct harpdapple_load_call call,
                                              const uint8_t *bytes, size_t length);

/* The two alarms set. Refused: 0, 8, 9, 23. Code 27. */
struct harpdapple_codes_reply harpdapple_alarms(struct harpdapple_meter *meter, struct harpdapple_alarms_call call);

/* The master station's command. Refused: 0, 8, 9, 21. Code 2B, and 12 where forbidding closes an open valve. */
struct harpdapple_codes_reply harpdapple_command(struct harpdapple_meter *meter, struct harpdapple_command_call call);

/* The household's key. Refused: 0, 8, 9, 22. Code 11 where it opens the valve, none where the valve is open. */
struct harpdapple_codes_reply harpdapple_key(struct harpdapple_meter *meter, struct harpdapple_key_call call);

/* The clock only. Refused: 0, 8, 9. Codes: those of turning the day. */
struct harpdapple_codes_reply harpdapple_tick(struct harpdapple_meter *meter, struct harpdapple_tick_call call);

/* ---- Queries; the meter is only read ---- */

struct harpdapple_step_price {
    uint8_t number; /* of the step in which the next hundredth falls, from 1 */
    uint64_t price; /* its price, ten-thousandths of a yuan for a m3 */
};

struct harpdapple_step_reply {
    bool accepted;
    uint8_t refusal;
    struct harpdapple_step_price step;
};

struct harpdapple_display_reply {
    bool accepted;
    uint8_t refusal;
    int64_t shown; /* ten-thousandths of a yuan: the greatest whole number not above balance / 100 */
};

struct harpdapple_record_reply {
    bool accepted;
    uint8_t refusal;
    size_t place; /* k of the record, newest first from 0 */
    struct harpdapple_record held;
};

/* The step on the clock's date. Refused: 0, 24. */
struct harpdapple_step_reply harpdapple_step(const struct harpdapple_meter *meter);

/* What the display shows. Refused: 0. */
struct harpdapple_display_reply harpdapple_display(const struct harpdapple_meter *meter);

/* What the display shows of any balance in millionths, a record's closing balance too: ten-thousandths of a yuan. */
int64_t harpdapple_shown(int64_t balance);

/* Day record k, month record k. Refused: 0, 25. */
struct harpdapple_record_reply harpdapple_day(const struct harpdapple_meter *meter, size_t k);
struct harpdapple_record_reply harpdapple_month(const struct harpdapple_meter *meter, size_t k);

/* A held day of at least `volume` hundredths; which of them is left free. Refused: 0, 27. */
struct harpdapple_record_reply harpdapple_heavy(const struct harpdapple_meter *meter, uint32_t volume);

struct harpdapple_sum_reply {
    bool accepted;
    uint8_t refusal;
    uint64_t volume; /* hundredths */
};

/* The sum of volumes over a host's list of at most 62 day records. Refused: 25. */
struct harpdapple_sum_reply harpdapple_sum(const struct harpdapple_record *days, size_t count);

/* ---- Plan records ---- */

struct harpdapple_plan_reply {
    bool accepted;
    uint8_t refusal;
    struct harpdapple_plan plan; /* what is not read is 0 */
};

struct harpdapple_acceptance {
    bool accepted;
    uint8_t refusal;
};

struct harpdapple_part_reply {
    bool accepted;
    uint8_t refusal;
    uint8_t which; /* 1 the first record, 2 the second */
};

/* Reads a record. Refused: 1 to 7. */
struct harpdapple_plan_reply harpdapple_plan_read(const uint8_t *bytes, size_t length);

/* Writes a plan into a buffer of 66 bytes; bytes that are not read are written 0. Refused: 26, 2 to 7, the buffer as it was. */
struct harpdapple_acceptance harpdapple_plan_write(const struct harpdapple_plan *plan, uint8_t *out, size_t length);

/* Which of two records is in force on a date. Refused: 8, 1 to 7 for the first, then for the second, 24 neither, 12 both. */
struct harpdapple_part_reply harpdapple_record_in_force(const uint8_t *first, size_t first_length, const uint8_t *second,
                                                        size_t second_length, uint32_t date);

/* ---- Texts, in plain English ---- */

/* Why a call was refused; "unknown" for a number that is none of enum harpdapple_refusal. */
static inline const char *harpdapple_refusal_text(uint8_t refusal)
{
    switch (refusal) {
    case HARPDAPPLE_REFUSED_METER: return "the meter breaks its bounds";
    case HARPDAPPLE_REFUSED_LENGTH: return "the plan record has not 66 bytes";
    case HARPDAPPLE_REFUSED_STEPS: return "the plan's steps are not 1 to 6";
    case HARPDAPPLE_REFUSED_WORD: return "the plan's cycle word is not 1 to 5";
    case HARPDAPPLE_REFUSED_DIGIT: return "the plan has a digit above 9";
    case HARPDAPPLE_REFUSED_DATE: return "the plan has a date that is not in the calendar";
    case HARPDAPPLE_REFUSED_NO_DAY: return "the plan has no day in force";
    case HARPDAPPLE_REFUSED_PRICE: return "the plan has a price of 0";
    case HARPDAPPLE_REFUSED_STAMP: return "not a date, or not a second of a day";
    case HARPDAPPLE_REFUSED_EARLIER: return "before the last accepted call";
    case HARPDAPPLE_REFUSED_SLOT: return "the slot is not 1 or 2";
    case HARPDAPPLE_REFUSED_BUSY: return "the slot's plan is in force";
    case HARPDAPPLE_REFUSED_BOTH: return "both plans would be in force on one date";
    case HARPDAPPLE_REFUSED_PULSES: return "more than 65,535 pulses";
    case HARPDAPPLE_REFUSED_TOTAL: return "the total volume is full";
    case HARPDAPPLE_REFUSED_SERIAL: return "the serial is not 1 to 65,535";
    case HARPDAPPLE_REFUSED_SERIAL_AGAIN: return "the last serial again";
    case HARPDAPPLE_REFUSED_SERIAL_BELOW: return "a serial below the last";
    case HARPDAPPLE_REFUSED_SERIAL_SKIPPED: return "a serial was skipped";
    case HARPDAPPLE_REFUSED_NO_AMOUNT: return "no amount";
    case HARPDAPPLE_REFUSED_TOP_BALANCE: return "the balance would pass 999,999.99 yuan";
    case HARPDAPPLE_REFUSED_COMMAND: return "an unknown command";
    case HARPDAPPLE_REFUSED_KEY: return "the valve may not open now";
    case HARPDAPPLE_REFUSED_ALARMS: return "the alarms are out of order";
    case HARPDAPPLE_REFUSED_NO_PLAN: return "no plan is in force";
    case HARPDAPPLE_REFUSED_NOT_HELD: return "no such record is held";
    case HARPDAPPLE_REFUSED_BUFFER: return "the buffer has not 66 bytes";
    case HARPDAPPLE_REFUSED_NO_HEAVY_DAY: return "no day was that heavy";
    default: return "unknown";
    }
}

/* What an event code tells; "unknown" for a number that is none of HARPDAPPLE_CODE_... */
static inline const char *harpdapple_code_text(uint32_t code)
{
    switch (code) {
    case HARPDAPPLE_CODE_PLAN_EXPIRED: return "plan expired";
    case HARPDAPPLE_CODE_VALVE_CLOSED: return "valve closed";
    case HARPDAPPLE_CODE_VALVE_OPENED: return "valve opened";
    case HARPDAPPLE_CODE_RECHARGED: return "recharged";
    case HARPDAPPLE_CODE_SETTINGS: return "settings changed";
    case HARPDAPPLE_CODE_COMMAND: return "command carried out";
    case HARPDAPPLE_CODE_ALARM_1: return "balance at alarm 1";
    case HARPDAPPLE_CODE_ALARM_2: return "balance at alarm 2";
    case HARPDAPPLE_CODE_ZERO: return "balance at zero";
    case HARPDAPPLE_CODE_DEBT: return "in debt";
    default: return "unknown";
    }
}

#ifdef __cplusplus
}
#define HARPDAPPLE_ASSERT static_assert
#else
#define HARPDAPPLE_ASSERT _Static_assert
#endif

/* What a host may store has these sizes, and no other compiler of the same platform may lay it out otherwise. */
HARPDAPPLE_ASSERT(sizeof(bool) == 1 && sizeof(size_t) == 8, "harpdapple: the archive is for x86-64");
HARPDAPPLE_ASSERT(sizeof(struct harpdapple_meter) == 4680, "harpdapple: a meter has 4,680 bytes");
HARPDAPPLE_ASSERT(sizeof(struct harpdapple_plan) == 96, "harpdapple: a plan has 96 bytes");
HARPDAPPLE_ASSERT(sizeof(struct harpdapple_record) == 24, "harpdapple: a record has 24 bytes");
HARPDAPPLE_ASSERT(sizeof(struct harpdapple_codes_reply) == 48, "harpdapple: a reply has 48 bytes");

#undef HARPDAPPLE_ASSERT

#endif
