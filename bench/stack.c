/*
 * The stack that each call takes: it runs in a thread whose stack was filled with a pattern, and the deepest byte that
 * changed is looked for. An empty call is measured too and taken off. Built and run by bench/core.py.
 */
#define _GNU_SOURCE
#include <pthread.h>
#include <stdio.h>
#include <stdlib.h>
#include <string.h>

#include "harpdapple.h"

enum { STACK = 256 * 1024, PATTERN = 0xA5 };

static const uint8_t plan_a[HARPDAPPLE_RECORD_BYTES] = {
    0x20, 0x20, 0x01, 0x01, 0x20, 0x21, 0x01, 0x01, 2,    1,    0,    0,    0,    0,    0, 0, 0,
    0,    0,    0,    0x25, 0,    0,    0x02, 0x60, 0,    0x99, 0x99, 0x99, 0x99, 0,    3, 0x15, 0};

static struct harpdapple_meter meter;
static const struct harpdapple_stamp today = {20200115, 0};
static const struct harpdapple_stamp later = {20200201, 0};

static void *nothing(void *p) { return p; }

static void *pulses(void *p) {
    harpdapple_pulses(&meter, (struct harpdapple_pulses_call){today, 1});
    return p;
}

static void *turning_pulses(void *p) {
    harpdapple_pulses(&meter, (struct harpdapple_pulses_call){later, 1});
    return p;
}

static void *recharge(void *p) {
    harpdapple_recharge(&meter, (struct harpdapple_recharge_call){later, 1, 2});
    return p;
}

static void *load(void *p) {
    harpdapple_load(&meter, (struct harpdapple_load_call){later, 2}, plan_a, sizeof plan_a);
    return p;
}

static void *alarms(void *p) {
    harpdapple_alarms(&meter, (struct harpdapple_alarms_call){later, 20, 5});
    return p;
}

static void *command(void *p) {
    harpdapple_command(&meter, (struct harpdapple_command_call){later, 1});
    return p;
}

static void *key(void *p) {
    harpdapple_key(&meter, (struct harpdapple_key_call){later});
    return p;
}

static void *tick(void *p) {
    harpdapple_tick(&meter, (struct harpdapple_tick_call){later});
    return p;
}

static void *display(void *p) {
    harpdapple_display(&meter);
    return p;
}

static void *step(void *p) {
    harpdapple_step(&meter);
    return p;
}

static void *day(void *p) {
    harpdapple_day(&meter, 0);
    return p;
}

static void *heavy(void *p) {
    harpdapple_heavy(&meter, 1);
    return p;
}

static void *plan_read(void *p) {
    harpdapple_plan_read(plan_a, sizeof plan_a);
    return p;
}

static struct harpdapple_plan plan;

static void *plan_write(void *p) {
    uint8_t out[HARPDAPPLE_RECORD_BYTES];
    harpdapple_plan_write(&plan, out, sizeof out);
    return p;
}

static size_t used(void *(*call)(void *)) {
    unsigned char *stack = aligned_alloc(4096, STACK);
    pthread_attr_t attr;
    pthread_t thread;
    size_t i = 0;

    if (stack == NULL) exit(1);
    memset(stack, PATTERN, STACK);
    if (pthread_attr_init(&attr) || pthread_attr_setstack(&attr, stack, STACK) ||
        pthread_create(&thread, &attr, call, NULL) || pthread_join(thread, NULL)) {
        exit(1);
    }
    while (i < STACK && stack[i] == PATTERN) i++;
    free(stack);
    return STACK - i;
}

int main(void) {
    static const struct {
        const char *name;
        void *(*call)(void *);
    } calls[] = {{"pulse call, same day", pulses},
                 {"pulse call, new month", turning_pulses},
                 {"recharge, new month", recharge},
                 {"load of a plan, new month", load},
                 {"alarms, new month", alarms},
                 {"command, new month", command},
                 {"key, new month", key},
                 {"tick, new month", tick},
                 {"display query", display},
                 {"step query", step},
                 {"day record query", day},
                 {"heavy day query", heavy},
                 {"read of a plan record", plan_read},
                 {"write of a plan record", plan_write}};
    size_t none = used(nothing);

    plan = harpdapple_plan_read(plan_a, sizeof plan_a).plan;
    for (size_t i = 0; i < sizeof calls / sizeof calls[0]; i++) {
        meter = harpdapple_fresh();
        harpdapple_load(&meter, (struct harpdapple_load_call){today, 1}, plan_a, sizeof plan_a);
        harpdapple_recharge(&meter, (struct harpdapple_recharge_call){today, 1000000, 1});
        printf("%s %zu\n", calls[i].name, used(calls[i].call) - none);
    }
    printf("a meter %zu\n", sizeof meter);
    return 0;
}
