/* A C99 client of the library: document 01's trace example, a page write that arrives, and refusals that leave all that was lent as it came. */
#include "borewizard.h"

#include <stdio.h>
#include <string.h>

enum { RECORD = 168, MAIN = 8, ROOM = 128, FILL = 0xEE };

static int passed, failed;

static void check(int good, const char *what)
{
    printf("%s %s\n", good ? "ok    " : "FAILED", what);
    if (good)
        passed++;
    else
        failed++;
}

/* One AT21CS11 at address 0, all its cells FFh. */
static void make_device(uint8_t *bus)
{
    static const uint8_t head[MAIN] = {0x53, 0x57, 0x11, 0x00, 0x00, 0xD3, 0x80, 0x00};
    memset(bus, 0xFF, RECORD);
    memcpy(bus, head, MAIN);
}

static size_t put_event(uint8_t *events, size_t at, uint8_t kind)
{
    events[at] = 0x45;
    events[at + 1] = 0x56;
    events[at + 2] = kind;
    return at + 3;
}

/* The eight bits of a byte and the frame in which the device answers. */
static size_t put_byte(uint8_t *events, size_t at, uint8_t byte)
{
    for (int place = 7; place >= 0; place--)
        at = put_event(events, at, byte >> place & 1);
    return put_event(events, at, 1);
}

static int filled(const uint8_t *from, size_t n)
{
    for (size_t i = 0; i < n; i++)
        if (from[i] != FILL)
            return 0;
    return 1;
}

static void documents_example(void)
{
    static const uint8_t kinds[10] = {2, 1, 0, 1, 0, 0, 0, 0, 0, 1};
    static const uint8_t expected[10] = {2, 1, 0, 1, 0, 0, 0, 0, 0, 0};
    uint8_t bus[RECORD], before[RECORD], events[30], answers[ROOM];
    size_t count = 99, refused = 99, at = 0;

    make_device(bus);
    memcpy(before, bus, RECORD);
    memset(answers, FILL, ROOM);
    for (int i = 0; i < 10; i++)
        at = put_event(events, at, kinds[i]);

    check(borewizard_run(bus, RECORD, events, at, answers, ROOM, &count, &refused) == 0, "document 01's example is done");
    check(count == 10 && refused == 0, "ten events, none refused");
    check(memcmp(answers, expected, 10) == 0, "its answers");
    check(filled(answers + 10, ROOM - 10), "the rest of the room is left");
    check(memcmp(bus, before, RECORD) == 0, "the bus file is left");
}

static void page_write(void)
{
    uint8_t bus[RECORD], events[3 * ROOM], answers[ROOM];
    size_t count = 99, refused = 99, from = 99, at = 0;

    make_device(bus);
    at = put_event(events, at, 2);
    at = put_byte(events, at, 0xA0);
    at = put_byte(events, at, 0x26);
    at = put_byte(events, at, 0x11);
    at = put_byte(events, at, 0x22);
    at = put_byte(events, at, 0x33);
    at = put_event(events, at, 2);
    at = put_event(events, at, 1);
    at = put_event(events, at, 3);

    check(borewizard_run(bus, RECORD, events, at, answers, ROOM, &count, &refused) == 0, "a page write is done");
    check(count == 49 && refused == 1 && answers[47] == 0x80, "a frame during the cycle is answered 80h");
    check(borewizard_zone(bus, RECORD, 0, 1, &from) == 0 && from == MAIN + 32, "zone 1 is found");
    check(bus[from + 6] == 0x11 && bus[from + 7] == 0x22 && bus[from] == 0x33, "the bytes are there, the third at the page's start");
}

static void refusals(void)
{
    uint8_t bus[RECORD], before[RECORD], events[3] = {0x45, 0x56, 2}, answers[ROOM];
    size_t count = 99, refused = 99, from = 99;

    make_device(bus);
    memset(answers, FILL, ROOM);
    check(borewizard_run(bus, RECORD, events, 3, answers, 0, &count, &refused) == 11 && count == 0 && refused == 0, "no room: 11");
    count = refused = 99;
    check(borewizard_run(bus, RECORD, events, 2, answers, ROOM, &count, &refused) == 8 && count == 0 && refused == 0, "a torn event: 8");
    check(borewizard_zone(bus, RECORD, 0, 4, &from) == 14 && from == 0, "no such zone: 14");
    from = 99;
    check(borewizard_zone(bus, RECORD, 1, 0, &from) == 14 && from == 0, "no such device: 14");

    bus[2] = 0x02;
    memcpy(before, bus, RECORD);
    count = refused = from = 99;
    check(borewizard_run(bus, RECORD, events, 3, answers, ROOM, &count, &refused) == 3 && count == 0 && refused == 0, "an unknown part: 3");
    check(borewizard_zone(bus, RECORD, 0, 0, &from) == 3 && from == 0, "and for the zone too: 3");
    check(memcmp(bus, before, RECORD) == 0 && filled(answers, ROOM), "the refusals changed nothing");
}

static void nothing(void)
{
    uint8_t none[1] = {FILL};
    size_t count = 99, refused = 99;

    check(borewizard_run(none, 0, none, 0, none, 0, &count, &refused) == 0 && count == 0 && refused == 0, "no devices and no events are good");
}

int main(void)
{
    documents_example();
    page_write();
    refusals();
    nothing();
    printf("client: %d passed, %d failed\n", passed, failed);
    return failed != 0;
}
