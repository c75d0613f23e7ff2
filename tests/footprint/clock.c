/* Times two steps on the same table and the same events, in turn: clock RECORDS KINDS ROUNDS SECONDS
   RECORDS is a bus file of the devices, KINDS a file with a kind of event a byte. Prints for each of both the ns per step of each round. */
#define _GNU_SOURCE
#include <inttypes.h>
#include <stdio.h>
#include <stdlib.h>
#include <time.h>

enum { RECORD = 168, MOST = 8, LARGEST = 4096 };

#define FACE(name)                                                                                         \
    extern void name##_fill(void *table, size_t devices, size_t i, const void *record, size_t length);     \
    extern uint32_t name##_step(void *table, size_t devices, uint8_t kind, uint64_t mask);
FACE(before)
FACE(after)

static const struct face {
    const char *name;
    void (*fill)(void *, size_t, size_t, const void *, size_t);
    uint32_t (*step)(void *, size_t, uint8_t, uint64_t);
} faces[2] = {{"before", before_fill, before_step}, {"after", after_fill, after_step}};

static _Alignas(64) unsigned char table[MOST * LARGEST];
static unsigned char records[MOST * RECORD], kinds[1 << 20];

static size_t load(const char *name, void *to, size_t most) {
    FILE *f = fopen(name, "rb");
    if (!f) exit(2);
    size_t n = fread(to, 1, most, f);
    fclose(f);
    return n;
}

/* The events once over, on devices as they were loaded; what was answered, in one number. */
static uint64_t play(const struct face *f, size_t devices, size_t events) {
    uint64_t all = 0;
    for (size_t i = 0; i < devices; i++) f->fill(table, devices, i, records + RECORD * i, RECORD);
    for (size_t k = 0; k < events; k++) all = all * 31 + f->step(table, devices, kinds[k], 0x00FF0FF03CC3A55A);
    return all;
}

static double now(void) {
    struct timespec t;
    clock_gettime(CLOCK_MONOTONIC, &t);
    return t.tv_sec + t.tv_nsec * 1e-9;
}

int main(int count, char **words) {
    if (count != 5) return 2;
    size_t devices = load(words[1], records, sizeof records) / RECORD, events = load(words[2], kinds, sizeof kinds);
    int rounds = atoi(words[3]);
    double seconds = atof(words[4]);
    uint64_t said = play(&faces[0], devices, events);
    if (said != play(&faces[1], devices, events)) {
        fprintf(stderr, "clock: the two steps do not answer the same\n");
        return 1;
    }
    for (int round = 0; round < rounds; round++)
        for (int which = 0; which < 2; which++) {
            uint64_t times = 0;
            double begun = now(), end;
            do {
                if (play(&faces[which], devices, events) != said) return 1;
                times++;
                end = now();
            } while (end - begun < seconds / rounds);
            printf("%s %.3f\n", faces[which].name, (end - begun) * 1e9 / (times * events));
        }
    return 0;
}
