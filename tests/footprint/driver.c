/* Plays steps on a lent table and watches each: driver LISTING < PLAYS

   While a step runs its table lies in pages that may not be read or written. An instruction that does so is stopped by the processor; what it is going to read and
   write is taken from its line in LISTING and from the registers, the pages are opened for this one instruction (the trap flag), and closed again. So every byte of
   a device that a step reads or writes is seen, by whatever instruction. memcpy, memmove and memset are those below, which note what they are asked.

   LISTING has a line for each instruction of the code that is watched, with the places in memory that it names. PLAYS has a line for each thing to do:
     t N SLAVE PART    a new table of N devices, with slave addresses from SLAVE on; r N SLAVE PART: all at one slave address
     s KIND MASK       a step, with a line of what was seen on standard output
     v ROOM            a save into a room of so many bytes, likewise */
#define _GNU_SOURCE
#include <inttypes.h>
#include <signal.h>
#include <stdio.h>
#include <stdlib.h>
#include <string.h>
#include <sys/mman.h>
#include <ucontext.h>

enum { MOST = 9, LARGEST = 4096, RECORD = 168 };

extern void watched_fill(void *table, size_t devices, size_t i, const void *record, size_t length);
extern uint32_t watched_step(void *table, size_t devices, uint8_t kind, uint64_t mask);
extern uint32_t watched_save(const void *table, size_t devices, void *room, size_t length);

struct place {
    uint8_t reads, writes;
    int8_t base, index;
    uint8_t scale;
    int32_t size;
    int64_t offset;
};
struct line {
    int places;
    struct place place[2];
};

static const int registers[16] = {REG_RAX, REG_RBX, REG_RCX, REG_RDX, REG_RSI, REG_RDI, REG_RBP, REG_RSP,
                                  REG_R8, REG_R9, REG_R10, REG_R11, REG_R12, REG_R13, REG_R14, REG_R15};
static struct line *lines;
static uint64_t low, high;

static _Alignas(4096) unsigned char table[MOST * LARGEST];
static size_t stride, lent;
static unsigned char seen[MOST * LARGEST];

enum { READ = 1, WRITTEN = 2 };
static int watched;
static uint64_t copies, copied, strayed;

static void touch(uint64_t at, uint64_t n, int how) {
    uint64_t first = (uint64_t)table, end = first + stride * lent;
    for (uint64_t k = at < first ? first : at; k < at + n && k < end; k++) seen[k - first] |= how;
}

static void gate(int open) {
    if (watched && mprotect(table, sizeof table, open ? PROT_READ | PROT_WRITE : PROT_NONE) != 0) abort();
}

extern void *__real_memmove(void *to, const void *from, size_t n);
extern void *__real_memset(void *to, int byte, size_t n);

void *__wrap_memmove(void *to, const void *from, size_t n) {
    gate(1);
    copies += watched, copied += watched ? n : 0;
    touch((uint64_t)from, n, READ);
    touch((uint64_t)to, n, WRITTEN);
    __real_memmove(to, from, n);
    gate(0);
    return to;
}

void *__wrap_memcpy(void *to, const void *from, size_t n) { return __wrap_memmove(to, from, n); }

void *__wrap_memset(void *to, int byte, size_t n) {
    gate(1);
    touch((uint64_t)to, n, WRITTEN);
    __real_memset(to, byte, n);
    gate(0);
    return to;
}

/* An instruction is about to read or write the table. */
static void reached(int number, siginfo_t *info, void *context) {
    (void)number;
    greg_t *r = ((ucontext_t *)context)->uc_mcontext.gregs;
    uint64_t ip = r[REG_RIP], reached = (uint64_t)info->si_addr;
    if (!watched || reached < (uint64_t)table || reached >= (uint64_t)table + sizeof table) abort();
    if (ip < low || ip >= high || lines[ip - low].places <= 0) strayed++;
    else {
        const struct line *l = &lines[ip - low];
        for (int k = 0; k < l->places; k++) {
            const struct place *p = &l->place[k];
            uint64_t at = p->offset;
            if (p->base >= 0) at += r[registers[p->base]];
            if (p->index >= 0) at += r[registers[p->index]] * p->scale;
            if (p->reads) touch(at, p->size, READ);
            if (p->writes) touch(at, p->size, WRITTEN);
        }
    }
    gate(1);
    r[REG_EFL] |= 0x100;
}

/* It has done so. */
static void passed(int number, siginfo_t *info, void *context) {
    (void)number, (void)info;
    gate(0);
    ((ucontext_t *)context)->uc_mcontext.gregs[REG_EFL] &= ~0x100;
}

static void watch(void) {
    copies = copied = strayed = 0;
    memset(seen, 0, sizeof seen);
    watched = 1;
    gate(0);
}

static void unwatch(void) {
    gate(1);
    watched = 0;
}

static void say(const char *what, uint32_t answer) {
    size_t read = 0, written = 0;
    for (size_t i = 0; i < lent; i++) {
        size_t a = 0, b = 0;
        for (size_t k = 0; k < stride; k++) {
            a += (seen[i * stride + k] & READ) != 0;
            b += (seen[i * stride + k] & WRITTEN) != 0;
        }
        if (a > read) read = a;
        if (b > written) written = b;
    }
    if (strayed) {
        fprintf(stderr, "driver: the table was read or written %" PRIu64 " times by code that is not in the listing\n", strayed);
        exit(2);
    }
    printf("%s %" PRIu32 " %" PRIu64 " %" PRIu64 " %zu %zu\n", what, answer, copies, copied, read, written);
}

static void fill(size_t i, unsigned slave, unsigned part) {
    unsigned char record[RECORD];
    memset(record, 0xFF, sizeof record);
    memcpy(record, "SW", 2);
    record[2] = part;
    record[3] = slave;
    memcpy(record + 4, "\x00\xD3\x80\x00", 4);
    watched_fill(table, MOST, i, record, sizeof record);
}

/* The first byte that is written where device i is put. */
static size_t first_byte(size_t i) {
    size_t first = sizeof table;
    for (int other = 0; other < 256; other += 255) {
        memset(table, other, sizeof table);
        fill(i, 0, 0x11);
        for (size_t k = 0; k < first; k++)
            if (table[k] != other) first = k;
    }
    return first;
}

static void *need(void *p) {
    if (!p) {
        fprintf(stderr, "driver: no listing\n");
        exit(2);
    }
    return p;
}

static void load(const char *name) {
    FILE *f = need(fopen(name, "r"));
    if (fscanf(f, "%" SCNx64 " %" SCNx64, &low, &high) != 2) need(NULL);
    lines = need(calloc(high - low, sizeof *lines));
    for (uint64_t k = 0; k < high - low; k++) lines[k].places = -1;
    uint64_t at;
    int places;
    while (fscanf(f, "%" SCNx64 " %d", &at, &places) == 2) {
        struct line *l = &lines[at - low];
        l->places = places;
        for (int k = 0; k < places; k++) {
            int v[6];
            int64_t offset;
            for (int j = 0; j < 6; j++)
                if (fscanf(f, "%d", &v[j]) != 1) need(NULL);
            if (fscanf(f, "%" SCNd64, &offset) != 1) need(NULL);
            l->place[k] = (struct place){v[0], v[1], v[3], v[4], v[5], v[2], offset};
        }
    }
    fclose(f);
}

int main(int count, char **words) {
    if (count != 2) return 2;
    load(words[1]);
    struct sigaction reads = {.sa_sigaction = reached, .sa_flags = SA_SIGINFO}, goes_on = {.sa_sigaction = passed, .sa_flags = SA_SIGINFO};
    sigaction(SIGSEGV, &reads, NULL);
    sigaction(SIGTRAP, &goes_on, NULL);
    stride = first_byte(1) - first_byte(0);
    printf("device %zu\n", stride);
    char what;
    while (scanf(" %c", &what) == 1) {
        unsigned long long a = 0, b = 0, c = 0;
        if (what == 't' || what == 'r') {
            if (scanf("%llx %llx %llx", &a, &b, &c) != 3) return 2;
            lent = a;
            for (size_t i = 0; i < lent; i++) fill(i, b + (what == 't' ? i : 0), c);
        } else if (what == 's') {
            if (scanf("%llx %llx", &a, &b) != 2) return 2;
            watch();
            uint32_t answer = watched_step(table, lent, a, b);
            unwatch();
            say("step", answer);
        } else if (what == 'v') {
            if (scanf("%llx", &a) != 1 || a > 2048) return 2;
            unsigned char room[2048];
            watch();
            uint32_t answer = watched_save(table, lent, room, a);
            unwatch();
            say("save", answer);
        }
    }
    return 0;
}
