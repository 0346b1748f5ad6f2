/*
 * Joins a library to a program and runs the table on two banks, as a host would: join, check, start,
 * then turns until the site is done. Finchchaise shares the turns out first. Then the host does, in
 * another order, and prints what the run program prints for the same turns. examples/c/run builds
 * this and compares.
 */
#include "finchchaise.h"

#include <stdio.h>

#define PROCESSES 2
#define VARIABLES 1
#define TURNS 4

/* Table T2: if there are any banks then a barrier, else nothing. */
static const uint8_t library[] = {
    0x10, 0x42, 0x04, 0x00, /* edition 1, one variable, one procedure, four nodes */
    0x00, 0x00, 0x00, 0x00, /* no single variable */
    0x03, 0x80, 0x00, 0x00, /* procedure 0: body is node 3, with a global effect */
    0x18, 0x00, 0x00, 0x00, /* node 0: number of banks */
    0xB8, 0x00, 0x00, 0x00, /* node 1: barrier */
    0x80, 0x00, 0x00, 0x00, /* node 2: nothing */
    0x98, 0x00, 0x02, 0x02, /* node 3: if node 0 then node 1 else node 2 */
};

/* Its main procedure calls the library's. */
static const uint8_t program[] = {
    0x10, 0x44, 0x02, 0x00, /* edition 1, one variable, two procedures, two nodes */
    0x00, 0x00, 0x00, 0x00, /* no single variable */
    0x00, 0x80, 0x00, 0x00, /* procedure 0, a stub: body is node 0, the effect is the library's */
    0x01, 0x80, 0x00, 0x00, /* procedure 1: body is node 1, with a global effect */
    0x80, 0x00, 0x00, 0x00, /* node 0: nothing */
    0xA8, 0x00, 0x00, 0x00, /* node 1: call procedure 0 */
};

static const char *const events[] = {"moved", "finished", "arrived", "met", "waits", "ended"};
static const char *const sites[] = {"going", "done", "crossed"};
static const char *const tables[] = {"library", "program"};

static uint8_t table[FC_MOST_TABLE_BYTES];
static size_t table_length;
static uint32_t scratch[FC_SCRATCH_WORDS];
static uint32_t start_words[PROCESSES * (VARIABLES + FC_DOORS)];
static uint32_t state[PROCESSES * FC_PROCESS_WORDS];
static uint32_t roll[PROCESSES * FC_ROLL_WORDS];

#define LENGTH(words) (sizeof(words) / sizeof((words)[0]))

static int refused(uint32_t number, uint32_t place)
{
    printf("refused %u %u\n", (unsigned)number, (unsigned)place);
    return 1;
}

/* Writes the table. One that cannot be joined has length 0, and the call then says why. */
static int join(void)
{
    table_length = fc_joined_length(library, sizeof library, program, sizeof program);
    FcLink link =
        fc_link(library, sizeof library, program, sizeof program, table, table_length);
    if (link.number != 0) {
        printf("in the %s: ", tables[link.table]);
        return refused(link.number, link.place);
    }
    printf("joined into %u bytes\n", (unsigned)table_length);
    return 0;
}

static int check(void)
{
    uint64_t answer = fc_check(table, table_length, scratch, LENGTH(scratch));
    if (answer != 0)
        return refused(fc_number(answer), fc_place(answer));
    printf("accepted\n");
    return 0;
}

/* Every variable and door starts with 0. */
static int start(void)
{
    uint64_t answer = fc_start(table, table_length, PROCESSES, start_words, LENGTH(start_words),
                               state, LENGTH(state), roll, LENGTH(roll));
    return answer == 0 ? 0 : refused(fc_number(answer), fc_place(answer));
}

/* How the site stands, by the roll. */
static const char *site(void)
{
    int all_ended = 1;
    for (uint32_t process = 0; process < PROCESSES; process++) {
        uint32_t status = roll[FC_ROLL_WORDS * process];
        if (status == FC_RUNNING)
            return sites[FC_SITE_GOING];
        all_ended &= status == FC_ENDED;
    }
    return sites[all_ended ? FC_SITE_DONE : FC_SITE_CROSSED];
}

/* A few turns a call, until no bank runs. Bank 0 is served first: it comes after the last one. */
static int serve(void)
{
    FcServe served;
    uint32_t last = PROCESSES - 1;
    printf("made last site\n");
    do {
        served = fc_serve(table, table_length, state, LENGTH(state), roll, LENGTH(roll), last,
                          TURNS);
        last = served.last;
        printf("%u %u %s\n", (unsigned)served.made, (unsigned)last, site());
        if (served.number != 0)
            return refused(served.number, served.place);
    } while (served.made == TURNS);
    return 0;
}

/* Each bank in turn takes three turns. */
static int run(void)
{
    printf("bank what node site\n");
    for (uint32_t turn = 0; turn < 3 * PROCESSES; turn++) {
        uint32_t process = turn / 3;
        FcStep step =
            fc_step(table, table_length, state, LENGTH(state), roll, LENGTH(roll), process);
        if (step.number != 0)
            return refused(step.number, step.place);
        printf("%u %s %u %s\n", (unsigned)process, events[step.event], (unsigned)step.node,
               sites[step.site]);
    }
    return 0;
}

int main(void)
{
    if (join() != 0 || check() != 0)
        return 1;
    if (start() != 0 || serve() != 0 || start() != 0 || run() != 0)
        return 1;

    uint32_t latches[FC_LATCHES];
    uint32_t copied = fc_latches(state, LENGTH(state), 0, latches, LENGTH(latches));
    printf("bank 0 has %u latches\n", (unsigned)copied);
    return 0;
}
