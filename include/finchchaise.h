/*
 * Finchchaise: a proved checker of site tables, a machine that runs them and a linker that joins
 * one to another.
 *
 * Link with crates/ffi/out/libffi.a, which `rt lib` in crates/ffi writes (x86-64). The library has
 * no memory of its own: it allocates nothing and keeps nothing between calls, so calls on different
 * buffers may run side by side. No input is an error of the caller: whatever the bytes, words and
 * numbers are, a call answers.
 *
 * What the caller owes, as in C: each pointer leads to as many bytes or words as the length beside
 * it says (the pointer of an empty buffer is not followed), words are aligned, and a buffer that is
 * not const overlaps no other buffer of the call. Lengths are in bytes for tables, otherwise in
 * 32-bit words.
 *
 * In these comments a process is the rules paper's bank, a team its site, a step its turn, a
 * collective its meeting and a gathered area its roster. docs/FORMAT.md describes every word.
 *
 * Sizes in words. V is the number of variables that the table's header names:
 *
 *   start     (V + FC_DOORS) a process: its V variables, then its doors
 *   state     FC_PROCESS_WORDS a process: variables, gathered areas, doors, latches, the depth of its
 *             stack, stack places
 *   roll      FC_ROLL_WORDS a process: status (0 running, 1 waiting, 2 ended), node, value, source
 *   scratch   FC_SCRATCH_WORDS or more
 */
#ifndef FINCHCHAISE_H
#define FINCHCHAISE_H

#include <stddef.h>
#include <stdint.h>

#ifdef __cplusplus
extern "C" {
#endif

enum {
    FC_MOST_TABLE_BYTES = 1096,
    FC_MOST_PROCESSES = 16,
    FC_ROLL_WORDS = 4,
    FC_SCRATCH_WORDS = 32
};

/*
 * The parts of a process's words, in their order, and where each begins. Variables stand at 0. The
 * gathered areas stand together: area r begins at FC_GATHERED_AT + FC_AREA_SLOTS * r.
 */
enum {
    FC_VARIABLES = 32,
    FC_GATHERED_AREAS = 4,
    FC_AREA_SLOTS = 16,
    FC_GATHERED = FC_GATHERED_AREAS * FC_AREA_SLOTS,
    FC_DOORS = 12,
    FC_LATCHES = 12,
    FC_STACK = 256,

    FC_GATHERED_AT = FC_VARIABLES,
    FC_DOORS_AT = FC_GATHERED_AT + FC_GATHERED,
    FC_LATCHES_AT = FC_DOORS_AT + FC_DOORS,
    FC_DEPTH_AT = FC_LATCHES_AT + FC_LATCHES,
    FC_STACK_AT = FC_DEPTH_AT + 1,
    FC_PROCESS_WORDS = FC_STACK_AT + FC_STACK
};

/* The first word of a process's record in the roll. */
enum { FC_RUNNING = 0, FC_WAITING = 1, FC_ENDED = 2 };

/* What a step did to the process that was asked for: FcStep.event. */
enum {
    FC_EVENT_MOVED = 0,    /* a statement was worked on, and others are left */
    FC_EVENT_FINISHED = 1, /* its last statement is done, the process has ended */
    FC_EVENT_ARRIVED = 2,  /* it waits at the collective `node` */
    FC_EVENT_MET = 3,      /* its arrival brought the collective `node` about: all go on */
    FC_EVENT_WAITS = 4,    /* nothing: it was waiting already */
    FC_EVENT_ENDED = 5     /* nothing: it had ended already */
};

/* How the team stands after a step: FcStep.site. */
enum {
    FC_SITE_GOING = 0,  /* some process runs */
    FC_SITE_DONE = 1,   /* all have ended */
    FC_SITE_CROSSED = 2 /* none runs, some wait, and no collective can take place */
};

/*
 * The answer to a step. A step was taken if number is 0, and place is then 0 too. Otherwise it was
 * refused with that number of the rules paper, at that place, and event, node and site say nothing.
 * node is 0 for events other than arrived and met.
 */
typedef struct FcStep {
    uint32_t number;
    uint32_t place;
    uint32_t event;
    uint32_t node;
    uint32_t site;
} FcStep;

/*
 * The answer to fc_serve: how many turns were made, and the process that had the last of them, or
 * the one given if none was made. number and place are 0 if nothing was refused; if turns were left
 * then, no process runs. Otherwise they are the refusal of the call, which made no turn, or of the
 * turn that would have come next.
 */
typedef struct FcServe {
    uint32_t made;
    uint32_t last;
    uint32_t number;
    uint32_t place;
} FcServe;

/* A table of a link: FcLink.table. */
enum { FC_LIBRARY = 0, FC_PROGRAM = 1 };

/*
 * The answer to fc_link. The tables were joined if number is 0, and place and table are then 0 too.
 * Otherwise number and place are the refusal, and table says of which table the question was asked.
 */
typedef struct FcLink {
    uint32_t number;
    uint32_t place;
    uint32_t table;
} FcLink;

/*
 * An answer of fc_check and fc_start is 0, or for a refusal its number times 2^32 plus its place.
 * Numbers begin with 1, so a refusal is never 0.
 */
static inline uint32_t fc_number(uint64_t answer) { return (uint32_t)(answer >> 32); }
static inline uint32_t fc_place(uint64_t answer) { return (uint32_t)answer; }

/*
 * The checker: 0 if the table is accepted, else the refusal (numbers 1 to 17 and 26).
 *
 * scratch needs FC_SCRATCH_WORDS; what they hold before the call, and how many more there are, plays
 * no part. After any answer but number 1 the first so many are 0. Later words, and all after number 1,
 * are left as they were.
 */
uint64_t fc_check(const uint8_t *table, size_t table_length, uint32_t *scratch,
                  size_t scratch_length);

/*
 * Starts a team: 0 if it was started, else the refusal (numbers 2 to 12, 18 to 21 and 26). It asks
 * that the table is well formed, and not that the checker accepts it.
 *
 * processes is 1 to FC_MOST_PROCESSES; start, state and roll have exactly the lengths given above. A taken start
 * writes every word of state and roll, a refused one none.
 */
uint64_t fc_start(const uint8_t *table, size_t table_length, uint32_t processes,
                  const uint32_t *start, size_t start_length, uint32_t *state, size_t state_length,
                  uint32_t *roll, size_t roll_length);

/*
 * One step of one process, counted from 0. Numbers of a refusal: 2 to 12, 20 to 24 and 26.
 *
 * table, state and roll are those of the start, with nothing written to them since but by fc_step
 * and fc_serve. The number of processes is roll_length / FC_ROLL_WORDS. A refused step writes no
 * word, and neither does one with the event waits or ended.
 */
FcStep fc_step(const uint8_t *table, size_t table_length, uint32_t *state, size_t state_length,
               uint32_t *roll, size_t roll_length, uint32_t process);

/*
 * Makes up to so many turns, until they are used or no process runs. Each is a step of the first
 * running process after the one that had the turn before (the first turn: after last), cyclically,
 * that one itself coming last.
 *
 * table, state and roll are as for fc_step, and with those only number 22 refuses. Numbers 2 to 12,
 * 20 to 23 and 26 are asked at the call, also if turns is 0; 22 says that the roll lacks last. Then
 * 23 and 24 are asked of each turn; one that would be refused is not made, and those before it
 * stand. A refused call writes no word; a turn writes what its step would.
 */
FcServe fc_serve(const uint8_t *table, size_t table_length, uint32_t *state, size_t state_length,
                 uint32_t *roll, size_t roll_length, uint32_t last, uint32_t turns);

/*
 * Copies a process's latches into out, or as many of them as out has room for, lowest first, and
 * answers how many words were copied. It is 0 for a process that the state lacks and for a state
 * that is not a whole number of processes. Other words of out are left as they were.
 */
uint32_t fc_latches(const uint32_t *state, size_t state_length, uint32_t process, uint32_t *out,
                    size_t out_length);

/*
 * Joins a library, which is a table too, to a program. The program begins with stubs (the paper's
 * stand-ins), one for each of the library's procedures, and the joined table has the library's
 * procedures and nodes in their place. Variables are shared by number.
 *
 * Numbers of a refusal: 2 to 12 and 26 of the library, then of the program, then 27 to 29, which
 * are the program's. It asks that the tables are well formed, and not that the checker accepts them;
 * if it does, it accepts the joined one. 29 also says that out has not exactly the joined table's
 * length. A taken link writes every byte of out, a refused one none.
 */
FcLink fc_link(const uint8_t *library, size_t library_length, const uint8_t *program,
               size_t program_length, uint8_t *out, size_t out_length);

/*
 * The joined table's length in bytes, at most FC_MOST_TABLE_BYTES. It is 0 if fc_link refuses the
 * two tables whatever the output.
 */
uint32_t fc_joined_length(const uint8_t *library, size_t library_length, const uint8_t *program,
                          size_t program_length);

#ifdef __cplusplus
}
#endif

#endif
