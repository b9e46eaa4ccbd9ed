// A drawn call: a trace with restarts, a fault file, and what the program has to write of them.
#ifndef COURSE_H
#define COURSE_H
#include "oracle.h"

typedef enum { RUN, FAULT, VOTE, HEAL, COMMANDS } Command;

// What a strike stands for.
typedef enum {
  A_BYTE,
  SMALL_BYTE,
  SEVERAL_BYTES,
  WHOLE_REGION,
  FLIPPED_BIT,
  STUCK_BIT,
  WRONG_DECODING,
  WRONG_REGISTER,
  LOST_WRITE,
  LATE_WRITE,
  A_JUMP,
  OTHER_CODE,
  EARLIER_CELLS,
  STRIKES
} Strike;

enum { AT_ONCE, LATER, NEVER, WHEN };
enum { MOST_TRIALS = 64, MOST_FAULT_LINES = 900, MOST_STUCK = 3, MOST_DUE = 16, MOST_PLANS = 4 };

typedef struct {
  uint64_t scans, released, tripped, down, restarts, fault_lines, trials, all, outvoted, broken_off;
  uint64_t differ, trapped, is_stuck, no_report;
  uint64_t planned[STRIKES], alone[STRIKES][WHEN];
} Counts;

typedef struct {
  uint32_t scan, turn;
  Strike strike;
} Plan;

// A byte of a region of a seat.
typedef struct {
  Seat seat;
  bool in_code;
  size_t at;
} Place;

// A bit that sticks, and a byte that is struck before a turn of this scan.
typedef struct {
  Place place;
  int bit;
  bool value;
} Stuck;
typedef struct {
  uint32_t turn;
  Place place;
  uint8_t byte;
} Due;

typedef struct {
  const Application *app;
  Command command;
  World *world, *other; // the other one is of an application in which one AND is an OR, or one OR an AND
  uint8_t *earlier[3];  // the cells of each seat behind an earlier scan
  Meaning *meaning;
  Report *meant, *given[3];
  Bytes trace, faults, expected;
  int status;
  bool *values;
  uint32_t time, scan, turns, fault_lines;
  bool is_tripped, is_over, may_break_off;
  Seat struck; // of `fault` and `vote`; of `heal` the one that was struck last
  Plan plan[MOST_PLANS];
  int plans, stuck_count, due_count;
  Stuck stuck[MOST_STUCK];
  Due due[MOST_DUE];
  Strike watched;                     // what a strike waits for a turn of the struck seat, or STRIKES
  uint8_t *before;                    // cells before a watched turn
  uint32_t first_struck, first_found; // scans of this trial, 0 where there was none
  size_t trial_from[MOST_TRIALS];     // where the text of each trial begins
  int trials;
} Course;

extern const char *const command_words[COMMANDS];
extern const char *const strike_words[STRIKES];

// Draws a call of a command with so many trials. Adds to the counts.
Course *draw_course(Application *app, Command command, int trials, Counts *counts);

// ---- strikes (strikes.c)

void draw_plans(Course *course, int scans, Counts *counts);
void strike_before_turn(Course *course, uint32_t turn, Counts *counts); // before Begin, where the turn is 0
void write_unreached(Course *course, uint32_t turn); // faults for turns from this one on, which the scan does not reach
void watch_turn(Course *course, Seat seat);          // before a turn of the seat: what a strike waits for
void strike_behind_turn(Course *course, Seat seat);  // behind it: what is owed for the turn

#endif
