// The course of a drawn call: scan by scan what the program has to write.
#include "course.h"
#include <stdio.h>
#include <stdlib.h>
#include <string.h>

const char *const command_words[COMMANDS] = { "run", "fault", "vote", "heal" };

// The oracle is at odds with itself: what the laws exclude came in its own worlds.
static void give_up(const Course *course, const char *why) {
  fprintf(stderr, "oracle: at odds with itself in scan %u of %s: %s\n", course->scan, command_words[course->command],
          why);
  exit(3);
}

// ---- inputs

static uint32_t draw_pause(void) {
  switch (draw(8)) {
    case 0: return 0;
    case 1: return between(400, 700);
    case 2: return one_in(20) ? draw(0x10000000) : between(50, 150);
    default: return between(1, 30);
  }
}

static void draw_scan(Course *course) {
  uint32_t pause = draw_pause();
  course->time += pause <= UINT32_MAX - course->time ? pause : 0;
  for (int k = 0; k < course->app->inputs; k++)
    if (one_in(3)) course->values[k] = !one_in(3);
  put_text(&course->trace, "%u", course->time);
  for (int k = 0; k < course->app->inputs; k++) put_text(&course->trace, " %d", course->values[k]);
  put_text(&course->trace, "\n");
}

// ---- lines

static void put_outputs(Course *course, const Report *report) {
  for (int k = 0; k < course->app->outputs; k++)
    put_text(&course->expected, " %s=%d", course->app->names[course->app->inputs + k], report && report->flags[k]);
}

static void put_report(Course *course) {
  const Application *app = course->app;
  put_text(&course->expected, "%u", course->time);
  put_outputs(course, course->meant);
  for (int k = 0; k < app->instances; k++) {
    const bool *flags = &course->meant->flags[app->outputs + 2 * k];
    put_text(&course->expected, " %s=%d,%d,%04X", app->instance[k].name, flags[0], flags[1],
             (unsigned)course->meant->codes[k]);
  }
  put_text(&course->expected, "\n");
}

static void put_cause(Course *course, Outcome outcome, Seat seat, int trap, Counts *counts) {
  char letter = "ABC"[seat];
  if (outcome == TRAPPED) put_text(&course->expected, "trap %c %d", letter, trap);
  if (outcome == IS_STUCK) put_text(&course->expected, "stuck %c", letter);
  if (outcome == NO_REPORT) put_text(&course->expected, "no report %c", letter);
  *(outcome == TRAPPED ? &counts->trapped : outcome == IS_STUCK ? &counts->is_stuck : &counts->no_report) += 1;
}

// ---- verdicts

static Outcome outcome_in(Course *course, Seat seat, int *trap) {
  return outcome_of(course->app, course->world, seat, course->given[seat], trap);
}

static bool is_meant(const Course *course, Seat seat) {
  return first_difference(course->app, course->given[seat], course->meant) < 0;
}

static void found(Course *course) {
  if (!course->first_found) course->first_found = course->scan;
}

static void put_trip(Course *course, Outcome outcome, int trap, Counts *counts) {
  put_text(&course->expected, "%u TRIP ", course->time);
  if (outcome == HAS_REPORT) {
    counts->differ++;
    put_text(&course->expected, "differ %d",
             first_difference(course->app, course->given[course->struck], course->meant));
  } else {
    put_cause(course, outcome, course->struck, trap, counts);
  }
  put_outputs(course, NULL);
  put_text(&course->expected, "\n");
  course->is_tripped = true;
  course->status = 4;
  counts->tripped++;
  found(course);
}

// The verdict of two seats: by the outcome of the struck one and the report that is meant.
static void judge_pair(Course *course, Counts *counts) {
  Seat spared = course->struck == SEAT_A ? SEAT_B : SEAT_A;
  int trap = 0, of_spared = 0;
  if (outcome_in(course, spared, &of_spared) != HAS_REPORT || !is_meant(course, spared))
    give_up(course, "the spared seat does not report what is meant");
  Outcome outcome = outcome_in(course, course->struck, &trap);
  if (outcome == HAS_REPORT && is_meant(course, course->struck)) {
    put_report(course);
    counts->released++;
  } else {
    put_trip(course, outcome, trap, counts);
  }
}

// The vote of three seats: a seat that does not report what is meant is outvoted, and there is one at most.
static void judge_vote(Course *course, Counts *counts) {
  int wrong = -1, trap = 0;
  for (int seat = 0; seat < 3; seat++) {
    if (outcome_in(course, (Seat)seat, &trap) == HAS_REPORT && is_meant(course, (Seat)seat)) continue;
    if (wrong >= 0) give_up(course, "two seats are wrong");
    if (!course->world->dirty[seat]) give_up(course, "a seat is wrong that was not struck since it was healed");
    wrong = seat;
  }
  put_report(course);
  *(wrong < 0 ? &counts->all : &counts->outvoted) += 1;
  if (wrong < 0) return;
  put_text(&course->expected, "%u OUTVOTED %c\n", course->time, "ABC"[wrong]);
  found(course);
  if (course->command == HEAL) {
    heal_seat(course->app, course->world, (Seat)wrong);
    course->world->dirty[wrong] = false;
  }
}

// ---- scans and trials

static void make_turns(Course *course, Counts *counts) {
  int last = course->world->seats - 1;
  course->turns = 0;
  while (!course->is_over) {
    strike_before_turn(course, course->turns + 1, counts);
    if (course->is_over) return;
    int seat = next_seat(course->world, last);
    if (seat < 0) break;
    watch_turn(course, (Seat)seat);
    turn_world(course->app, course->world, (Seat)seat);
    course->turns++;
    strike_behind_turn(course, (Seat)seat);
    last = seat;
  }
  write_unreached(course, course->turns + 2);
}

static void keep_cells(Course *course) {
  for (int seat = 0; seat < 3; seat++) {
    const Channel *channel = &course->world->channel[seat];
    memcpy(course->earlier[seat], channel->cells, channel->cell_count);
  }
}

static void make_scan(Course *course, Counts *counts) {
  draw_scan(course);
  course->scan++;
  counts->scans++;
  mean_scan(course->app, course->meaning, course->time, course->values);
  meant_report(course->app, course->meaning, course->meant);
  if (course->is_tripped) {
    put_text(&course->expected, "%u TRIP", course->time);
    put_outputs(course, NULL);
    put_text(&course->expected, "\n");
    write_unreached(course, 0);
    counts->down++;
    return;
  }
  course->due_count = 0;
  strike_before_turn(course, 0, counts);
  if (course->is_over) return;
  begin_world(course->app, course->world, course->time, course->values);
  make_turns(course, counts);
  if (course->is_over) return;
  if (course->world->seats == 2)
    judge_pair(course, counts);
  else
    judge_vote(course, counts);
  if (one_in(4)) keep_cells(course);
}

static void restart(Course *course, Counts *counts) {
  put_text(&course->trace, "restart\n");
  put_text(&course->expected, "restart\n");
  restart_world(course->world);
  forget(course->app, course->meaning);
  course->is_tripped = false;
  counts->restarts++;
}

static void make_trial(Course *course, bool is_last, Counts *counts) {
  course->trial_from[course->trials++] = course->expected.length;
  course->stuck_count = 0;
  course->watched = STRIKES;
  course->first_struck = course->first_found = 0;
  course->may_break_off = is_last && one_in(2);
  int scans = (int)between(3, 12);
  draw_plans(course, scans, counts);
  for (int k = 0; k < scans && !course->is_over; k++) {
    if (k && one_in(12)) restart(course, counts);
    make_scan(course, counts);
  }
  counts->trials += course->command != RUN;
  counts->broken_off += course->is_over;
  if (course->plans != 1 || !course->first_struck || course->is_over) return;
  int when = !course->first_found ? NEVER : course->first_found == course->first_struck ? AT_ONCE : LATER;
  counts->alone[course->plan[0].strike][when]++;
}

// The world of the same application with one AND or OR exchanged.
static World *other_world(Application *app) {
  Value *value = draw_joined(app);
  if (value) value->form = value->form == ALL_OF ? ANY_OF : ALL_OF;
  World *other = new_world(app, 3);
  if (value) value->form = value->form == ALL_OF ? ANY_OF : ALL_OF;
  return other;
}

Course *draw_course(Application *app, Command command, int trials, Counts *counts) {
  Course *course = taken(sizeof(Course));
  course->app = app;
  course->command = command;
  course->world = new_world(app, command == RUN || command == FAULT ? 2 : 3);
  course->other = other_world(app);
  course->meaning = new_meaning(app);
  course->meant = new_report(app);
  for (int seat = 0; seat < 3; seat++) {
    course->given[seat] = new_report(app);
    course->earlier[seat] = taken(course->world->channel[seat].cell_count);
  }
  course->values = taken((size_t)app->inputs);
  course->struck = (Seat)draw((uint32_t)course->world->seats);
  put_text(&course->trace, "time");
  for (int k = 0; k < app->inputs; k++) put_text(&course->trace, " %s", app->names[k]);
  put_text(&course->trace, "\n");
  for (int k = 0; k < trials && !course->is_over; k++) {
    if (k) restart(course, counts);
    make_trial(course, k == trials - 1, counts);
  }
  return course;
}
