// Strikes: what a fault stands for, as lines of a fault file and as bytes of a channel.
#include "course.h"
#include <string.h>

const char *const strike_words[STRIKES] = { "byte",         "small-byte", "several-bytes",  "whole-region",
                                            "flipped-bit",  "stuck-bit",  "wrong-decoding", "wrong-register",
                                            "lost-write",   "late-write", "jump",           "other-code",
                                            "earlier-cells" };

enum { MOST_LINE_BYTES = 256, LARGEST_WHOLE = 4096, FIRST_WORK_CELL = 9 };

// ---- bytes and lines

static size_t length_of(const Course *course, Place place) {
  const Channel *channel = &course->world->channel[place.seat];
  return place.in_code ? channel->original.length : channel->cell_count;
}

static uint8_t *bytes_at(const Course *course, Place place) {
  const Channel *channel = &course->world->channel[place.seat];
  return (place.in_code ? channel->code : channel->cells) + place.at;
}

// Whether this command may not strike this seat now: another one is dirty.
static bool is_barred(const Course *course, Seat seat) {
  if (course->command != HEAL) return false;
  for (int other = 0; other < 3; other++)
    if (other != (int)seat && course->world->dirty[other]) return true;
  return false;
}

static void write_line(Course *course, uint32_t turn, Place place, const uint8_t *bytes, size_t count) {
  put_text(&course->faults, "before %u", course->scan);
  if (turn) put_text(&course->faults, " turn %u", turn);
  put_text(&course->faults, " %c %s %zu ", "ABC"[place.seat], place.in_code ? "code" : "memory", place.at);
  bool is_large = one_in(4);
  for (size_t k = 0; k < count; k++) put_text(&course->faults, is_large ? "%02X" : "%02x", bytes[k]);
  put_text(&course->faults, "\n");
  course->fault_lines++;
}

// Strikes bytes of a region, at most as many as a line has. In `heal` a barred one ends the run.
static void strike_line(Course *course, uint32_t turn, Place place, const uint8_t *bytes, size_t count) {
  if (course->is_over || course->fault_lines >= MOST_FAULT_LINES || place.at + count > length_of(course, place)) return;
  write_line(course, turn, place, bytes, count);
  if (is_barred(course, place.seat)) {
    put_text(&course->expected, "refused F4 line %u\n", course->fault_lines);
    course->status = 3;
    course->is_over = true;
    return;
  }
  memcpy(bytes_at(course, place), bytes, count);
  course->world->dirty[place.seat] = true;
  if (!course->first_struck) course->first_struck = course->scan;
}

static void strike(Course *course, uint32_t turn, Place place, const uint8_t *bytes, size_t count) {
  for (size_t from = 0; from < count; from += MOST_LINE_BYTES) {
    size_t part = count - from < MOST_LINE_BYTES ? count - from : MOST_LINE_BYTES;
    strike_line(course, turn, (Place){ place.seat, place.in_code, place.at + from }, bytes + from, part);
  }
}

static void strike_byte(Course *course, uint32_t turn, Place place, uint8_t byte) {
  strike(course, turn, place, &byte, 1);
}

// A byte that is to be struck before a turn of this scan.
static void owe(Course *course, uint32_t turn, Place place, uint8_t byte) {
  if (course->due_count < MOST_DUE) course->due[course->due_count++] = (Due){ turn, place, byte };
}

// ---- plans

static bool comes_before(const Plan *one, const Plan *other) {
  return one->scan < other->scan || (one->scan == other->scan && one->turn < other->turn);
}

// Draws the plans of a trial, in the order in which they come.
void draw_plans(Course *course, int scans, Counts *counts) {
  uint32_t turns = 2;
  for (int seat = 0; seat < course->world->seats; seat++) turns += course->world->channel[seat].budget;
  course->plans = course->command == RUN ? 0 : one_in(2) ? 1 : (int)between(1, MOST_PLANS);
  for (int k = 0; k < course->plans; k++) {
    uint32_t scan = course->scan + between(1, (uint32_t)scans), turn = one_in(3) ? 0 : between(1, turns);
    Plan plan = { scan, turn, (Strike)draw(STRIKES) };
    int place = k;
    for (; place > 0 && comes_before(&plan, &course->plan[place - 1]); place--)
      course->plan[place] = course->plan[place - 1];
    course->plan[place] = plan;
    counts->planned[plan.strike]++;
  }
}

static Seat seat_to_strike(const Course *course) {
  if (course->command != HEAL) return course->struck;
  if (!course->may_break_off)
    for (int seat = 0; seat < 3; seat++)
      if (course->world->dirty[seat]) return (Seat)seat;
  return (Seat)draw(3);
}

// A place of a seat: any, but of the cells more often a register.
static Place draw_place(const Course *course, Seat seat) {
  Place place = { seat, one_in(2), 0 };
  place.at = !place.in_code && one_in(4) ? draw(FIRST_WORK_CELL + 4) : draw((uint32_t)length_of(course, place));
  return place;
}

// A byte that a channel may hold there: an opcode, a Boolean, or the next larger number.
static uint8_t small_byte(Seat seat, bool in_code) {
  uint8_t byte = (uint8_t)draw(in_code ? 8 : 3);
  return seat == SEAT_B ? (uint8_t)(in_code ? 0xF0 + byte % 5 : ~byte) : byte;
}

static void strike_several(Course *course, uint32_t turn, Place place, bool is_whole) {
  size_t length = length_of(course, place), count = is_whole ? length : between(2, 16);
  if (is_whole && length > LARGEST_WHOLE) return;
  uint8_t bytes[LARGEST_WHOLE], value = (uint8_t)draw(256);
  if (is_whole) place.at = 0;
  if (place.at + count > length) count = length - place.at;
  bool is_one_value = one_in(3);
  for (size_t k = 0; k < count; k++) bytes[k] = is_one_value ? value : (uint8_t)draw(256);
  strike(course, turn, place, bytes, count);
}

// Strikes a whole region with other bytes.
static void strike_whole(Course *course, uint32_t turn, Seat seat, bool in_code, const uint8_t *bytes) {
  Place place = { seat, in_code, 0 };
  size_t length = length_of(course, place);
  if (length <= LARGEST_WHOLE) strike(course, turn, place, bytes, length);
}

static void add_stuck(Course *course, Place place) {
  if (course->stuck_count < MOST_STUCK)
    course->stuck[course->stuck_count++] = (Stuck){ place, (int)draw(8), one_in(2) };
}

static void do_plan(Course *course, uint32_t turn, Strike what) {
  Seat seat = course->struck = seat_to_strike(course);
  Place place = draw_place(course, seat);
  uint8_t byte = *bytes_at(course, place);
  switch (what) {
    case A_BYTE: strike_byte(course, turn, place, (uint8_t)draw(256)); break;
    case SMALL_BYTE: strike_byte(course, turn, place, small_byte(seat, place.in_code)); break;
    case FLIPPED_BIT: strike_byte(course, turn, place, byte ^ (uint8_t)(1 << draw(8))); break;
    case SEVERAL_BYTES: strike_several(course, turn, place, false); break;
    case WHOLE_REGION: strike_several(course, turn, place, true); break;
    case STUCK_BIT: add_stuck(course, place); break;
    case OTHER_CODE: strike_whole(course, turn, seat, true, course->other->channel[seat].original.at); break;
    case EARLIER_CELLS: strike_whole(course, turn, seat, false, course->earlier[seat]); break;
    default: course->watched = what;
  }
}

// ---- before a turn

// Each bit that sticks is struck again where it is not what it sticks at.
static void strike_stuck(Course *course, uint32_t turn) {
  for (int k = 0; k < course->stuck_count; k++) {
    const Stuck *stuck = &course->stuck[k];
    uint8_t byte = *bytes_at(course, stuck->place), bit = (uint8_t)(1 << stuck->bit);
    uint8_t held = stuck->value ? byte | bit : byte & (uint8_t)~bit;
    if (held != byte && !is_barred(course, stuck->place.seat)) strike_byte(course, turn, stuck->place, held);
  }
}

static void strike_due(Course *course, uint32_t turn) {
  int kept = 0;
  for (int k = 0; k < course->due_count; k++) {
    Due due = course->due[k];
    if (due.turn != turn)
      course->due[kept++] = due;
    else if (!is_barred(course, due.place.seat))
      strike_byte(course, turn, due.place, due.byte);
  }
  course->due_count = kept;
}

void strike_before_turn(Course *course, uint32_t turn, Counts *counts) {
  uint32_t lines = course->fault_lines;
  strike_due(course, turn);
  for (int k = 0; k < course->plans; k++) {
    Plan plan = course->plan[k];
    if (plan.scan == course->scan && plan.turn == turn) do_plan(course, turn, plan.strike);
  }
  strike_stuck(course, turn);
  counts->fault_lines += course->fault_lines - lines;
}

void write_unreached(Course *course, uint32_t turn) {
  for (int k = 0; k < course->plans; k++) {
    const Plan *plan = &course->plan[k];
    if (plan->scan != course->scan || plan->turn < turn || course->fault_lines >= MOST_FAULT_LINES) continue;
    uint8_t byte = (uint8_t)draw(256);
    write_line(course, plan->turn, draw_place(course, course->struck), &byte, 1);
  }
}

// ---- around a turn

// The place of a channel's next instruction or row, by its cells.
static uint32_t place_of_turn(const Course *course, Seat seat) {
  uint32_t place = 0;
  for (size_t k = 0; k < 4; k++) place = place << 8 | plain_cell(course->world, seat, k);
  return place;
}

void watch_turn(Course *course, Seat seat) {
  const Channel *channel = &course->world->channel[seat];
  if (course->watched == STRIKES || seat != course->struck) return;
  course->before = taken(channel->cell_count);
  memcpy(course->before, channel->cells, channel->cell_count);
  Place place = { seat, true, place_of_turn(course, seat) };
  if (course->watched != WRONG_DECODING || place.at >= length_of(course, place) || is_barred(course, seat)) return;
  uint8_t right = *bytes_at(course, place);
  strike_byte(course, course->turns + 1, place, one_in(2) ? right ^ (uint8_t)(1 << draw(3)) : small_byte(seat, true));
  owe(course, course->turns + 2, place, right);
}

static void jump(Course *course, Seat seat) {
  uint32_t length = (uint32_t)course->world->channel[seat].original.length;
  uint32_t target = one_in(8) ? draw(UINT32_MAX) : draw(length + 1);
  for (int k = 0; k < 4; k++) {
    uint8_t byte = (uint8_t)(target >> (24 - 8 * k));
    owe(course, course->turns + 1, (Place){ seat, false, (size_t)k }, seat == SEAT_B ? (uint8_t)~byte : byte);
  }
}

// What a watched turn wrote is owed otherwise: undone, late, or off by a power of two.
static void owe_writes(Course *course, Seat seat) {
  const Channel *channel = &course->world->channel[seat];
  uint32_t next = course->turns + 1, later = next + between(1, 6);
  int power = 1 << draw(8);
  for (size_t at = 0; at < channel->cell_count; at++) {
    uint8_t was = course->before[at], is = channel->cells[at];
    Place place = { seat, false, at };
    if (was == is) continue;
    if (course->watched == WRONG_REGISTER && one_in(2)) owe(course, next, place, (uint8_t)(is + power));
    if (at < FIRST_WORK_CELL || (course->watched != LOST_WRITE && course->watched != LATE_WRITE)) continue;
    owe(course, next, place, was);
    if (course->watched == LATE_WRITE) owe(course, later, place, is);
  }
}

void strike_behind_turn(Course *course, Seat seat) {
  int owed = course->due_count;
  if (!course->before) return;
  if (course->watched == A_JUMP) jump(course, seat);
  owe_writes(course, seat);
  course->before = NULL;
  if (course->watched == WRONG_DECODING || course->due_count > owed) course->watched = STRIKES;
}
