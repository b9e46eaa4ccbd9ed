// The worlds of two and of three seats: turns, outcomes and healing (docs/faults.md, docs/machines.md).
#include "oracle.h"
#include <string.h>

static size_t first_signal(Seat seat) {
  return seat == SEAT_A ? STACK_SIGNALS : seat == SEAT_B ? EQUATION_SIGNALS : DECISION_SIGNALS;
}

static size_t place_of_progress(Seat seat) { return seat == SEAT_A ? 5 : 4; }

// Where a channel keeps the time of the last scan.
static size_t place_of_time(Seat seat) { return seat == SEAT_A ? 6 : 5; }

uint8_t plain_cell(const World *world, Seat seat, size_t at) {
  uint8_t byte = world->channel[seat].cells[at];
  return seat == SEAT_B ? (uint8_t)~byte : byte;
}

static void set_plain(World *world, Seat seat, size_t at, uint8_t byte) {
  world->channel[seat].cells[at] = seat == SEAT_B ? (uint8_t)~byte : byte;
}

static void renew(World *world, Seat seat) {
  Channel *channel = &world->channel[seat];
  memcpy(channel->code, channel->original.at, channel->original.length);
  memset(channel->cells, seat == SEAT_B ? 255 : 0, channel->cell_count);
  world->dirty[seat] = false;
}

void restart_world(World *world) {
  for (int seat = 0; seat < world->seats; seat++) {
    renew(world, (Seat)seat);
    world->channel[seat].turns = 0;
  }
}

World *new_world(const Application *app, int seats) {
  World *world = taken(sizeof(World));
  world->seats = seats;
  compile_stack(app, &world->channel[SEAT_A]);
  compile_equations(app, &world->channel[SEAT_B]);
  compile_decisions(app, &world->channel[SEAT_C]);
  for (int seat = 0; seat < 3; seat++) {
    Channel *channel = &world->channel[seat];
    channel->code = taken(channel->original.length);
    channel->cells = taken(channel->cell_count);
  }
  restart_world(world);
  return world;
}

void begin_world(const Application *app, World *world, uint32_t time, const bool *values) {
  begin_stack(app, world->channel[SEAT_A].cells, time, values);
  begin_equations(app, world->channel[SEAT_B].cells, time, values);
  if (world->seats == 3) begin_decisions(app, world->channel[SEAT_C].cells, time, values);
  for (int seat = 0; seat < world->seats; seat++) world->channel[seat].turns = 0;
  world->time = time;
}

void turn_world(const Application *app, World *world, Seat seat) {
  Channel *channel = &world->channel[seat];
  if (seat == SEAT_A)
    turn_stack(app, channel);
  else if (seat == SEAT_B)
    turn_equations(app, channel);
  else
    turn_decisions(app, channel);
  channel->turns++;
}

static uint8_t progress_of(const World *world, Seat seat) { return plain_cell(world, seat, place_of_progress(seat)); }

bool has_ended(const World *world, Seat seat) {
  const Channel *channel = &world->channel[seat];
  return progress_of(world, seat) != 0 || channel->turns == channel->budget;
}

int next_seat(const World *world, int last) {
  for (int k = 1; k <= world->seats; k++) {
    int seat = (last + k) % world->seats;
    if (!has_ended(world, (Seat)seat)) return seat;
  }
  return -1;
}

static size_t field_of(const Application *app, Seat seat, int instance) {
  return first_signal(seat) + (size_t)app->signals + FIELD_BYTES * (size_t)instance;
}

// Reads a Boolean of the cells into a flag. Whether it is one.
static bool read_flag(const World *world, Seat seat, int signal, bool *flag) {
  uint8_t byte = plain_cell(world, seat, first_signal(seat) + (size_t)signal);
  *flag = byte == 1;
  return is_boolean(byte);
}

static bool read_report(const Application *app, const World *world, Seat seat, Report *report) {
  bool fits = true;
  for (int k = 0; k < app->outputs; k++) fits &= read_flag(world, seat, app->inputs + k, &report->flags[k]);
  for (int k = 0; k < app->instances; k++) {
    int ready = app->instance[k].first_output + output_count(app->instance[k].kind) - 2;
    fits &= read_flag(world, seat, ready, &report->flags[app->outputs + 2 * k]);
    fits &= read_flag(world, seat, ready + 1, &report->flags[app->outputs + 2 * k + 1]);
    size_t field = field_of(app, seat, k);
    report->codes[k] = plain_cell(world, seat, field) << 8 | plain_cell(world, seat, field + 1);
  }
  return fits;
}

Outcome outcome_of(const Application *app, const World *world, Seat seat, Report *report, int *trap) {
  uint8_t progress = progress_of(world, seat);
  if (progress == 0) return IS_STUCK;
  *trap = progress <= 8 ? progress - 1 : 0;
  if (progress > 1) return TRAPPED;
  return read_report(app, world, seat, report) ? HAS_REPORT : NO_REPORT;
}

// ---- healing

static uint32_t plain_number(const World *world, Seat seat, size_t at) {
  uint32_t number = 0;
  for (size_t k = 0; k < 4; k++) number = number << 8 | plain_cell(world, seat, at + k);
  return number;
}

static void set_plain_number(World *world, Seat seat, size_t at, uint32_t number) {
  for (size_t k = 0; k < 4; k++) set_plain(world, seat, at + k, (uint8_t)(number >> (24 - 8 * k)));
}

// What remains of the limit of an instance, by the time that another seat keeps for it.
static uint32_t remaining(const World *world, uint32_t limit, uint32_t kept) {
  uint32_t age = world->time > kept ? world->time - kept : 0;
  return limit > age ? limit - age : 0;
}

void heal_seat(const Application *app, World *world, Seat seat) {
  Seat source = seat == SEAT_A ? SEAT_C : SEAT_A;
  renew(world, seat);
  set_plain_number(world, seat, place_of_time(seat), world->time);
  for (size_t k = 0; k < (size_t)app->signals; k++)
    set_plain(world, seat, first_signal(seat) + k, plain_cell(world, source, first_signal(source) + k));
  for (int i = 0; i < app->instances; i++) {
    size_t to = field_of(app, seat, i), from = field_of(app, source, i);
    for (size_t k = 0; k < FIELD_BYTES; k++)
      if (k < 5 || k > 8) set_plain(world, seat, to + k, plain_cell(world, source, from + k));
    uint32_t kept = plain_number(world, source, from + 5);
    bool is_idle = plain_cell(world, source, from) == 0 && plain_cell(world, source, from + 1) == 0;
    if (seat != SEAT_B)
      set_plain_number(world, seat, to + 5, kept);
    else if (!is_idle)
      set_plain_number(world, seat, to + 5, remaining(world, app->instance[i].limit, kept));
  }
}
