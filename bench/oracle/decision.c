// Channel C: decision code, and the machine that runs it.
#include "oracle.h"
#include <string.h>

enum { DECIDE = 1, SET, CALL, END };
enum { OFFSET = 0, PROGRESS = 4, TIME = 5, PIN_CELLS = 9, FIRST_PIN = 0xF000 };

static const int row_bytes[] = { 0, 11, 8, 10, 1 };

// ---- the compiler

static uint32_t length_of(const Value *value) {
  uint32_t length = value->form == SIGNAL ? (uint32_t)row_bytes[DECIDE] : 0;
  for (int k = 0; k < value->count; k++) length += length_of(value->operands[k]);
  return length;
}

// The rows of a value, with the places that are gone on at where it is TRUE and where it is FALSE.
static void place(Channel *channel, const Value *value, uint32_t yes, uint32_t no) {
  Bytes *code = &channel->original;
  if (value->form == SIGNAL) {
    put(code, DECIDE);
    put_number(code, (uint32_t)value->signal, 2);
    put_number(code, yes, 4);
    put_number(code, no, 4);
    channel->budget++;
    return;
  }
  for (int k = 0; k < value->count; k++) {
    uint32_t further = (uint32_t)code->length + length_of(value->operands[k]);
    bool is_last = k == value->count - 1, is_and = value->form == ALL_OF;
    place(channel, value->operands[k], is_and && !is_last ? further : yes, !is_and && !is_last ? further : no);
  }
}

static void put_set(Channel *channel, int target, bool value, uint32_t further) {
  put(&channel->original, SET);
  put_number(&channel->original, (uint32_t)target, 2);
  put(&channel->original, value);
  put_number(&channel->original, further, 4);
  channel->budget++;
}

static void place_assignment(Channel *channel, const Value *value, int target) {
  uint32_t yes = (uint32_t)channel->original.length + length_of(value);
  uint32_t no = yes + (uint32_t)row_bytes[SET], further = no + (uint32_t)row_bytes[SET];
  place(channel, value, yes, no);
  put_set(channel, target, true, further);
  put_set(channel, target, false, further);
}

static void place_call(const Application *app, Channel *channel, const Step *step) {
  const Instance *instance = &app->instance[step->instance];
  Bytes *code = &channel->original;
  for (int pin = 0; pin < pin_count(instance->kind); pin++) {
    const Argument *argument = &step->arguments[pin];
    if (argument->given == IS_VALUE) {
      place_assignment(channel, argument->value, FIRST_PIN + pin);
      continue;
    }
    bool constant = argument->given == IS_LITERAL ? argument->literal : free_value(instance->kind, pin);
    put_set(channel, FIRST_PIN + pin, constant, (uint32_t)(code->length + (size_t)row_bytes[SET]));
  }
  put(code, CALL);
  put_number(code, (uint32_t)step->instance, 2);
  put(code, (uint8_t)instance->kind);
  put_number(code, (uint32_t)instance->first_output, 2);
  put_number(code, instance->limit, 4);
  channel->budget++;
}

void compile_decisions(const Application *app, Channel *channel) {
  for (int k = 0; k < app->steps; k++) {
    const Step *step = &app->step[k];
    if (step->instance >= 0)
      place_call(app, channel, step);
    else
      place_assignment(channel, step->value, step->target);
  }
  put(&channel->original, END);
  channel->budget++;
  channel->cell_count = DECISION_SIGNALS + (size_t)app->signals + FIELD_BYTES * (size_t)app->instances;
}

// ---- the machine

void begin_decisions(const Application *app, uint8_t *cells, uint32_t time, const bool *values) {
  memset(cells, 0, TIME);
  set_number(cells + TIME, time, 4);
  for (int k = 0; k < app->inputs; k++) cells[DECISION_SIGNALS + k] = values[k];
}

// The place of the cell of an operand, or below 0 where it is none.
static int place_of(const Application *app, uint32_t operand) {
  if (operand >= FIRST_PIN && operand < FIRST_PIN + MOST_PINS) return PIN_CELLS + (int)operand - FIRST_PIN;
  return operand < (uint32_t)app->signals ? DECISION_SIGNALS + (int)operand : -1;
}

static int decide(const Application *app, uint8_t *cells, const uint8_t *row) {
  int at = place_of(app, number_at(row + 1, 2));
  if (at < 0) return NO_SUCH_SIGNAL;
  if (!is_boolean(cells[at])) return NOT_BOOLEAN;
  memcpy(cells + OFFSET, cells[at] ? row + 3 : row + 7, 4);
  return 0;
}

static int set(const Application *app, uint8_t *cells, const uint8_t *row) {
  int at = place_of(app, number_at(row + 1, 2));
  if (at < 0) return NO_SUCH_SIGNAL;
  if (!is_boolean(row[3])) return NOT_BOOLEAN;
  cells[at] = row[3];
  memcpy(cells + OFFSET, row + 4, 4);
  return 0;
}

static int call(const Application *app, uint8_t *cells, const uint8_t *row, uint32_t end) {
  uint32_t instance = number_at(row + 1, 2), first = number_at(row + 4, 2), limit = number_at(row + 6, 4);
  int kind = row[3];
  if (instance >= (uint32_t)app->instances || kind < 1 || kind > KINDS) return NO_SUCH_INSTANCE;
  if (first + (uint32_t)output_count(kind) > (uint32_t)app->signals) return NO_SUCH_SIGNAL;
  bool pins[MOST_PINS];
  for (int k = 0; k < pin_count(kind); k++) {
    if (!is_boolean(cells[PIN_CELLS + k])) return NOT_BOOLEAN;
    pins[k] = cells[PIN_CELLS + k];
  }
  uint8_t *bytes = cells + DECISION_SIGNALS + app->signals + FIELD_BYTES * instance;
  Block block;
  if (!load_block(kind, bytes, &block)) return NO_SUCH_STATE;
  uint32_t now = number_at(cells + TIME, 4);
  if (step_block(kind, &block, pins, passed(now, number_at(bytes + 5, 4), limit))) set_number(bytes + 5, now, 4);
  store_block(&block, bytes);
  for (int k = 0; k < output_count(kind); k++)
    cells[DECISION_SIGNALS + first + (uint32_t)k] = output_of(kind, &block, k);
  set_number(cells + OFFSET, end, 4);
  return 0;
}

static int do_row(const Application *app, const Channel *channel) {
  uint8_t *cells = channel->cells;
  uint32_t offset = number_at(cells + OFFSET, 4);
  size_t length = channel->original.length;
  if (offset >= length) return PAST_THE_END;
  const uint8_t *row = channel->code + offset;
  if (row[0] < DECIDE || row[0] > END) return NO_SUCH_OPCODE;
  uint64_t end = offset + (uint64_t)row_bytes[row[0]];
  if (end > length) return PAST_THE_END;
  switch (row[0]) {
    case DECIDE: return decide(app, cells, row);
    case SET: return set(app, cells, row);
    case CALL: return call(app, cells, row, (uint32_t)end);
    default: cells[PROGRESS] = 1; return 0;
  }
}

void turn_decisions(const Application *app, Channel *channel) {
  int trap = do_row(app, channel);
  if (trap) channel->cells[PROGRESS] = (uint8_t)(trap + 1);
}
