// Channel B: equation code over complemented cells, and the machine that runs it.
#include "oracle.h"
#include <string.h>

enum { LAST = 0xF0, SET, ALL, ANY, BLOCK };
enum { OFFSET = 0, PROGRESS = 4, KEPT = 5, PASSED = 9, WORK = 13 };
enum { FIRST_WORK = 0xF000, FALSE_OPERAND = 0xFFFE, TRUE_OPERAND = 0xFFFF, BLOCK_HEAD = 11 };

// ---- the compiler

static void put_row(Channel *channel, int opcode, int target, int operand) {
  put(&channel->original, (uint8_t)opcode);
  put_number(&channel->original, (uint32_t)target, 2);
  put_number(&channel->original, (uint32_t)operand, 2);
  channel->budget++;
}

// Places a value at a level, and says the operand that it is.
static int place(Channel *channel, const Value *value, int level) {
  if (value->form == SIGNAL) return value->signal;
  for (int k = 0; k < value->count; k++) {
    int operand = place(channel, value->operands[k], level + 1);
    put_row(channel, k == 0 ? SET : value->form == ALL_OF ? ALL : ANY, FIRST_WORK + level, operand);
  }
  return FIRST_WORK + level;
}

static void place_call(const Application *app, Channel *channel, const Step *step) {
  const Instance *instance = &app->instance[step->instance];
  int operands[MOST_PINS], count = pin_count(instance->kind);
  for (int pin = 0; pin < count; pin++) {
    const Argument *argument = &step->arguments[pin];
    bool constant = argument->given == IS_LITERAL ? argument->literal : free_value(instance->kind, pin);
    operands[pin] = argument->given == IS_VALUE ? place(channel, argument->value, pin)
                    : constant                  ? TRUE_OPERAND
                                                : FALSE_OPERAND;
  }
  Bytes *code = &channel->original;
  put(code, BLOCK);
  put_number(code, (uint32_t)step->instance, 2);
  put(code, (uint8_t)instance->kind);
  put_number(code, (uint32_t)instance->first_output, 2);
  put_number(code, instance->limit, 4);
  put(code, (uint8_t)count);
  for (int pin = 0; pin < count; pin++) put_number(code, (uint32_t)operands[pin], 2);
  channel->budget++;
}

void compile_equations(const Application *app, Channel *channel) {
  for (int k = 0; k < app->steps; k++) {
    const Step *step = &app->step[k];
    if (step->instance >= 0)
      place_call(app, channel, step);
    else
      put_row(channel, SET, step->target, place(channel, step->value, 0));
  }
  put(&channel->original, LAST);
  channel->budget++;
  channel->cell_count = EQUATION_SIGNALS + (size_t)app->signals + FIELD_BYTES * (size_t)app->instances;
}

// ---- the machine, on plain bytes: its cells are complemented before a turn and after it

static void complement(uint8_t *bytes, size_t count) {
  for (size_t k = 0; k < count; k++) bytes[k] = (uint8_t)~bytes[k];
}

void begin_equations(const Application *app, uint8_t *cells, uint32_t time, const bool *values) {
  complement(cells, EQUATION_SIGNALS + (size_t)app->inputs);
  uint32_t kept = number_at(cells + KEPT, 4);
  memset(cells, 0, KEPT);
  set_number(cells + KEPT, time, 4);
  set_number(cells + PASSED, time > kept ? time - kept : 0, 4);
  for (int k = 0; k < app->inputs; k++) cells[EQUATION_SIGNALS + k] = values[k];
  complement(cells, EQUATION_SIGNALS + (size_t)app->inputs);
}

// The place of the cell of a target, or below 0 where the operand is none.
static int place_of(const Application *app, uint32_t operand) {
  if (operand < (uint32_t)app->signals) return EQUATION_SIGNALS + (int)operand;
  if (operand >= FIRST_WORK && operand < FIRST_WORK + WORK_CELLS) return WORK + (int)operand - FIRST_WORK;
  return -1;
}

static bool is_operand(const Application *app, uint32_t operand) {
  return operand >= FALSE_OPERAND || place_of(app, operand) >= 0;
}

static uint8_t read_operand(const Application *app, const uint8_t *cells, uint32_t operand) {
  return operand >= FALSE_OPERAND ? operand == TRUE_OPERAND : (uint8_t)~cells[place_of(app, operand)];
}

static int assign(const Application *app, uint8_t *cells, const uint8_t *row) {
  uint32_t target = number_at(row + 1, 2), operand = number_at(row + 3, 2);
  int at = place_of(app, target);
  if (at < 0 || !is_operand(app, operand)) return NO_SUCH_SIGNAL;
  uint8_t value = read_operand(app, cells, operand), before = (uint8_t)~cells[at];
  if (!is_boolean(value) || (row[0] != SET && !is_boolean(before))) return NOT_BOOLEAN;
  uint8_t result = row[0] == SET ? value : row[0] == ALL ? before & value : before | value;
  cells[at] = (uint8_t)~result;
  return 0;
}

// Steps an instance of these plain bytes: its time that remains counts down.
static int step_bytes(uint8_t *cells, const uint8_t *row, const bool *pins, uint8_t *bytes) {
  int kind = row[3];
  uint32_t first = number_at(row + 4, 2), limit = number_at(row + 6, 4);
  Block block;
  if (!load_block(kind, bytes, &block)) return NO_SUCH_STATE;
  uint8_t plain[4];
  memcpy(plain, cells + PASSED, 4);
  complement(plain, 4);
  uint32_t remains = number_at(bytes + 5, 4), gone = number_at(plain, 4);
  remains = remains > gone ? remains - gone : 0;
  bool anew = step_block(kind, &block, pins, remains == 0);
  set_number(bytes + 5, anew ? limit : remains, 4);
  store_block(&block, bytes);
  for (int k = 0; k < output_count(kind); k++)
    cells[EQUATION_SIGNALS + first + (uint32_t)k] = (uint8_t) ~(uint8_t)output_of(kind, &block, k);
  return 0;
}

static int step_row(const Application *app, uint8_t *cells, const uint8_t *row) {
  uint32_t instance = number_at(row + 1, 2), first = number_at(row + 4, 2);
  int kind = row[3], count = row[10];
  if (instance >= (uint32_t)app->instances || kind < 1 || kind > KINDS) return NO_SUCH_INSTANCE;
  if (first + (uint32_t)output_count(kind) > (uint32_t)app->signals) return NO_SUCH_SIGNAL;
  for (int k = 0; k < count; k++)
    if (!is_operand(app, number_at(row + BLOCK_HEAD + 2 * k, 2))) return NO_SUCH_SIGNAL;
  if (count != pin_count(kind)) return WRONG_HEIGHT;
  bool pins[MOST_PINS];
  for (int k = 0; k < count; k++) {
    uint8_t byte = read_operand(app, cells, number_at(row + BLOCK_HEAD + 2 * k, 2));
    if (!is_boolean(byte)) return NOT_BOOLEAN;
    pins[k] = byte;
  }
  uint8_t *bytes = cells + EQUATION_SIGNALS + app->signals + FIELD_BYTES * instance;
  complement(bytes, FIELD_BYTES);
  int trap = step_bytes(cells, row, pins, bytes);
  complement(bytes, FIELD_BYTES);
  return trap;
}

static int do_row(const Application *app, const Channel *channel) {
  uint8_t *cells = channel->cells, place[4];
  memcpy(place, cells + OFFSET, 4);
  complement(place, 4);
  uint32_t offset = number_at(place, 4);
  size_t length = channel->original.length;
  if (offset >= length) return PAST_THE_END;
  const uint8_t *row = channel->code + offset;
  if (row[0] < LAST || row[0] > BLOCK) return NO_SUCH_OPCODE;
  if (row[0] == BLOCK && offset + (uint64_t)BLOCK_HEAD > length) return PAST_THE_END;
  uint32_t bytes = row[0] == LAST ? 1 : row[0] == BLOCK ? BLOCK_HEAD + 2 * (uint32_t)row[10] : 5;
  if (offset + (uint64_t)bytes > length) return PAST_THE_END;
  int trap = row[0] == LAST ? 0 : row[0] == BLOCK ? step_row(app, cells, row) : assign(app, cells, row);
  if (trap) return trap;
  if (row[0] == LAST) cells[PROGRESS] = (uint8_t)~1;
  set_number(place, offset + bytes, 4);
  complement(place, 4);
  memcpy(cells + OFFSET, place, 4);
  return 0;
}

void turn_equations(const Application *app, Channel *channel) {
  int trap = do_row(app, channel);
  if (trap) channel->cells[PROGRESS] = (uint8_t) ~(trap + 1);
}
