// Channel A: stack code, and the machine that runs it.
#include "oracle.h"
#include <string.h>

enum { LOAD = 1, STORE, CONST, AND, OR, CALL, END };
enum { PC = 0, HEIGHT = 4, PROGRESS = 5, TIME = 6, STACK = 10, MOST_HEIGHT = 64 };

static const int row_bytes[] = { 0, 3, 3, 2, 1, 1, 10, 1 };

uint32_t number_at(const uint8_t *bytes, int width) {
  uint32_t number = 0;
  for (int k = 0; k < width; k++) number = number << 8 | bytes[k];
  return number;
}

void set_number(uint8_t *bytes, uint32_t number, int width) {
  for (int k = 0; k < width; k++) bytes[k] = (uint8_t)(number >> (8 * (width - 1 - k)));
}

bool is_boolean(uint8_t byte) { return byte <= 1; }

bool passed(uint32_t now, uint32_t kept, uint32_t limit) { return (now > kept ? now - kept : 0) >= limit; }

// ---- the compiler

static void place(Channel *channel, const Value *value) {
  Bytes *code = &channel->original;
  if (value->form == SIGNAL) {
    put(code, LOAD);
    put_number(code, (uint32_t)value->signal, 2);
    channel->budget++;
    return;
  }
  for (int k = 0; k < value->count; k++) {
    place(channel, value->operands[k]);
    if (k == 0) continue;
    put(code, value->form == ALL_OF ? AND : OR);
    channel->budget++;
  }
}

static void place_call(const Application *app, Channel *channel, const Step *step) {
  const Instance *instance = &app->instance[step->instance];
  Bytes *code = &channel->original;
  for (int pin = 0; pin < pin_count(instance->kind); pin++) {
    const Argument *argument = &step->arguments[pin];
    if (argument->given == IS_VALUE) {
      place(channel, argument->value);
      continue;
    }
    put(code, CONST);
    put(code, argument->given == IS_LITERAL ? argument->literal : free_value(instance->kind, pin));
    channel->budget++;
  }
  put(code, CALL);
  put_number(code, (uint32_t)step->instance, 2);
  put(code, (uint8_t)instance->kind);
  put_number(code, (uint32_t)instance->first_output, 2);
  put_number(code, instance->limit, 4);
}

void compile_stack(const Application *app, Channel *channel) {
  for (int k = 0; k < app->steps; k++) {
    const Step *step = &app->step[k];
    if (step->instance >= 0) {
      place_call(app, channel, step);
    } else {
      place(channel, step->value);
      put(&channel->original, STORE);
      put_number(&channel->original, (uint32_t)step->target, 2);
    }
    channel->budget++;
  }
  put(&channel->original, END);
  channel->budget++;
  channel->cell_count = STACK_SIGNALS + (size_t)app->signals + FIELD_BYTES * (size_t)app->instances;
}

// ---- the machine

void begin_stack(const Application *app, uint8_t *cells, uint32_t time, const bool *values) {
  memset(cells, 0, TIME);
  set_number(cells + TIME, time, 4);
  for (int k = 0; k < app->inputs; k++) cells[STACK_SIGNALS + k] = values[k];
}

static int load(const Application *app, uint8_t *cells, uint32_t signal) {
  if (signal >= (uint32_t)app->signals) return NO_SUCH_SIGNAL;
  if (cells[HEIGHT] >= MOST_HEIGHT) return WRONG_HEIGHT;
  if (!is_boolean(cells[STACK_SIGNALS + signal])) return NOT_BOOLEAN;
  cells[STACK + cells[HEIGHT]++] = cells[STACK_SIGNALS + signal];
  return 0;
}

static int store(const Application *app, uint8_t *cells, uint32_t signal) {
  if (signal >= (uint32_t)app->signals) return NO_SUCH_SIGNAL;
  if (cells[HEIGHT] == 0 || cells[HEIGHT] > MOST_HEIGHT) return WRONG_HEIGHT;
  if (!is_boolean(cells[STACK + cells[HEIGHT] - 1])) return NOT_BOOLEAN;
  cells[STACK_SIGNALS + signal] = cells[STACK + --cells[HEIGHT]];
  return 0;
}

static int constant(uint8_t *cells, uint8_t byte) {
  if (cells[HEIGHT] >= MOST_HEIGHT) return WRONG_HEIGHT;
  if (!is_boolean(byte)) return NOT_BOOLEAN;
  cells[STACK + cells[HEIGHT]++] = byte;
  return 0;
}

static int join(uint8_t *cells, bool is_and) {
  if (cells[HEIGHT] < 2 || cells[HEIGHT] > MOST_HEIGHT) return WRONG_HEIGHT;
  uint8_t *under = cells + STACK + cells[HEIGHT] - 2;
  if (!is_boolean(under[0]) || !is_boolean(under[1])) return NOT_BOOLEAN;
  under[0] = is_and ? under[0] & under[1] : under[0] | under[1];
  cells[HEIGHT]--;
  return 0;
}

static int call(const Application *app, uint8_t *cells, const uint8_t *row) {
  uint32_t instance = number_at(row + 1, 2), first = number_at(row + 4, 2), limit = number_at(row + 6, 4);
  int kind = row[3], height = cells[HEIGHT];
  if (instance >= (uint32_t)app->instances || kind < 1 || kind > KINDS) return NO_SUCH_INSTANCE;
  if (first + (uint32_t)output_count(kind) > (uint32_t)app->signals) return NO_SUCH_SIGNAL;
  if (height > MOST_HEIGHT || height < pin_count(kind)) return WRONG_HEIGHT;
  int lowest = height - pin_count(kind);
  bool pins[MOST_PINS];
  for (int k = 0; k < pin_count(kind); k++) {
    if (!is_boolean(cells[STACK + lowest + k])) return NOT_BOOLEAN;
    pins[k] = cells[STACK + lowest + k];
  }
  uint8_t *bytes = cells + STACK_SIGNALS + app->signals + FIELD_BYTES * instance;
  Block block;
  if (!load_block(kind, bytes, &block)) return NO_SUCH_STATE;
  uint32_t now = number_at(cells + TIME, 4);
  if (step_block(kind, &block, pins, passed(now, number_at(bytes + 5, 4), limit))) set_number(bytes + 5, now, 4);
  store_block(&block, bytes);
  for (int k = 0; k < output_count(kind); k++) cells[STACK_SIGNALS + first + (uint32_t)k] = output_of(kind, &block, k);
  cells[HEIGHT] = (uint8_t)lowest;
  return 0;
}

static int do_instruction(const Application *app, const Channel *channel) {
  uint8_t *cells = channel->cells;
  uint32_t pc = number_at(cells + PC, 4);
  if (pc >= channel->original.length) return PAST_THE_END;
  const uint8_t *row = channel->code + pc;
  if (row[0] < LOAD || row[0] > END) return NO_SUCH_OPCODE;
  if (pc + (uint64_t)row_bytes[row[0]] > channel->original.length) return PAST_THE_END;
  int trap = 0;
  switch (row[0]) {
    case LOAD: trap = load(app, cells, number_at(row + 1, 2)); break;
    case STORE: trap = store(app, cells, number_at(row + 1, 2)); break;
    case CONST: trap = constant(cells, row[1]); break;
    case AND:
    case OR: trap = join(cells, row[0] == AND); break;
    case CALL: trap = call(app, cells, row); break;
    default: cells[PROGRESS] = 1;
  }
  if (!trap) set_number(cells + PC, pc + (uint32_t)row_bytes[row[0]], 4);
  return trap;
}

void turn_stack(const Application *app, Channel *channel) {
  int trap = do_instruction(app, channel);
  if (trap) channel->cells[PROGRESS] = (uint8_t)(trap + 1);
}
