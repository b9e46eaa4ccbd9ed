// What an application means: one solution of its equations in each scan (docs/model.md), evaluated step by step.
#include "oracle.h"
#include <string.h>

Meaning *new_meaning(const Application *app) {
  Meaning *meaning = taken(sizeof(Meaning));
  meaning->signals = taken((size_t)app->signals);
  meaning->blocks = taken((size_t)app->instances * sizeof(Block));
  meaning->ages = taken((size_t)app->instances * sizeof(uint64_t));
  meaning->is_first = true;
  return meaning;
}

void forget(const Application *app, Meaning *meaning) {
  memset(meaning->signals, 0, (size_t)app->signals);
  memset(meaning->blocks, 0, (size_t)app->instances * sizeof(Block));
  memset(meaning->ages, 0, (size_t)app->instances * sizeof(uint64_t));
  meaning->is_first = true;
}

bool value_of(const Value *value, const bool *signals) {
  if (value->form == SIGNAL) return signals[value->signal];
  for (int k = 0; k < value->count; k++)
    if (value_of(value->operands[k], signals) == (value->form == ANY_OF)) return value->form == ANY_OF;
  return value->form == ALL_OF;
}

static void mean_call(const Application *app, Meaning *meaning, const Step *step, uint64_t later) {
  const Instance *instance = &app->instance[step->instance];
  Block *block = &meaning->blocks[step->instance];
  bool pins[MOST_PINS];
  for (int pin = 0; pin < pin_count(instance->kind); pin++) {
    const Argument *argument = &step->arguments[pin];
    pins[pin] = argument->given == IS_VALUE     ? value_of(argument->value, meaning->signals)
                : argument->given == IS_LITERAL ? argument->literal
                                                : free_value(instance->kind, pin);
  }
  uint64_t age = meaning->ages[step->instance] + later;
  meaning->ages[step->instance] = step_block(instance->kind, block, pins, age >= instance->limit) ? 0 : age;
  for (int k = 0; k < output_count(instance->kind); k++)
    meaning->signals[instance->first_output + k] = output_of(instance->kind, block, k);
}

void mean_scan(const Application *app, Meaning *meaning, uint32_t time, const bool *values) {
  uint64_t later = meaning->is_first ? 0 : time - meaning->time;
  memcpy(meaning->signals, values, (size_t)app->inputs);
  for (int k = 0; k < app->steps; k++) {
    const Step *step = &app->step[k];
    if (step->instance < 0)
      meaning->signals[step->target] = value_of(step->value, meaning->signals);
    else
      mean_call(app, meaning, step, later);
  }
  meaning->is_first = false;
  meaning->time = time;
}

Report *new_report(const Application *app) {
  Report *report = taken(sizeof(Report));
  report->flags = taken((size_t)app->outputs + 2 * (size_t)app->instances);
  report->codes = taken((size_t)app->instances * sizeof(int));
  return report;
}

void meant_report(const Application *app, const Meaning *meaning, Report *report) {
  for (int k = 0; k < app->outputs; k++) report->flags[k] = meaning->signals[app->inputs + k];
  for (int k = 0; k < app->instances; k++) {
    const Block *block = &meaning->blocks[k];
    report->flags[app->outputs + 2 * k] = block->code != 0;
    report->flags[app->outputs + 2 * k + 1] = block->code >= 0xC000;
    report->codes[k] = block->code;
  }
}

int first_difference(const Application *app, const Report *one, const Report *other) {
  for (int k = 0; k < app->outputs; k++)
    if (one->flags[k] != other->flags[k]) return k;
  for (int k = 0; k < app->instances; k++) {
    int flag = app->outputs + 2 * k;
    if (one->flags[flag] != other->flags[flag]) return app->outputs + 3 * k;
    if (one->flags[flag + 1] != other->flags[flag + 1]) return app->outputs + 3 * k + 1;
    if (one->codes[k] != other->codes[k]) return app->outputs + 3 * k + 2;
  }
  return -1;
}
