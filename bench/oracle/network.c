// Applications: drawn as bodies (function blocks and the program), written as texts, and made flat by docs/language.md.
#include "oracle.h"
#include <stdio.h>
#include <string.h>

enum { MOST_DECLARED = 1024, MOST_READ = 4000, MOST_BLOCKS = 3, NAME_BYTES = 256 };

typedef enum { AN_INPUT, AN_OUTPUT, A_LOCAL, A_KIND, A_BODY } Sort;

typedef struct {
  char name[16];
  Sort sort;
  bool safe, driven;
  int number;
  uint32_t limit;
} Declared;
typedef struct {
  int declared, output;
  bool safe;
} Reading; // `output` is below 0 where a signal itself is read

// What a statement gives: the value of an assignment, or the arguments of a call.
typedef struct {
  int declared;
  Value *value;
  Argument arguments[MOST_PINS];
} Statement;

typedef struct Body Body;
struct Body {
  char name[16];
  int inputs, outputs, declared_count, read_count, statement_count;
  Declared declared[MOST_DECLARED];
  Reading read[MOST_READ];
  Statement *statements;
};

typedef struct {
  Shape shape;
  int body_count;
  Body *bodies[MOST_BLOCKS + 1];
} Library;

// A copy of a body: the number of each signal and instance declared there, and the copies in it.
typedef struct Copy Copy;
struct Copy {
  const Body *body;
  int *numbers;
  Copy **inner;
};

// ---- draws

static void declare(Body *body, Sort sort, const char *letters, bool safe, int number) {
  Declared *here = &body->declared[body->declared_count];
  snprintf(here->name, sizeof here->name, "%s%d", letters, body->declared_count++);
  here->sort = sort;
  here->safe = safe;
  here->driven = sort != A_LOCAL || !one_in(8);
  here->number = number;
  here->limit = number == 7 ? 500 : kinds[number].time_pin && sort == A_KIND ? draw(7) * draw(60) : 0;
}

static void add_reading(Body *body, int declared, int output, bool safe) {
  body->read[body->read_count++] = (Reading){ declared, output, safe };
}

static void list_readings(const Library *library, Body *body) {
  for (int k = 0; k < body->declared_count; k++) {
    const Declared *here = &body->declared[k];
    if (here->sort == A_KIND) {
      for (int j = 0; j < output_count(here->number); j++) add_reading(body, k, j, j < output_count(here->number) - 2);
    } else if (here->sort == A_BODY) {
      const Body *inner = library->bodies[here->number];
      for (int j = 0; j < inner->outputs; j++) add_reading(body, k, j, inner->declared[inner->inputs + j].safe);
    } else if (here->driven) {
      add_reading(body, k, -1, here->safe);
    }
  }
}

static Value *draw_signal(const Body *body, bool safe) {
  Value *value = taken(sizeof(Value));
  do {
    value->signal = one_in(3) ? (int)draw((uint32_t)body->inputs) : (int)draw((uint32_t)body->read_count);
  } while (safe && !body->read[value->signal].safe);
  return value;
}

// A value whose brackets, written out, are at most so deep. Where it is to be deep, its last operand always goes on.
static Value *draw_value(const Body *body, bool safe, int depth, bool is_deep, Form above) {
  if (depth <= 0 || (!is_deep && one_in(2))) return draw_signal(body, safe);
  Value *value = taken(sizeof(Value));
  value->form = is_deep ? (above == ALL_OF ? ANY_OF : ALL_OF) : one_in(2) ? ALL_OF : ANY_OF;
  value->count = (int)between(2, is_deep ? 2 : 4);
  value->operands = taken((size_t)value->count * sizeof(Value *));
  int inner = depth - (value->form != ALL_OF || above != ANY_OF);
  int safe_one = value->form == ANY_OF ? -1 : (int)draw((uint32_t)value->count);
  for (int k = 0; k < value->count; k++) {
    bool must = safe && (safe_one < 0 || safe_one == k);
    bool goes_on = is_deep && k == value->count - 1;
    value->operands[k] =
        is_deep && !goes_on ? draw_signal(body, must) : draw_value(body, must, inner, goes_on, value->form);
  }
  return value;
}

static Value *draw_whole(const Library *library, const Body *body, bool safe) {
  bool is_deep = library->shape == DEEP && one_in(3);
  return draw_value(body, safe, is_deep ? (int)between(8, 16) : (int)draw(4), is_deep, SIGNAL);
}

static void draw_arguments(const Library *library, const Body *body, int kind, Argument *arguments) {
  for (int pin = 0; pin < pin_count(kind); pin++) {
    bool is_activate = pin == 0, with_value = is_activate ? one_in(6) : !one_in(3);
    arguments[pin].given = with_value ? IS_VALUE : is_activate || one_in(2) ? IS_LITERAL : IS_FREE;
    arguments[pin].literal = is_activate ? !one_in(20) : one_in(2);
    if (with_value) arguments[pin].value = draw_whole(library, body, is_safe_pin(kind, pin));
  }
}

static void draw_statements(const Library *library, Body *body) {
  body->statements = taken((size_t)body->declared_count * sizeof(Statement));
  for (int k = body->inputs; k < body->declared_count; k++) {
    const Declared *here = &body->declared[k];
    if (!here->driven) continue;
    Statement *statement = &body->statements[body->statement_count++];
    statement->declared = k;
    if (here->sort == A_KIND) {
      draw_arguments(library, body, here->number, statement->arguments);
    } else if (here->sort == A_BODY) {
      const Body *inner = library->bodies[here->number];
      for (int j = 0; j < inner->inputs; j++)
        statement->arguments[j] = (Argument){ IS_VALUE, false, draw_whole(library, body, inner->declared[j].safe) };
    } else {
      statement->value = draw_whole(library, body, here->safe);
    }
  }
  for (int k = body->statement_count - 1; k > 0; k--) {
    int other = one_in(4) ? (int)draw((uint32_t)k + 1) : k;
    Statement kept = body->statements[k];
    body->statements[k] = body->statements[other];
    body->statements[other] = kept;
  }
}

static void draw_declarations(const Library *library, Body *body, bool is_program) {
  bool is_wide = is_program && library->shape == WIDE;
  body->inputs = is_wide ? (int)between(30, 300) : (int)between(1, is_program ? 8 : 4);
  body->outputs = is_wide ? (int)between(10, 100) : (int)between(1, is_program ? 4 : 2);
  for (int k = 0; k < body->inputs; k++) declare(body, AN_INPUT, "In", k == 0 || !one_in(3), 0);
  for (int k = 0; k < body->outputs; k++) declare(body, AN_OUTPUT, "Out_", !one_in(4), 0);
  int more = is_wide ? (int)between(20, 120) : (int)draw(is_program ? 7 : 4);
  for (int k = 0; k < more; k++) {
    if (library->body_count && one_in(is_wide ? 40 : 4))
      declare(body, A_BODY, "Part", false, (int)draw((uint32_t)library->body_count));
    else if (one_in(3))
      declare(body, A_LOCAL, "x_", !one_in(3), 0);
    else
      declare(body, A_KIND, "Block", false, (int)between(1, KINDS));
  }
}

static Body *draw_body(const Library *library, bool is_program) {
  Body *body = taken(sizeof(Body));
  snprintf(body->name, sizeof body->name, is_program ? "Plant" : "Unit%d", library->body_count);
  draw_declarations(library, body, is_program);
  list_readings(library, body);
  draw_statements(library, body);
  return body;
}

// ---- texts

// A name where it is used, in any letter case.
static void put_name(Bytes *text, const char *name) {
  bool is_small = one_in(8);
  for (; *name; name++) put(text, (uint8_t)(is_small && *name >= 'A' && *name <= 'Z' ? *name + 32 : *name));
}

static void put_reading(Bytes *text, const Library *library, const Body *body, const Reading *reading) {
  const Declared *here = &body->declared[reading->declared];
  put_name(text, here->name);
  if (reading->output < 0) return;
  const Body *inner = library->bodies[here->sort == A_BODY ? here->number : 0];
  put_text(text, ".");
  put_name(text, here->sort == A_KIND ? kinds[here->number].outputs[reading->output]
                                      : inner->declared[inner->inputs + reading->output].name);
}

static void put_value(Bytes *text, const Library *library, const Body *body, const Value *value, Form above) {
  if (value->form == SIGNAL) {
    put_reading(text, library, body, &body->read[value->signal]);
    return;
  }
  bool is_grouped = above == ALL_OF || above == value->form;
  if (is_grouped) put_text(text, "(");
  for (int k = 0; k < value->count; k++) {
    if (k) put_text(text, value->form == ANY_OF ? " OR " : one_in(4) ? " & " : " AND ");
    put_value(text, library, body, value->operands[k], value->form);
  }
  if (is_grouped) put_text(text, ")");
}

static void put_section(Bytes *text, const Library *library, const Body *body, const char *word, int from, int upto) {
  if (from == upto) return;
  put_text(text, "%s\n", word);
  for (int k = from; k < upto; k++) {
    const Declared *here = &body->declared[k];
    const char *type = here->sort == A_KIND   ? kinds[here->number].name
                       : here->sort == A_BODY ? library->bodies[here->number]->name
                       : here->safe           ? "SAFEBOOL"
                                              : "BOOL";
    put_text(text, "  %s : ", here->name);
    put_name(text, type);
    put_text(text, ";\n");
  }
  put_text(text, "END_VAR\n");
}

static void put_call(Bytes *text, const Library *library, const Body *body, const Statement *statement) {
  const Declared *here = &body->declared[statement->declared];
  const Body *inner = library->bodies[here->sort == A_BODY ? here->number : 0];
  int count = here->sort == A_BODY ? inner->inputs : pin_count(here->number);
  const char *between_them = "";
  put_name(text, here->name);
  put_text(text, "(");
  for (int k = 0; k < count; k++) {
    const Argument *argument = &statement->arguments[k];
    if (argument->given == IS_FREE) continue;
    const char *pin = here->sort == A_BODY ? inner->declared[k].name : kinds[here->number].pins[k];
    char name[32];
    snprintf(name, sizeof name, "%.*s", (int)strcspn(pin, "*"), pin);
    put_text(text, "%s", between_them);
    put_name(text, name);
    put_text(text, " := ");
    if (argument->given == IS_LITERAL)
      put_text(text, argument->literal ? "TRUE" : "FALSE");
    else
      put_value(text, library, body, argument->value, SIGNAL);
    between_them = ", ";
  }
  if (here->sort == A_KIND && kinds[here->number].time_pin && (here->limit || one_in(2)))
    put_text(text, "%s%s := T#%ums", between_them, kinds[here->number].time_pin, here->limit);
  put_text(text, ");\n");
}

static void put_body(Bytes *text, const Library *library, const Body *body, const char *word) {
  put_text(text, "%s %s\n", word, body->name);
  put_section(text, library, body, "VAR_INPUT", 0, body->inputs);
  put_section(text, library, body, "VAR_OUTPUT", body->inputs, body->inputs + body->outputs);
  put_section(text, library, body, "VAR", body->inputs + body->outputs, body->declared_count);
  for (int k = 0; k < body->statement_count; k++) {
    const Statement *statement = &body->statements[k];
    const Declared *here = &body->declared[statement->declared];
    if (here->sort == A_KIND || here->sort == A_BODY) {
      put_call(text, library, body, statement);
    } else {
      put_name(text, here->name);
      put_text(text, " := ");
      put_value(text, library, body, statement->value, SIGNAL);
      put_text(text, ";\n");
    }
  }
  put_text(text, "END_%s\n", word);
}

// ---- the flat application

static char *joined(const char *before, const char *name) {
  char *whole = taken(NAME_BYTES);
  snprintf(whole, NAME_BYTES, "%s%s", before, name);
  return whole;
}

static int add_signal(Application *app, int *count, const char *before, const char *name) {
  app->names[app->signals] = joined(before, name);
  (*count)++;
  return app->signals++;
}

static int add_instance(Application *app, const char *before, const Declared *here) {
  app->instance[app->instances] = (Instance){ joined(before, here->name), here->number, 0, here->limit };
  return app->instances++;
}

// A copy of a body behind these names: its signals and instances, each in the order of the flat source.
static Copy *declare_copy(Application *app, const Library *library, const Body *body, const char *before,
                          bool is_program) {
  Copy *copy = taken(sizeof(Copy));
  copy->body = body;
  copy->numbers = taken((size_t)body->declared_count * sizeof(int));
  copy->inner = taken((size_t)body->declared_count * sizeof(Copy *));
  for (int k = 0; k < body->declared_count; k++) {
    const Declared *here = &body->declared[k];
    if (here->sort == A_KIND) {
      copy->numbers[k] = add_instance(app, before, here);
    } else if (here->sort == A_BODY) {
      char *further = joined(joined(before, here->name), ".");
      copy->inner[k] = declare_copy(app, library, library->bodies[here->number], further, false);
    } else {
      int *count = !is_program || here->sort == A_LOCAL ? &app->locals
                   : here->sort == AN_INPUT             ? &app->inputs
                                                        : &app->outputs;
      copy->numbers[k] = add_signal(app, count, before, here->name);
    }
  }
  return copy;
}

static int placed(const Application *app, const Copy *copy, const Reading *reading) {
  const Declared *here = &copy->body->declared[reading->declared];
  if (here->sort == A_KIND) return app->instance[copy->numbers[reading->declared]].first_output + reading->output;
  if (here->sort != A_BODY) return copy->numbers[reading->declared];
  const Copy *inner = copy->inner[reading->declared];
  return inner->numbers[inner->body->inputs + reading->output];
}

static Value *placed_value(const Application *app, const Copy *copy, const Value *value) {
  Value *flat = taken(sizeof(Value));
  *flat = *value;
  if (value->form == SIGNAL) flat->signal = placed(app, copy, &copy->body->read[value->signal]);
  if (value->form != SIGNAL) flat->operands = taken((size_t)value->count * sizeof(Value *));
  for (int k = 0; k < value->count; k++) flat->operands[k] = placed_value(app, copy, value->operands[k]);
  return flat;
}

static void add_assignment(Application *app, int target, Value *value) {
  app->step[app->steps++] = (Step){ .target = target, .instance = -1, .value = value };
}

static void add_call(Application *app, const Copy *copy, const Statement *statement) {
  Step *step = &app->step[app->steps++];
  step->instance = copy->numbers[statement->declared];
  for (int k = 0; k < MOST_PINS; k++) {
    step->arguments[k] = statement->arguments[k];
    if (step->arguments[k].given == IS_VALUE)
      step->arguments[k].value = placed_value(app, copy, statement->arguments[k].value);
  }
}

static void add_steps(Application *app, const Copy *copy) {
  for (int k = 0; k < copy->body->statement_count; k++) {
    const Statement *statement = &copy->body->statements[k];
    const Copy *inner = copy->inner[statement->declared];
    if (inner) {
      for (int j = 0; j < inner->body->inputs; j++)
        add_assignment(app, inner->numbers[j], placed_value(app, copy, statement->arguments[j].value));
      add_steps(app, inner);
    } else if (copy->body->declared[statement->declared].sort == A_KIND) {
      add_call(app, copy, statement);
    } else {
      add_assignment(app, copy->numbers[statement->declared], placed_value(app, copy, statement->value));
    }
  }
}

static Application *flat(const Library *library, const Body *program) {
  Application *app = taken(sizeof(Application));
  app->names = taken(4000 * sizeof(char *));
  app->instance = taken(400 * sizeof(Instance));
  app->step = taken(4000 * sizeof(Step));
  Copy *copy = declare_copy(app, library, program, "", true);
  for (int k = 0; k < app->instances; k++) {
    app->instance[k].first_output = app->signals;
    app->signals += output_count(app->instance[k].kind);
  }
  add_steps(app, copy);
  return app;
}

// One more AND or OR was seen, of so many: each of them is drawn as often.
static void draw_among(Value *value, uint32_t *seen, Value **drawn) {
  if (value->form == SIGNAL) return;
  if (one_in(++*seen)) *drawn = value;
  for (int k = 0; k < value->count; k++) draw_among(value->operands[k], seen, drawn);
}

Value *draw_joined(const Application *app) {
  Value *drawn = NULL;
  uint32_t seen = 0;
  for (int k = 0; k < app->steps; k++) {
    const Step *step = &app->step[k];
    if (step->instance < 0) draw_among(step->value, &seen, &drawn);
    for (int pin = 0; step->instance >= 0 && pin < MOST_PINS; pin++)
      if (step->arguments[pin].given == IS_VALUE) draw_among(step->arguments[pin].value, &seen, &drawn);
  }
  return drawn;
}

Application *draw_application(Shape shape, Bytes *text) {
  Library *library = taken(sizeof(Library));
  library->shape = shape;
  for (int left = one_in(2) ? (int)between(1, MOST_BLOCKS) : 0; left > 0; left--) {
    Body *body = draw_body(library, false);
    put_body(text, library, body, "FUNCTION_BLOCK");
    library->bodies[library->body_count++] = body;
  }
  Body *program = draw_body(library, true);
  put_body(text, library, program, "PROGRAM");
  return flat(library, program);
}
