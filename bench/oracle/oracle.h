// A second reading of docs/: applications, what they mean, the three channels, and the worlds of two and of three
// seats. It shares nothing with the crates. Every number of a pin, a state, an opcode or a place stands here once more.
#ifndef ORACLE_H
#define ORACLE_H
#include <stdbool.h>
#include <stddef.h>
#include <stdint.h>

enum { KINDS = 13, MOST_PINS = 13, MOST_OUTPUTS = 11, FIELD_BYTES = 16, WORK_CELLS = 48 };

// ---- texts and draws (draws.c)

// Bytes that grow.
typedef struct {
  uint8_t *at;
  size_t length, room;
} Bytes;

void put(Bytes *bytes, uint8_t byte);
void put_number(Bytes *bytes, uint32_t number, int width); // big-endian
void put_text(Bytes *bytes, const char *form, ...) __attribute__((format(printf, 2, 3)));
void *taken(size_t size); // memory of zeros; ends the program where there is none

void begin_draws(uint64_t seed, uint64_t number);
uint32_t draw(uint32_t below); // from 0 on, evenly
bool one_in(uint32_t many);
uint32_t between(uint32_t least, uint32_t most);

// ---- blocks (blocks.c, docs/blocks.md)

typedef struct {
  const char *name, *time_pin;           // no time pin: NULL
  const char *pins[MOST_PINS + 1];       // Boolean input pins; one that is BOOL ends in a star
  const char *outputs[MOST_OUTPUTS + 1]; // safe outputs, Ready, Error
  int first_state;
} Kind;

// What a block remembers beside its timer.
typedef struct {
  int code;
  bool reset, auxiliary;
  int mode;
} Block;

extern const Kind kinds[KINDS + 1];
int pin_count(int kind);
int output_count(int kind); // Ready and Error among them
bool is_safe_pin(int kind, int pin);
bool free_value(int kind, int pin);
bool step_block(int kind, Block *block, const bool *pins, bool elapsed); // whether its timer begins anew
bool output_of(int kind, const Block *block, int output);
bool load_block(int kind, const uint8_t *bytes, Block *block); // whether the bytes are those of a state of the kind
void store_block(const Block *block, uint8_t *bytes);          // all but the timer

// ---- applications (network.c, docs/language.md)

typedef struct Value Value;
typedef enum { SIGNAL, ALL_OF, ANY_OF } Form;
struct Value {
  Form form;
  int signal, count;
  Value **operands;
};

typedef enum { IS_FREE, IS_LITERAL, IS_VALUE } Given;
typedef struct {
  Given given;
  bool literal;
  Value *value;
} Argument;

// An assignment, where `instance` is below 0; else a call.
typedef struct {
  int target, instance;
  Value *value;
  Argument arguments[MOST_PINS];
} Step;

typedef struct {
  char *name;
  int kind, first_output;
  uint32_t limit;
} Instance;

typedef struct {
  int inputs, outputs, locals, signals, instances, steps;
  char **names; // of inputs, outputs and locals
  Instance *instance;
  Step *step;
} Application;

typedef enum { SMALL, WIDE, DEEP } Shape;
Application *draw_application(Shape shape, Bytes *text);
Value *draw_joined(const Application *app); // one of its ANDs and ORs, or NULL
void drop_all(void);                        // all memory taken since the last call

// ---- the meaning (meaning.c, docs/model.md)

typedef struct {
  bool *signals;
  Block *blocks;
  uint64_t *ages;
  bool is_first;
  uint32_t time;
} Meaning;
typedef struct {
  bool *flags;
  int *codes;
} Report; // outputs, then Ready and Error of each instance; the codes

Meaning *new_meaning(const Application *app);
void forget(const Application *app, Meaning *meaning);
void mean_scan(const Application *app, Meaning *meaning, uint32_t time, const bool *values);
Report *new_report(const Application *app);
void meant_report(const Application *app, const Meaning *meaning, Report *report);
int first_difference(const Application *app, const Report *one, const Report *other); // a field's number, or -1
bool value_of(const Value *value, const bool *signals);

// ---- channels (stack.c, equation.c, decision.c, docs/machines.md)

typedef struct {
  Bytes original; // the code as compiled
  uint8_t *code, *cells;
  size_t cell_count;
  uint32_t budget, turns;
} Channel;

enum { STACK_SIGNALS = 74, EQUATION_SIGNALS = 61, DECISION_SIGNALS = 22 };
enum { NO_SUCH_OPCODE = 1, PAST_THE_END, WRONG_HEIGHT, NOT_BOOLEAN, NO_SUCH_SIGNAL, NO_SUCH_INSTANCE, NO_SUCH_STATE };

uint32_t number_at(const uint8_t *bytes, int width);
void set_number(uint8_t *bytes, uint32_t number, int width);
bool is_boolean(uint8_t byte);
bool passed(uint32_t now, uint32_t kept, uint32_t limit); // whether so much time has passed since the kept one

void compile_stack(const Application *app, Channel *channel);
void begin_stack(const Application *app, uint8_t *cells, uint32_t time, const bool *values);
void turn_stack(const Application *app, Channel *channel);
void compile_equations(const Application *app, Channel *channel);
void begin_equations(const Application *app, uint8_t *cells, uint32_t time, const bool *values);
void turn_equations(const Application *app, Channel *channel);
void compile_decisions(const Application *app, Channel *channel);
void begin_decisions(const Application *app, uint8_t *cells, uint32_t time, const bool *values);
void turn_decisions(const Application *app, Channel *channel);

// ---- worlds (worlds.c, docs/faults.md)

typedef enum { SEAT_A, SEAT_B, SEAT_C } Seat;
typedef enum { HAS_REPORT, TRAPPED, IS_STUCK, NO_REPORT } Outcome;

typedef struct {
  int seats; // 2 or 3
  Channel channel[3];
  uint32_t time;
  bool dirty[3];
} World;

World *new_world(const Application *app, int seats);
void restart_world(World *world);
void begin_world(const Application *app, World *world, uint32_t time, const bool *values);
void turn_world(const Application *app, World *world, Seat seat);
bool has_ended(const World *world, Seat seat);
int next_seat(const World *world, int last); // the seat of the next turn, or -1
Outcome outcome_of(const Application *app, const World *world, Seat seat, Report *report, int *trap);
void heal_seat(const Application *app, World *world, Seat seat);
uint8_t plain_cell(const World *world, Seat seat, size_t at);

#endif
