// Bytes that grow, memory that is dropped at once, and draws that follow from a seed and a number.
#include "oracle.h"
#include <stdarg.h>
#include <stdio.h>
#include <stdlib.h>
#include <string.h>

typedef struct Taken Taken;
struct Taken {
  Taken *before;
};

static Taken *last_taken;
static uint64_t state_of_draws;

static void *or_end(void *memory) {
  if (!memory) {
    fputs("oracle: memory is wanting\n", stderr);
    exit(2);
  }
  return memory;
}

void *taken(size_t size) {
  Taken *block = or_end(calloc(1, sizeof(Taken) + 8 + size));
  block->before = last_taken;
  last_taken = block;
  return (uint8_t *)block + sizeof(Taken) + 8;
}

void drop_all(void) {
  while (last_taken) {
    Taken *block = last_taken;
    last_taken = block->before;
    free(block);
  }
}

void put(Bytes *bytes, uint8_t byte) {
  if (bytes->length == bytes->room) {
    bytes->room = bytes->room ? 2 * bytes->room : 256;
    uint8_t *more = taken(bytes->room);
    if (bytes->length) memcpy(more, bytes->at, bytes->length);
    bytes->at = more;
  }
  bytes->at[bytes->length++] = byte;
}

void put_number(Bytes *bytes, uint32_t number, int width) {
  for (int k = width - 1; k >= 0; k--) put(bytes, (uint8_t)(number >> (8 * k)));
}

void put_text(Bytes *bytes, const char *form, ...) {
  char line[512];
  va_list words;
  va_start(words, form);
  int length = vsnprintf(line, sizeof line, form, words);
  va_end(words);
  if (length < 0 || length >= (int)sizeof line) abort();
  for (int k = 0; k < length; k++) put(bytes, (uint8_t)line[k]);
}

// SplitMix64.
static uint64_t next_draw(void) {
  uint64_t mixed = (state_of_draws += 0x9E3779B97F4A7C15);
  mixed = (mixed ^ (mixed >> 30)) * 0xBF58476D1CE4E5B9;
  mixed = (mixed ^ (mixed >> 27)) * 0x94D049BB133111EB;
  return mixed ^ (mixed >> 31);
}

void begin_draws(uint64_t seed, uint64_t number) {
  state_of_draws = seed;
  state_of_draws = next_draw() ^ (number * 0xD1342543DE82EF95);
}

uint32_t draw(uint32_t below) { return below ? (uint32_t)((next_draw() >> 32) * below >> 32) : 0; }

bool one_in(uint32_t many) { return draw(many) == 0; }

uint32_t between(uint32_t least, uint32_t most) { return least + draw(most - least + 1); }
