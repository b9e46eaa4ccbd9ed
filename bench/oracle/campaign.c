// A campaign: drawn applications and calls, each given to the program, and every byte that it writes compared.
#define _GNU_SOURCE
#include "course.h"
#include <errno.h>
#include <fcntl.h>
#include <stdio.h>
#include <stdlib.h>
#include <string.h>
#include <sys/resource.h>
#include <sys/wait.h>
#include <unistd.h>

enum { MOST_SECONDS = 60, HEX_COLUMNS = 32 };

static const char *program;
static Counts counts;

static void stop(const char *what) {
  fprintf(stderr, "oracle: %s: %s\n", what, strerror(errno));
  exit(2);
}

static void keep(const char *name, const Bytes *bytes) {
  FILE *file = fopen(name, "wb");
  size_t written = file && bytes->length ? fwrite(bytes->at, 1, bytes->length, file) : 0;
  if (!file || written != bytes->length || fclose(file)) stop(name);
}

// In the child: the program, on these words, with its standard output in the pipe.
static void become_program(char *const words[], int end) {
  struct rlimit limit = { MOST_SECONDS, MOST_SECONDS };
  int nowhere = open("/dev/null", O_RDWR);
  if (nowhere >= 0 && dup2(nowhere, 0) == 0 && dup2(end, 1) == 1 && dup2(nowhere, 2) == 2 &&
      !setrlimit(RLIMIT_CPU, &limit))
    execv(program, words);
  _exit(127);
}

// The text that the program writes on these words, and its status; 128 and more where a signal ended it.
static int call_program(char *const words[], Bytes *text) {
  int ends[2], ended;
  if (pipe(ends)) stop("pipe");
  pid_t child = fork();
  if (child < 0) stop("fork");
  if (child == 0) become_program(words, ends[1]);
  close(ends[1]);
  uint8_t piece[65536];
  for (ssize_t count; (count = read(ends[0], piece, sizeof piece)) > 0;)
    for (ssize_t k = 0; k < count; k++) put(text, piece[k]);
  close(ends[0]);
  if (waitpid(child, &ended, 0) != child) stop("waitpid");
  return WIFEXITED(ended) ? WEXITSTATUS(ended) : 128 + WTERMSIG(ended);
}

static size_t differs_at(const Bytes *one, const Bytes *other) {
  size_t k = 0;
  while (k < one->length && k < other->length && one->at[k] == other->at[k]) k++;
  return k;
}

static void print_line(const char *what, const Bytes *text, size_t at) {
  size_t from = at < text->length ? at : text->length, upto = from;
  while (from && text->at[from - 1] != '\n') from--;
  while (upto < text->length && text->at[upto] != '\n' && upto - from < 200) upto++;
  printf("  %s: %.*s\n", what, (int)(upto - from), (const char *)text->at + from);
}

// Ends the campaign where the program wrote something else, with the trials up to the one that shows it.
static void compare(uint64_t number, const char *word, const Bytes *expected, int status, const Course *course) {
  char *words[] = { (char *)program, (char *)word, "app.st", "trace", "faults", NULL };
  if (!course)
    words[3] = NULL;
  else if (course->command == RUN)
    words[4] = NULL;
  Bytes text = { 0 };
  int given = call_program(words, &text);
  size_t at = differs_at(expected, &text);
  if (given == status && at == expected->length && at == text.length) return;
  uint64_t trials = counts.trials;
  for (int k = 0; course && course->command != RUN && k < course->trials; k++) trials -= course->trial_from[k] > at;
  keep("expected", expected);
  keep("given", &text);
  printf("differs: case %llu %s trials %llu status %d expected %d\n", (unsigned long long)number, word,
         (unsigned long long)trials, given, status);
  print_line("expected", expected, at);
  print_line("given", &text, at);
  exit(1);
}

static void put_image(Bytes *text, char letter, const Channel *channel) {
  const Bytes *code = &channel->original;
  put_text(text, "%c code %zu memory %zu turns %u\n", letter, code->length, channel->cell_count, channel->budget);
  for (size_t k = 0; k < code->length; k++)
    put_text(text, "%02x%s", code->at[k], k + 1 == code->length || k % HEX_COLUMNS == HEX_COLUMNS - 1 ? "\n" : "");
}

static void compare_image(uint64_t number, const Application *app) {
  Bytes text = { 0 };
  const World *world = new_world(app, 2);
  put_image(&text, 'A', &world->channel[SEAT_A]);
  put_image(&text, 'B', &world->channel[SEAT_B]);
  compare(number, "image", &text, 0, NULL);
}

static void make_case(uint64_t seed, uint64_t number) {
  static const Command calls[] = { RUN, FAULT, FAULT, VOTE, HEAL, HEAL };
  begin_draws(seed, number);
  Shape shape = one_in(48) ? WIDE : one_in(32) ? DEEP : SMALL;
  Bytes text = { 0 };
  Application *app = draw_application(shape, &text);
  keep("app.st", &text);
  compare_image(number, app);
  for (size_t k = 0; k < sizeof calls / sizeof *calls; k++) {
    int trials = calls[k] == RUN || shape == WIDE ? 3 : 20;
    Course *course = draw_course(app, calls[k], trials, &counts);
    keep("trace", &course->trace);
    keep("faults", &course->faults);
    compare(number, command_words[calls[k]], &course->expected, course->status, course);
  }
  drop_all();
}

#define COUNT(name) (unsigned long long)counts.name

static void print_counts(uint64_t cases) {
  printf("campaign: applications %llu trials %llu scans %llu restarts %llu lines-of-faults %llu\n",
         (unsigned long long)cases, COUNT(trials), COUNT(scans), COUNT(restarts), COUNT(fault_lines));
  printf("two seats: released %llu tripped %llu down %llu\n", COUNT(released), COUNT(tripped), COUNT(down));
  printf("causes: differ %llu trap %llu stuck %llu no-report %llu\n", COUNT(differ), COUNT(trapped), COUNT(is_stuck),
         COUNT(no_report));
  printf("three seats: all %llu outvoted %llu broken-off %llu\n", COUNT(all), COUNT(outvoted), COUNT(broken_off));
  for (int k = 0; k < STRIKES; k++)
    printf("%s: planned %llu same-scan %llu later %llu never %llu\n", strike_words[k], COUNT(planned[k]),
           COUNT(alone[k][AT_ONCE]), COUNT(alone[k][LATER]), COUNT(alone[k][NEVER]));
}

int main(int count, char **words) {
  if (count != 6) {
    fputs("usage: campaign PROGRAM FOLDER SEED FIRST CASES\n", stderr);
    return 2;
  }
  program = realpath(words[1], NULL);
  if (!program || chdir(words[2])) stop(words[program ? 2 : 1]);
  setenv("PLCSAFE_QUIET", "1", 1);
  uint64_t seed = strtoull(words[3], NULL, 10), first = strtoull(words[4], NULL, 10),
           cases = strtoull(words[5], NULL, 10);
  for (uint64_t k = first; k < first + cases; k++) make_case(seed, k);
  print_counts(cases);
  return 0;
}
