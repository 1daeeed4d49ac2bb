// Work done twice in turn, and once here while a started thread does it too: wake TURNS MICROSECONDS
#include <pthread.h>
#include <stdint.h>
#include <stdio.h>
#include <stdlib.h>
#include <time.h>

static uint64_t turns;
static double begun;

static double now(void) {
  struct timespec t;
  clock_gettime(CLOCK_MONOTONIC, &t);
  return t.tv_sec * 1e6 + t.tv_nsec / 1e3;
}

static double used(void) {
  struct timespec t;
  clock_gettime(CLOCK_THREAD_CPUTIME_ID, &t);
  return t.tv_sec * 1e6 + t.tv_nsec / 1e3;
}

static void work(uint64_t n) {
  volatile uint64_t x = 0;
  for (uint64_t i = 0; i < n; i++) x += i;
}

static void *run(void *none) {
  begun = now();
  work(turns);
  return none;
}

static int by_value(const void *a, const void *b) {
  double x = *(const double *)a, y = *(const double *)b;
  return (x > y) - (x < y);
}

static void tell(const char *name, double *times, int n) {
  double sum = 0;
  for (int i = 0; i < n; i++) sum += times[i];
  qsort(times, n, sizeof *times, by_value);
  printf("  %s: median %.0f, mean %.0f, nine of ten within %.0f", name, times[n / 2], sum / n, times[n * 9 / 10]);
}

int main(int count, char **words) {
  if (count != 3) return 2;
  int n = atoi(words[1]);
  double before = used();
  work(10000000);
  turns = atof(words[2]) / ((used() - before) / 1e7);
  double *in_turn = calloc(n, sizeof *in_turn), *at_once = calloc(n, sizeof *at_once), *late = calloc(n, sizeof *late);
  for (int i = 0; i < n; i++) {
    double a = now();
    work(turns);
    work(turns);
    in_turn[i] = now() - a;
    pthread_t other;
    double b = now();
    if (pthread_create(&other, 0, run, 0)) return 1;
    work(turns);
    pthread_join(other, 0);
    at_once[i] = now() - b;
    late[i] = begun - b;
  }
  printf("work of %s us:", words[2]);
  tell("in turn", in_turn, n);
  tell("at once", at_once, n);
  tell("begun after", late, n);
  printf("\n");
  return 0;
}
