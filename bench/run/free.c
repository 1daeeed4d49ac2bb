/* Prints two numbers of seconds: what a thread takes that computes alone, and the most that one takes of threads that compute the same at once, one on each
   processor. The second is twice the first where two of these processors are one core's, and more than it where another machine of the host has a part of
   one. bench/run/sessions.py looks so before and after a run. */
#define _GNU_SOURCE
#include <pthread.h>
#include <sched.h>
#include <stdint.h>
#include <stdio.h>
#include <stdlib.h>
#include <time.h>
#include <unistd.h>

enum { MOST = 64, STEPS = 5000000 };
static pthread_barrier_t all_begin;
static double took[MOST];

static double now(void) {
  struct timespec at;
  clock_gettime(CLOCK_MONOTONIC, &at);
  return at.tv_sec + at.tv_nsec * 1e-9;
}

/* Six sums that wait for none of the others keep a core busy, so that two such threads do not fit into one. */
static double compute(void) {
  double begun = now();
  uint64_t sums[6] = {1, 2, 3, 4, 5, 6};
  for (long step = 0; step < STEPS; step++)
#pragma GCC unroll 6
    for (int k = 0; k < 6; k++) {
      sums[k] = (sums[k] ^ (sums[k] >> 3)) + step;
      __asm__ volatile("" : "+r"(sums[k]));
    }
  return now() - begun;
}

static void *run(void *place) {
  cpu_set_t one;
  CPU_ZERO(&one);
  CPU_SET((long)place, &one);
  if (sched_setaffinity(0, sizeof one, &one)) {
    perror("free: a processor is not to be had");
    exit(1);
  }
  pthread_barrier_wait(&all_begin);
  took[(long)place] = compute();
  return 0;
}

int main(void) {
  double alone = compute();
  long many = sysconf(_SC_NPROCESSORS_ONLN);
  if (many > MOST) many = MOST;
  pthread_t threads[MOST];
  pthread_barrier_init(&all_begin, 0, many);
  for (long k = 0; k < many; k++) pthread_create(&threads[k], 0, run, (void *)k);
  for (long k = 0; k < many; k++) pthread_join(threads[k], 0);
  double most = 0;
  for (long k = 0; k < many; k++)
    if (took[k] > most) most = took[k];
  printf("%.6f %.6f\n", alone, most);
}
