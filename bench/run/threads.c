/* A library for LD_PRELOAD that notes when threads are begun and end: for each a line in the file THREADS_TO, `+` or `-`, the seconds of the monotonic
   clock, and those of processors that the process has had. bench/run/sessions.py times sessions by it, since what a run reads before them takes longer
   than they do. */
#define _GNU_SOURCE
#include <dlfcn.h>
#include <fcntl.h>
#include <pthread.h>
#include <stdio.h>
#include <stdlib.h>
#include <time.h>
#include <unistd.h>

struct start { void *(*of)(void *); void *with; };

static void note(char what) {
  static int file = -1;
  struct timespec now, work;
  clock_gettime(CLOCK_MONOTONIC, &now);
  clock_gettime(CLOCK_PROCESS_CPUTIME_ID, &work);
  if (file < 0) file = open(getenv("THREADS_TO"), O_WRONLY | O_CREAT | O_TRUNC, 0600);
  dprintf(file, "%c %ld.%09ld %ld.%09ld\n", what, (long)now.tv_sec, now.tv_nsec, (long)work.tv_sec, work.tv_nsec);
}

static void *run(void *given) {
  struct start start = *(struct start *)given;
  free(given);
  void *told = start.of(start.with);
  note('-');
  return told;
}

int pthread_create(pthread_t *thread, const pthread_attr_t *how, void *(*of)(void *), void *with) {
  int (*begin)(pthread_t *, const pthread_attr_t *, void *(*)(void *), void *) = dlsym(RTLD_NEXT, "pthread_create");
  struct start *start = malloc(sizeof *start);
  *start = (struct start){of, with};
  note('+');
  return begin(thread, how, run, start);
}

int pthread_join(pthread_t thread, void **told) {
  int (*join)(pthread_t, void **) = dlsym(RTLD_NEXT, "pthread_join");
  int status = join(thread, told);
  note('-');
  return status;
}
