/* Looks at the clock each two milliseconds; when it is late by 0.1 ms or more, prints when it was due and how late it was, in nanoseconds. */
#define _GNU_SOURCE
#include <stdio.h>
#include <sys/prctl.h>
#include <time.h>

enum { EACH = 2000000, LATE = 100000, SECOND = 1000000000 };

static long long now(void) {
  struct timespec it;
  clock_gettime(CLOCK_MONOTONIC, &it);
  return it.tv_sec * (long long)SECOND + it.tv_nsec;
}

int main(void) {
  prctl(PR_SET_TIMERSLACK, 1);
  setvbuf(stdout, NULL, _IOLBF, 0);
  for (long long due = now() + EACH, late;; due += EACH) {
    clock_nanosleep(CLOCK_MONOTONIC, TIMER_ABSTIME, &(struct timespec){due / SECOND, due % SECOND}, NULL);
    if ((late = now() - due) >= LATE) {
      printf("%lld %lld\n", due, late);
      due += late / EACH * EACH;
    }
  }
}
