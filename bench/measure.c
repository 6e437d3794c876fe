/* measure RUNS INPUT PROGRAM WORD BASE: runs PROGRAM WORD and BASE on INPUT in turn, and prints the medians of their
   wall times, the ratio of these, and the greatest resident memory of each. */
#define _GNU_SOURCE
#include <fcntl.h>
#include <stdio.h>
#include <stdlib.h>
#include <sys/resource.h>
#include <sys/wait.h>
#include <time.h>
#include <unistd.h>

static double seconds(void) {
  struct timespec now;
  clock_gettime(CLOCK_MONOTONIC, &now);
  return now.tv_sec + now.tv_nsec * 1e-9;
}

static double run(const char *input, char *const words[], long *memory) {
  double start = seconds();
  pid_t child = vfork();
  if (child == 0) {
    int in = open(input, O_RDONLY), out = open("/dev/null", O_WRONLY);
    dup2(in, 0), dup2(out, 1);
    close(in), close(out);
    execv(words[0], words);
    _exit(127);
  }
  int status;
  struct rusage used;
  wait4(child, &status, 0, &used);
  double took = seconds() - start;
  if (!WIFEXITED(status) || WEXITSTATUS(status) != 0) {
    fprintf(stderr, "measure: %s ended with status %d\n", words[0], status);
    exit(1);
  }
  if (used.ru_maxrss > *memory) *memory = used.ru_maxrss;
  return took;
}

static int by_size(const void *a, const void *b) {
  double x = *(const double *)a, y = *(const double *)b;
  return (x > y) - (x < y);
}

static double median(double *times, int runs) {
  qsort(times, runs, sizeof *times, by_size);
  return times[runs / 2];
}

int main(int count, char **argument) {
  if (count != 6) return 2;
  int runs = atoi(argument[1]);
  char *program[] = {argument[3], argument[4], NULL}, *base[] = {argument[5], NULL};
  double *times = malloc(runs * sizeof *times), *base_times = malloc(runs * sizeof *base_times);
  long memory = 0, base_memory = 0;
  for (int turn = -20; turn < runs; turn++) {
    double time = run(argument[2], program, &memory), base_time = run(argument[2], base, &base_memory);
    if (turn >= 0) times[turn] = time, base_times[turn] = base_time;
  }
  double middle = median(times, runs), base_middle = median(base_times, runs);
  printf("time    %.0f us, beside %.0f us: %.2f times\n", middle * 1e6, base_middle * 1e6, middle / base_middle);
  printf("memory  %.1f MiB, beside %.1f MiB\n", memory / 1024.0, base_memory / 1024.0);
  return 0;
}
