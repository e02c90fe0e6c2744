// Threads that do nothing but pause as idle nodes do, for bench/threads.sh: the arguments are how many, and how many pauses of 100 microseconds
// each makes.
#include <pthread.h>
#include <stdlib.h>
#include <time.h>

static long pauses;

static void *pause_on(void *unused) {
  const struct timespec pause = {0, 100000};
  for (long i = 0; i < pauses; i++) nanosleep(&pause, NULL);
  return unused;
}

int main(int count, char **words) {
  if (count != 3) return 2;
  pthread_t threads[64];
  int many = atoi(words[1]);
  if (many < 1 || many > 64) return 2;
  pauses = atol(words[2]);
  for (int i = 0; i < many; i++)
    if (pthread_create(&threads[i], NULL, pause_on, NULL) != 0) return 1;
  for (int i = 0; i < many; i++) pthread_join(threads[i], NULL);
  return 0;
}
