/* The work of `disk_bench append` with the same calls of the system: the length, the body and a closed gate behind the
 * standing gate, a sync, the open gate, a sync. Prints the line that `disk_bench append` prints. */
#include <fcntl.h>
#include <stdint.h>
#include <stdio.h>
#include <stdlib.h>
#include <string.h>
#include <time.h>
#include <unistd.h>

static uint64_t syncs, nanoseconds;

static void fail(const char *what) {
  perror(what);
  exit(1);
}

static void sync_file(int file) {
  struct timespec began, ended;
  clock_gettime(CLOCK_MONOTONIC, &began);
  if (fsync(file) != 0) fail("fsync");
  clock_gettime(CLOCK_MONOTONIC, &ended);
  nanoseconds += (ended.tv_sec - began.tv_sec) * 1000000000ull + ended.tv_nsec - began.tv_nsec;
  ++syncs;
}

static void write_at(int file, const uint8_t *bytes, size_t count, uint64_t at) {
  while (count > 0) {
    ssize_t put = pwrite(file, bytes, count, at);
    if (put <= 0) fail("pwrite");
    bytes += put;
    count -= put;
    at += put;
  }
}

int main(int count_of_words, char **words) {
  if (count_of_words != 5) return 2;
  uint64_t count = strtoull(words[3], NULL, 10), size = strtoull(words[4], NULL, 10), gate = 0;
  char path[4096];
  snprintf(path, sizeof path, "%s/manifest", words[2]);
  int file = open(path, O_RDWR | O_CREAT, 0666), folder = open(words[2], O_RDONLY);
  if (file < 0 || folder < 0) fail("open");
  sync_file(file);
  sync_file(folder);
  write_at(file, (const uint8_t *)"\0", 1, 0);
  sync_file(file);
  uint8_t *body = malloc(size);
  if (!body) fail("malloc");
  memset(body, 'a', size);
  for (uint64_t number = 0; number < count; ++number) {
    uint8_t *block = malloc(size + 9);
    if (!block) fail("malloc");
    for (int place = 0; place < 8; ++place) block[place] = size >> (56 - 8 * place);
    memcpy(block + 8, body, size);
    block[size + 8] = 0;
    write_at(file, block, size + 9, gate + 1);
    sync_file(file);
    write_at(file, (const uint8_t *)"\1", 1, gate);
    sync_file(file);
    free(block);
    gate += size + 9;
  }
  printf("append %llu %llu syncs %llu nanoseconds %llu\n", (unsigned long long)count, (unsigned long long)size,
         (unsigned long long)syncs, (unsigned long long)nanoseconds);
  return 0;
}
