// Times this repository's SHA-256 against OpenSSL's on a short and on a long message, and prints a line for each: how many
// times as fast ours is, and our nanoseconds for a byte. tests/sha256-speed builds and runs it.
// OpenSSL is called by SHA256_Init, SHA256_Update and SHA256_Final: its one-call SHA256 goes through EVP and looks the
// algorithm up each time, which costs more than the message.
#define OPENSSL_SUPPRESS_DEPRECATED
#include <openssl/sha.h>
#include <stdbool.h>
#include <stdint.h>
#include <stdio.h>
#include <stdlib.h>
#include <string.h>
#include <time.h>

bool sha256_into(const uint8_t *message, size_t size, uint8_t *out, size_t out_size);

enum { SHORT = 176, LONG = 65536, ROUNDS = 2001, CHAIN = 200 };

static uint8_t message[LONG], ours[32], theirs[32];

// The first byte of each digest goes into the next message, so that no call can begin before the last has ended.
static void digest_ours(size_t size) {
  message[0] = ours[0];
  sha256_into(message, size, ours, sizeof ours);
}

static void digest_theirs(size_t size) {
  SHA256_CTX state;
  message[0] = theirs[0];
  SHA256_Init(&state);
  SHA256_Update(&state, message, size);
  SHA256_Final(theirs, &state);
}

// Processor time, so that other programs on the machine count for little.
static double nanoseconds(void (*digest)(size_t), size_t size, int digests) {
  struct timespec start, end;
  clock_gettime(CLOCK_PROCESS_CPUTIME_ID, &start);
  for (int i = 0; i < digests; i++) digest(size);
  clock_gettime(CLOCK_PROCESS_CPUTIME_ID, &end);
  return ((end.tv_sec - start.tv_sec) * 1e9 + (end.tv_nsec - start.tv_nsec)) / digests;
}

static int order(const void *a, const void *b) {
  double x = *(const double *)a, y = *(const double *)b;
  return (x > y) - (x < y);
}

static double median(double *times, int rounds) {
  qsort(times, rounds, sizeof *times, order);
  return times[rounds / 2];
}

// A round of one message is some forty microseconds or more, which the clock resolves.
static void compare(size_t size, int rounds, int digests) {
  static double time_ours[ROUNDS], time_theirs[ROUNDS];
  memset(ours, 0, sizeof ours);
  memset(theirs, 0, sizeof theirs);
  for (int i = 0; i < CHAIN; i++) digest_ours(size);
  for (int i = 0; i < CHAIN; i++) digest_theirs(size);
  if (memcmp(ours, theirs, sizeof ours) != 0) {
    fprintf(stderr, "%zu bytes: the digests differ\n", size);
    exit(1);
  }
  for (int round = 0; round < rounds; round++) {
    time_ours[round] = nanoseconds(digest_ours, size, digests);
    time_theirs[round] = nanoseconds(digest_theirs, size, digests);
  }
  double mine = median(time_ours, rounds), other = median(time_theirs, rounds);
  printf("%.2f (%.2f)\n", other / mine, mine / size);
}

int main(void) {
  for (size_t i = 0; i < sizeof message; i++) message[i] = (uint8_t)(i % 251);
  compare(SHORT, ROUNDS, CHAIN);
  compare(LONG, ROUNDS / 10, 1);
}
