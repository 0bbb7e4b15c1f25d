// A link and a clock that are told: preloaded into the program `serve`, it takes the place of the socket and of the clock, by a script.
//
// TOLD_SCRIPT names a file of lines `fail N..` (which calls of open and send, counted together from 0, fail), `clock MS..` (what the clock answers;
// the last again and again) and the turns of the link: `turn HEX`, `nothing [COUNT]`, `fault [COUNT]`. TOLD_TRIES names the file to which each
// datagram that was tried is written, `try ADDRESS:PORT went HEX` or `.. failed HEX`, and at the end `recvs N`. A look for a datagram that finds
// nothing is made twice, with a wait between, and counts once.
#define _GNU_SOURCE
#include <arpa/inet.h>
#include <errno.h>
#include <fcntl.h>
#include <stdint.h>
#include <stdio.h>
#include <stdlib.h>
#include <string.h>
#include <sys/socket.h>
#include <time.h>
#include <unistd.h>

// All of it lies in place, so that it can stand beside a library that refuses memory.
enum { LONGEST = 1 << 25, MOST = 1 << 20, DATAGRAM = 65536 };
struct turn {
  int kind; // 0 a datagram, 1 nothing, 2 a fault
  long length;
  uint8_t *octets;
};
static struct turn turns[MOST];
static long turn_count, turn_at, fails[4096], fail_count, calls, recvs;
static uint64_t answers[MOST];
static char script[LONGEST];
static uint8_t pool[LONGEST];
static long pooled;
static long answer_count, answer_at;
static int waited;
static int tries = -1;

static long unhex(const char *text, uint8_t **octets) {
  long length = (long)strspn(text, "0123456789abcdefABCDEF") / 2;
  *octets = pool + pooled;
  pooled += length;
  for (long i = 0; i < length; i++) {
    char two[3] = {text[2 * i], text[2 * i + 1], 0};
    (*octets)[i] = (uint8_t)strtoul(two, NULL, 16);
  }
  return length;
}

static void add_turns(int kind, long count, long length, uint8_t *octets) {
  while (count-- > 0 && turn_count < MOST) turns[turn_count++] = (struct turn){kind, length, octets};
}

static void read_line(char *line) {
  char *word = strtok(line, " \n"), *more;
  if (!word) return;
  if (!strcmp(word, "turn")) {
    uint8_t *octets = NULL;
    more = strtok(NULL, " \n");
    long length = unhex(more ? more : "", &octets);
    add_turns(0, 1, length, octets);
  } else if (!strcmp(word, "nothing") || !strcmp(word, "fault")) {
    more = strtok(NULL, " \n");
    add_turns(word[0] == 'n' ? 1 : 2, more ? atol(more) : 1, 0, NULL);
  } else if (!strcmp(word, "fail")) {
    while ((more = strtok(NULL, " \n")) && fail_count < 4096) fails[fail_count++] = atol(more);
  } else if (!strcmp(word, "clock")) {
    while ((more = strtok(NULL, " \n")) && answer_count < MOST) answers[answer_count++] = strtoull(more, NULL, 10);
  }
}

__attribute__((constructor)) static void begin(void) {
  const char *from = getenv("TOLD_SCRIPT"), *to = getenv("TOLD_TRIES");
  int file = from ? open(from, O_RDONLY) : -1;
  long length = 0, more;
  while (file >= 0 && (more = read(file, script + length, LONGEST - 1 - length)) > 0) length += more;
  if (file >= 0) close(file);
  if (to) tries = open(to, O_WRONLY | O_CREAT | O_TRUNC, 0644);
  for (char *line = script, *next; *line; line = next) {
    next = line + strcspn(line, "\n");
    if (*next) *next++ = 0;
    read_line(line);
  }
}

__attribute__((destructor)) static void end(void) {
  dprintf(tries, "recvs %ld\n", recvs);
  close(tries);
}

static int fails_now(void) {
  long call = calls++;
  for (long i = 0; i < fail_count; i++)
    if (fails[i] == call) return 1;
  return 0;
}

int bind(int fd, const struct sockaddr *at, socklen_t length) {
  (void)fd, (void)at, (void)length;
  if (!fails_now()) return 0;
  errno = EADDRINUSE;
  return -1;
}

ssize_t recvfrom(int fd, void *room, size_t size, int flags, struct sockaddr *from, socklen_t *length) {
  (void)fd, (void)flags;
  if (waited) {
    waited = 0;
    errno = EAGAIN;
    return -1;
  }
  recvs++;
  if (turn_at == turn_count || turns[turn_at].kind == 1) {
    turn_at += turn_at < turn_count;
    waited = 1;
    errno = EAGAIN;
    return -1;
  }
  struct turn *turn = &turns[turn_at++];
  if (turn->kind == 2) {
    errno = ECONNREFUSED;
    return -1;
  }
  struct sockaddr_in peer = {.sin_family = AF_INET, .sin_port = htons(9), .sin_addr.s_addr = htonl(INADDR_LOOPBACK)};
  if (from && length) {
    memcpy(from, &peer, *length < sizeof peer ? *length : sizeof peer);
    *length = sizeof peer;
  }
  size_t taken = (size_t)turn->length < size ? (size_t)turn->length : size;
  memcpy(room, turn->octets, taken);
  return (ssize_t)taken;
}

ssize_t sendto(int fd, const void *octets, size_t size, int flags, const struct sockaddr *to, socklen_t length) {
  (void)fd, (void)flags, (void)length;
  const struct sockaddr_in *peer = (const void *)to;
  int failed = fails_now();
  static char hex[2 * DATAGRAM + 1];
  for (size_t i = 0; i < size && i < DATAGRAM; i++) {
    uint8_t octet = ((const uint8_t *)octets)[i];
    hex[2 * i] = "0123456789ABCDEF"[octet >> 4];
    hex[2 * i + 1] = "0123456789ABCDEF"[octet & 15];
  }
  hex[2 * size] = 0;
  dprintf(tries, "try %s:%d %s %s\n", inet_ntoa(peer->sin_addr), ntohs(peer->sin_port), failed ? "failed" : "went", hex);
  if (!failed) return (ssize_t)size;
  errno = EHOSTUNREACH;
  return -1;
}

int clock_gettime(clockid_t clock, struct timespec *at) {
  (void)clock;
  uint64_t now = answer_count ? answers[answer_at] : 0;
  answer_at += answer_at + 1 < answer_count;
  *at = (struct timespec){.tv_sec = (time_t)(now / 1000), .tv_nsec = (long)(now % 1000) * 1000000};
  return 0;
}

int nanosleep(const struct timespec *wish, struct timespec *left) {
  (void)wish, (void)left;
  return 0;
}

int clock_nanosleep(clockid_t clock, int flags, const struct timespec *wish, struct timespec *left) {
  (void)clock, (void)flags, (void)wish, (void)left;
  return 0;
}
