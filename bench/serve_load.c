// What bench/serve_load.py can't do fast enough: takes the packets of many listeners, and floods a port with datagrams that are to be refused.
//
//   serve_load receive FIRST PORTS TICKS SECONDS    takes what comes to PORTS ports from FIRST on, by twos, and to the ports above them, until two
//       seconds have gone by without a packet, or SECONDS in all. A packet's sequence number is its tick. It writes `ready` once the ports are
//       open, then for each tick a line `TICK FIRST LAST PACKETS`, the times in ns, as the system saw the packets come, and `reports N`.
//   serve_load flood PORT RATE SECONDS              sends RATE datagrams a second to a port of 127.0.0.1: empty, torn, of a wrong version, from
//       nobody, of wrong types and lengths, and RTCP with every fault. It writes `sent N`.
#define _GNU_SOURCE
#include <arpa/inet.h>
#include <stdint.h>
#include <stdio.h>
#include <stdlib.h>
#include <string.h>
#include <sys/epoll.h>
#include <sys/resource.h>
#include <sys/socket.h>
#include <time.h>
#include <unistd.h>

enum { BATCH = 64, ROOM = 2048, KINDS = 20 };

static int64_t now_ns(clockid_t clock) {
  struct timespec t;
  clock_gettime(clock, &t);
  return t.tv_sec * 1000000000ll + t.tv_nsec;
}

static int bound(int port) {
  int fd = socket(AF_INET, SOCK_DGRAM | SOCK_NONBLOCK, 0), one = 1, room = 4 << 20;
  struct sockaddr_in at = {.sin_family = AF_INET, .sin_port = htons(port), .sin_addr.s_addr = htonl(INADDR_LOOPBACK)};
  setsockopt(fd, SOL_SOCKET, SO_RCVBUF, &room, sizeof room);
  setsockopt(fd, SOL_SOCKET, SO_TIMESTAMPNS, &one, sizeof one);
  if (fd < 0 || bind(fd, (struct sockaddr *)&at, sizeof at)) {
    perror("serve_load: bind");
    exit(1);
  }
  return fd;
}

struct tick {
  int64_t first, last;
  uint32_t packets;
};

static struct mmsghdr heads[BATCH];
static struct iovec parts[BATCH];
static char octets[BATCH][ROOM], extra[BATCH][64];

static int64_t came(struct msghdr *head) {
  for (struct cmsghdr *c = CMSG_FIRSTHDR(head); c; c = CMSG_NXTHDR(head, c))
    if (c->cmsg_level == SOL_SOCKET && c->cmsg_type == SCM_TIMESTAMPNS) {
      struct timespec t;
      memcpy(&t, CMSG_DATA(c), sizeof t);
      return t.tv_sec * 1000000000ll + t.tv_nsec;
    }
  return now_ns(CLOCK_REALTIME);
}

// Takes what a socket has; gives how many packets.
static int take(int fd, struct tick *ticks, int count, int control, long *reports) {
  int total = 0;
  for (;;) {
    for (int i = 0; i < BATCH; i++) {
      parts[i] = (struct iovec){octets[i], ROOM};
      heads[i].msg_hdr = (struct msghdr){.msg_iov = &parts[i], .msg_iovlen = 1, .msg_control = extra[i], .msg_controllen = sizeof extra[i]};
    }
    int got = recvmmsg(fd, heads, BATCH, 0, NULL);
    for (int i = 0; i < got; i++) {
      if (control) {
        ++*reports;
        continue;
      }
      if (heads[i].msg_len < 12) continue;
      int tick = (uint8_t)octets[i][2] << 8 | (uint8_t)octets[i][3];
      if (tick >= count) continue;
      int64_t at = came(&heads[i].msg_hdr);
      struct tick *t = &ticks[tick];
      if (!t->packets || at < t->first) t->first = at;
      if (!t->packets || at > t->last) t->last = at;
      t->packets++;
      total++;
    }
    if (got < BATCH) return total;
  }
}

static int receive(int first, int ports, int count, int seconds) {
  int all = epoll_create1(0);
  long reports = 0;
  struct tick *ticks = calloc(count, sizeof *ticks);
  struct rlimit files = {4096, 4096};
  setrlimit(RLIMIT_NOFILE, &files);
  for (int i = 0; i < 2 * ports; i++) {
    struct epoll_event want = {.events = EPOLLIN, .data.u64 = (uint64_t)(i & 1) << 32 | (uint32_t)bound(first + i)};
    epoll_ctl(all, EPOLL_CTL_ADD, (int)(uint32_t)want.data.u64, &want);
  }
  puts("ready");
  fflush(stdout);
  int64_t begun = now_ns(CLOCK_MONOTONIC), last = 0;
  for (;;) {
    struct epoll_event some[64];
    int n = epoll_wait(all, some, 64, 100), got = 0;
    for (int i = 0; i < n; i++) got += take((int)(uint32_t)some[i].data.u64, ticks, count, some[i].data.u64 >> 32, &reports);
    int64_t now = now_ns(CLOCK_MONOTONIC);
    if (got) last = now;
    if (now - begun > seconds * 1000000000ll || (last && now - last > 2000000000ll)) break;
  }
  for (int i = 0; i < count; i++)
    if (ticks[i].packets) printf("%d %lld %lld %u\n", i, (long long)ticks[i].first, (long long)ticks[i].last, ticks[i].packets);
  printf("reports %ld\n", reports);
  return 0;
}

// Makes a datagram of a kind; gives its length.
static int hostile(int kind, uint8_t *o, uint32_t draw) {
  static const uint8_t rr[] = {0x80, 201, 0, 1, 0, 0, 0, 7};
  for (int i = 0; i < 400; i++) o[i] = (draw = draw * 1664525u + 1013904223u) >> 24;
  memcpy(o, "\x80\0\0\0\0\0\0\0\0\0\x1e\x61", 12); // from SSRC 7777, whom no roster of the bench has
  switch (kind) {
  case 0: return 0;
  case 1: return 1 + draw % 11;                                                       // torn
  case 2: o[0] = 0x40; return 172;                                                    // of another version
  case 3: return 172;                                                                 // from nobody
  case 4: o[0] = 0x8F; return 40;                                                     // its sources go past the end
  case 5: o[0] = 0x90; memset(o + 12, 0xFF, 4); return 172;                           // its extension goes past the end
  case 6: o[0] = 0xA0; o[171] = 0; return 172;                                        // padding of no octet
  case 7: memcpy(o + 8, "\0\0\x03\xe9", 4); o[1] = 13; return 20;                      // a talker's, of another type
  case 8: memcpy(o + 8, "\0\0\x03\xe9", 4); return 12;                                 // a talker's, without a payload
  case 9: memcpy(o + 8, "\0\0\x03\xe9", 4); memset(o + 12, 0x10, 1601); return 1613;   // a talker's, too long
  case 10: memset(o, 0xFF, 172); return 172;                                          // noise
  case 11: memcpy(o, rr, 2); return 2;                                                // RTCP: short
  case 12: memcpy(o, rr, 8); o[0] = 0x40; return 8;                                   // of another version
  case 13: memcpy(o, rr, 8); o[0] = 0x81; o[1] = 203; return 8;                       // no report first
  case 14: memcpy(o, rr, 8); o[3] = 9; return 8;                                      // longer than what is left
  case 15: memcpy(o, rr, 8); o[0] = 0xA0; o[7] = 3; return 8;                         // broken padding
  case 16: memcpy(o, rr, 8); o[0] = 0x82; return 8;                                   // too short a body
  case 17: memcpy(o, rr, 8); memcpy(o + 8, "\x81\xca\0\1\0\0\0\7", 8); return 16;     // a name without an end
  case 18: memcpy(o, rr, 8); memcpy(o + 8, "\x81\xca", 2); return 11;                 // torn behind a report
  default: memcpy(o, rr, 8); return 8;                                                // a good report
  }
}

static int flood(int port, int rate, int seconds) {
  int fd = socket(AF_INET, SOCK_DGRAM, 0);
  struct sockaddr_in to = {.sin_family = AF_INET, .sin_port = htons(port), .sin_addr.s_addr = htonl(INADDR_LOOPBACK)};
  int64_t begun = now_ns(CLOCK_MONOTONIC);
  long sent = 0, wanted = (long)rate * seconds;
  uint32_t draw = 1;
  while (sent < wanted) {
    int64_t went = now_ns(CLOCK_MONOTONIC) - begun;
    long due = went / 1000000 * rate / 1000;
    int count = due - sent > BATCH ? BATCH : (int)(due - sent);
    if (count <= 0) {
      struct timespec until = {0, 500000};
      nanosleep(&until, NULL);
      continue;
    }
    for (int i = 0; i < count; i++) {
      draw = draw * 1664525u + 1013904223u;
      parts[i] = (struct iovec){octets[i], (size_t)hostile((int)((sent + i) % KINDS), (uint8_t *)octets[i], draw)};
      heads[i].msg_hdr = (struct msghdr){.msg_name = &to, .msg_namelen = sizeof to, .msg_iov = &parts[i], .msg_iovlen = 1};
    }
    int done = sendmmsg(fd, heads, count, 0);
    sent += done > 0 ? done : 1;
    if (went > (seconds + 5) * 1000000000ll) break;
  }
  printf("sent %ld\n", sent);
  return 0;
}

int main(int count, char **words) {
  if (count == 6 && !strcmp(words[1], "receive")) return receive(atoi(words[2]), atoi(words[3]), atoi(words[4]), atoi(words[5]));
  if (count == 5 && !strcmp(words[1], "flood")) return flood(atoi(words[2]), atoi(words[3]), atoi(words[4]));
  fputs("usage: serve_load receive FIRST PORTS TICKS SECONDS or serve_load flood PORT RATE SECONDS\n", stderr);
  return 2;
}
