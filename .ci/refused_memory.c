/* Refuses one allocation of the program that it is loaded into: the one whose number, counted from 1 over all its threads, is in the variable
   REFUSED.
   At the end, by whichever way the program goes, it writes how many allocations there were to file descriptor 3. */
#include <errno.h>
#include <stdio.h>
#include <stdlib.h>
#include <sys/syscall.h>
#include <unistd.h>

void *__libc_malloc(size_t size);
void *__libc_realloc(void *old, size_t size);

static unsigned long count;

static int is_refused(void) {
  const char *number = getenv("REFUSED");
  unsigned long mine = __atomic_add_fetch(&count, 1, __ATOMIC_SEQ_CST);
  return number != NULL && strtoul(number, NULL, 10) == mine;
}

void *malloc(size_t size) {
  if (is_refused()) {
    errno = ENOMEM;
    return NULL;
  }
  return __libc_malloc(size);
}

void *realloc(void *old, size_t size) {
  if (is_refused()) {
    errno = ENOMEM;
    return NULL;
  }
  return __libc_realloc(old, size);
}

__attribute__((destructor)) static void report(void) {
  unsigned long all = __atomic_load_n(&count, __ATOMIC_SEQ_CST);
  dprintf(3, "%lu\n", all);
}

void _exit(int status) {
  report();
  syscall(SYS_exit_group, status);
  __builtin_unreachable();
}
