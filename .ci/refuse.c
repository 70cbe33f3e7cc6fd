// Loaded into a program by LD_PRELOAD, counts the program's own requests for memory, reads and writes, and refuses one of them.
//
// REFUSE says what: `memory`, `io` (a read or a write fails, and each moves 16 bytes at most) or `short` (a read or a write of several
// bytes moves one byte).
// REFUSE_AT says which, counted from 1; where it is 0 or left out, none is refused. REFUSE_COUNTS names a file to which
// `made N refused M` is written at the end.
#define _GNU_SOURCE
#include <errno.h>
#include <fcntl.h>
#include <link.h>
#include <stdatomic.h>
#include <stdint.h>
#include <stdio.h>
#include <stdlib.h>
#include <string.h>
#include <sys/syscall.h>
#include <unistd.h>

extern void *__libc_malloc(size_t);
extern void *__libc_calloc(size_t, size_t);
extern void *__libc_realloc(void *, size_t);
extern void *__libc_memalign(size_t, size_t);

static enum { NOTHING, MEMORY, IO, SHORT } kind;
static long refused_at;
static atomic_long made, refused;
static uintptr_t low, high;

// The first object that is told of is the program itself.
static int find_program(struct dl_phdr_info *info, size_t size, void *data) {
  (void)size;
  (void)data;
  for (int i = 0; i < info->dlpi_phnum; i++) {
    const ElfW(Phdr) *part = &info->dlpi_phdr[i];
    if (part->p_type != PT_LOAD || !(part->p_flags & PF_X)) continue;
    uintptr_t begin = info->dlpi_addr + part->p_vaddr;
    if (!low || begin < low) low = begin;
    if (begin + part->p_memsz > high) high = begin + part->p_memsz;
  }
  return 1;
}

__attribute__((constructor)) static void begin(void) {
  const char *what = getenv("REFUSE");
  const char *at = getenv("REFUSE_AT");
  dl_iterate_phdr(find_program, NULL);
  refused_at = at ? atol(at) : 0;
  if (what && !strcmp(what, "memory")) kind = MEMORY;
  if (what && !strcmp(what, "io")) kind = IO;
  if (what && !strcmp(what, "short")) kind = SHORT;
}

// Tells the counts. The program ends by _exit.
void _exit(int status) {
  const char *name = getenv("REFUSE_COUNTS");
  int counts = name ? open(name, O_WRONLY | O_CREAT | O_TRUNC, 0600) : -1;
  kind = NOTHING;
  if (counts >= 0) dprintf(counts, "made %ld refused %ld\n", (long)made, (long)refused);
  for (;;) syscall(SYS_exit_group, status);
}

// Whether the program itself calls.
static int is_own(void *caller) {
  uintptr_t from = (uintptr_t)caller;
  return from >= low && from < high;
}

// Counts a request of this kind, if the program itself makes it. Answers whether it is to be refused.
static int refuses(int of, void *caller) {
  if (of != (int)kind || !is_own(caller)) return 0;
  if (atomic_fetch_add(&made, 1) + 1 != refused_at) return 0;
  atomic_fetch_add(&refused, 1);
  return 1;
}

#define CALLER __builtin_return_address(0)

void *malloc(size_t size) {
  if (!refuses(MEMORY, CALLER)) return __libc_malloc(size);
  errno = ENOMEM;
  return NULL;
}

void *calloc(size_t count, size_t size) {
  if (!refuses(MEMORY, CALLER)) return __libc_calloc(count, size);
  errno = ENOMEM;
  return NULL;
}

void *realloc(void *old, size_t size) {
  if (!refuses(MEMORY, CALLER)) return __libc_realloc(old, size);
  errno = ENOMEM;
  return NULL;
}

void *aligned_alloc(size_t align, size_t size) {
  if (!refuses(MEMORY, CALLER)) return __libc_memalign(align, size);
  errno = ENOMEM;
  return NULL;
}

int posix_memalign(void **to, size_t align, size_t size) {
  void *at = refuses(MEMORY, CALLER) ? NULL : __libc_memalign(align, size);
  if (!at) return ENOMEM;
  *to = at;
  return 0;
}

static ssize_t moved(long call, int file, void *bytes, size_t count, void *caller) {
  if (refuses(IO, caller)) {
    errno = EIO;
    return -1;
  }
  if (kind == IO && is_own(caller) && count > 16) count = 16;
  if (count > 1 && refuses(SHORT, caller)) count = 1;
  return syscall(call, file, bytes, count);
}

ssize_t read(int file, void *to, size_t count) { return moved(SYS_read, file, to, count, CALLER); }

ssize_t __read(int file, void *to, size_t count) { return moved(SYS_read, file, to, count, CALLER); }

ssize_t write(int file, const void *from, size_t count) { return moved(SYS_write, file, (void *)from, count, CALLER); }

ssize_t __write(int file, const void *from, size_t count) { return moved(SYS_write, file, (void *)from, count, CALLER); }
