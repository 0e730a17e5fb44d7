// Refuses growths of one run: preloaded into a program, it counts the calls of malloc and its kin that the program itself
// makes, and refuses some of them. The environment says which:
//
//   REFUSE_FROM, REFUSE_TO   the first and the last growth that is refused, from 1
//   REFUSE_NOTES             a file that takes three numbers of 8 bytes: growths, refused ones, bytes asked for by these
//
// Calls that the C library makes for itself are not counted. Whether a call is the program's own is seen by where it returns to.
#define _GNU_SOURCE
#include <errno.h>
#include <fcntl.h>
#include <link.h>
#include <stdint.h>
#include <stdlib.h>
#include <sys/mman.h>
#include <unistd.h>

extern void *__libc_malloc(size_t);
extern void *__libc_calloc(size_t, size_t);
extern void *__libc_realloc(void *, size_t);
extern void *__libc_memalign(size_t, size_t);

static uint64_t here[3], *notes = here, from, to;
static uintptr_t text_begin, text_end;

static int look(struct dl_phdr_info *info, size_t size, void *unused) {
  (void)size, (void)unused;
  for (int i = 0; i < info->dlpi_phnum; i++) {
    if (info->dlpi_phdr[i].p_type != PT_LOAD || !(info->dlpi_phdr[i].p_flags & PF_X)) continue;
    text_begin = info->dlpi_addr + info->dlpi_phdr[i].p_vaddr;
    text_end = text_begin + info->dlpi_phdr[i].p_memsz;
  }
  return 1;  // the program comes first
}

__attribute__((constructor)) static void start(void) {
  const char *path = getenv("REFUSE_NOTES");
  if (!path) return;
  from = strtoull(getenv("REFUSE_FROM"), 0, 10);
  to = strtoull(getenv("REFUSE_TO"), 0, 10);
  int file = open(path, O_RDWR);
  void *shared = file < 0 ? MAP_FAILED : mmap(0, sizeof here, PROT_READ | PROT_WRITE, MAP_SHARED, file, 0);
  if (shared == MAP_FAILED) _exit(125);
  close(file);
  notes = shared;
  dl_iterate_phdr(look, 0);
}

// Whether this growth is refused.
static int refuses(void *caller, size_t size) {
  uintptr_t at = (uintptr_t)caller;
  if (at < text_begin || at >= text_end) return 0;
  uint64_t number = ++notes[0];
  if (number < from || number > to) return 0;
  notes[1]++;
  notes[2] += size;
  errno = ENOMEM;
  return 1;
}

void *malloc(size_t size) { return refuses(__builtin_return_address(0), size) ? 0 : __libc_malloc(size); }

void *calloc(size_t count, size_t size) {
  return refuses(__builtin_return_address(0), count * size) ? 0 : __libc_calloc(count, size);
}

void *realloc(void *old, size_t size) { return refuses(__builtin_return_address(0), size) ? 0 : __libc_realloc(old, size); }

void *memalign(size_t align, size_t size) {
  return refuses(__builtin_return_address(0), size) ? 0 : __libc_memalign(align, size);
}

void *aligned_alloc(size_t align, size_t size) {
  return refuses(__builtin_return_address(0), size) ? 0 : __libc_memalign(align, size);
}

int posix_memalign(void **found, size_t align, size_t size) {
  if (refuses(__builtin_return_address(0), size)) return ENOMEM;
  void *room = __libc_memalign(align, size);
  if (!room) return ENOMEM;
  *found = room;
  return 0;
}
