// Refuses each growth of one run in a child of its own: preloaded into a program of `rt try --fail-alloc N`.
//
// Such a program counts its growths and refuses the one whose number it compares with. In place of that
// comparison comes a call of `hook`: at each growth the run is forked, the child sees this growth refused and
// goes on to its end, and the parent waits for it and notes how it ended. So a run of N growths is swept
// in one run and N ends, and not in N runs. Jobs can share the growths: job J of K
// refuses those whose number, counted from 0, leaves J when it is divided by K.
#define _GNU_SOURCE
#include <fcntl.h>
#include <link.h>
#include <stdint.h>
#include <stdio.h>
#include <stdlib.h>
#include <string.h>
#include <sys/mman.h>
#include <sys/wait.h>
#include <unistd.h>

static int is_child, notes = -1, jobs = 1, growths;
int verdict;

// Whether the growth is refused in this process.
__attribute__((used)) static void decide(void) {
  verdict = 0;
  if (is_child || growths++ % jobs) return;
  pid_t child = fork();
  if (child == 0) {
    alarm(100);
    is_child = verdict = 1;
    return;
  }
  int status = 0x7f00;
  if (child > 0) waitpid(child, &status, 0);
  unsigned short note = (unsigned short)status;
  if (write(notes, &note, sizeof note) != sizeof note) _exit(126);
}

// Keeps every register, and leaves ZF as a comparison with the number of this growth would.
__asm__(
    ".globl hook\n.hidden hook\n.hidden verdict\nhook:\n"
    "push %rax; push %rcx; push %rdx; push %rsi; push %rdi; push %r8; push %r9; push %r10; push %r11\n"
    "push %rbp; mov %rsp, %rbp; and $-16, %rsp; sub $512, %rsp; fxsave64 (%rsp)\n"
    "call decide\n"
    "fxrstor64 (%rsp); mov %rbp, %rsp; pop %rbp\n"
    "pop %r11; pop %r10; pop %r9; pop %r8; pop %rdi; pop %rsi; pop %rdx; pop %rcx; pop %rax\n"
    "cmpl $1, verdict(%rip)\n"
    "ret\n");
void hook(void);

// A jump to `hook` that a call of the program reaches.
static uint8_t *jump_near(uint8_t *text) {
  for (uintptr_t at = ((uintptr_t)text & ~0xfffful) - 0x1000000; ; at -= 0x10000) {
    uint8_t *page = mmap((void *)at, 4096, PROT_READ | PROT_WRITE | PROT_EXEC,
                         MAP_PRIVATE | MAP_ANONYMOUS | MAP_FIXED_NOREPLACE, -1, 0);
    if (page == MAP_FAILED) continue;
    void (*to)(void) = hook;
    memcpy(page, "\xff\x25\0\0\0\0", 6);
    memcpy(page + 6, &to, 8);
    return page;
  }
}

// Turns `cmp rax, NUMBER` into a call.
static void turn(uint8_t *at, uint8_t *jump) {
  uint8_t *page = (uint8_t *)((uintptr_t)at & ~0xffful);
  mprotect(page, 8192, PROT_READ | PROT_WRITE | PROT_EXEC);
  int32_t far = (int32_t)(jump - (at + 5));
  at[0] = 0xe8;
  memcpy(at + 1, &far, 4);
  at[5] = 0x90;
}

static int look(struct dl_phdr_info *info, size_t size, void *found) {
  (void)size;
  uint32_t number = (uint32_t)atol(getenv("EACH_NUMBER"));
  uint8_t wanted[6] = {0x48, 0x3d};
  memcpy(wanted + 2, &number, 4);
  uint8_t *jump = 0;
  for (int i = 0; i < info->dlpi_phnum; i++) {
    if (info->dlpi_phdr[i].p_type != PT_LOAD || !(info->dlpi_phdr[i].p_flags & PF_X)) continue;
    uint8_t *text = (uint8_t *)info->dlpi_addr + info->dlpi_phdr[i].p_vaddr, *end = text + info->dlpi_phdr[i].p_memsz;
    for (uint8_t *at = text; (at = memmem(at, end - at, wanted, 6)); at += 6) {
      if (!jump) jump = jump_near(text);
      turn(at, jump);
      ++*(int *)found;
    }
  }
  return 1;  // the program comes first
}

__attribute__((constructor)) static void start(void) {
  int found = 0;
  if (!getenv("EACH_NOTES") || !getenv("EACH_NUMBER")) return;
  jobs = atoi(getenv("EACH_JOBS"));
  growths = jobs - atoi(getenv("EACH_JOB"));
  notes = open(getenv("EACH_NOTES"), O_WRONLY | O_CREAT | O_APPEND, 0600);
  dl_iterate_phdr(look, &found);
  if (notes < 0 || !found) _exit(125);
}
