/* A qemu plugin: instructions and Cortex-M0+ cycles of each call_NAME of unit.c, until call_done.
   -plugin cycles.so,dis=FILE[,of=NAME]: FILE is the disassembly by objdump -d. With NAME a line `function CYCLES OUTSIDE FUNCTION` for
   each function of the library in call_NAME: its own cycles, and those of what it calls outside the library (copying, division).
   Costs as the Cortex-M0+ manual (ARM DDI 0484) has them, no wait states, the single-cycle multiplier: load or store 2, several
   registers 1 + N, pop with pc 3 + N, branch 2 if taken, bl 3, bx and blx 2, all else 1. */
#include <stdint.h>
#include <stdio.h>
#include <stdlib.h>
#include <string.h>

/* what is used of qemu's plugin interface (version 1 up to qemu 8, 2 and more from 9) */
struct qemu_plugin_tb;
struct qemu_plugin_insn;
size_t qemu_plugin_tb_n_insns(const struct qemu_plugin_tb *);
struct qemu_plugin_insn *qemu_plugin_tb_get_insn(const struct qemu_plugin_tb *, size_t);
uint64_t qemu_plugin_insn_vaddr(const struct qemu_plugin_insn *);
void qemu_plugin_register_vcpu_tb_trans_cb(uint64_t, void (*)(uint64_t, struct qemu_plugin_tb *));
void qemu_plugin_register_vcpu_insn_exec_cb(struct qemu_plugin_insn *, void (*)(unsigned, void *), int, void *);
__attribute__((visibility("default"))) int qemu_plugin_version = PLUGIN_VERSION;

#define PLACES (1 << 17) /* halfwords of flash */
#define FUNCTIONS 2048
static struct place { uint8_t cost, size, branch, starts; uint16_t function; } places[PLACES];
static char *function[FUNCTIONS];
static unsigned long long own[FUNCTIONS], outside[FUNCTIONS], instructions, cycles;
static int functions, call, of, inside; /* call: the function call_NAME that runs, or 0; inside: the library's function that ran last */
static const char *wanted = "";
static uint64_t last;

static int registers(const char *list) { /* of {r4, r5-r7, lr} */
  int n = 0, from = -1;
  for (const char *p = strchr(list, '{') + 1; *p && *p != '}';) {
    int r = *p == 'r' ? atoi(p + 1) : 14;
    n += from >= 0 ? r - from : 1;
    p += strcspn(p, " ,-}");
    from = *p == '-' ? r : -1;
    p += strspn(p, " ,-");
  }
  return n;
}
static int is(const char *m, const char *name) { return !strncmp(m, name, strlen(name)); }
static void take(struct place *p, const char *m) {
  p->cost = 1;
  if (is(m, "pop")) p->cost = (strstr(m, "pc") ? 3 : 1) + registers(m);
  else if (is(m, "push") || is(m, "stm") || is(m, "ldm")) p->cost = 1 + registers(m);
  else if (is(m, "ldr") || is(m, "str")) p->cost = 2;
  else if (is(m, "bl\t")) p->cost = 3;
  else if (is(m, "bx") || is(m, "blx") || is(m, "mov\tpc") || is(m, "add\tpc")) p->cost = 2;
  else if (is(m, "mrs") || is(m, "msr") || is(m, "dsb") || is(m, "dmb") || is(m, "isb")) p->cost = 3;
  else if (*m == 'b' && !is(m, "bics") && !is(m, "bkpt")) p->branch = 1;
}
static void read_disassembly(const char *name) {
  char line[1024];
  FILE *f = fopen(name, "r");
  if (!f) exit(2);
  while (fgets(line, sizeof line, f)) {
    char *e, *bytes, *m;
    unsigned long a = strtoul(line, &e, 16);
    if (e == line || a / 2 >= PLACES) continue;
    struct place *p = &places[a / 2];
    if (is(e, " <") && functions + 1 < FUNCTIONS) {
      function[++functions] = strndup(e + 2, strlen(e) - 5);
      p->starts = is(e, " <call_");
      if (p->starts && !strcmp(function[functions] + 5, wanted)) of = functions;
    } else if (*e == ':' && (bytes = strchr(e, '\t')) && (m = strchr(bytes + 1, '\t'))) {
      p->size = m - bytes > 7 ? 4 : 2;
      p->function = functions;
      take(p, m + 1);
    }
  }
  fclose(f);
}

static void spend(struct place *p, int n) {
  cycles += n;
  if (call != of) return;
  const char *name = function[p->function];
  if (strstr(name, "::") || is(name, "margalhosa_")) own[inside = p->function] += n;
  else outside[inside] += n;
}
static void executed(unsigned cpu, void *at) {
  uint64_t a = (uintptr_t)at;
  struct place *p = &places[a / 2], *before = &places[last / 2];
  if (p->starts) {
    if (call) printf("cycles %s %llu %llu\n", function[call] + 5, instructions, cycles);
    call = is(function[p->function], "call_done") ? 0 : p->function;
    instructions = cycles = 0;
  } else if (call && before->branch && a != last + before->size) {
    spend(before, 1);
  }
  if (call) instructions++, spend(p, p->cost);
  last = a;
  (void)cpu;
}
static void translated(uint64_t id, struct qemu_plugin_tb *tb) {
  for (size_t i = 0; i < qemu_plugin_tb_n_insns(tb); i++) {
    struct qemu_plugin_insn *insn = qemu_plugin_tb_get_insn(tb, i);
    uint64_t a = qemu_plugin_insn_vaddr(insn);
    if (a / 2 < PLACES) qemu_plugin_register_vcpu_insn_exec_cb(insn, executed, 0, (void *)(uintptr_t)a);
  }
  (void)id;
}
__attribute__((visibility("default"))) int qemu_plugin_install(uint64_t id, const void *info, int argc, char **argv) {
  for (int i = 0; i < argc; i++) {
    if (is(argv[i], "of=")) wanted = strdup(argv[i] + 3);
  }
  for (int i = 0; i < argc; i++) {
    if (is(argv[i], "dis=")) read_disassembly(argv[i] + 4);
  }
  qemu_plugin_register_vcpu_tb_trans_cb(id, translated);
  (void)info;
  return 0;
}
__attribute__((destructor)) static void finish(void) {
  for (int i = 1; i <= functions; i++) if (own[i]) printf("function %llu %llu %s\n", own[i], outside[i], function[i]);
}
