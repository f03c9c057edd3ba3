/* x86-64: each call on a painted stack.
   paint CHART: a line `NAME STACK SUM` for each call, then `drawn BOXES CUTS BYTES` (of text) */
#include <stdio.h>
#include <string.h>
#include "calls.h"

#define STACK (1u << 17)
static unsigned char stack[STACK] __attribute__((aligned(4096)));
static uint8_t input[8192], output[16384];
static margalhosa_sheet_result sheet;

void on_stack(void *top, void (*f)(void));
__asm__(".globl on_stack\non_stack:\n\tpushq %rbx\n\tmovq %rsp, %rbx\n\tmovq %rdi, %rsp\n\tcall *%rsi\n\tmovq %rbx, %rsp\n\tpopq %rbx\n\tret\n");

static long depth(void (*f)(void)) {
  memset(stack, 0xA5, STACK);
  on_stack(stack + STACK, f);
  long i = 0;
  while (i < (long)STACK && stack[i] == 0xA5) i++;
  return (long)STACK - i;
}

int main(int argc, char **argv) {
  FILE *f = argc == 2 ? fopen(argv[1], "rb") : NULL;
  if (!f) return 2;
  chart = input, chart_length = fread(input, 1, sizeof input, f);
  text = output, text_room = sizeof output, result = &sheet;
  for (int i = 0; i < CALLS; i++) {
    long d = depth(calls[i]);
    printf("%s %ld %08x\n", names[i], d - depth(call_nothing), sums[i]());
  }
  printf("drawn %u %u %u\n", sheet.sheet.count, sheet.sheet.cuts, (unsigned)written.count);
  return 0;
}
