/* The bench unit's firmware as far as the layout goes: chart -> sheet -> text, then a segment, a label and the signal order, in the
   memory of unit.ld. Runs on qemu's mps2-an385, which runs ARMv6-M code. A line `NAME STACK SUM` for each call, then `done`. */
#include "start.h"

/* Where the emulator puts the chart's length and bytes, as the unit would read them out of a board: neither its flash nor its RAM. */
#define BOARD 0x00300000

int main(void) {
  chart_length = *(volatile uint32_t *)BOARD;
  if (chart_length > sizeof chart_buffer) return 0;
  for (uint64_t i = 0; i < chart_length; i++) chart[i] = ((volatile uint8_t *)BOARD)[4 + i];
  for (int i = 0; i < CALLS; i++) {
    /* the text keeps its memory until it is plotted: text and segment are called beside it */
    uint32_t used = measured(calls[i], i == 1 || i == 2 ? text_end : stack_low);
    say(names[i]), say_number(used, 10), say_number(sums[i](), 16), say("\n");
  }
  say("done\n");
  return 1;
}
