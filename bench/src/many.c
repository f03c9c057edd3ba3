/* For bench/search: the charts of the file `charts` (each a length of four bytes and its bytes), laid out, written and put in signal order one after
   the other. A line `chart REFUSED BOXES STACK BYTES` (of the layout's stack and of path text) for each. */
#include "start.h"

static int get(int file, void *to, uint32_t bytes) {
  uint32_t words[3] = {(uint32_t)file, (uint32_t)to, bytes};
  return semihost(6, words) == 0;
}
int main(void) {
  uint32_t words[3] = {(uint32_t)"charts", 1, 6}, length;
  int file = semihost(1, words);
  if (file < 0) return 0;
  while (get(file, &length, 4)) {
    if (length > sizeof chart_buffer || !get(file, chart, length)) return 0;
    chart_length = length;
    uint32_t used = measured(call_sheet, stack_low);
    if (sheet.refused) written.count = 0;
    else call_text(), call_done();
    call_signal_order(), call_done();
    say("chart"), say_number(sheet.refused, 10), say_number(sheet.sheet.count, 10), say_number(used, 10), say_number((uint32_t)written.count, 10), say("\n");
  }
  return 1;
}
