/* Start of a program on the emulated unit, and what it says. */
#include "calls.h"

extern unsigned char stack_low[], text_low[], text_end[], stack_top[];
extern unsigned char data_start[], data_end[], data_load[], bss_start[], bss_end[];
static uint8_t chart_buffer[5026] __attribute__((section(".chart"), aligned(4)));
static margalhosa_sheet_result sheet __attribute__((section(".sheet")));

static int semihost(int op, const void *a) {
  register int r0 __asm__("r0") = op;
  register const void *r1 __asm__("r1") = a;
  __asm__ volatile("bkpt 0xAB" : "+r"(r0) : "r"(r1) : "memory");
  return r0;
}
static void say(const char *s) { semihost(4, s); }
static void say_number(uint32_t v, uint32_t base) {
  char b[12];
  int i = 11;
  b[i] = 0;
  do b[--i] = "0123456789abcdef"[v % base], v /= base; while (v || (base == 16 && i > 3));
  say(" "), say(b + i);
}
static void leave(int well) {
  semihost(0x18, (void *)(well ? 0x20026 : 0x20023));
  for (;;);
}

/* Bytes of stack that the call takes below its caller's frame: the free stack, down to `low`, is painted before it. It must not all be used. */
__attribute__((noinline)) static uint32_t measured(void (*call)(void), unsigned char *low) {
  register unsigned char *sp __asm__("sp");
  unsigned char *top = sp;
  for (unsigned char *p = low; p < top; p += 4) *(volatile uint32_t *)p = 0xA5A5A5A5u;
  call();
  call_done();
  if (*low != 0xA5) say("overrun\n"), leave(0);
  while (low < top && *low == 0xA5) low++;
  return (uint32_t)(top - low);
}

/* The board's emulator takes any address. With its protection unit on, all but the 4 MB from 0 and the 512 KB from the start of the RAM
   is a fault, as below the RAM of the unit. */
static void fence(void) {
  volatile uint32_t *control = (volatile uint32_t *)0xE000ED94, *base = control + 2, *size = control + 3;
  *base = 0x10, *size = 3 << 24 | 21 << 1 | 1;
  *base = 0x20000011, *size = 3 << 24 | 18 << 1 | 1;
  *control = 1;
}

int main(void);
static void fault(void) {
  say("fault\n");
  leave(0);
}
void reset(void) {
  const unsigned char *from = data_load;
  for (unsigned char *p = data_start; p < data_end;) *p++ = *from++;
  for (unsigned char *p = bss_start; p < bss_end;) *(volatile unsigned char *)p++ = 0;
  fence();
  chart = chart_buffer, result = &sheet;
  text = text_low, text_room = (uint64_t)(text_end - text_low);
  leave(main());
}
__attribute__((section(".vectors"), used)) static void *const vectors[16] = {stack_top, (void *)reset, (void *)fault, (void *)fault};
