/* The copying that the library calls on ARMv6-M, four words at a time, as a small C library for the part has it. */
#include <stddef.h>
#include <stdint.h>

/* bytes: a multiple of 16, not 0 */
void copy16(void *to, const void *from, size_t bytes);
void set16(void *to, uint32_t word, size_t bytes);
__asm__(".syntax unified\n.text\n.thumb\n.balign 4\n"
        ".global copy16\n.thumb_func\ncopy16:\n"
        " push {r4-r6}\n1: ldmia r1!, {r3-r6}\n stmia r0!, {r3-r6}\n subs r2, #16\n bne 1b\n pop {r4-r6}\n bx lr\n"
        ".global set16\n.thumb_func\nset16:\n"
        " push {r4-r5}\n mov r3, r1\n mov r4, r1\n mov r5, r1\n2: stmia r0!, {r1,r3-r5}\n subs r2, #16\n bne 2b\n pop {r4-r5}\n bx lr\n");

void *memcpy(void *to, const void *from, size_t n) {
  uint8_t *d = to;
  const uint8_t *s = from;
  if (n >= 16 && (((uintptr_t)d ^ (uintptr_t)s) & 3) == 0) {
    for (; (uintptr_t)d & 3; n--) *d++ = *s++;
    size_t k = n & ~(size_t)15;
    if (k) copy16(d, s, k), d += k, s += k, n -= k;
  }
  if ((((uintptr_t)d | (uintptr_t)s) & 3) == 0)
    for (; n >= 4; n -= 4, d += 4, s += 4) *(uint32_t *)d = *(const uint32_t *)s;
  while (n--) *d++ = *s++;
  return to;
}
void *memmove(void *to, const void *from, size_t n) {
  uint8_t *d = to;
  const uint8_t *s = from;
  if (d <= s || d >= s + n) return memcpy(to, from, n);
  while (n--) d[n] = s[n];
  return to;
}
void *memset(void *to, int c, size_t n) {
  uint8_t *d = to;
  uint32_t word = (uint8_t)c * 0x01010101u;
  for (; n && ((uintptr_t)d & 3); n--) *d++ = (uint8_t)c;
  size_t k = n & ~(size_t)15;
  if (k) set16(d, word, k), d += k, n -= k;
  for (; n >= 4; n -= 4, d += 4) *(uint32_t *)d = word;
  while (n--) *d++ = (uint8_t)c;
  return to;
}
#define NAMES(k) \
  void __aeabi_memcpy##k(void *to, const void *from, size_t n) { memcpy(to, from, n); } \
  void __aeabi_memmove##k(void *to, const void *from, size_t n) { memmove(to, from, n); } \
  void __aeabi_memset##k(void *to, size_t n, int c) { memset(to, c, n); } \
  void __aeabi_memclr##k(void *to, size_t n) { memset(to, 0, n); }
NAMES() NAMES(4) NAMES(8)
