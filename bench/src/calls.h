/* The calls that are measured, the same on x86-64 and on the bench unit. */
#include "margalhosa.h"

/* margalhosa_sheet with its hidden pointer to the result in the open. For `result = margalhosa_sheet(..)` a C compiler may take the
   2,400 bytes on the stack first and copy them. */
void *sheet_to(margalhosa_sheet_result *, const uint8_t *, uint64_t, uint32_t, uint32_t, uint32_t) __asm__("margalhosa_sheet");

static uint8_t *chart, *text;
static uint64_t chart_length, text_room;
static margalhosa_sheet_result *result;
static margalhosa_count_result written;
static margalhosa_segment_result segment;
static margalhosa_label_result label;
static margalhosa_order_result order;
static const uint8_t table[MARGALHOSA_TABLE_LENGTH] = MARGALHOSA_TABLE;

#define CALL __attribute__((noinline)) void
CALL call_nothing(void) { __asm__ volatile(""); }
CALL call_sheet(void) { sheet_to(result, chart, chart_length, 0, 0, MARGALHOSA_DEFAULT); __asm__ volatile(""); }
CALL call_text(void) { written = margalhosa_text(result->sheet, text, text_room); }
CALL call_segment(void) { segment = margalhosa_segment(result->sheet, 5 * result->sheet.count + 2 * result->sheet.drawn - 1); }
CALL call_label_place(void) { label = margalhosa_label_place(chart, chart_length, 0, 0, MARGALHOSA_DEFAULT, table, sizeof table, 0, 0); }
CALL call_signal_order(void) { order = margalhosa_signal_order(chart, chart_length); }
CALL call_done(void) { __asm__ volatile(""); }
#define CALLS 5
static void (*const calls[CALLS])(void) = {call_sheet, call_text, call_segment, call_label_place, call_signal_order};
static const char *const names[CALLS] = {"sheet", "text", "segment", "label_place", "signal_order"};

/* FNV-1a, of the fields (bytes between them are nobody's) */
static uint32_t sum_of(uint32_t h, uint64_t v, int bytes) {
  for (; bytes > 0; bytes--, v >>= 8) h = (h ^ (uint32_t)(v & 255)) * 16777619u;
  return h;
}
static uint32_t sum_sheet(void) {
  const margalhosa_sheet_record *s = &result->sheet;
  uint32_t h = sum_of(sum_of(2166136261u, result->refused, 4), result->second, 4);
  h = sum_of(sum_of(sum_of(sum_of(h, s->width, 4), s->height, 4), s->x, 4), s->y, 4);
  h = sum_of(sum_of(sum_of(sum_of(sum_of(h, s->columns, 1), s->rows, 1), s->cuts, 1), s->count, 1), s->drawn, 1);
  for (int i = 0; i < 48; i++) {
    const margalhosa_box_record *b = &s->boxes[i];
    h = sum_of(sum_of(sum_of(sum_of(h, b->x, 4), b->y, 4), b->width, 4), b->height, 4);
    h = sum_of(sum_of(sum_of(h, b->column, 1), b->row, 1), b->owner, 1);
  }
  for (int i = 0; i < 88; i++) {
    const margalhosa_curve *c = &s->curves[i];
    h = sum_of(sum_of(sum_of(sum_of(h, c->x0, 4), c->y0, 4), c->x1, 4), c->y1, 4);
  }
  return h;
}
static uint32_t sum_text(void) {
  uint32_t h = sum_of(sum_of(sum_of(2166136261u, written.refused, 4), written.second, 8), written.count, 8);
  for (uint64_t i = 0; i < written.count; i++) h = sum_of(h, text[i], 1);
  return h;
}
static uint32_t sum_pen(uint32_t h, margalhosa_pen p) {
  union { margalhosa_pen pen; uint32_t bits[2]; } u = {p};
  return sum_of(sum_of(h, u.bits[0], 4), u.bits[1], 4);
}
static uint32_t sum_segment(void) {
  uint32_t h = sum_of(sum_of(sum_of(2166136261u, segment.refused, 4), segment.kind, 4), segment.second, 8);
  return sum_pen(sum_pen(sum_pen(h, segment.control0), segment.control1), segment.to);
}
static uint32_t sum_label(void) {
  return sum_of(sum_of(sum_of(sum_of(sum_of(sum_of(2166136261u, label.refused, 4), label.second, 4), label.x, 4), label.y, 4), label.size, 4), label.width, 4);
}
static uint32_t sum_order(void) {
  uint32_t h = sum_of(sum_of(sum_of(2166136261u, order.refused, 4), order.second, 4), order.count, 1);
  for (int i = 0; i < 32; i++) h = sum_of(h, order.nodes[i], 1);
  return h;
}
static uint32_t (*const sums[CALLS])(void) = {sum_sheet, sum_text, sum_segment, sum_label, sum_order};
