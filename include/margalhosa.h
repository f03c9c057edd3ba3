/* Margalhosa for firmware in C: a chart's wiring sheet, its boxes, segments, path text and labels; its signal order.

   Link crates/margalhosa/out/libmargalhosa.a (`rt lib` in that folder; it wants memcpy, memmove and memset).
   Each function is proved to meet its contract in crates/margalhosa/src/lib.rt, for every input; "1 to 14" below
   are the refusals of document 01, 20 is document 02's. In each result `refused` is the refusal's number, 0 if nothing
   is refused, and `second` its second number. The functions keep nothing between calls and write nothing but the lent
   buffer.

   A chart of length 0, as a board with nothing fitted sends it, is the empty sheet: every function answers for it as
   for the chart 01 00. So a board that could not be read must not be handed over as one that sent nothing.

   A text of a chart is bytes 32 to 126 and degree signs, the byte pair C2 B0 (UTF-8). Widths count characters, so a
   sign counts as one; a chart's length bytes and the lengths below count bytes.

   The caller owes: a pointer is not null, also where the length is 0, and its bytes are there; a buffer that is
   lent for writing overlaps no other argument. Everything else is judged, a sheet that the caller made too. */
#ifndef MARGALHOSA_H
#define MARGALHOSA_H

#include <stddef.h>
#include <stdint.h>

#ifdef __cplusplus
extern "C" {
#endif

/* The stand-in table, which the label functions are lent: the texts #0 to #31 and #1(invalid) to #255(invalid), end to
   end. It is only read: in firmware a constant in flash. */
#define MARGALHOSA_TABLE \
    "#0#1#2#3#4#5#6#7#8#9#10#11#12#13#14#15#16#17#18#19#20#21#22#23#24#25#26#27#28#29#30#31" \
    "#1(invalid)#2(invalid)#3(invalid)#4(invalid)#5(invalid)#6(invalid)#7(invalid)#8(invalid)" \
    "#9(invalid)#10(invalid)#11(invalid)#12(invalid)#13(invalid)#14(invalid)#15(invalid)#16(invalid)" \
    "#17(invalid)#18(invalid)#19(invalid)#20(invalid)#21(invalid)#22(invalid)#23(invalid)#24(invalid)" \
    "#25(invalid)#26(invalid)#27(invalid)#28(invalid)#29(invalid)#30(invalid)#31(invalid)#32(invalid)" \
    "#33(invalid)#34(invalid)#35(invalid)#36(invalid)#37(invalid)#38(invalid)#39(invalid)#40(invalid)" \
    "#41(invalid)#42(invalid)#43(invalid)#44(invalid)#45(invalid)#46(invalid)#47(invalid)#48(invalid)" \
    "#49(invalid)#50(invalid)#51(invalid)#52(invalid)#53(invalid)#54(invalid)#55(invalid)#56(invalid)" \
    "#57(invalid)#58(invalid)#59(invalid)#60(invalid)#61(invalid)#62(invalid)#63(invalid)#64(invalid)" \
    "#65(invalid)#66(invalid)#67(invalid)#68(invalid)#69(invalid)#70(invalid)#71(invalid)#72(invalid)" \
    "#73(invalid)#74(invalid)#75(invalid)#76(invalid)#77(invalid)#78(invalid)#79(invalid)#80(invalid)" \
    "#81(invalid)#82(invalid)#83(invalid)#84(invalid)#85(invalid)#86(invalid)#87(invalid)#88(invalid)" \
    "#89(invalid)#90(invalid)#91(invalid)#92(invalid)#93(invalid)#94(invalid)#95(invalid)#96(invalid)" \
    "#97(invalid)#98(invalid)#99(invalid)#100(invalid)#101(invalid)#102(invalid)#103(invalid)#104(invalid)" \
    "#105(invalid)#106(invalid)#107(invalid)#108(invalid)#109(invalid)#110(invalid)#111(invalid)#112(invalid)" \
    "#113(invalid)#114(invalid)#115(invalid)#116(invalid)#117(invalid)#118(invalid)#119(invalid)#120(invalid)" \
    "#121(invalid)#122(invalid)#123(invalid)#124(invalid)#125(invalid)#126(invalid)#127(invalid)#128(invalid)" \
    "#129(invalid)#130(invalid)#131(invalid)#132(invalid)#133(invalid)#134(invalid)#135(invalid)#136(invalid)" \
    "#137(invalid)#138(invalid)#139(invalid)#140(invalid)#141(invalid)#142(invalid)#143(invalid)#144(invalid)" \
    "#145(invalid)#146(invalid)#147(invalid)#148(invalid)#149(invalid)#150(invalid)#151(invalid)#152(invalid)" \
    "#153(invalid)#154(invalid)#155(invalid)#156(invalid)#157(invalid)#158(invalid)#159(invalid)#160(invalid)" \
    "#161(invalid)#162(invalid)#163(invalid)#164(invalid)#165(invalid)#166(invalid)#167(invalid)#168(invalid)" \
    "#169(invalid)#170(invalid)#171(invalid)#172(invalid)#173(invalid)#174(invalid)#175(invalid)#176(invalid)" \
    "#177(invalid)#178(invalid)#179(invalid)#180(invalid)#181(invalid)#182(invalid)#183(invalid)#184(invalid)" \
    "#185(invalid)#186(invalid)#187(invalid)#188(invalid)#189(invalid)#190(invalid)#191(invalid)#192(invalid)" \
    "#193(invalid)#194(invalid)#195(invalid)#196(invalid)#197(invalid)#198(invalid)#199(invalid)#200(invalid)" \
    "#201(invalid)#202(invalid)#203(invalid)#204(invalid)#205(invalid)#206(invalid)#207(invalid)#208(invalid)" \
    "#209(invalid)#210(invalid)#211(invalid)#212(invalid)#213(invalid)#214(invalid)#215(invalid)#216(invalid)" \
    "#217(invalid)#218(invalid)#219(invalid)#220(invalid)#221(invalid)#222(invalid)#223(invalid)#224(invalid)" \
    "#225(invalid)#226(invalid)#227(invalid)#228(invalid)#229(invalid)#230(invalid)#231(invalid)#232(invalid)" \
    "#233(invalid)#234(invalid)#235(invalid)#236(invalid)#237(invalid)#238(invalid)#239(invalid)#240(invalid)" \
    "#241(invalid)#242(invalid)#243(invalid)#244(invalid)#245(invalid)#246(invalid)#247(invalid)#248(invalid)" \
    "#249(invalid)#250(invalid)#251(invalid)#252(invalid)#253(invalid)#254(invalid)#255(invalid)"
#define MARGALHOSA_TABLE_LENGTH (sizeof MARGALHOSA_TABLE - 1)

/* The longest path text of a sheet that margalhosa_sheet has drawn: a buffer of so many bytes is never refused by 16. (Proved; a sheet of the
   caller's own making may need up to 9,887.) */
#define MARGALHOSA_TEXT_MOST 9467

/* The settings. By default a lead to a node that the chart doesn't have, of a part taken out, is drawn, with a box of
   its own that shows `#200(invalid)` for the target 200; strict refuses it by 12. Any other number is strict. */
enum { MARGALHOSA_DEFAULT = 0, MARGALHOSA_STRICT = 1 };

/* The kinds of segment. */
enum { MARGALHOSA_MOVE = 0, MARGALHOSA_LINE = 1, MARGALHOSA_CUBIC = 2, MARGALHOSA_CLOSE = 3 };

/* The owner of the box of a lead to nothing. */
#define MARGALHOSA_NO_OWNER 255

/* A box: its top left corner, its width and its height, the column and row of its cell, and its owner: the node itself,
   for both boxes of a cut the node whose number they show, or MARGALHOSA_NO_OWNER. On a sheet that margalhosa_sheet has
   drawn, every other owner is a given node; of a sheet of the caller's own making it is what the caller put there. */
typedef struct {
    uint32_t x, y, width, height;
    uint8_t column, row, owner;
} margalhosa_box_record;

/* A curve: the output point x0 y0 where it begins, and the input point x1 y1 where it ends. */
typedef struct {
    uint32_t x0, y0, x1, y1;
} margalhosa_curve;

/* A sheet: its size, its origin, how many columns, rows and cuts it has; the first `count` boxes, and the first
   `drawn` curves. The origin is not added in boxes and curves. */
typedef struct {
    uint32_t width, height, x, y;
    uint8_t columns, rows, cuts, count, drawn;
    margalhosa_box_record boxes[48];
    margalhosa_curve curves[88];
} margalhosa_sheet_record;

/* A pen position, whole or a half, never rounded. */
typedef struct {
    float x, y;
} margalhosa_pen;

/* Refused, every field of the sheet is 0. */
typedef struct {
    uint32_t refused, second;
    margalhosa_sheet_record sheet;
} margalhosa_sheet_result;

/* Refused, every field of the box is 0. */
typedef struct {
    uint32_t refused, second;
    margalhosa_box_record place;
} margalhosa_box_result;

/* A move or a line goes to `to`, a cubic goes there by its two controls; the other positions are 0, and refused all. */
typedef struct {
    uint32_t refused, kind;
    uint64_t second;
    margalhosa_pen control0, control1, to;
} margalhosa_segment_result;

/* How many bytes were written, or how many segments a text has; refused, 0. */
typedef struct {
    uint32_t refused;
    uint64_t second, count;
} margalhosa_count_result;

/* A label's place (the origin is not added), its size and its width; refused, all 0. */
typedef struct {
    uint32_t refused, second;
    uint32_t x, y, size, width;
} margalhosa_label_result;

/* A label's text: the `len` bytes from `at` on, of the table if `fixed` is 1, of the chart if it is 0; they lie within
   it. Refused, all 0. */
typedef struct {
    uint32_t refused, second;
    uint32_t fixed, at, len;
} margalhosa_part_result;

/* The first `count` nodes, 32 at most: all of the chart, in order; refused by 20, those of a cycle; refused by 1 to 12,
   none. The entries past them are 0. */
typedef struct {
    uint32_t refused, second;
    uint8_t count;
    uint8_t nodes[32];
} margalhosa_order_result;

/* The sheet of a chart at the origin x y, in a setting: 1 to 14, of which 12 in the strict setting alone. */
margalhosa_sheet_result margalhosa_sheet(const uint8_t *chart, uint64_t chart_length, uint32_t x, uint32_t y, uint32_t setting);

/* Box k of a sheet: 14, 15. */
margalhosa_box_result margalhosa_box(margalhosa_sheet_record sheet, uint32_t k);

/* Segment k of a sheet, the origin added: 14, 15. */
margalhosa_segment_result margalhosa_segment(margalhosa_sheet_record sheet, uint32_t k);

/* The whole path text of a sheet, written at the buffer's start: 14, 16 (second: the length needed). The other bytes
   of the buffer keep their content, and refused all do. No byte 0 is added. */
margalhosa_count_result margalhosa_text(margalhosa_sheet_record sheet, uint8_t *buffer, uint64_t buffer_length);

/* Where label i of box k of the chart's sheet, in a setting, stands, its size and its width: the sheet's refusals, then 15. */
margalhosa_label_result margalhosa_label_place(const uint8_t *chart, uint64_t chart_length, uint32_t x, uint32_t y, uint32_t setting,
                                               const uint8_t *table, uint64_t table_length, uint32_t k, uint32_t i);

/* The text of that label, with the same refusals. */
margalhosa_part_result margalhosa_label_part(const uint8_t *chart, uint64_t chart_length, uint32_t x, uint32_t y, uint32_t setting,
                                             const uint8_t *table, uint64_t table_length, uint32_t k, uint32_t i);

/* The given nodes so that each sink of the completed, uncut graph comes after its source, the lowest free number next
   (free: its sources are all listed); or, refused by 20, a cycle: distinct nodes, each with a sink to the next and the
   last to the first: 1 to 12, then 20. The chart is read as in the strict setting. */
margalhosa_order_result margalhosa_signal_order(const uint8_t *chart, uint64_t chart_length);

/* How many segments a path text has: 17 to 19. */
margalhosa_count_result margalhosa_text_count(const uint8_t *text, uint64_t text_length);

/* Segment k of a path text: 17 to 19, then 15. */
margalhosa_segment_result margalhosa_text_segment(const uint8_t *text, uint64_t text_length, uint32_t k);

/* A path text read and written again, at the buffer's start: 17 to 19, then 16, as margalhosa_text. */
margalhosa_count_result margalhosa_rewrite(const uint8_t *text, uint64_t text_length, uint8_t *buffer, uint64_t buffer_length);

#ifdef __cplusplus
}
#elif defined(__STDC_VERSION__) && __STDC_VERSION__ >= 201112L
_Static_assert(MARGALHOSA_TABLE_LENGTH == 3293, "the stand-in table");
_Static_assert(sizeof(margalhosa_box_record) == 20, "a box");
_Static_assert(offsetof(margalhosa_box_record, owner) == 18, "a box's owner");
_Static_assert(sizeof(margalhosa_curve) == 16, "a curve");
_Static_assert(sizeof(margalhosa_sheet_record) == 2392, "a sheet");
_Static_assert(offsetof(margalhosa_sheet_record, boxes) == 24, "a sheet's boxes");
_Static_assert(offsetof(margalhosa_sheet_record, curves) == 984, "a sheet's curves");
_Static_assert(sizeof(margalhosa_pen) == 8, "a pen position");
_Static_assert(sizeof(margalhosa_sheet_result) == 2400, "a sheet's result");
_Static_assert(sizeof(margalhosa_box_result) == 28, "a box's result");
_Static_assert(sizeof(margalhosa_segment_result) == 40, "a segment's result");
_Static_assert(sizeof(margalhosa_count_result) == 24, "a count's result");
_Static_assert(sizeof(margalhosa_label_result) == 24, "a label's result");
_Static_assert(sizeof(margalhosa_part_result) == 20, "a part's result");
_Static_assert(sizeof(margalhosa_order_result) == 44, "an order's result");
_Static_assert(offsetof(margalhosa_order_result, nodes) == 9, "an order's nodes");
#endif

#endif
