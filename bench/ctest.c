/* The functions for C, each called on every chart of a list; compiled as C and as C++. Standard input: charts, one hexadecimal
   line each, in the strict setting or, where the line begins with `D`, in the default one. Standard output: the listing of each
   with its owners, labels and curves and an empty line, as the program `full` prints it. A check that fails is said on standard error,
   with exit status 1; else that has one line, how many charts there were. */
#include <stdio.h>
#include <stdlib.h>
#include <string.h>

#include "margalhosa.h"

enum { CHART = 8192, TEXT = 65536, LIMIT = 8388608, MARK = 0xa5 };

static const uint8_t *const table = (const uint8_t *)MARGALHOSA_TABLE;
static unsigned long charts;
static uint32_t setting; /* of the chart's calls */

static void need(int ok, const char *what) {
    if (ok) return;
    fflush(stdout);
    fprintf(stderr, "ctest: chart %lu (from 0): %s\n", charts, what);
    exit(1);
}

/* ---- buffers whose bytes past a text must keep their content */
static void mark(uint8_t *buffer, size_t n) { memset(buffer, MARK, n); }

static int marked(const uint8_t *buffer, size_t n) {
    for (size_t i = 0; i < n; i++)
        if (buffer[i] != MARK) return 0;
    return 1;
}

/* ---- results */
static int no_box(margalhosa_box_record b) { return !(b.x | b.y | b.width | b.height | b.column | b.row | b.owner); }

static int same_box(margalhosa_box_record a, margalhosa_box_record b) {
    return a.x == b.x && a.y == b.y && a.width == b.width && a.height == b.height && a.column == b.column && a.row == b.row && a.owner == b.owner;
}

static int same_sheet(const margalhosa_sheet_result *a, const margalhosa_sheet_result *b) {
    const margalhosa_sheet_record *s = &a->sheet, *t = &b->sheet;
    int same = a->refused == b->refused && a->second == b->second && s->width == t->width && s->height == t->height && s->x == t->x &&
               s->y == t->y && s->columns == t->columns && s->rows == t->rows && s->cuts == t->cuts && s->count == t->count && s->drawn == t->drawn;
    for (int i = 0; i < 48; i++) same &= same_box(s->boxes[i], t->boxes[i]);
    for (int i = 0; i < 88; i++)
        same &= s->curves[i].x0 == t->curves[i].x0 && s->curves[i].y0 == t->curves[i].y0 && s->curves[i].x1 == t->curves[i].x1 &&
                s->curves[i].y1 == t->curves[i].y1;
    return same;
}

static int no_sheet(const margalhosa_sheet_record *s) {
    uint32_t any = s->width | s->height | s->x | s->y | s->columns | s->rows | s->cuts | s->count | s->drawn;
    for (int i = 0; i < 48; i++) any |= !no_box(s->boxes[i]);
    for (int i = 0; i < 88; i++) any |= s->curves[i].x0 | s->curves[i].y0 | s->curves[i].x1 | s->curves[i].y1;
    return !any;
}

static int at(margalhosa_pen p, float x, float y) { return p.x == x && p.y == y; }

static int same_segment(margalhosa_segment_result a, margalhosa_segment_result b) {
    return a.refused == b.refused && a.kind == b.kind && a.second == b.second && at(a.control0, b.control0.x, b.control0.y) &&
           at(a.control1, b.control1.x, b.control1.y) && at(a.to, b.to.x, b.to.y);
}

static int refused_segment(margalhosa_segment_result g, uint32_t number, uint64_t second) {
    return g.refused == number && g.second == second && g.kind == 0 && at(g.control0, 0, 0) && at(g.control1, 0, 0) && at(g.to, 0, 0);
}

static int refused_box(margalhosa_box_result b, uint32_t number) { return b.refused == number && b.second == 0 && no_box(b.place); }

static int counted(margalhosa_count_result c, uint32_t refused, uint64_t second, uint64_t count) {
    return c.refused == refused && c.second == second && c.count == count;
}

static int refused_label(margalhosa_label_result l, uint32_t number, uint32_t second) {
    return l.refused == number && l.second == second && !(l.x | l.y | l.size | l.width);
}

static int refused_part(margalhosa_part_result p, uint32_t number, uint32_t second) {
    return p.refused == number && p.second == second && !(p.fixed | p.at | p.len);
}

static int same_label(margalhosa_label_result a, margalhosa_label_result b) {
    return a.refused == b.refused && a.second == b.second && a.x == b.x && a.y == b.y && a.size == b.size && a.width == b.width;
}

static int same_part(margalhosa_part_result a, margalhosa_part_result b) {
    return a.refused == b.refused && a.second == b.second && a.fixed == b.fixed && a.at == b.at && a.len == b.len;
}

/* Neither call finds the label: the refusal's two numbers. */
static int no_label(const uint8_t *chart, size_t n, uint32_t x, const uint8_t *t, size_t m, uint32_t k, uint32_t i, uint32_t number,
                    uint32_t second) {
    return refused_label(margalhosa_label_place(chart, n, x, 0, setting, t, m, k, i), number, second) &&
           refused_part(margalhosa_label_part(chart, n, x, 0, setting, t, m, k, i), number, second);
}

/* ---- the text of a segment, written here from its pen positions: an independent hand */
static char *number_text(char *out, float v) {
    unsigned long whole = (unsigned long)v;
    need(v == (float)whole || v == (float)whole + 0.5f, "a position is neither whole nor a half");
    return out + sprintf(out, v == (float)whole ? " %lu" : " %lu.5", whole);
}

static char *segment_text(char *out, margalhosa_segment_result g) {
    need(g.refused == 0 && g.second == 0 && g.kind <= MARGALHOSA_CLOSE, "a segment's kind");
    need(g.kind == MARGALHOSA_CUBIC || (at(g.control0, 0, 0) && at(g.control1, 0, 0)), "a control of a segment that has none");
    need(g.kind != MARGALHOSA_CLOSE || at(g.to, 0, 0), "a position of a close");
    *out++ = "MLCZ"[g.kind];
    if (g.kind == MARGALHOSA_CUBIC) {
        out = number_text(number_text(out, g.control0.x), g.control0.y);
        out = number_text(number_text(out, g.control1.x), g.control1.y);
    }
    if (g.kind != MARGALHOSA_CLOSE) out = number_text(number_text(out, g.to.x), g.to.y);
    *out = 0;
    return out;
}

/* ---- the checks of a sheet; `text` gets its path text, and the length is handed back */
static size_t check_text(margalhosa_sheet_record s, uint8_t *text) {
    mark(text, TEXT);
    margalhosa_count_result c = margalhosa_text(s, text, TEXT);
    need(c.refused == 0 && c.second == 0 && c.count <= TEXT, "the text of a sheet");
    size_t n = c.count;
    need(marked(text + n, TEXT - n), "bytes past the text");
    if (n > 0) {
        static uint8_t shorter[TEXT];
        mark(shorter, TEXT);
        need(counted(margalhosa_text(s, shorter, n - 1), 16, n, 0), "a buffer one byte short: 16 and the length needed");
        need(counted(margalhosa_rewrite(text, n, shorter, n - 1), 16, n, 0), "read and written again, one byte short: 16");
        need(marked(shorter, TEXT), "a refused text writes nothing");
    }
    static uint8_t again[TEXT];
    mark(again, TEXT);
    need(counted(margalhosa_rewrite(text, n, again, TEXT), 0, 0, n), "the text read and written again");
    need(memcmp(again, text, n) == 0 && marked(again + n, TEXT - n), "the text comes back byte for byte");
    return n;
}

static void check_segments(margalhosa_sheet_record s, const uint8_t *text, size_t n) {
    static char made[TEXT + 256];
    char *out = made;
    uint32_t k = 0;
    for (;; k++) {
        margalhosa_segment_result g = margalhosa_segment(s, k), h = margalhosa_text_segment(text, n, k);
        need(same_segment(g, h), "a segment of the sheet is that of its text");
        if (g.refused != 0) {
            need(refused_segment(g, 15, 0), "past the last segment: 15");
            break;
        }
        if (k > 0) *out++ = ' ';
        out = segment_text(out, g);
        need(out < made + TEXT, "too long a text");
    }
    need(k == 5u * s.count + 2u * s.drawn, "five segments a box, two a curve");
    need(counted(margalhosa_text_count(text, n), 0, 0, k), "the text's count of segments");
    need((size_t)(out - made) == n && memcmp(made, text, n) == 0, "the text is that of the segments");
    need(refused_segment(margalhosa_segment(s, UINT32_MAX), 15, 0), "the largest segment number: 15");
}

/* The texts of given node k, in order: those of its sources, its lines and its sinks, an empty one only if it is a line. */
static uint32_t given_texts(const uint8_t *chart, uint32_t k, size_t begin[], uint32_t length[]) {
    size_t at = chart[2 + 2 * k] + 256u * chart[3 + 2 * k];
    const uint8_t *counts = chart + at;
    uint32_t many = 0;
    at += 3;
    for (int list = 0; list < 3; list++)
        for (uint32_t i = 0; i < counts[list]; i++) {
            if (list != 1) at++;
            uint32_t len = chart[at++];
            if (list == 1 || len > 0) {
                begin[many] = at;
                length[many++] = len;
            }
            at += len;
        }
    return many;
}

/* The table with one wrong byte, each time another. */
static const uint8_t *wrong_table(void) {
    static uint8_t wrong[MARGALHOSA_TABLE_LENGTH];
    static size_t place;
    memcpy(wrong, table, sizeof wrong);
    wrong[place++ % sizeof wrong] ^= 1;
    return wrong;
}

/* Label i of box k: its line; its text as a part. At the sheet's last origin it is the same. */
static margalhosa_part_result label(const uint8_t *chart, size_t n, margalhosa_sheet_record s, uint32_t k, uint32_t i) {
    const size_t size = MARGALHOSA_TABLE_LENGTH;
    uint32_t x = LIMIT - s.width, y = LIMIT - s.height;
    margalhosa_label_result l = margalhosa_label_place(chart, n, 0, 0, setting, table, size, k, i);
    margalhosa_part_result p = margalhosa_label_part(chart, n, 0, 0, setting, table, size, k, i);
    need(l.refused == 0 && l.second == 0 && p.refused == 0 && p.second == 0, "a label is there");
    need((uint64_t)p.at + p.len <= (p.fixed ? size : n), "a label's text is a part");
    const uint8_t *part = (p.fixed ? table : chart) + p.at;
    printf("text %u %u %u %u %u %u %.*s\n", k, i, l.x, l.y, l.size, l.width, (int)p.len, (const char *)part);
    need(same_label(margalhosa_label_place(chart, n, x, y, setting, table, size, k, i), l), "the origin is not added to a label");
    need(same_part(margalhosa_label_part(chart, n, x, y, setting, table, size, k, i), p), "a label's text at another origin");
    need(no_label(chart, n, 0, table, size - 1, k, i, 15, 0), "a table that isn't the fixed texts: 15");
    need(no_label(chart, n, 0, wrong_table(), size, k, i, 15, 0), "a table with one wrong byte: 15");
    return p;
}

/* The labels of given node k are its texts in the chart; how many. */
static uint32_t given_labels(const uint8_t *chart, size_t n, margalhosa_sheet_record s, uint32_t k) {
    size_t begin[68];
    uint32_t length[68], many = given_texts(chart, k, begin, length);
    for (uint32_t i = 0; i < many; i++) {
        margalhosa_part_result p = label(chart, n, s, k, i);
        need(p.fixed == 0 && p.at == begin[i] && p.len == length[i], "a given node's label is its text in the chart");
    }
    return many;
}

/* An inserted node has one label, a fixed text. */
static uint32_t inserted_label(const uint8_t *chart, size_t n, margalhosa_sheet_record s, uint32_t k) {
    need(label(chart, n, s, k, 0).fixed == 1, "an inserted node's label is a fixed text");
    return 1;
}

static void check_labels(const uint8_t *chart, size_t n, margalhosa_sheet_record s) {
    const size_t size = MARGALHOSA_TABLE_LENGTH;
    for (uint32_t k = 0; k < s.count; k++) {
        uint32_t many = k < chart[1] ? given_labels(chart, n, s, k) : inserted_label(chart, n, s, k);
        need(no_label(chart, n, 0, table, size, k, many, 15, 0), "a label that isn't there: 15");
    }
    need(no_label(chart, n, 0, table, size, s.count, 0, 15, 0), "a label of a box that isn't there: 15");
    need(no_label(chart, n, 0, table, size, UINT32_MAX, UINT32_MAX, 15, 0), "the largest label number: 15");
}

/* A sheet built by a caller that is refused. */
static void check_built(margalhosa_sheet_record s) {
    static uint8_t buffer[TEXT];
    mark(buffer, TEXT);
    need(refused_box(margalhosa_box(s, 0), 14), "a built sheet's box: 14");
    need(refused_segment(margalhosa_segment(s, 0), 14, 0), "a built sheet's segment: 14");
    need(counted(margalhosa_text(s, buffer, TEXT), 14, 0, 0) && marked(buffer, TEXT), "a built sheet's text: 14");
}

/* Box 0 of a built sheet comes back as it is, with whatever owner it has. */
static void check_owner(margalhosa_sheet_record s) {
    for (int owner = 0; owner < 256; owner++) {
        s.boxes[0].owner = (uint8_t)owner;
        margalhosa_box_result b = margalhosa_box(s, 0);
        need(b.refused == 0 && b.second == 0 && same_box(b.place, s.boxes[0]), "a built sheet's box, with any owner");
    }
}

/* A sheet built by a caller that is accepted: one box, and two curves whose halfway heights have `.5`, down to the last position.
   Its size, columns, rows and cuts are not looked at. */
static void check_accepted(void) {
    static const char expected[] = "M 101 8388602 L 104 8388602 L 104 8388606 L 101 8388606 Z"
                                   " M 102 8388603 C 102 8388605.5 8388608 8388605.5 8388608 8388608"
                                   " M 100 8388607 C 100 8388607.5 105 8388607.5 105 8388608";
    static const margalhosa_box_record box = {1, 2, 3, 4, 255, 255, 200};
    static const margalhosa_curve long_one = {2, 3, LIMIT - 100, 8}, short_one = {0, 7, 5, 8};
    static uint8_t text[TEXT];
    margalhosa_sheet_record s;
    memset(&s, MARK, sizeof s);
    s.x = 100;
    s.y = LIMIT - 8;
    s.count = 1;
    s.drawn = 2;
    s.boxes[0] = box;
    s.curves[0] = long_one;
    s.curves[1] = short_one;
    margalhosa_box_result b = margalhosa_box(s, 0);
    need(b.refused == 0 && b.second == 0 && same_box(b.place, box), "a built sheet's box");
    check_owner(s);
    need(refused_box(margalhosa_box(s, 1), 15), "a box that a built sheet doesn't have: 15");
    size_t n = check_text(s, text);
    need(n == strlen(expected) && memcmp(text, expected, n) == 0, "a built sheet's text");
    check_segments(s, text, n);
    margalhosa_segment_result g = margalhosa_segment(s, 6);
    need(at(g.control0, 102, 8388605.5f) && at(g.control1, 8388608, 8388605.5f) && at(g.to, 8388608, 8388608), "a height of a half");
    s.y++;
    check_built(s);
}

/* The segments of a sheet at another origin are those at 0 0, moved. */
static void check_moved(margalhosa_sheet_record s, margalhosa_sheet_record there) {
    float x = (float)there.x, y = (float)there.y;
    for (uint32_t k = 0; k < 5u * s.count + 2u * s.drawn; k++) {
        margalhosa_segment_result g = margalhosa_segment(s, k), h = margalhosa_segment(there, k);
        need(h.kind == g.kind, "a moved segment's kind");
        need(g.kind == MARGALHOSA_CLOSE || at(h.to, g.to.x + x, g.to.y + y), "a moved segment's end");
        need(g.kind != MARGALHOSA_CUBIC || (at(h.control0, g.control0.x + x, g.control0.y + y) && at(h.control1, g.control1.x + x, g.control1.y + y)),
             "a moved segment's controls");
    }
}

static void check_origin(const uint8_t *chart, size_t n, margalhosa_sheet_record s) {
    static uint8_t text[TEXT];
    uint32_t x = LIMIT - s.width, y = LIMIT - s.height;
    margalhosa_sheet_result r = margalhosa_sheet(chart, n, x, y, setting);
    need(r.refused == 0 && r.sheet.x == x && r.sheet.y == y && r.sheet.count == s.count && r.sheet.drawn == s.drawn, "a sheet at the last origin");
    for (uint32_t k = 0; k < s.count; k++) need(same_box(r.sheet.boxes[k], s.boxes[k]), "the origin is not added to a box");
    size_t size = check_text(r.sheet, text);
    need(size <= MARGALHOSA_TEXT_MOST, "the longest text");
    check_segments(r.sheet, text, size);
    check_moved(s, r.sheet);
    r = margalhosa_sheet(chart, n, x + 1, y, setting);
    need(r.refused == 14 && r.second == 0 && no_sheet(&r.sheet), "an origin too far across: 14");
    r = margalhosa_sheet(chart, n, x, UINT32_MAX, setting);
    need(r.refused == 14 && r.second == 0 && no_sheet(&r.sheet), "an origin too far down: 14");
    need(no_label(chart, n, x + 1, table, 0, 0, 0, 14, 0), "a label at an origin too far: 14 before 15");
}

/* ---- a chart's listing */
static void print_owners(margalhosa_sheet_record s) {
    printf("owners");
    for (uint32_t k = 0; k < s.count; k++) printf(" %u", margalhosa_box(s, k).place.owner);
    printf("\n");
}

static void print_curves(margalhosa_sheet_record s) {
    for (uint32_t k = 0; k < s.drawn; k++) {
        margalhosa_curve c = s.curves[k];
        printf("curve %u %u %u %u %u\n", k, c.x0, c.y0, c.x1, c.y1);
    }
}

static void drawn(const uint8_t *chart, size_t n, margalhosa_sheet_record s) {
    static uint8_t text[TEXT];
    printf("sheet %u %u %u %u %u %u\n", s.columns, s.rows, s.width, s.height, s.count, s.cuts);
    for (uint32_t k = 0; k < s.count; k++) {
        margalhosa_box_result b = margalhosa_box(s, k);
        need(b.refused == 0 && b.second == 0 && same_box(b.place, s.boxes[k]), "a box of a sheet");
        printf("box %u %u %u %u %u %u %u\n", k, b.place.column, b.place.row, b.place.x, b.place.y, b.place.width, b.place.height);
    }
    need(refused_box(margalhosa_box(s, s.count), 15) && refused_box(margalhosa_box(s, UINT32_MAX), 15), "a box that isn't there: 15");
    size_t size = check_text(s, text);
    printf("path%s%.*s\n", size > 0 ? " " : "", (int)size, (const char *)text);
    print_owners(s);
    check_segments(s, text, size);
    check_labels(chart, n, s);
    print_curves(s);
    check_origin(chart, n, s);
    margalhosa_sheet_record wrong = s;
    wrong.count = 49;
    check_built(wrong);
    wrong = s;
    wrong.drawn = 89;
    check_built(wrong);
    wrong = s;
    wrong.count = 1;
    wrong.boxes[0].width = UINT32_MAX;
    check_built(wrong);
}

/* A refused chart's sheet is empty, and the functions of a sheet take it as one. */
static void refused(const uint8_t *chart, size_t n, margalhosa_sheet_result r) {
    static uint8_t text[TEXT];
    printf("refused %u %u\n", r.refused, r.second);
    need(r.refused <= 14 && no_sheet(&r.sheet), "a refused sheet's fields are 0");
    need(refused_box(margalhosa_box(r.sheet, 0), 15), "a box of a refused sheet: 15");
    size_t size = check_text(r.sheet, text);
    need(size == 0, "the text of a refused sheet is empty");
    check_segments(r.sheet, text, size);
    need(no_label(chart, n, 0, table, MARGALHOSA_TABLE_LENGTH, 0, 0, r.refused, r.second), "a label of a refused chart: its refusal");
    need(no_label(chart, n, 0, table, 0, 0, 0, r.refused, r.second), "a label of a refused chart, no table: its refusal");
}

/* ---- the settings */
static const uint32_t others[] = {2, 3, 256, UINT32_MAX};

/* Strict is the default but for 12, and any other number is strict; the strict answer is handed back. */
static margalhosa_sheet_result check_settings(const uint8_t *chart, size_t n) {
    margalhosa_sheet_result strict = margalhosa_sheet(chart, n, 0, 0, MARGALHOSA_STRICT);
    margalhosa_sheet_result usual = margalhosa_sheet(chart, n, 0, 0, MARGALHOSA_DEFAULT);
    need(usual.refused != 12, "the default setting never refuses by 12");
    if (strict.refused == 12)
        need(usual.refused == 0 || usual.refused == 13, "a lead to nothing: drawn by default, or 13");
    else
        need(same_sheet(&strict, &usual), "a chart without such a lead: the same in both settings");
    for (size_t i = 0; i < sizeof others / sizeof others[0]; i++) {
        margalhosa_sheet_result r = margalhosa_sheet(chart, n, 0, 0, others[i]);
        need(same_sheet(&strict, &r), "any other setting is strict: the sheet");
    }
    return strict;
}

/* A lead to 200, a part taken out: drawn by default, with a box of its own; refused in the strict setting and in any other. */
static void check_lead(void) {
    static const uint8_t chart[] = {1, 1, 4, 0, 0, 0, 1, 200, 0};
    const size_t n = sizeof chart, size = MARGALHOSA_TABLE_LENGTH;
    margalhosa_sheet_result r = margalhosa_sheet(chart, n, 0, 0, MARGALHOSA_DEFAULT);
    need(r.refused == 0 && r.sheet.count == 2 && r.sheet.cuts == 0 && r.sheet.width == 3968 && r.sheet.height == 3328, "a lead to nothing: its sheet");
    need(r.sheet.boxes[0].owner == 0 && r.sheet.boxes[1].owner == 255, "a lead to nothing: no node owns its box");
    margalhosa_label_result l = margalhosa_label_place(chart, n, 0, 0, MARGALHOSA_DEFAULT, table, size, 1, 0);
    need(l.refused == 0 && l.x == 320 && l.y == 3008 && l.size == 464 && l.width == 3328, "a lead to nothing: its label's place");
    margalhosa_part_result p = margalhosa_label_part(chart, n, 0, 0, MARGALHOSA_DEFAULT, table, size, 1, 0);
    need(p.refused == 0 && p.fixed == 1 && p.len == 13 && p.at + p.len <= size && memcmp(table + p.at, "#200(invalid)", 13) == 0,
         "a lead to nothing: its label's text");
    setting = MARGALHOSA_DEFAULT;
    need(no_label(chart, n, 0, table, 86, 1, 0, 15, 0), "the table of #0 to #31 alone: 15");
    need(no_label(chart, n, 0, table, size, 1, 1, 15, 0), "a lead to nothing: one label");
    setting = MARGALHOSA_STRICT;
    need(no_label(chart, n, 0, table, size, 1, 0, 12, 200), "a lead to nothing, strict: 12 and the target");
    for (size_t i = 0; i < sizeof others / sizeof others[0]; i++) {
        setting = others[i];
        need(no_label(chart, n, 0, table, size, 1, 0, 12, 200), "any other setting is strict: the labels");
    }
    r = check_settings(chart, n);
    need(r.refused == 12 && r.second == 200 && no_sheet(&r.sheet), "a lead to nothing, strict: its sheet is refused");
}

/* ---- the signal order */
/* The nodes that lead to each, as bits: p leads to q if p has a sink to q or q a source from p. */
static void leading(const uint8_t *chart, uint32_t n, uint32_t to[32]) {
    size_t at = 2 + 2 * n;
    memset(to, 0, 32 * sizeof to[0]);
    for (uint32_t k = 0; k < n; k++) {
        const uint8_t *counts = chart + at;
        at += 3;
        for (int list = 0; list < 3; list++)
            for (uint32_t i = 0; i < counts[list]; i++) {
                if (list == 0) to[k] |= UINT32_C(1) << chart[at];
                if (list == 2) to[chart[at]] |= UINT32_C(1) << k;
                if (list != 1) at++;
                at += 1u + chart[at];
            }
    }
}

static int is_free(uint32_t k, const uint32_t to[32], uint32_t listed) { return !(listed >> k & 1) && !(to[k] & ~listed); }

static void check_listed(margalhosa_order_result o, const uint32_t to[32]) {
    uint32_t listed = 0;
    for (uint32_t i = 0; i < o.count; i++) {
        need(is_free(o.nodes[i], to, listed), "each node comes after its sources");
        for (uint32_t k = 0; k < o.nodes[i]; k++) need(!is_free(k, to, listed), "the lowest free number comes next");
        listed |= UINT32_C(1) << o.nodes[i];
    }
}

static void check_cycle(margalhosa_order_result o, const uint32_t to[32]) {
    need(o.count > 0, "a cycle has a node");
    for (uint32_t i = 0; i < o.count; i++)
        need(to[o.nodes[(i + 1) % o.count]] >> o.nodes[i] & 1, "each node of a cycle has a sink to the next, the last to the first");
}

/* r: the answer for the sheet of the same chart, in the strict setting, in which the order reads it. */
static void check_order(const uint8_t *chart, size_t n, margalhosa_sheet_result r) {
    margalhosa_order_result o = margalhosa_signal_order(chart, n);
    need(o.count <= 32, "an order's count");
    for (uint32_t i = o.count; i < 32; i++) need(o.nodes[i] == 0, "the entries past an order's count are 0");
    if (r.refused >= 1 && r.refused <= 12) {
        need(o.refused == r.refused && o.second == r.second && o.count == 0, "the order of a refused chart: its refusal, no node");
        return;
    }
    need((o.refused == 0 || o.refused == 20) && o.second == 0, "an order or 20, never 13 or 14");
    uint32_t given = n > 0 ? chart[1] : 0, seen = 0, to[32];
    for (uint32_t i = 0; i < o.count; i++) {
        need(o.nodes[i] < given && !(seen >> o.nodes[i] & 1), "given nodes, none twice");
        seen |= UINT32_C(1) << o.nodes[i];
    }
    leading(chart, given, to);
    if (o.refused == 0) {
        need(o.count == given, "an order has each given node");
        check_listed(o, to);
    } else {
        check_cycle(o, to);
    }
}

/* ---- path texts that are refused */
static void check_reader(const char *text, uint32_t number, uint64_t second) {
    static uint8_t buffer[64];
    const uint8_t *t = (const uint8_t *)text;
    size_t n = strlen(text);
    mark(buffer, sizeof buffer);
    need(counted(margalhosa_text_count(t, n), number, second, 0), text);
    need(refused_segment(margalhosa_text_segment(t, n, 0), number, second), text);
    need(counted(margalhosa_rewrite(t, n, buffer, 0), number, second, 0), text);
    need(counted(margalhosa_rewrite(t, n, buffer, sizeof buffer), number, second, 0) && marked(buffer, sizeof buffer), text);
}

/* ---- the list */
static int digit(int c) { return c >= '0' && c <= '9' ? c - '0' : c >= 'a' && c <= 'f' ? c - 'a' + 10 : -1; }

/* The bytes of the next line, the first CHART of them, and its setting; 0 at the end of the list. */
static int next_chart(uint8_t *chart, size_t *n) {
    int c = getchar();
    if (c == EOF) return 0;
    setting = c == 'D' ? MARGALHOSA_DEFAULT : MARGALHOSA_STRICT;
    if (c == 'D') c = getchar();
    for (*n = 0; c != '\n' && c != EOF; c = getchar()) {
        int high = digit(c), low = digit(getchar());
        need(high >= 0 && low >= 0, "the list is not hexadecimal");
        if (*n < CHART) chart[(*n)++] = (uint8_t)(16 * high + low);
    }
    return 1;
}

int main(void) {
    static uint8_t chart[CHART];
    size_t n;
    check_reader("M 1.5 08", 17, 7);
    check_reader("M 1", 17, 3);
    check_reader("M 8388609 1", 18, 2);
    check_reader("Z", 19, 0);
    check_accepted();
    check_lead();
    while (next_chart(chart, &n)) {
        margalhosa_sheet_result r = margalhosa_sheet(chart, n, 0, 0, setting);
        if (r.refused == 0) {
            need(r.second == 0, "a sheet's second number");
            drawn(chart, n, r.sheet);
        } else {
            refused(chart, n, r);
        }
        check_order(chart, n, check_settings(chart, n));
        printf("\n");
        charts++;
    }
    need(fflush(stdout) == 0 && !ferror(stdin), "the list is read and the listing written");
    fprintf(stderr, "%lu charts, every function called\n", charts);
    return 0;
}
