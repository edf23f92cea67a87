/* What a C program may do with Farthingmoss, from its header alone; each step checks what it got. */
#include <stdio.h>
#include <string.h>
#include "farthingmoss.h"

#define CELLS ((size_t)FARTHINGMOSS_NODE_CELLS)
#define NODES 64
#define ROOM 256
#define BEHIND 16 /* cells or bytes behind a buffer that was lent */
#define OLD_CELL UINT32_C(0xF1E2D3C4)
#define OLD_BYTE 0xA5

static const char SYMBOL[] = "??$?DM@std@@YA?AV?$complex@M@0@ABMABV10@@Z";
static const char TEXT[] = "class std::complex<float> __cdecl std::operator*<float>"
                           "(float const &,class std::complex<float> const &)";
#define SYMBOL_DEPTH 7
#define SYMBOL_NODES 24

static uint32_t table[NODES * FARTHINGMOSS_NODE_CELLS + BEHIND];
static uint8_t text[ROOM + BEHIND];
static uint64_t report[5];
static int failures;

static void check(int holds, const char *what) {
    if (!holds) {
        fprintf(stderr, "example.c: wrong: %s (report %lu %lu %lu %lu %lu)\n", what, (unsigned long)report[0],
                (unsigned long)report[1], (unsigned long)report[2], (unsigned long)report[3], (unsigned long)report[4]);
        failures++;
    }
}

static void check_report(uint64_t number, uint64_t offset, uint64_t depth, uint64_t nodes, uint64_t length,
                         const char *what) {
    check(report[0] == number && report[1] == offset, what);
    check(report[2] == depth && report[3] == nodes && report[4] == length, what);
}

/* The pattern that shows what a call changed. */
static void lay_pattern(void) {
    size_t place;
    for (place = 0; place < sizeof table / sizeof *table; place++) {
        table[place] = OLD_CELL;
    }
    memset(text, OLD_BYTE, sizeof text);
}

static void check_cells(size_t from, size_t to, uint32_t value, const char *what) {
    while (from < to && table[from] == value) {
        from++;
    }
    check(from == to, what);
}

static void check_old_text_from(size_t from, const char *what) {
    while (from < sizeof text && text[from] == OLD_BYTE) {
        from++;
    }
    check(from == sizeof text, what);
}

static void read_symbol(const char *symbol, uint32_t depth, size_t cells, size_t room) {
    lay_pattern();
    farthingmoss_read((const uint8_t *)symbol, strlen(symbol), 0, depth, table, cells, text, room, report);
}

static void answered(void) {
    read_symbol(SYMBOL, FARTHINGMOSS_DEEPEST, NODES * CELLS, ROOM);
    check_report(FARTHINGMOSS_ANSWERED, strlen(SYMBOL), SYMBOL_DEPTH, SYMBOL_NODES, strlen(TEXT), "an answer");
    check(memcmp(text, TEXT, strlen(TEXT)) == 0, "the text");
    check_old_text_from(strlen(TEXT), "bytes behind the text");
    check_cells(SYMBOL_NODES * CELLS, NODES * CELLS + BEHIND, OLD_CELL, "cells behind the nodes");
}

static void write_alone(uint32_t depth, size_t nodes) {
    memset(text, OLD_BYTE, sizeof text);
    farthingmoss_write((const uint8_t *)SYMBOL, strlen(SYMBOL), 0, depth, table, nodes * CELLS, text, ROOM, report);
}

/* The text alone, of the table that answered() left. */
static void written_alone(void) {
    write_alone(SYMBOL_DEPTH, SYMBOL_NODES);
    check_report(FARTHINGMOSS_ANSWERED, 0, SYMBOL_DEPTH, SYMBOL_NODES, strlen(TEXT), "an answer of the writer");
    check(memcmp(text, TEXT, strlen(TEXT)) == 0, "the same text");
    check_old_text_from(strlen(TEXT), "bytes behind the text of the writer");
    write_alone(SYMBOL_DEPTH - 1, SYMBOL_NODES);
    check_report(FARTHINGMOSS_TOO_DEEP, 0, 0, 0, 0, "a root that is higher than the depth lent");
    check_old_text_from(0, "no text where the root is too high");
    write_alone(SYMBOL_DEPTH, SYMBOL_NODES - 1);
    check_report(FARTHINGMOSS_BAD_TABLE, 0, 0, 0, 0, "a table without its root");
}

/* The plain names among the nodes that answered() left: std, complex. */
static void named(void) {
    char names[ROOM] = "";
    uint64_t node;
    for (node = 0; node <= SYMBOL_NODES; node++) {
        farthingmoss_name((const uint8_t *)SYMBOL, strlen(SYMBOL), table, SYMBOL_NODES * CELLS, node, report);
        if (report[0] == FARTHINGMOSS_ANSWERED) {
            strncat(names, SYMBOL + report[3], (size_t)report[4]);
            strcat(names, " ");
        } else {
            check_report(FARTHINGMOSS_BAD_TABLE, 0, 0, 0, 0, "a node that is no plain name");
        }
    }
    check(strcmp(names, "std complex ") == 0, names);
}

static void closed(void) {
    static const char array[] = "void __cdecl f(int (&&)[3])";
    read_symbol("?f@@YAX$$QAY02H@Z", FARTHINGMOSS_DEEPEST, NODES * CELLS, ROOM);
    check(report[4] == strlen(array), "the length of an rvalue reference to an array");
    check(memcmp(text, array, strlen(array)) == 0, "its text, with the dimension");
}

static void cut(void) {
    read_symbol("?x@@3HA", FARTHINGMOSS_DEEPEST, NODES * CELLS, 4);
    check_report(FARTHINGMOSS_NO_ROOM, 7, 3, 5, 4, "a text without room");
    check(memcmp(text, "int ", 4) == 0, "the beginning of the text");
    check_old_text_from(4, "bytes behind the room");
    check_cells(5 * CELLS, NODES * CELLS + BEHIND, OLD_CELL, "cells behind the nodes of a text that is cut");
}

static void refused(void) {
    read_symbol("?x@@3!A", FARTHINGMOSS_DEEPEST, NODES * CELLS, ROOM);
    check_report(FARTHINGMOSS_NO_DERIVATION, 6, 0, 0, 0, "not a symbol");
    check_cells(0, 2 * CELLS, 0, "zeros in the place of the nodes counted");
    check_cells(2 * CELLS, NODES * CELLS + BEHIND, OLD_CELL, "cells behind the nodes counted");
    check_old_text_from(0, "no text of a refusal");
    read_symbol("?x@@3Y0B0@HA", FARTHINGMOSS_DEEPEST, NODES * CELLS, ROOM);
    check_report(FARTHINGMOSS_NO_DERIVATION, 8, 0, 0, 0, "a bad number, at the byte that does not belong");
    read_symbol("?@?A0x@@", FARTHINGMOSS_DEEPEST, NODES * CELLS, ROOM);
    check_report(FARTHINGMOSS_NO_DERIVATION, 6, 0, 0, 0, "an anonymous namespace whose id has no digit");
    read_symbol("?x@@3HA", 2, NODES * CELLS, ROOM);
    check(report[0] == FARTHINGMOSS_TOO_DEEP, "a depth of 2");
    read_symbol("?x@@3HA", FARTHINGMOSS_DEEPEST, 5 * CELLS - 1, ROOM);
    check(report[0] == FARTHINGMOSS_NO_NODE, "a table of four nodes and a tail");
    check_cells(4 * CELLS, NODES * CELLS + BEHIND, OLD_CELL, "the tail");
}

static void refused_before_reading(void) {
    read_symbol("", FARTHINGMOSS_DEEPEST, NODES * CELLS, ROOM);
    check_report(FARTHINGMOSS_NO_SYMBOL, 0, 0, 0, 0, "an empty symbol");
    read_symbol("?\xC3\xA9@@3HA", FARTHINGMOSS_DEEPEST, NODES * CELLS, ROOM);
    check_report(FARTHINGMOSS_NOT_ASCII, 1, 0, 0, 0, "a byte of 128 or more");
    read_symbol("?x@@3HA", FARTHINGMOSS_DEEPEST + 1, NODES * CELLS, ROOM);
    check_report(FARTHINGMOSS_BAD_CALL, 0, 0, 0, 0, "a depth of 201");
    check_cells(0, NODES * CELLS + BEHIND, OLD_CELL, "a table that is as it was");
    check_old_text_from(0, "a text that is as it was");
}

/* Buffers of length 0: nothing behind their pointers is touched. */
static void nothing_lent(void) {
    read_symbol("?x@@3HA", FARTHINGMOSS_DEEPEST, 0, 0);
    check_report(FARTHINGMOSS_NO_NODE, 3, 0, 0, 0, "no table");
    read_symbol("?x@@3HA", FARTHINGMOSS_DEEPEST, NODES * CELLS, 0);
    check_report(FARTHINGMOSS_NO_ROOM, 7, 3, 5, 0, "no room");
    check_old_text_from(0, "bytes of a buffer of length 0");
}

int main(void) {
    check(farthingmoss_node_cells() == CELLS, "the cells of a node");
    answered();
    written_alone();
    named();
    closed();
    cut();
    refused();
    refused_before_reading();
    nothing_lent();
    if (failures == 0) {
        puts("bindings/c: all as the header says");
    }
    return failures != 0;
}
