/* The same work as the library's calls, in plain C: one pass, no allocation. What the answers mean stands in include/casm.h. */
#ifndef PLAIN_H
#define PLAIN_H
#include "c.h"
#include "../include/casm.h"

casm_section plain_find(const uint8_t *file, size_t size);
casm_length plain_section_at(const uint8_t *file, size_t size, size_t at);
casm_count plain_body(const uint8_t *body, size_t size);
casm_site plain_site_at(const uint8_t *body, size_t size, size_t place);
casm_count plain_salvage(const uint8_t *body, size_t size, size_t *list, size_t numbers);
casm_length plain_entry(const uint8_t *entry, size_t size);
casm_players plain_plays(const uint8_t *body, size_t size, const uint8_t *part, size_t length, uint8_t root, uint8_t kind);
casm_note plain_place(casm_row row, uint8_t root, uint8_t note);
casm_length plain_write(const uint8_t *text, size_t length, const uint8_t *table, size_t bytes, size_t count, uint8_t *out, size_t room);
casm_answer plain_edit(uint8_t *body, size_t size, size_t group, uint8_t source, casm_row row, uint8_t over);
casm_checked plain_check(const uint8_t *before, size_t before_size, const uint8_t *after, size_t after_size, size_t group, uint8_t source);
casm_checked plain_check_files(const uint8_t *before, size_t before_size, const uint8_t *after, size_t after_size, size_t group, uint8_t source);
#endif
