/* Each function of both sides begins a page of its own: under the emulator a loop that crosses a page is slower by half, wherever chance puts it. */
SECTIONS { .pages : SUBALIGN(4096) { *plain.o(.text .text.*) *libc_export.a:(.text .text.*) } } INSERT AFTER .text;
