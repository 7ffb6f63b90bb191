/* What is used of the C library: the kit's clang comes without its headers. x86-64 Linux. */
#ifndef C_H
#define C_H
typedef unsigned char uint8_t;
typedef unsigned int uint32_t;
typedef unsigned long uint64_t;
typedef unsigned long size_t;
#define NULL ((void *)0)

void *memcpy(void *restrict to, const void *restrict from, size_t size);
int memcmp(const void *a, const void *b, size_t size);
int printf(const char *format, ...);
int sprintf(char *to, const char *format, ...);
int fflush(void *stream);
void exit(int status);
long atol(const char *text);
void qsort(void *base, size_t count, size_t size, int (*compare)(const void *, const void *));
struct timespec { long tv_sec, tv_nsec; };
int clock_gettime(int clock, struct timespec *now);
enum { CLOCK_MONOTONIC = 1 };
#endif
