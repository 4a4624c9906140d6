/* Preloaded: the allocation of the number FAIL_ALLOCATION, counted from 1, fails, and where ALLOCATION_COUNT names a
   file, the number of all allocations is written there at the end. */
#define _GNU_SOURCE
#include <dlfcn.h>
#include <fcntl.h>
#include <stdio.h>
#include <stdlib.h>
#include <unistd.h>

static long count;

static int fails(void)
{
	const char *number = getenv("FAIL_ALLOCATION");

	++count;
	return number && count == atol(number);
}

void *malloc(size_t size)
{
	void *(*next)(size_t) = (void *(*)(size_t))dlsym(RTLD_NEXT, "malloc");

	return fails() ? NULL : next(size);
}

void *realloc(void *block, size_t size)
{
	void *(*next)(void *, size_t) = (void *(*)(void *, size_t))dlsym(RTLD_NEXT, "realloc");

	return fails() ? NULL : next(block, size);
}

__attribute__((destructor)) static void tell(void)
{
	const char *name = getenv("ALLOCATION_COUNT");
	char text[24];
	int length = snprintf(text, sizeof text, "%ld\n", count);
	int file = name ? open(name, O_WRONLY | O_CREAT | O_TRUNC, 0600) : -1;

	if (file < 0 || write(file, text, length) != length)
		return;
	close(file);
}
