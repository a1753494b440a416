/* How much stack each function takes: the stack of a thread is filled with a pattern, files are planned on it, and what was written is
   measured. Fails where less than a quarter of what the header says is left as room.
   usage: stack < FILES      files after their lengths, u32, little-endian */

#define _DEFAULT_SOURCE
#include <pthread.h>
#include <stdio.h>
#include <stdlib.h>
#include <string.h>
#include <sys/mman.h>

#include "planner.h"

enum { SPACE = 1 << 22, PATTERN = 0xA5 };

static struct planner_work work;
static uint8_t text[PLANNER_LISTING];
static uint8_t input[1 << 20];
static size_t length;

static void *nothing(void *unused)
{
    return unused;
}

static void *run(void *unused)
{
    planner_plan(&work, input, length);
    return unused;
}

static void *list(void *unused)
{
    planner_list(input, length, text, sizeof text);
    return unused;
}

static void fail(const char *what)
{
    fprintf(stderr, "stack: %s\n", what);
    exit(1);
}

/* Bytes of stack that a thread wrote which does only this. */
static size_t taken(unsigned char *stack, void *(*body)(void *))
{
    pthread_attr_t attributes;
    pthread_t thread;
    size_t at = 0;
    memset(stack, PATTERN, SPACE);
    if (pthread_attr_init(&attributes) || pthread_attr_setstack(&attributes, stack, SPACE) ||
        pthread_create(&thread, &attributes, body, NULL) || pthread_join(thread, NULL))
        fail("no thread");
    pthread_attr_destroy(&attributes);
    while (at < SPACE && stack[at] == PATTERN)
        at++;
    return SPACE - at;
}

static void raise_to(size_t *most, size_t number)
{
    if (number > *most)
        *most = number;
}

int main(void)
{
    unsigned char *stack = mmap(NULL, SPACE, PROT_READ | PROT_WRITE, MAP_PRIVATE | MAP_ANONYMOUS, -1, 0);
    unsigned char size[4];
    size_t files = 0, most_run = 0, most_list = 0;
    if (stack == MAP_FAILED)
        fail("no memory");
    while (fread(size, 1, 4, stdin) == 4) {
        length = size[0] | size[1] << 8 | size[2] << 16 | (size_t)size[3] << 24;
        if (length > sizeof input || fread(input, 1, length, stdin) != length)
            fail("a file is cut off");
        raise_to(&most_run, taken(stack, run));
        raise_to(&most_list, taken(stack, list));
        files++;
    }
    size_t alone = taken(stack, nothing);
    most_run -= alone;
    most_list -= alone;
    printf("stack over %zu files: planner_run %zu bytes of %d, planner_list %zu of %d\n", files, most_run, (int)PLANNER_RUN_STACK, most_list,
           (int)PLANNER_LIST_STACK);
    if (files == 0 || most_run == 0 || most_run > PLANNER_RUN_STACK / 4 * 3 || most_list > PLANNER_LIST_STACK / 4 * 3)
        fail("the header's figures leave no room");
    return 0;
}
