// memcpy and memset take a few instructions more or less by where their words stand, and where the stack stands depends on the
// environment. So the measuring is run on a stack that stands at the same place of its page at every run.
#ifndef EVEN_STACK_H
#define EVEN_STACK_H

#include <stdint.h>

enum { PAGE = 4096 };

__attribute__((noinline)) static void on_an_even_stack(void run(void))
{
    volatile uint8_t *room = __builtin_alloca(PAGE + (uintptr_t)__builtin_frame_address(0) % PAGE);
    room[0] = 0;
    run();
    room[0] = 1;
}

#endif
