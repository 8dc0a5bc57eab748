#define _XOPEN_SOURCE 700
#include "context.h"

#include <stdlib.h>

#define STACK_BYTES (256 * 1024)

/* The thread sanitizer must be told of each switch. Clang says whether it is there by a feature, GCC by a macro. */
#if defined(__has_feature)
#if __has_feature(thread_sanitizer)
#define HAS_FIBERS
#endif
#endif
#ifdef __SANITIZE_THREAD__
#define HAS_FIBERS
#endif

#ifdef HAS_FIBERS
#include <sanitizer/tsan_interface.h>

static void fiber_adopt(struct context *context)
{
    context->fiber = __tsan_get_current_fiber();
}

static void fiber_prepare(struct context *context)
{
    if (context->fiber != NULL)
        __tsan_destroy_fiber(context->fiber);
    context->fiber = __tsan_create_fiber(0);
}

static void fiber_switch(const struct context *to)
{
    __tsan_switch_to_fiber(to->fiber, 0);
}
#else
static void fiber_adopt(struct context *context)
{
    (void)context;
}

static void fiber_prepare(struct context *context)
{
    (void)context;
}

static void fiber_switch(const struct context *to)
{
    (void)to;
}
#endif

void context_adopt(struct context *context)
{
    fiber_adopt(context);
}

void context_prepare(struct context *context, void (*run)(void))
{
    if (context->stack == NULL)
        context->stack = malloc(STACK_BYTES);
    if (context->stack == NULL || getcontext(&context->registers) != 0)
        abort();
    context->registers.uc_stack.ss_sp = context->stack;
    context->registers.uc_stack.ss_size = STACK_BYTES;
    context->registers.uc_link = NULL;
    makecontext(&context->registers, run, 0);
    fiber_prepare(context);
}

void context_switch(struct context *from, struct context *to)
{
    fiber_switch(to);
    if (swapcontext(&from->registers, &to->registers) != 0)
        abort();
}
