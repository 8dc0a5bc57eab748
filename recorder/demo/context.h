/* What a core runs: a process on a stack of its own, or what the thread of the core began with. */
#ifndef CONTEXT_H
#define CONTEXT_H

#include <ucontext.h>

struct context {
    ucontext_t registers;
    char *stack;
    void *fiber; /* how the thread sanitizer knows it */
};

/* The context that runs now becomes one that can be left. */
void context_adopt(struct context *context);

/* Makes a context that runs a function from its start when it is switched to. An earlier run of it is forgotten. */
void context_prepare(struct context *context, void (*run)(void));

/* Leaves one context, and goes on in another one. Both belong to the same thread. */
void context_switch(struct context *from, struct context *to);

#endif
