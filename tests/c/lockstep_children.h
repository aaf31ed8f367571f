/* Children that share a mapping with their tracer, each stopped before the next of its instructions that touches the mapping.
 *
 * In a child the mapping is closed to reads and writes, so such an instruction faults before it does anything. To have it done, the tracer
 * has the child open the mapping, do this one instruction, and close the mapping again, while all others stand still. So no other
 * instruction of a child sees or changes a word. What one did can be undone: its registers and the words are as they were before. */
#ifndef LOCKSTEP_CHILDREN_H
#define LOCKSTEP_CHILDREN_H

#include <signal.h>
#include <stdbool.h>
#include <stddef.h>
#include <stdint.h>
#include <stdlib.h>
#include <string.h>
#include <sys/mman.h>
#include <sys/ptrace.h>
#include <sys/syscall.h>
#include <sys/user.h>
#include <sys/wait.h>

#include "lockstep_calls.h"

/* A call to the system, which a child is made to do. */
__asm__(".text\nlockstep_system_call:\n    syscall\n");
extern const char lockstep_system_call[];

/* The mapping, and its words as the last instruction left them. */
struct shared {
    uint64_t *words;
    uint64_t *known;
    size_t length;
};

struct child {
    pid_t id;
    /* It has stopped by itself (SIGSTOP), and so is before no such instruction. */
    bool waits;
    /* The word that the next instruction touches, and the registers before it and, once it is done, after it. */
    size_t word;
    struct user_regs_struct before, after;
};

/* What an instruction did: it changed no word, or one. */
struct effect {
    size_t word;
    bool is_change;
    uint64_t old, new;
};

static void trace(int request, const struct child *child, void *data) {
    if (ptrace((enum __ptrace_request)request, child->id, NULL, data) < 0) fail("ptrace %d\n", request);
}

/* Lets a child go on; the signal that it stops by. */
static int signal_after(int request, const struct child *child) {
    int status = 0;
    trace(request, child, NULL);
    if (waitpid(child->id, &status, 0) != child->id || !WIFSTOPPED(status)) fail("a child has ended: %d\n", status);
    return WSTOPSIG(status);
}

/* Has a child open or close the mapping. The registers are other ones then. */
static void protect(const struct child *child, const struct shared *shared, int protection) {
    struct user_regs_struct call = child->before;
    call.rip = (unsigned long long)(uintptr_t)lockstep_system_call;
    call.rax = SYS_mprotect;
    call.rdi = (unsigned long long)(uintptr_t)shared->words;
    call.rsi = shared->length * sizeof *shared->words;
    call.rdx = (unsigned long long)protection;
    trace(PTRACE_SETREGS, child, &call);
    if (signal_after(PTRACE_SINGLESTEP, child) != SIGTRAP) fail("no step\n");
    trace(PTRACE_GETREGS, child, &call);
    if (call.rax != 0) fail("mprotect failed\n");
}

static struct effect changes_of(const struct child *child, const struct shared *shared) {
    struct effect effect = {child->word, false, 0, 0};
    size_t at;
    for (at = 0; at < shared->length; at += 1) {
        if (shared->words[at] == shared->known[at]) continue;
        if (effect.is_change) fail("one instruction changed the words %zu and %zu\n", effect.word, at);
        effect.is_change = true;
        effect.word = at;
        effect.old = shared->known[at];
        effect.new = shared->words[at];
    }
    return effect;
}

/* The next instruction of a child is done; it stands behind that, but its registers are those of `protect`. */
static struct effect do_next(struct child *child, const struct shared *shared) {
    protect(child, shared, PROT_READ | PROT_WRITE);
    trace(PTRACE_SETREGS, child, &child->before);
    if (signal_after(PTRACE_SINGLESTEP, child) != SIGTRAP) fail("no step at %llx\n", child->before.rip);
    trace(PTRACE_GETREGS, child, &child->after);
    protect(child, shared, PROT_NONE);
    return changes_of(child, shared);
}

/* Undoes the instruction that was done. */
static void undo(const struct child *child, const struct shared *shared) {
    memcpy(shared->words, shared->known, shared->length * sizeof *shared->words);
    trace(PTRACE_SETREGS, child, (void *)(uintptr_t)&child->before);
}

/* Runs a child up to its next instruction that touches the mapping, or until it stops by itself. */
static void run(struct child *child, const struct shared *shared) {
    const int signal = signal_after(PTRACE_CONT, child);
    const uint64_t begin = (uintptr_t)shared->words;
    siginfo_t why;
    uint64_t at;
    child->waits = signal == SIGSTOP;
    trace(PTRACE_GETREGS, child, &child->before);
    if (child->waits) return;
    trace(PTRACE_GETSIGINFO, child, &why);
    at = (uintptr_t)why.si_addr;
    if (signal != SIGSEGV || at < begin || at >= begin + shared->length * sizeof *shared->words) {
        fail("signal %d at instruction %llx, address %llx\n", signal, child->before.rip, (unsigned long long)at);
    }
    if (at % sizeof *shared->words != 0) fail("an instruction at %llx touches a part of a word\n", child->before.rip);
    child->word = (size_t)(at - begin) / sizeof *shared->words;
}

/* Keeps what the instruction did, and runs on. */
static void keep(struct child *child, const struct shared *shared) {
    memcpy(shared->known, shared->words, shared->length * sizeof *shared->words);
    trace(PTRACE_SETREGS, child, &child->after);
    run(child, shared);
}

/* Follows a child that has stopped for the first time. */
static void follow(struct child *child, pid_t id, const struct shared *shared) {
    int status = 0;
    child->id = id;
    child->waits = true;
    if (waitpid(id, &status, 0) != id || !WIFSTOPPED(status) || WSTOPSIG(status) != SIGSTOP) fail("no child may be traced\n");
    trace(PTRACE_SETOPTIONS, child, (void *)(uintptr_t)PTRACE_O_EXITKILL);
    trace(PTRACE_GETREGS, child, &child->before);
    protect(child, shared, PROT_NONE);
    trace(PTRACE_SETREGS, child, &child->before);
}

#endif
