/*
 * With the processor's trap flag set, the kernel sends SIGTRAP after every instruction, and so does the emulator.
 * The handler sees the address of the next one. The function is entered by a plain C call, its return address is on the
 * stack then, and both ends of what is counted are known by that.
 */
#include "stepper.h"
#include "system.h"

enum { SYSTEM_SIGACTION = 13, SYSTEM_SIGALTSTACK = 131 };
enum { SIGTRAP = 5, SA_SIGINFO = 4, SA_RESTORER = 0x04000000, SA_ONSTACK = 0x08000000, TRAP_FLAG = 0x100 };

/* What the kernel saves of an interrupted program: the front of its ucontext. */
struct interrupted {
    size_t flags, link, stack[3];
    size_t r8, r9, r10, r11, r12, r13, r14, r15, rdi, rsi, rbp, rbx, rdx, rax, rcx, rsp, rip, eflags;
};

struct action {
    void (*handler)(int, void *, struct interrupted *);
    size_t flags;
    void (*restorer)(void);
    size_t mask;
};

struct stack {
    void *base;
    size_t flags, size;
};

void restore(void), three_instructions(void);
__asm__(".text\nrestore: mov $15, %eax\n syscall\nthree_instructions: nop\n nop\n ret\n");

size_t step_count, step_trace[TRACE_MOST];
static size_t wanted, return_address, return_stack;

/* An emulator may enter a handler with a stack that is not aligned. */
__attribute__((force_align_arg_pointer)) static void on_trap(int signal, void *information, struct interrupted *at) {
    (void)signal, (void)information;
    if (return_address == 0) {
        if (at->rip != wanted) return;
        return_address = *(const size_t *)at->rsp;
        return_stack = at->rsp + sizeof return_address;
    } else if (at->rip == return_address && at->rsp == return_stack) {
        at->eflags &= ~(size_t)TRAP_FLAG;
        return;
    }
    if (step_count < TRACE_MOST) step_trace[step_count] = at->rip;
    step_count++;
}

void step_through(size_t function) {
    wanted = function, return_address = 0, step_count = 0;
    __asm__ volatile("pushfq\n\torq %0, (%%rsp)\n\tpopfq" : : "i"(TRAP_FLAG) : "memory", "cc");
}

void start_stepper(void) {
    static uint8_t room[1 << 16];
    const struct stack stack = {room, 0, sizeof room};
    const struct action action = {on_trap, SA_SIGINFO | SA_RESTORER | SA_ONSTACK, restore, 0};
    system_call(SYSTEM_SIGALTSTACK, (long)&stack, 0, 0, 0);
    system_call(SYSTEM_SIGACTION, SIGTRAP, (long)&action, 0, sizeof action.mask);
    STEPPED(three_instructions, three_instructions());
    if (step_count != 3) fail("a function of three instructions was not counted as three");
}
