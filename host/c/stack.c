/* How many bytes of stack a call uses. The call runs on a painted stack of its own; how deep the paint is gone is what it used.
 * For x86-64, as the library. */
#include <alloca.h>
#include <stddef.h>
#include <stdint.h>
#include <stdlib.h>
#include <string.h>

#define STACK_BYTES (256 * 1024)

/* A call may by chance write the paint itself. So it is measured with each of two paints, and the larger figure is taken. */
#define FIRST_PAINT 0xA5
#define SECOND_PAINT 0x5A

size_t stack_used(void (*call)(void *), void *argument);
void stack_nothing(void);
void stack_known(void *bytes);

/* Calls with the stack pointer at the end of another stack. rbx is kept by every call, so it holds the old stack pointer. */
static void call_on(uint8_t *end, void (*call)(void *), void *argument)
{
    __asm__ volatile("mov %%rsp, %%rbx\n\t"
                     "mov %[end], %%rsp\n\t"
                     "call *%[call]\n\t"
                     "mov %%rbx, %%rsp"
                     : "+D"(argument)
                     : [end] "r"(end), [call] "r"(call)
                     : "rax", "rbx", "rcx", "rdx", "rsi", "r8", "r9", "r10", "r11", "xmm0", "xmm1", "xmm2", "xmm3", "xmm4", "xmm5", "xmm6",
                       "xmm7", "xmm8", "xmm9", "xmm10", "xmm11", "xmm12", "xmm13", "xmm14", "xmm15", "cc", "memory");
}

static size_t bytes_still_painted(const uint8_t *stack, uint8_t paint)
{
    size_t i = 0;
    while (i < STACK_BYTES && stack[i] == paint) {
        i++;
    }
    return i;
}

static size_t used_on(uint8_t *stack, uint8_t paint, void (*call)(void *), void *argument)
{
    memset(stack, paint, STACK_BYTES);
    call_on(stack + STACK_BYTES, call, argument);
    return STACK_BYTES - bytes_still_painted(stack, paint);
}

/* The bytes below the return address of the call. */
size_t stack_used(void (*call)(void *), void *argument)
{
    uint8_t *stack = aligned_alloc(16, STACK_BYTES);
    if (stack == NULL) {
        abort();
    }
    size_t first = used_on(stack, FIRST_PAINT, call, argument);
    size_t second = used_on(stack, SECOND_PAINT, call, argument);
    free(stack);
    return (first > second ? first : second) - sizeof(void *);
}

/* The empty call: no use of the stack, and no result. */
void stack_nothing(void)
{
}

/* A call of known use: an array of so many bytes, written at its far end, and with the first paint. */
void stack_known(void *bytes)
{
    volatile uint8_t *array = alloca(*(const size_t *)bytes);
    array[0] = FIRST_PAINT;
}
