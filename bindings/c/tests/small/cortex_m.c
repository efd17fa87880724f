/* A Cortex-M without a C library, as qemu has it: the vector table, memory functions, and an end by semihosting. */
#include <stddef.h>
#include <stdint.h>
extern uint32_t _stack_top, _data_load, _data, _data_end, _bss, _bss_end;
int work(void);
static void stop(int status) {
    register uint32_t r0 __asm__("r0") = 0x20; /* SYS_EXIT_EXTENDED */
    uint32_t block[2] = {0x20026, (uint32_t)status};
    register uint32_t *r1 __asm__("r1") = block;
    __asm__ volatile("bkpt 0xAB" : : "r"(r0), "r"(r1) : "memory");
    for (;;) {
    }
}
void reset(void) {
    uint32_t *from = &_data_load;
    for (uint32_t *to = &_data; to < &_data_end;) *to++ = *from++;
    for (uint32_t *to = &_bss; to < &_bss_end;) *to++ = 0;
    stop(work());
}
static void fault(void) { stop(99); }
__attribute__((section(".vectors"), used)) static void *const vectors[16] = {
    &_stack_top, (void *)reset, (void *)fault, (void *)fault, (void *)fault, (void *)fault, (void *)fault};
void *memset(void *to, int c, size_t n) {
    uint8_t *a = to;
    while (n--) *a++ = (uint8_t)c;
    return to;
}
void *memcpy(void *to, const void *from, size_t n) {
    uint8_t *a = to;
    const uint8_t *b = from;
    while (n--) *a++ = *b++;
    return to;
}
