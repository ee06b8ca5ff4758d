/* What a machine gives: I/O ports, time, a serial line, PCI; and text and a heap over that. */
#ifndef PLATFORM_H
#define PLATFORM_H

#include <stddef.h>
#include <stdint.h>

#ifdef __x86_64__
static inline void outb(uint8_t value, int port) { __asm__ volatile("outb %0, %w1" : : "a"(value), "d"(port)); }
static inline void outw(uint16_t value, int port) { __asm__ volatile("outw %0, %w1" : : "a"(value), "d"(port)); }
static inline void outl(uint32_t value, int port) { __asm__ volatile("outl %0, %w1" : : "a"(value), "d"(port)); }

static inline uint8_t inb(int port)
{
    uint8_t value;
    __asm__ volatile("inb %w1, %0" : "=a"(value) : "d"(port));
    return value;
}

static inline uint16_t inw(int port)
{
    uint16_t value;
    __asm__ volatile("inw %w1, %0" : "=a"(value) : "d"(port));
    return value;
}

static inline uint32_t inl(int port)
{
    uint32_t value;
    __asm__ volatile("inl %w1, %0" : "=a"(value) : "d"(port));
    return value;
}
#else /* QEMU's virt: PCI's I/O ports are in memory */
#define PORT(type, port) (*(volatile type *)(uintptr_t)(0x3EFF0000u + (unsigned)(port)))
static inline void outb(uint8_t value, int port) { PORT(uint8_t, port) = value; }
static inline void outw(uint16_t value, int port) { PORT(uint16_t, port) = value; }
static inline void outl(uint32_t value, int port) { PORT(uint32_t, port) = value; }
static inline uint8_t inb(int port) { return PORT(uint8_t, port); }
static inline uint16_t inw(int port) { return PORT(uint16_t, port); }
static inline uint32_t inl(int port) { return PORT(uint32_t, port); }
#endif

/* Of the machine (pc.c, virt.c). A PCI device on bus 0 is its number times 8, and its function. */
void put(char byte);
int heard(void); /* the next byte of the serial line, or -1 */
uint64_t now_us(void);
uint32_t pci_read(unsigned device, unsigned at);
void pci_write(unsigned device, unsigned at, uint32_t value);
_Noreturn void leave(int status); /* QEMU ends */

/* Of all machines (platform.c). */
void pause_us(uint64_t us);
void print(const char *format, ...) __attribute__((format(printf, 1, 2))); /* %s, %d and %x, with a number of digits */
_Noreturn void die(const char *what);
size_t stack_used(void); /* since paint_stack */
void paint_stack(void);
size_t heap_used(void); /* bytes in use */
size_t heap_most(void); /* the most at once */

#endif
