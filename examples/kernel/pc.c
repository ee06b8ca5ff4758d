/* A PC: a serial line, time by the processor's counter, PCI by I/O ports. */
#include "platform.h"

enum {
    COM1 = 0x3F8,
    TIMER = 0x42,
    TIMER_MODE = 0x43,
    SPEAKER = 0x61,
    EXIT = 0xF4,
    PCI_ADDRESS = 0xCF8,
    PCI_DATA = 0xCFC
};

void put(char byte)
{
    while (!(inb(COM1 + 5) & 0x20))
        ;
    outb((uint8_t)byte, COM1);
}

int heard(void) { return inb(COM1 + 5) & 1 ? inb(COM1) : -1; }

/* QEMU ends at a write to the port of isa-debug-exit, with status 1 for 0 and 3 for 1. */
void leave(int status)
{
    outb((uint8_t)status, EXIT);
    for (;;)
        __asm__ volatile("cli; hlt");
}

static uint64_t ticks_per_us; /* of the counter */

/* Counts the counter's ticks in 10 ms of the timer, which has 1,193,182 a second. */
static void find_speed(void)
{
    outb((uint8_t)((inb(SPEAKER) & ~2) | 1), SPEAKER);
    outb(0xB0, TIMER_MODE); /* counter 2, low byte first, once */
    outb(11932 & 255, TIMER);
    outb(11932 >> 8, TIMER);
    uint64_t from = __builtin_ia32_rdtsc();
    while (!(inb(SPEAKER) & 0x20))
        ;
    ticks_per_us = (__builtin_ia32_rdtsc() - from) / 10000;
    ticks_per_us += !ticks_per_us;
}

uint64_t now_us(void)
{
    if (!ticks_per_us)
        find_speed();
    return __builtin_ia32_rdtsc() / ticks_per_us;
}

uint32_t pci_read(unsigned device, unsigned at)
{
    outl(0x80000000 | device << 8 | (at & 0xFC), PCI_ADDRESS);
    return inl(PCI_DATA);
}

void pci_write(unsigned device, unsigned at, uint32_t value)
{
    outl(0x80000000 | device << 8 | (at & 0xFC), PCI_ADDRESS);
    outl(value, PCI_DATA);
}
