/* QEMU's virt with highmem=off: a serial line, time by the processor's counter, PCI's space in memory. */
#include "platform.h"

static volatile uint32_t *const uart = (void *)0x09000000;
static const uintptr_t pci_space = 0x3F000000;
enum { IO_PORTS = 0x1000 }; /* where the controller's I/O ports are put: nobody else puts them anywhere */

void put(char byte)
{
    while (uart[6] & 0x20)
        ;
    uart[0] = (uint8_t)byte;
}

int heard(void) { return uart[6] & 0x10 ? -1 : (int)(uart[0] & 0xFF); }

/* By PSCI: the system is off. */
void leave(int status)
{
    print("status %d\n", (unsigned)status);
    register uint64_t function __asm__("x0") = 0x84000008;
    __asm__ volatile("hvc #0" : : "r"(function));
    for (;;)
        ;
}

uint64_t now_us(void)
{
    uint64_t count, frequency;
    __asm__ volatile("isb; mrs %0, cntvct_el0; mrs %1, cntfrq_el0" : "=r"(count), "=r"(frequency));
    return count / (frequency / 1000000);
}

static volatile uint32_t *word(unsigned device, unsigned at)
{
    return (void *)(pci_space + ((uintptr_t)device << 12) + (at & 0xFC));
}

uint32_t pci_read(unsigned device, unsigned at)
{
    if (at == 0x20 && *word(device, 8) >> 8 == 0x0C0300)
        *word(device, at) = IO_PORTS;
    return *word(device, at);
}

void pci_write(unsigned device, unsigned at, uint32_t value) { *word(device, at) = value; }
