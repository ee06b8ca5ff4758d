/* A UHCI controller on PCI, with no interrupts. */
#ifndef UHCI_H
#define UHCI_H

#include "usb_host.h"

struct uhci {
    struct usb_controller controller; /* first: the functions of this struct are given a pointer to it */
    int base;                         /* of its I/O ports */
    unsigned attempts;
    unsigned naks; /* how often in a row the last question was answered by NAK */
    struct usb_question last;
    bool has_power[USB_ROOTS + 1];
    uint32_t changes[USB_ROOTS + 1]; /* those that no register of the controller keeps */
    uint8_t setup[128][8];           /* by address: the last SETUP */
    uint16_t toggles[128];           /* by address: what each IN endpoint gives next, a bit each */
};

/* Takes the first controller; false if there is none. */
bool uhci_open(struct uhci *);
void uhci_close(struct uhci *);

#endif
