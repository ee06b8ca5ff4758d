/* A driver of boot keyboards (HID, appendix B). */
#ifndef KEYBOARD_H
#define KEYBOARD_H

#include "found.h"

struct keyboard {
    struct found at;
    uint8_t report[8]; /* the last one: which keys are down */
};

/* Sets a keyboard to the boot protocol, and lets it report only changes. A keyboard may refuse the second request. */
enum usb_status keyboard_open(struct usb_host *, const struct found *, struct keyboard *);

/* Asks a keyboard once, and calls the function for each key that went down: a letter, a digit, a space or a newline, or
 * '?' for any other. USB_QUIET: nothing changed. */
enum usb_status keyboard_poll(struct usb_host *, struct keyboard *, void (*key)(const struct keyboard *, char));

#endif
