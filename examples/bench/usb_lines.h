/* usb_lines.h: the lowest layer of a USB host stack in C, over the lines of docs/output/live.md.
 *
 * Put these calls where the stack has its controller driver. The program asks on standard output and reads on standard
 * input: nothing else may be printed there, and standard error is free. The other side is `usbplan far PLAN`.
 *
 * The other side makes all waits, as that after SET_ADDRESS. It acknowledges good data itself.
 *
 * If the other side is gone or writes no answer, the program ends with status 4 and one line on standard error.
 */
#ifndef USB_LINES_H
#define USB_LINES_H

#include <stdbool.h>
#include <stdint.h>

/* How a packet goes to a device: PRE precedes low speed below a hub (8.6.5). */
enum usb_speed { USB_FULL, USB_LOW, USB_LOW_BELOW_HUB };

enum usb_token { USB_SETUP, USB_OUT, USB_IN };

/* What came of an attempt. USB_NONE: no good answer came in time, or more data than `most`. */
enum usb_outcome { USB_NONE, USB_ACK, USB_NAK, USB_STALL, USB_DATA };

/* An endpoint: `most` is the most bytes of its packets, 1 to 64. */
struct usb_target {
    enum usb_speed speed;
    uint8_t address; /* 0 to 127 */
    uint8_t endpoint; /* 0 to 15 */
    uint8_t most;
};

/* A data packet: the bytes that SETUP (8 of them) and OUT send, or that IN brought. */
struct usb_packet {
    uint8_t toggle; /* 0 or 1 */
    uint8_t size; /* at most 64 */
    uint8_t bytes[64];
};

/* wPortStatus and wPortChange of a root port (11.24.2.7). */
struct usb_port {
    uint16_t status;
    uint16_t change;
};

/* What `usb_wait` answers. USB_ASKED: `usb_asked` has the words, as "receive 1 5". */
enum usb_wanted { USB_NOTHING, USB_SHOW, USB_END, USB_ASKED };

/* Says the hello, before any other call. Returns the number of root ports, 1 to 7. */
unsigned usb_begin(void);

/* Makes one attempt: one token with its data and handshake, and no retry. */
enum usb_outcome usb_attempt(enum usb_token token, struct usb_target to, struct usb_packet *packet);

/* The status of a root port, counted from 1, as it was last reported: no line goes out. */
struct usb_port usb_port_status(unsigned port);

/* SetPortFeature and ClearPortFeature of a root port, counted from 1. The feature is a name of table 11-17, as
 * "PORT_RESET". A reset is over when the call returns. */
void usb_port_set(unsigned port, const char *feature);
void usb_port_clear(unsigned port, const char *feature);

/* Nothing is left to do: about 32 ms pass, or something happens. */
enum usb_wanted usb_wait(void);

/* The words that it answered. They last until the next question. */
const char *usb_asked(void);

/* Writes a line of a report, as printf does, with no newline in `form`. */
void usb_report(const char *form, ...);

#endif
