/* The devices and hubs of a plan, for programs in C that test a USB 2.0 host of full and low speed.
 *
 * What the devices do is proved code: the archive libusb_devices.a, which tools/c_library makes. A program links it,
 * and asks in one process what it would ask `usbplan far PLAN` over two pipes. docs/output/live.md has the lines.
 *
 *     struct usb_devices devices = { 0 };
 *     usb_devices_open(&devices, plan, plan_length);
 *     usb_devices_ask(&devices, "usbplan live 1\n", 15);
 *     length = usb_devices_said(&devices, room, sizeof room);      (now `room` has "roots 1 2\n", with no zero)
 *     usb_devices_close(&devices);
 *
 * Rules of all calls:
 *
 * - A `struct usb_devices` is zeroed before its first call. It may be moved between two calls, and is never copied.
 *   Only this library reads or writes it.
 * - One call at a time for one handle, all from one thread, and none from a signal handler. Different handles have
 *   nothing in common, and a program may have any number, also on different threads.
 * - No pointer is NULL, not even with a length of 0. What a call is given lies apart from the handle, and needs to be
 *   good until the call returns.
 * - A call needs at most USB_DEVICES_STACK bytes of stack, and the three functions of heap.c. It keeps no state
 *   elsewhere.
 * - There is no clock: whatever takes time on a real bus is over when a call returns.
 */
#ifndef USB_DEVICES_H
#define USB_DEVICES_H

#include <stdbool.h>
#include <stddef.h>
#include <stdint.h>

#ifdef __cplusplus
extern "C" {
#endif

enum {
    USB_DEVICES_STACK = 128 * 1024 /* enough stack for any call, in bytes: twice what was measured */
};

/* What a call returns. */
enum usb_devices_status {
    USB_DEVICES_DONE = 0,
    USB_DEVICES_NO_MEMORY = 1,      /* the heap had no memory */
    USB_DEVICES_OPEN = 2,           /* the handle is open */
    USB_DEVICES_CLOSED = 3,         /* the handle is closed */
    USB_DEVICES_NO_TEXT = 4,        /* the plan's text is no UTF-8 */
    USB_DEVICES_NO_PLAN = 5,        /* the text is no plan, or has `when`: `usbplan check` says why */
    USB_DEVICES_LIMIT = 6,          /* the attempts made equal the plan's limit */
    USB_DEVICES_LONG_LINE = 7,      /* a line that reports nothing has more than 1,024 bytes */
    USB_DEVICES_BAD_CHARACTER = 8,  /* a byte of such a line is no printable ASCII */
    USB_DEVICES_NO_QUESTION = 9,    /* such a line is no question, or the hello is not the first one */
    USB_DEVICES_NO_PORT = 10,       /* the plan has no such root port */
    USB_DEVICES_HALF_LINE = 11,     /* the last line has no newline */
    USB_DEVICES_LONG_SEND = 12,     /* the next event sends more than a line has room for */
    USB_DEVICES_FAILED = 13         /* never returned: a reader or a trace failed, and there is neither */
};

/* The devices of a plan, or none. */
struct usb_devices {
    void *at;
    bool is_live;
};

/* Opens a closed handle: the devices of the plan that this text in TOML spells (docs/PLANS.md). All root ports are off,
 * and nothing was asked. Returns USB_DEVICES_DONE; or USB_DEVICES_OPEN, USB_DEVICES_NO_TEXT, USB_DEVICES_NO_PLAN or
 * USB_DEVICES_NO_MEMORY, and the handle is as it was. */
uint8_t usb_devices_open(struct usb_devices *devices, const void *plan, size_t length);

/* Asks whole lines of a host, one or more, each with its newline. They are answered in order, exactly as `usbplan far`
 * answers them, and the answers wait until they are fetched. A line that reports something, as those of a listing, has
 * no answer.
 *
 * Returns USB_DEVICES_DONE, or the fault of the first line that has one: USB_DEVICES_LIMIT to USB_DEVICES_LONG_SEND, or
 * USB_DEVICES_NO_MEMORY. The answers of the lines before it wait, and those to the first attempts of its row. Nothing
 * more is done then: each later call returns the same fault. After USB_DEVICES_NO_MEMORY a prefix of one more answer may
 * wait, too. USB_DEVICES_CLOSED: the handle is closed. */
uint8_t usb_devices_ask(struct usb_devices *devices, const void *lines, size_t length);

/* Moves the bytes that wait into `room`, in order and each once, until nothing waits or the room is full. Returns their
 * number: 0 if nothing waits or the handle is closed. The rest of the room stays as it was. The next usb_devices_ask
 * frees the memory of the bytes that were fetched. */
size_t usb_devices_said(struct usb_devices *devices, void *room, size_t length);

/* Closes the handle and frees all that it holds, also what waits. Returns USB_DEVICES_DONE, or USB_DEVICES_CLOSED if it
 * was closed. It may be opened again. */
uint8_t usb_devices_close(struct usb_devices *devices);

#ifdef __cplusplus
}
#endif

#endif
