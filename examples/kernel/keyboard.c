#include "keyboard.h"

#include <string.h>

enum { SET_IDLE = 10, SET_PROTOCOL = 11, TO_INTERFACE = 0x21, ROLLED_OVER = 1 };

enum usb_status keyboard_open(struct usb_host *host, const struct found *found, struct keyboard *it)
{
    struct usb_setup protocol = { TO_INTERFACE, SET_PROTOCOL, 0, found->interface, 0 };
    struct usb_setup idle = { TO_INTERFACE, SET_IDLE, 0, found->interface, 0 };
    *it = (struct keyboard) { .at = *found };
    enum usb_status status = usb_control_out(host, found->path, &protocol, NULL);
    if (status == USB_DONE)
        status = usb_control_out(host, found->path, &idle, NULL);
    return status == USB_STALLED ? USB_DONE : status;
}

/* The character of a usage (HID Usage Tables, page 7). */
static char character(uint8_t usage, bool is_shifted)
{
    if (usage >= 4 && usage <= 29)
        return (char)((is_shifted ? 'A' : 'a') + usage - 4);
    if (usage >= 30 && usage <= 39 && !is_shifted)
        return "1234567890"[usage - 30];
    return usage == 44 ? ' ' : usage == 40 ? '\n' : '?';
}

static bool is_down(const struct keyboard *it, uint8_t usage)
{
    for (size_t i = 2; i < sizeof it->report; i++)
        if (it->report[i] == usage)
            return true;
    return false;
}

enum usb_status keyboard_poll(struct usb_host *host, struct keyboard *it, void (*key)(const struct keyboard *, char))
{
    uint8_t report[USB_PACKET];
    size_t got;
    enum usb_status status = usb_poll(host, it->at.path, it->at.in, report, &got);
    if (status == USB_STALLED)
        status = usb_clear_halt_of(host, it->at.path, it->at.in);
    if (status != USB_DONE || got < sizeof it->report || report[2] == ROLLED_OVER)
        return status;
    for (size_t i = 2; i < sizeof it->report; i++)
        if (report[i] && !is_down(it, report[i]))
            key(it, character(report[i], (report[0] & 0x22) != 0));
    memcpy(it->report, report, sizeof it->report);
    return status;
}
