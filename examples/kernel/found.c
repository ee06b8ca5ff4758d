#include "found.h"

enum { INTERFACE = 4, ENDPOINT = 5, BULK = 2, INTERRUPT = 3 };

static bool is_here(const uint8_t *item, uint8_t class, uint8_t subclass, uint8_t protocol)
{
    return item[3] == 0 && item[5] == class && item[6] == subclass && item[7] == protocol;
}

bool find_interface(const struct usb_device *device, const uint8_t *bytes, size_t length, struct found *found)
{
    bool is_inside = false;
    *found = (struct found) { .path = device->path, .number = device->number };
    for (size_t at = 0; at + 2 <= length && bytes[at] >= 2 && bytes[at] <= length - at; at += bytes[at]) {
        const uint8_t *item = bytes + at;
        if (item[1] == INTERFACE && item[0] >= 9 && !found->in) {
            found->is_disk = is_here(item, 8, 6, 0x50);
            is_inside = found->is_disk || is_here(item, 3, 1, 1);
            found->interface = item[2];
            found->out = 0;
        } else if (item[1] == ENDPOINT && item[0] >= 7 && is_inside) {
            bool is_kind = (item[3] & 3) == (found->is_disk ? BULK : INTERRUPT);
            uint8_t *to = item[2] & 0x80 ? &found->in : &found->out;
            if (is_kind && !*to)
                *to = item[2];
        } else if (item[1] == INTERFACE) {
            is_inside = false;
        }
    }
    return found->in && (found->out || !found->is_disk);
}
