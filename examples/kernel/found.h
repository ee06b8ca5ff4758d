/* The devices that have a driver here, as the listing shows them. */
#ifndef FOUND_H
#define FOUND_H

#include "usb_host.h"

/* An interface of a device: a boot keyboard (class 3, subclass 1, protocol 1), or a disk by Bulk-Only Transport
 * (class 8, subclass 6, protocol 50 hex). */
struct found {
    struct usb_path path;
    uint64_t number; /* the device's: another device at the same path has another one */
    bool is_disk;
    uint8_t interface;
    uint8_t in, out; /* addresses of its endpoints; a keyboard has only `in`, an interrupt endpoint */
};

/* Looks through the configuration that a device has. Returns whether it has such an interface. */
bool find_interface(const struct usb_device *device, const uint8_t *bytes, size_t length, struct found *found);

#endif
