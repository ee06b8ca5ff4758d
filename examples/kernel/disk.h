/* A driver of disks by Bulk-Only Transport that reads. */
#ifndef DISK_H
#define DISK_H

#include "found.h"

enum { SECTOR = 512 };

struct disk {
    struct found at;
    uint32_t sectors; /* the number of them */
    uint32_t tag;     /* of the last command */
};

/* Asks a disk for its size. USB_WRONG_LENGTH: its blocks are not of 512 bytes, or it does not answer as a disk. */
enum usb_status disk_open(struct usb_host *, const struct found *, struct disk *);

/* Reads sectors, 128 of them a command. */
enum usb_status disk_read(struct usb_host *, struct disk *, uint32_t first, uint32_t count, uint8_t *room);

#endif
