#include "disk.h"

#include <string.h>

enum { READ_CAPACITY = 0x25, READ = 0x28, COMMAND_LENGTH = 10, TRIES = 3 };
enum { COMMAND_BLOCK = 31, STATUS_BLOCK = 13, FROM_DEVICE = 0x80, DATA_PACKETS = 256, MOST_SECTORS = 128 };

static void put_high_first(uint8_t *to, uint32_t number)
{
    for (int i = 0; i < 4; i++)
        to[i] = (uint8_t)(number >> (24 - 8 * i));
}

static uint32_t get_high_first(const uint8_t *from)
{
    return (uint32_t)from[0] << 24 | (uint32_t)from[1] << 16 | (uint32_t)from[2] << 8 | from[3];
}

static void put_low_first(uint8_t *to, uint32_t number)
{
    for (int i = 0; i < 4; i++)
        to[i] = (uint8_t)(number >> 8 * i);
}

/* Sends the command block wrapper (Bulk-Only Transport, 5.1). */
static enum usb_status send_command(struct usb_host *host, struct disk *it, const uint8_t command[COMMAND_LENGTH],
                                    uint32_t length)
{
    uint8_t block[COMMAND_BLOCK] = { 'U', 'S', 'B', 'C' };
    put_low_first(block + 4, ++it->tag);
    put_low_first(block + 8, length);
    block[12] = FROM_DEVICE;
    block[14] = COMMAND_LENGTH;
    memcpy(block + 15, command, COMMAND_LENGTH);
    return usb_send_to(host, it->at.path, it->at.out, block, sizeof block);
}

/* Receives the data, some rows of packets a call. A halt ends them. */
static enum usb_status receive_data(struct usb_host *host, const struct disk *it, uint8_t *room, uint32_t length)
{
    size_t got;
    for (uint32_t all = 0; all < length; all += (uint32_t)got) {
        uint32_t left = length - all, most = left < DATA_PACKETS * USB_PACKET ? left : DATA_PACKETS * USB_PACKET;
        unsigned packets = (most + USB_PACKET - 1) / USB_PACKET;
        enum usb_status status = usb_receive_from(host, it->at.path, it->at.in, room + all, most, packets, &got);
        if (status == USB_STALLED)
            return usb_clear_halt_of(host, it->at.path, it->at.in);
        if (status != USB_DONE)
            return status;
        if (got < most)
            return USB_DONE;
    }
    return USB_DONE;
}

/* Receives the status wrapper (5.2): whether the command passed. */
static enum usb_status receive_status(struct usb_host *host, const struct disk *it, bool *has_passed)
{
    uint8_t block[USB_PACKET], tag[4];
    size_t got;
    enum usb_status status = usb_receive_from(host, it->at.path, it->at.in, block, sizeof block, 1, &got);
    if (status != USB_DONE)
        return status;
    put_low_first(tag, it->tag);
    if (got != STATUS_BLOCK || memcmp(block, "USBS", 4) != 0 || memcmp(block + 4, tag, 4) != 0)
        return USB_WRONG_LENGTH;
    *has_passed = block[12] == 0;
    return USB_DONE;
}

/* Makes a command whose data come from the disk. */
static enum usb_status make(struct usb_host *host, struct disk *it, const uint8_t command[COMMAND_LENGTH],
                            uint8_t *room, uint32_t length, bool *has_passed)
{
    *has_passed = false;
    enum usb_status status = send_command(host, it, command, length);
    if (status == USB_DONE)
        status = receive_data(host, it, room, length);
    bool is_long = status == USB_NO_ROOM; /* QEMU's disk fills the last packet of a command that failed */
    if (status == USB_DONE || is_long)
        status = receive_status(host, it, has_passed);
    *has_passed = *has_passed && !is_long;
    return status;
}

enum usb_status disk_open(struct usb_host *host, const struct found *found, struct disk *it)
{
    static const uint8_t command[COMMAND_LENGTH] = { READ_CAPACITY };
    uint8_t capacity[8] = { 0 };
    bool has_passed = false;
    *it = (struct disk) { .at = *found };
    for (int tries = 0; tries < TRIES && !has_passed; tries++) { /* a new disk fails its first command, to say so */
        enum usb_status status = make(host, it, command, capacity, sizeof capacity, &has_passed);
        if (status != USB_DONE)
            return status;
    }
    it->sectors = get_high_first(capacity) + 1;
    return has_passed && get_high_first(capacity + 4) == SECTOR ? USB_DONE : USB_WRONG_LENGTH;
}

/* Reads sectors by one command. */
static enum usb_status read_some(struct usb_host *host, struct disk *it, uint32_t first, uint16_t count, uint8_t *room)
{
    uint8_t command[COMMAND_LENGTH] = { READ };
    bool has_passed;
    put_high_first(command + 2, first);
    command[7] = (uint8_t)(count >> 8);
    command[8] = (uint8_t)count;
    enum usb_status status = make(host, it, command, room, (uint32_t)count * SECTOR, &has_passed);
    return status == USB_DONE && !has_passed ? USB_WRONG_LENGTH : status;
}

enum usb_status disk_read(struct usb_host *host, struct disk *it, uint32_t first, uint32_t count, uint8_t *room)
{
    enum usb_status status = USB_DONE;
    for (uint32_t done = 0; done < count && status == USB_DONE; done += MOST_SECTORS) {
        uint32_t left = count - done;
        uint16_t now = (uint16_t)(left < MOST_SECTORS ? left : MOST_SECTORS);
        status = read_some(host, it, first + done, now, room + (size_t)done * SECTOR);
    }
    return status;
}
