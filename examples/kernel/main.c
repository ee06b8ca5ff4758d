/* A kernel that is a USB host and nothing else. On the serial line it prints what is plugged, each key of a boot
 * keyboard, and how fast it reads each disk. It goes on as devices come and go. A byte on the serial line requests
 * more: s a listing, q the end.
 *
 * It has no interrupts, no processes and no other stack than the one that it boots with. */
#include "disk.h"
#include "keyboard.h"
#include "platform.h"
#include "uhci.h"

#include <string.h>

enum { MOST = 16, ROUND_US = 10000, READ_SECTORS = 1024 };

static struct uhci uhci;
static struct usb_host host;
static struct keyboard keyboards[MOST];
static unsigned keyboard_count;

/* Ends the kernel unless a call was done. */
static void must(enum usb_status status, const char *what)
{
    if (status == USB_DONE)
        return;
    print("%s: %s\n", what, usb_status_text(status));
    die("failed");
}

/* ---- The listing ---- */

static void print_path(const struct usb_path *path)
{
    char text[USB_PATH_TEXT];
    usb_path_text(path, text);
    print("%s", text);
}

static unsigned number_at(const uint8_t *bytes, size_t at) { return bytes[at] | (unsigned)bytes[at + 1] << 8; }

static void show_device(void *context, const struct usb_device *it)
{
    (void)context;
    print_path(&it->path);
    print(" address %d %s speed, id ", it->address, it->is_low ? "low" : "full");
    print("%4x:%4x", number_at(it->descriptor, 8), number_at(it->descriptor, 10));
    if (it->ports)
        print(", hub of %d ports", it->ports);
    print("\n");
}

static void show_refused(void *context, const struct usb_refused *it)
{
    (void)context;
    print_path(&it->path);
    print(" refused: %s\n", usb_cause_text(it->cause));
}

static void show_configuration(void *context, const struct usb_device *it, unsigned index, const uint8_t *bytes,
                               size_t length)
{
    (void)context;
    print("  configuration %d:", index);
    for (size_t at = 0; at + 9 <= length && bytes[at]; at += bytes[at])
        if (bytes[at + 1] == 4)
            print(" interface %d class %2x.%2x.%2x", bytes[at + 2], bytes[at + 5], bytes[at + 6], bytes[at + 7]);
    print("%s\n", index == it->chosen ? " *" : "");
}

static void show_text(void *context, const struct usb_device *it, enum usb_text which, const uint8_t *utf16le,
                      size_t length)
{
    static const char *const names[] = { "manufacturer", "product", "serial number" };
    (void)context;
    (void)it;
    print("  %s \"", names[which]);
    for (size_t at = 0; at + 1 < length; at += 2) {
        unsigned unit = number_at(utf16le, at);
        put(unit >= 32 && unit <= 126 ? (char)unit : '?');
    }
    print("\"\n");
}

static void show(void)
{
    static const struct usb_visitor visitor = { show_device, show_configuration, show_text, show_refused, NULL };
    must(usb_tree(&host, &visitor), "tree");
    print("end\n");
}

/* ---- Drivers ---- */

/* What a listing has for the drivers. */
struct all_found {
    struct found found[MOST];
    unsigned count;
};

static void collect(void *context, const struct usb_device *it, unsigned index, const uint8_t *bytes, size_t length)
{
    struct all_found *all = context;
    if (index == it->chosen && all->count < MOST && find_interface(it, bytes, length, &all->found[all->count]))
        all->count++;
}

static void failed(const struct found *it, const char *what, enum usb_status status)
{
    print("%s ", what);
    print_path(&it->path);
    print(" failed: %s\n", usb_status_text(status));
}

/* A sum of bytes that shows their order (FNV-1a, 32 bits). */
static uint32_t sum_of(const uint8_t *bytes, size_t length)
{
    uint32_t sum = 0x811C9DC5;
    for (size_t i = 0; i < length; i++)
        sum = (sum ^ bytes[i]) * 0x01000193;
    return sum;
}

/* Reads the first sectors of a disk. */
static void read_disk(const struct found *found)
{
    static uint8_t sectors[READ_SECTORS * SECTOR];
    struct disk disk;
    enum usb_status status = disk_open(&host, found, &disk);
    unsigned count = disk.sectors < READ_SECTORS ? disk.sectors : READ_SECTORS;
    uint64_t from = now_us();
    if (status == USB_DONE)
        status = disk_read(&host, &disk, 0, count, sectors);
    if (status != USB_DONE) {
        failed(found, "disk", status);
        return;
    }
    uint64_t us = now_us() - from + 1;
    print("disk ");
    print_path(&found->path);
    print(": %d sectors; sum of %d: %8x; ", disk.sectors, count, sum_of(sectors, (size_t)count * SECTOR));
    print("%d ms, %d bytes a second\n", (unsigned)(us / 1000), (unsigned)((uint64_t)count * SECTOR * 1000000 / us));
}

/* Finds a driver for the device of this number, if there is one. */
static void meet(uint64_t number)
{
    struct all_found all = { .count = 0 };
    struct usb_visitor visitor = { .configuration = collect, .context = &all };
    must(usb_tree(&host, &visitor), "tree");
    for (unsigned i = 0; i < all.count; i++) {
        const struct found *it = &all.found[i];
        if (it->number != number)
            continue;
        if (it->is_disk) {
            read_disk(it);
        } else if (keyboard_count < MOST) {
            enum usb_status status = keyboard_open(&host, it, &keyboards[keyboard_count]);
            if (status == USB_DONE)
                keyboard_count++;
            else
                failed(it, "keyboard", status);
        }
    }
}

static void forget(const struct usb_path *path)
{
    for (unsigned i = 0; i < keyboard_count; i++)
        if (memcmp(&keyboards[i].at.path, path, sizeof *path) == 0)
            keyboards[i--] = keyboards[--keyboard_count];
}

/* Lets the drivers know who left and who arrived. */
static void take_news(void)
{
    struct usb_news it;
    enum usb_status status;
    while ((status = usb_news(&host, &it)) == USB_DONE) {
        print(it.has_arrived ? "arrived " : "left ");
        print_path(&it.path);
        print("\n");
        if (it.has_arrived)
            meet(it.number);
        else
            forget(&it.path);
    }
    if (status != USB_QUIET)
        must(status, "news");
}

static void show_key(const struct keyboard *it, char key)
{
    print("key ");
    print_path(&it->at.path);
    print(" '");
    if (key == '\n')
        print("\\n");
    else
        put(key);
    print("'\n");
}

/* Polls each keyboard as often as it has something to say. */
static void poll_keyboards(void)
{
    for (unsigned i = 0; i < keyboard_count; i++)
        while (keyboard_poll(&host, &keyboards[i], show_key) == USB_DONE)
            ;
}

/* ---- The kernel ---- */

/* Goes on until q is heard. An entry changes in a round alone, so the news come right after it. */
static void run(void)
{
    for (int byte = heard(); byte != 'q'; byte = heard()) {
        enum usb_status status = byte == 's' ? usb_settle(&host) : usb_round(&host);
        if (status != USB_QUIET && status != USB_RESTLESS)
            must(status, "round");
        take_news();
        if (byte == 's')
            show();
        poll_keyboards();
        pause_us(ROUND_US);
    }
}

void main(void)
{
    static const struct usb_options options = { true, USB_DEVICE_BYTES };
    paint_stack();
    if (!uhci_open(&uhci))
        die("no UHCI controller");
    uint64_t began = now_us();
    must(usb_open(&host, &uhci.controller, &options), "open");
    must(usb_settle(&host), "settle");
    print("settled: %d attempts, %d ms\n", uhci.attempts, (unsigned)((now_us() - began) / 1000));
    show();
    run();
    print("%d attempts, %d ms, ", uhci.attempts, (unsigned)((now_us() - began) / 1000));
    print("%d bytes of stack, %d bytes of heap at most\n", (unsigned)stack_used(), (unsigned)heap_most());
    must(usb_close(&host), "close");
    print("closed: %d bytes of heap in use\n", (unsigned)heap_used());
    uhci_close(&uhci);
    leave(heap_used() ? 1 : 0);
}
