/* The host in C before a tree of devices that lie as large as they can, on a heap of the size that docs/EMBEDDING.md
 * states for them: no call may find that there is no memory.
 *
 * usage: full_heap [BYTES [DEVICES [CONFIGURATIONS [PACKET]]]]
 *
 * Each of DEVICES (127, at least 8) has CONFIGURATIONS (see `shape`), which together have BYTES (8,192) to the byte. It
 * has three strings of 126 UTF-16 units. The maximum packet of its endpoint 0 is PACKET (64). Eight of them are hubs of
 * 15 ports. They are plugged in one by one, and the tree is listed twice after each.
 *
 * Then, if BYTES are enough for 255 configurations, other hosts have the eight hubs, and a hostile device comes. One
 * says that each of its 255 configurations has 65,535 bytes, and must be refused as too large. One answers NAK 255
 * times before each packet, and one gives each packet 255 times. The device that comes after a hostile one must be
 * listed. Status 0: all was so.
 */
#include <stdio.h>
#include <stdlib.h>
#include <string.h>

#include "heap.h"
#include "usb_host.h"

#define MUST(fact)                                                                                                     \
    do {                                                                                                               \
        if (!(fact)) {                                                                                                 \
            printf("%s:%d: not so: %s\n", __FILE__, __LINE__, #fact);                                                  \
            exit(1);                                                                                                   \
        }                                                                                                              \
    } while (0)

enum { MOST = 127, HUBS = 8, PORTS = 15, ROOTS = USB_ROOTS, ANY = 256, LONGEST = 65535 };
enum { CHANGED_CONNECTION = 1, CHANGED_RESET = 0x10 };

/* ---- The size of the heap (docs/EMBEDDING.md) ---- */

enum { FIXED = 32 * 1024, OF_DEVICE = 48 * 1024, COPIES = 9, OF_ATTEMPT = 400 };

/* A heap that is enough for this number of listed devices, of bytes of each, and of attempts in a call. */
static size_t heap_for(size_t bytes, size_t devices, size_t attempts_of_call)
{
    return FIXED + devices * (COPIES * bytes + OF_DEVICE) + attempts_of_call * OF_ATTEMPT;
}

static unsigned packet = 64;
static size_t bytes = USB_DEVICE_BYTES;

/* The most attempts of a call in which one device is new: those of two addresses, 0 and its own. */
static size_t attempts_stated(void) { return 2 * (USB_TRIES + bytes / 8); }

/* ---- The devices ----
 *
 * Device 0 to 6 are hubs at the root ports. Device 7 is a hub at port 1 of device 0. The others fill the ports of the
 * hubs. */

struct port {
    uint16_t status, change;
};

enum kind { HONEST, LYING, LATE, REPEATING };

static struct device {
    bool is_plugged;
    enum kind kind;
    unsigned turns; /* of INs of endpoint 0 */
    uint8_t address, setup[8], toggles;
    unsigned count; /* of configurations */
    struct port ports[PORTS + 1];
} devices[MOST];

static struct port roots[ROOTS + 1];
static unsigned long attempts, attempts_of_call, most_of_call;

/* What the device in question still has to give. Only one request is under way at a time. */
static uint8_t text[LONGEST + 255];
static size_t text_at, text_end;

static bool is_hub(unsigned device) { return device < HUBS; }

/* The port that a device is plugged in. */
static struct port *port_of(unsigned device)
{
    if (device < ROOTS)
        return &roots[device + 1];
    return &devices[(device - ROOTS) / PORTS].ports[(device - ROOTS) % PORTS + 1];
}

/* The device that is plugged in a port of a hub, or NULL. */
static struct device *below(unsigned hub, unsigned port)
{
    unsigned at = ROOTS + hub * PORTS + port - 1;
    return at < MOST && devices[at].is_plugged ? &devices[at] : NULL;
}

/* How many configurations a device has, if the words do not say so: most have one, and one in 16 has 255. */
static unsigned shape(unsigned device) { return device % 16 == 15 ? 255 : 1; }

/* ---- What a device says ---- */

static void put_text(const uint8_t *from, size_t length)
{
    memcpy(text + text_end, from, length);
    text_end += length;
}

static void put_descriptor(unsigned device)
{
    const uint8_t its[18] = { 18, 1, 0, 2, is_hub(device) ? 9 : 0xFF, 0, 0, (uint8_t)packet, 0x34, 0x12, 0x78,
                              0x56, 0, 1, 1, 2, 3, (uint8_t)devices[device].count };
    put_text(its, sizeof its);
}

/* The length of a configuration: all of them have the bytes together. */
static size_t length_of(const struct device *it, unsigned index)
{
    return it->kind == LYING ? LONGEST : bytes / it->count + (index < bytes % it->count);
}

static void put_configuration(unsigned device, unsigned index)
{
    static const uint8_t of_hub[16] = { 9, 4, 0, 0, 1, 9, 0, 0, 0, 7, 5, 0x81, 3, 2, 0, 255 };
    static const uint8_t of_function[16] = { 9, 4, 0, 0, 1, 0xFF, 0, 0, 0, 7, 5, 0x81, 2, 64, 0, 0 };
    size_t length = length_of(&devices[device], index);
    const uint8_t head[9] = { 9, 2, (uint8_t)length, (uint8_t)(length >> 8), 1, (uint8_t)(index + 1), 0, 0xC0, 0 };
    put_text(head, sizeof head);
    if (length >= 25)
        put_text(is_hub(device) ? of_hub : of_function, 16);
    while (text_end < length) { /* items of a type that nobody knows */
        size_t left = length - text_end, now = left < 255 ? left : left == 256 ? 254 : 255;
        text[text_end] = (uint8_t)now;
        text[text_end + 1] = 0x24;
        memset(text + text_end + 2, 0x5A, now - 2);
        text_end += now;
    }
}

static void put_string(unsigned index)
{
    static const uint8_t languages[4] = { 4, 3, 9, 4 };
    if (index == 0) {
        put_text(languages, sizeof languages);
        return;
    }
    memset(text, 'x', 254);
    text[0] = 254;
    text[1] = 3;
    text_end = 254;
}

static void put_port(const struct port *it)
{
    const uint8_t its[4] = { (uint8_t)it->status, (uint8_t)(it->status >> 8), (uint8_t)it->change,
                             (uint8_t)(it->change >> 8) };
    put_text(its, sizeof its);
}

/* Answers a request for data. */
static void begin_text(unsigned device, const uint8_t *setup)
{
    static const uint8_t hub[11] = { 11, 0x29, PORTS, 0, 0, 1, 0, 0, 0, 0xFF, 0xFF };
    static const uint8_t statuses[4] = { 1, 0, 0, 0 };
    text_at = text_end = 0;
    if (setup[1] == 6 && (setup[0] & 0x20))
        put_text(hub, sizeof hub);
    else if (setup[1] == 6 && setup[3] == 1)
        put_descriptor(device);
    else if (setup[1] == 6 && setup[3] == 2)
        put_configuration(device, setup[2]);
    else if (setup[1] == 6)
        put_string(setup[2]);
    else if (setup[0] == 0xA3)
        put_port(&devices[device].ports[setup[4]]);
    else
        put_text(statuses + (setup[0] == 0xA0), 2);
    size_t asked = setup[6] | (size_t)setup[7] << 8;
    text_end = text_end < asked ? text_end : asked;
}

/* Sets a feature of a port, or clears it. */
static void change_port(struct port *it, struct device *there, bool set, unsigned feature)
{
    if (feature >= 16) {
        it->change &= (uint16_t) ~(1u << (feature - 16));
    } else if (feature == USB_PORT_POWER) {
        it->status = set ? 0x100 : 0;
        if (set && there) {
            it->status |= 1;
            it->change |= CHANGED_CONNECTION;
        }
    } else if (set && feature == USB_PORT_RESET && there) {
        it->status |= 2;
        it->change |= CHANGED_RESET;
        there->address = 0;
    } else if (!set && feature == USB_PORT_ENABLE) {
        it->status &= (uint16_t)~2u;
    }
}

/* Does what a request without data for the host does when it ends. */
static void end_request(unsigned device)
{
    struct device *it = &devices[device];
    const uint8_t *setup = it->setup;
    if (setup[0] == 0 && setup[1] == 5)
        it->address = setup[2];
    else if (setup[0] == 0 && setup[1] == 9)
        it->toggles = 1;
    else if (setup[0] == 0x23 && setup[4] >= 1 && setup[4] <= PORTS)
        change_port(&it->ports[setup[4]], below(device, setup[4]), setup[1] == 3, setup[2]);
}

/* ---- The controller ---- */

static void give(struct device *it, const struct usb_question *q, struct usb_answer *answer, size_t length)
{
    answer->came = USB_DATA;
    answer->toggle = it->toggles >> (q->endpoint ? 1 : 0) & 1;
    answer->length = (uint8_t)length;
    it->toggles ^= q->endpoint ? 2 : 1;
}

static void answer_in(unsigned device, const struct usb_question *q, struct usb_answer *answer)
{
    struct device *it = &devices[device];
    unsigned changes = 0;
    if (q->endpoint == 0 && it->kind >= LATE && ++it->turns % 256) {
        answer->came = it->kind == LATE ? USB_NAK : USB_DATA;
        answer->toggle = !(it->toggles & 1);
    } else if (q->endpoint == 0 && !(it->setup[0] & 0x80)) {
        give(it, q, answer, 0);
        end_request(device);
    } else if (q->endpoint == 0) {
        size_t left = text_end - text_at, length = left < q->most ? left : q->most;
        memcpy(answer->data, text + text_at, length);
        text_at += length;
        give(it, q, answer, length);
    } else {
        for (unsigned port = 1; port <= PORTS; port++)
            changes |= it->ports[port].change ? 1u << port : 0;
        answer->came = USB_NAK;
        answer->data[0] = (uint8_t)changes;
        answer->data[1] = (uint8_t)(changes >> 8);
        if (changes)
            give(it, q, answer, 2);
    }
}

static void attempt(struct usb_controller *of, const struct usb_question *q, struct usb_answer *answer)
{
    unsigned device = 0;
    (void)of;
    attempts++;
    attempts_of_call++;
    while (device < MOST && !(devices[device].is_plugged && devices[device].address == q->address
                              && (port_of(device)->status & 2)))
        device++;
    if (device == MOST)
        return;
    answer->came = USB_ACK;
    if (q->kind == USB_SETUP) {
        memcpy(devices[device].setup, q->data, 8);
        devices[device].toggles |= 1;
        if (q->data[0] & 0x80)
            begin_text(device, q->data);
    } else if (q->kind == USB_IN) {
        answer->came = USB_NOTHING;
        answer_in(device, q, answer);
    }
}

static uint32_t status(struct usb_controller *of, unsigned port)
{
    (void)of;
    return roots[port].status | (uint32_t)roots[port].change << 16;
}

static void call_port(struct usb_controller *of, unsigned port, bool set, unsigned feature)
{
    (void)of;
    change_port(&roots[port], devices[port - 1].is_plugged ? &devices[port - 1] : NULL, set, feature);
}

/* ---- The trial ---- */

static struct usb_host host;

struct seen {
    unsigned devices, refused;
    size_t bytes, units;
    enum usb_cause cause;
};

static void see_device(void *context, const struct usb_device *it)
{
    (void)it;
    ((struct seen *)context)->devices++;
}

static void see_configuration(void *context, const struct usb_device *it, unsigned index, const uint8_t *from,
                              size_t length)
{
    (void)it;
    (void)index;
    MUST(from[0] == 9 && length >= 9);
    ((struct seen *)context)->bytes += length;
}

static void see_text(void *context, const struct usb_device *it, enum usb_text which, const uint8_t *utf16le,
                     size_t length)
{
    (void)it;
    (void)which;
    (void)utf16le;
    ((struct seen *)context)->units += length / 2;
}

static void see_refused(void *context, const struct usb_refused *it)
{
    struct seen *seen = context;
    seen->refused++;
    seen->cause = it->cause;
}

static struct seen list(void)
{
    struct seen seen = { 0 };
    const struct usb_visitor visitor = { see_device, see_configuration, see_text, see_refused, &seen };
    MUST(usb_tree(&host, &visitor) == USB_DONE);
    return seen;
}

/* Makes rounds until one is quiet. */
static void settle(void)
{
    enum usb_status now;
    do {
        attempts_of_call = 0;
        now = usb_round(&host);
        most_of_call = attempts_of_call > most_of_call ? attempts_of_call : most_of_call;
        if (now > USB_QUIET)
            printf("%s, with %zu bytes in use, %zu at most\n", usb_status_text(now), heap_bytes, heap_most);
        MUST(now <= USB_QUIET);
    } while (now == USB_DONE);
}

static void plug(unsigned device, unsigned configurations)
{
    devices[device].is_plugged = true;
    devices[device].count = configurations == ANY ? shape(device) : configurations;
    if (port_of(device)->status & 0x100) {
        port_of(device)->status |= 1;
        port_of(device)->change |= CHANGED_CONNECTION;
    }
    settle();
}

static struct usb_controller controller = { ROOTS, attempt, status, call_port, NULL, NULL };

/* Opens a host on the heap that is enough for this number of devices. */
static void open_host(unsigned count)
{
    const struct usb_options options = { true, (uint32_t)bytes };
    memset(devices, 0, sizeof devices);
    memset(roots, 0, sizeof roots);
    heap_limit = heap_for(bytes, count, attempts_stated());
    attempts = most_of_call = 0;
    MUST(usb_open(&host, &controller, &options) == USB_DONE);
}

static void close_host(void)
{
    MUST(most_of_call <= attempts_stated());
    MUST(usb_close(&host) == USB_DONE && heap_blocks == 0);
}

/* A tree of this number of devices. */
static void check_tree(unsigned count, unsigned configurations)
{
    open_host(count);
    heap_most = heap_bytes;
    for (unsigned device = 0; device < count; device++) {
        plug(device, configurations);
        struct seen seen = list();
        MUST(seen.devices == device + 1 && seen.refused == 0 && seen.bytes == bytes * seen.devices);
        MUST(seen.units == 3 * 126 * seen.devices && list().devices == seen.devices);
    }
    printf("%u devices of %zu bytes, %lu attempts, at most %lu a call: %zu bytes of heap at most of %zu, %zu kept\n",
           count, bytes, attempts, most_of_call, heap_most, heap_limit, heap_bytes);
    close_host();
}

/* A hostile device is refused, and the one that is plugged in after it is listed. */
static void check_hostile(enum kind kind, enum usb_cause cause)
{
    struct usb_news news;
    unsigned arrived = 0;
    open_host(HUBS + 2);
    heap_most = heap_bytes;
    for (unsigned device = 0; device < HUBS; device++)
        plug(device, 1);
    devices[HUBS].kind = kind;
    plug(HUBS, 255);
    plug(HUBS + 1, 1);
    struct seen seen = list();
    printf("a hostile device: %s; at most %lu attempts a call, %zu bytes of heap at most of %zu\n",
           usb_cause_text(seen.cause), most_of_call, heap_most, heap_limit);
    MUST(seen.devices == HUBS + 1 && seen.refused == 1 && seen.cause == cause);
    while (usb_news(&host, &news) == USB_DONE)
        arrived += news.has_arrived;
    MUST(arrived == HUBS + 1);
    close_host();
}

int main(int words, char **word)
{
    bytes = words > 1 ? (size_t)atol(word[1]) : bytes;
    unsigned count = words > 2 ? (unsigned)atoi(word[2]) : MOST;
    unsigned configurations = words > 3 ? (unsigned)atoi(word[3]) : ANY;
    packet = words > 4 ? (unsigned)atoi(word[4]) : packet;
    MUST(count >= HUBS && count <= MOST && configurations >= 1);
    MUST(bytes / (configurations == ANY ? 255 : configurations) >= 27); /* so that items fill each of them */
    check_tree(count, configurations);
    if (bytes / 255 >= 27) {
        check_hostile(LYING, USB_CAUSE_TOO_LARGE);
        check_hostile(LATE, USB_CAUSE_SILENT);
        check_hostile(REPEATING, USB_CAUSE_SILENT);
    }
    return 0;
}
