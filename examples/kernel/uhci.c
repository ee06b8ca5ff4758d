/* A UHCI controller as a struct usb_controller. Each attempt is one transfer descriptor with C_ERR = 1, so there is no
 * retry. A row is a queue of them. */
#include "uhci.h"

#include <string.h>

#include "platform.h"

/* Registers of the controller, from its I/O base on, and their bits. */
enum { USBCMD = 0, USBSTS = 2, USBINTR = 4, FRNUM = 6, FRBASEADD = 8, PORTSC = 16, PORTS_END = 32 };
enum { RUN = 0x01, HCRESET = 0x02, CONFIGURED = 0x40, MAXP = 0x80, HALTED = 0x20, ALL_STATUS = 0x3F };
enum { CCS = 0x0001, CSC = 0x0002, PE = 0x0004, PEC = 0x0008, ALWAYS = 0x0080, LSDA = 0x0100, PR = 0x0200 };

/* A transfer descriptor: the words that the controller reads, and bits of the second, which it writes. */
struct td {
    volatile uint32_t link, status, token, buffer;
};
#define TERMINATE 1u
#define QUEUE_HEAD 2u
#define SAME_FRAME 4u /* of a descriptor's link: the controller goes on with the next one in the same frame */
#define ACTIVE (1u << 23)
#define STALLED (1u << 22)
#define ERRORS (1u << 21 | 1u << 20 | 1u << 18 | 1u << 17) /* data buffer; babble; check or time-out; bit stuffing */
#define NAKED (1u << 19)
#define ONE_TRY (1u << 27)
#define LOW_SPEED (1u << 26)
#define STOPS_AT_SHORT (1u << 29) /* a packet that is not full ends the queue */

enum { SETUP = 0x2D, OUT = 0xE1, IN = 0x69, PAGE = 4096 };
enum { NAK_FRAMES = 33, LAST_FRAME = 1000 }; /* 256 NAKs take eight seconds, and no attempt more than one */
enum { RESET_MS = 50, RECOVERY_MS = 10, HUB_RESET_MS = 30, ADDRESS_MS = 10 };

/* The frame list. Each entry is the anchor, whose link is the queue when there is work. So the controller writes to no
 * word that takes the queue out again. */
static uint32_t frames[PAGE / 4] __attribute__((aligned(4096)));
static volatile uint32_t anchor[4] __attribute__((aligned(16))); /* a queue head: its link, its first descriptor */
static struct {
    volatile uint32_t head[4];
    struct td tds[USB_ROW];
    uint8_t data[USB_ROW * USB_PACKET]; /* of the descriptors, one after the other */
} queue __attribute__((aligned(4096)));

/* Memory has the addresses that it seems to have. */
static uint32_t physical(const volatile void *it) { return (uint32_t)(uintptr_t)it; }

static void pause_ms(uint64_t ms) { pause_us(ms * 1000); }

/* ---- Attempts ---- */

static unsigned frames_since(const struct uhci *it, uint16_t first)
{
    return (unsigned)(inw(it->base + FRNUM) - first) & 0x7FF;
}

/* The first NAK is reported at once. If the same question comes again, the device is asked a frame later each time. */
static unsigned frames_of_naks(const struct uhci *it) { return it->naks + 1 < NAK_FRAMES ? it->naks + 1 : NAK_FRAMES; }

/* Makes descriptors of this number of attempts, of `length` bytes each. The toggles alternate. */
static void fill_queue(const struct usb_question *q, unsigned count, unsigned pid, unsigned length, bool toggle)
{
    for (unsigned i = 0; i < count; i++, toggle = !toggle) {
        struct td *td = &queue.tds[i];
        bool is_last = i + 1 == count;
        td->link = is_last ? TERMINATE : physical(td + 1) | SAME_FRAME;
        td->token = ((length - 1) & 0x7FF) << 21 | (uint32_t)toggle << 19 | (uint32_t)q->endpoint << 15
            | (uint32_t)q->address << 8 | pid;
        td->buffer = physical(queue.data + i * length);
        td->status = ACTIVE | ONE_TRY | (q->flags & USB_LOW ? LOW_SPEED : 0) | (is_last ? 0 : STOPS_AT_SHORT);
    }
}

/* The number of bytes that a descriptor has moved, once it is done. */
static unsigned length_of(uint32_t status) { return (status + 1) & 0x7FF; }

/* Whether a descriptor has moved this number of bytes, so that the controller goes on with the next one. */
static bool is_full(uint32_t status, unsigned length)
{
    return !(status & (ACTIVE | STALLED | ERRORS)) && length_of(status) == length;
}

/* Waits until the queue is done, or goes no further. A descriptor that meets NAK stays ACTIVE, and the controller makes
 * it again in each frame. The queue is given up when `nak_frames` frames have passed since its last packet. Returns the
 * number of full descriptors. */
static unsigned wait_for_queue(const struct uhci *it, unsigned count, unsigned length, unsigned nak_frames)
{
    unsigned moved = 0;
    uint16_t last = inw(it->base + FRNUM);
    while (moved < count) {
        uint32_t status = queue.tds[moved].status;
        unsigned passed = frames_since(it, last);
        if (is_full(status, length)) {
            moved++;
            last = inw(it->base + FRNUM);
        } else if (!(status & ACTIVE) || passed > LAST_FRAME || ((status & NAKED) && passed >= nak_frames)) {
            break;
        } else {
            pause_us(20);
        }
    }
    return moved;
}

/* Takes the queue out of the schedule. Unless it has come to its end, the controller may have it in hand until the next
 * frame begins. */
static void stop_queue(const struct uhci *it)
{
    anchor[0] = TERMINATE;
    __sync_synchronize();
    if (queue.head[1] & TERMINATE)
        return;
    if (inw(it->base + USBSTS) & HALTED)
        die("uhci: the controller has halted");
    for (uint16_t last = inw(it->base + FRNUM); !frames_since(it, last);)
        pause_us(20);
}

/* Makes this number of attempts, or fewer if one moves no full packet. Returns the number that moved one. */
static unsigned make(struct uhci *it, const struct usb_question *q, unsigned count, unsigned pid, unsigned length,
                     bool toggle)
{
    fill_queue(q, count, pid, length, toggle);
    queue.head[1] = physical(&queue.tds[0]);
    __sync_synchronize();
    anchor[0] = physical(&queue) | QUEUE_HEAD;
    unsigned moved = wait_for_queue(it, count, length, frames_of_naks(it));
    stop_queue(it);
    while (moved < count && is_full(queue.tds[moved].status, length)) /* the controller went on meanwhile */
        moved++;
    it->attempts += moved < count ? moved + 1 : moved;
    return moved;
}

/* What a request that has ended means for the toggles, and for the time until the next attempt. */
static void request_done(struct uhci *it, unsigned address)
{
    const uint8_t *setup = it->setup[address];
    if (setup[0] == 0x00 && setup[1] == 9) /* SET_CONFIGURATION */
        it->toggles[address] &= 1;
    else if (setup[0] == 0x02 && setup[1] == 1 && setup[2] == 0 && (setup[4] & 0x80)) /* CLEAR_FEATURE of a halt */
        it->toggles[address] &= (uint16_t) ~(1u << (setup[4] & 15));
    else if (setup[0] == 0x00 && setup[1] == 5) /* SET_ADDRESS */
        pause_ms(ADDRESS_MS);
    else if (setup[0] == 0x23 && setup[1] == 3 && setup[2] == 4) /* SET_FEATURE of PORT_RESET */
        pause_ms(HUB_RESET_MS);
}

/* Takes the data of a descriptor, whose toggle was the one that this controller keeps. */
static void take_data(struct uhci *it, const struct usb_question *q, unsigned place, struct usb_answer *answer)
{
    uint16_t bit = (uint16_t)(1u << q->endpoint);
    answer->came = USB_DATA;
    answer->toggle = (it->toggles[q->address] & bit) != 0;
    answer->length = (uint8_t)length_of(queue.tds[place].status);
    memcpy(answer->data, queue.data + place * q->most, answer->length);
    it->toggles[q->address] ^= bit;
    if (q->endpoint == 0 && !(it->setup[q->address][0] & 0x80)) /* the status stage of a request with no data to read */
        request_done(it, q->address);
}

/* What came of the descriptor at a place in the queue. */
static void take_answer(struct uhci *it, const struct usb_question *q, unsigned place, struct usb_answer *answer)
{
    uint32_t status = queue.tds[place].status;
    if (status & ERRORS) {
        answer->came = USB_NOTHING;
    } else if (status & (ACTIVE | STALLED)) {
        answer->came = status & STALLED ? USB_STALL : status & NAKED ? USB_NAK : USB_NOTHING;
    } else if (q->kind == USB_IN) {
        take_data(it, q, place, answer);
    } else {
        answer->came = USB_ACK;
        if (q->kind == USB_SETUP)
            it->toggles[q->address] |= 1;
    }
    it->naks = answer->came == USB_NAK ? it->naks + 1 : 0;
}

/* Notes the question, since the next one may be the same. */
static void note(struct uhci *it, const struct usb_question *q)
{
    if (memcmp(q, &it->last, sizeof *q) != 0)
        it->naks = 0;
    it->last = *q;
}

static void attempt(struct usb_controller *of, const struct usb_question *q, struct usb_answer *answer)
{
    struct uhci *it = (struct uhci *)of;
    bool is_in = q->kind == USB_IN;
    unsigned pid = q->kind == USB_SETUP ? SETUP : is_in ? IN : OUT;
    bool toggle = is_in ? it->toggles[q->address] >> q->endpoint & 1 : (q->flags & USB_DATA1) != 0;
    note(it, q);
    memcpy(queue.data, q->data, USB_PACKET);
    if (q->kind == USB_SETUP)
        memcpy(it->setup[q->address], q->data, 8);
    make(it, q, 1, pid, is_in ? q->most : q->length, toggle);
    take_answer(it, q, 0, answer);
}

/* Makes a row: one queue. A NAK ends it as soon as a frame is over in which nothing moved; the host then asks again. If
 * the toggle that is due is not the one that this controller keeps, it makes one attempt, with its own. */
static unsigned make_row(struct usb_controller *of, const struct usb_question *q, uint8_t *room,
                         struct usb_answer *last)
{
    struct uhci *it = (struct uhci *)of;
    bool toggle = it->toggles[q->address] >> q->endpoint & 1;
    unsigned count = toggle == ((q->flags & USB_DATA1) != 0) ? q->row : 1;
    struct usb_question one = *q; /* the last attempt of the row */
    one.kind = USB_IN;
    one.flags &= (uint8_t)~USB_DATA1;
    one.row = 0;
    note(it, &one);
    unsigned moved = make(it, &one, count, IN, q->most, toggle), before = moved < count ? moved : count - 1;
    memcpy(room, queue.data, before * q->most);
    if (before % 2)
        it->toggles[q->address] ^= (uint16_t)(1u << q->endpoint);
    if (before)
        it->naks = 0;
    take_answer(it, &one, before, last);
    return before;
}

/* The toggle of an OUT endpoint is in each question. */
static void restart(struct usb_controller *of, unsigned address, unsigned endpoint, bool is_in)
{
    if (is_in)
        ((struct uhci *)of)->toggles[address] &= (uint16_t) ~(1u << endpoint);
}

/* ---- Root ports ---- */

static unsigned port_register(const struct uhci *it, unsigned port)
{
    return inw(it->base + PORTSC + 2 * ((int)port - 1));
}

/* Writes these bits to a port; a change is cleared if its bit is set. */
static void write_port(const struct uhci *it, unsigned port, unsigned bits)
{
    outw((uint16_t)bits, it->base + PORTSC + 2 * ((int)port - 1));
}

static unsigned unchanged(const struct uhci *it, unsigned port)
{
    return port_register(it, port) & ~(unsigned)(CSC | PEC);
}

static uint32_t status(struct usb_controller *of, unsigned port)
{
    const struct uhci *it = (const struct uhci *)of;
    if (!it->has_power[port])
        return 0;
    unsigned now = port_register(it, port);
    uint32_t bits = USB_STATUS_POWER | it->changes[port];
    bits |= (now & CCS ? USB_STATUS_CONNECTION : 0) | (now & PE ? USB_STATUS_ENABLE : 0);
    bits |= (now & CCS) && (now & LSDA) ? USB_STATUS_LOW : 0;
    return bits | (now & CSC ? USB_CHANGED_CONNECTION : 0) | (now & PEC ? USB_CHANGED_ENABLE : 0);
}

static void reset_port(struct uhci *it, unsigned port)
{
    if (!it->has_power[port] || !(port_register(it, port) & CCS))
        return;
    write_port(it, port, unchanged(it, port) | PR);
    pause_ms(RESET_MS);
    if (port_register(it, port) & CSC) /* kept here: the end of the reset may set it too, which is no such change */
        it->changes[port] |= USB_CHANGED_CONNECTION;
    write_port(it, port, unchanged(it, port) & ~(unsigned)PR);
    pause_us(10);
    if (!(port_register(it, port) & CCS))
        return;
    write_port(it, port, port_register(it, port) | CSC | PEC);
    for (int tries = 0; tries < 10 && !(port_register(it, port) & PE); tries++) {
        write_port(it, port, unchanged(it, port) | PE);
        pause_us(10);
    }
    it->changes[port] |= USB_CHANGED_RESET;
    pause_ms(RECOVERY_MS);
}

/* The controller gives each port power at all times. Of a port without it, it only reports nothing. */
static void power_port(struct uhci *it, unsigned port, bool on)
{
    if (on && !it->has_power[port])
        it->changes[port] = port_register(it, port) & CCS ? USB_CHANGED_CONNECTION : 0;
    if (on != it->has_power[port])
        write_port(it, port, (port_register(it, port) | CSC | PEC) & ~(unsigned)PE);
    it->has_power[port] = on;
}

static void clear_change(struct uhci *it, unsigned port, uint32_t change, unsigned bit)
{
    it->changes[port] &= ~change;
    write_port(it, port, unchanged(it, port) | bit);
}

static void call_port(struct usb_controller *of, unsigned port, bool set, unsigned feature)
{
    struct uhci *it = (struct uhci *)of;
    if (feature == USB_PORT_POWER)
        power_port(it, port, set);
    else if (set && feature == USB_PORT_RESET)
        reset_port(it, port);
    else if (!set && feature == USB_PORT_ENABLE)
        write_port(it, port, unchanged(it, port) & ~(unsigned)PE);
    else if (!set && feature == USB_C_PORT_CONNECTION)
        clear_change(it, port, USB_CHANGED_CONNECTION, CSC);
    else if (!set && feature == USB_C_PORT_ENABLE)
        clear_change(it, port, USB_CHANGED_ENABLE, PEC);
    else if (!set && feature == USB_C_PORT_RESET)
        it->changes[port] &= ~USB_CHANGED_RESET;
}

/* ---- The controller ---- */

static unsigned find_controller(void)
{
    for (unsigned device = 0; device < 256; device++)
        if (pci_read(device, 0) != 0xFFFFFFFF && pci_read(device, 8) >> 8 == 0x0C0300)
            return device;
    return 0;
}

static void start(const struct uhci *it)
{
    outw(HCRESET, it->base + USBCMD);
    pause_ms(10);
    if (inw(it->base + USBCMD) & HCRESET)
        die("uhci: the controller is not reset");
    anchor[0] = anchor[1] = queue.head[0] = queue.head[1] = TERMINATE;
    for (int i = 0; i < PAGE / 4; i++)
        frames[i] = physical(anchor) | QUEUE_HEAD;
    outw(0, it->base + USBINTR);
    outw(ALL_STATUS, it->base + USBSTS);
    outw(0, it->base + FRNUM);
    outl(physical(frames), it->base + FRBASEADD);
    outw(RUN | CONFIGURED | MAXP, it->base + USBCMD);
}

/* The number of root ports: bit 7 of each register is always set. */
static unsigned count_ports(const struct uhci *it)
{
    unsigned count = 0;
    while (count < USB_ROOTS && PORTSC + 2 * (int)count < PORTS_END) {
        unsigned now = port_register(it, count + 1);
        if (!(now & ALWAYS) || now == 0xFFFF)
            break;
        count++;
    }
    return count;
}

bool uhci_open(struct uhci *it)
{
    unsigned found = find_controller();
    memset(it, 0, sizeof *it);
    if (!found)
        return false;
    it->base = (int)(pci_read(found, 0x20) & 0xFFE0);
    pci_write(found, 0x04, (pci_read(found, 0x04) & 0xFFFF) | 0x0005); /* I/O space, bus master */
    pci_write(found, 0xC0, 0x8F00);                                    /* no emulation of a keyboard */
    start(it);
    it->controller = (struct usb_controller) { count_ports(it), attempt, status, call_port, restart, make_row };
    return it->controller.roots > 0;
}

void uhci_close(struct uhci *it) { outw(0, it->base + USBCMD); }
