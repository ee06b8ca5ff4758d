/* textbook: a simple USB host, for `usbplan far` to judge. It enumerates in the order of the textbooks, serves hubs at
 * root ports and nothing below them but functions, and receives from a bulk endpoint when it is asked to.
 *
 * usage: textbook [late-clear] [left-enabled] [toggle-reset]
 *
 * Without a word it has no fault that is known. Each word is a fault that real stacks had:
 *   late-clear    a port's change is cleared after all that its older status asked for is done
 *   left-enabled  the port of a refused device stays enabled, and the device at address 0
 *   toggle-reset  the host's toggle begins again whatever the request to clear a halt came to
 */
#include "usb_lines.h"

#include <stdio.h>
#include <stdlib.h>
#include <string.h>

enum { CONNECTION = 1, ENABLE = 2, RESET = 16, LOW_SPEED = 0x200 }; /* bits of a port's status and changes */
enum { NO_ANSWER = -1, STALLED = -2, BUSY = -3, MALFORMED = -4 }; /* what is returned in place of a length */
enum { PORTS = 8, NO_PORT = 0 };

enum finding { EMPTY, ACCEPTED, REFUSED };

/* What is at a port: root port R is [R][0], port P of the hub there [R][P]. */
struct place {
    enum finding finding;
    const char *why; /* of REFUSED */
    struct usb_target control; /* endpoint 0 */
    uint8_t device[18], config[256];
    int length; /* of config */
    unsigned hub_ports, supply; /* 0 ports of a function; what each gives, in mA */
    uint8_t status_toggle; /* of a hub's status endpoint */
    uint8_t in_endpoint, in_toggle; /* its first bulk IN, 0 for none */
    bool in_broken;
};

static struct place places[PORTS][PORTS];
static bool taken[128]; /* addresses */
static unsigned roots, listings;
static bool late_clear, left_enabled, toggle_reset;

/* Transfers */

/* An attempt, with up to three tries and 256 NAKs. */
static enum usb_outcome attempt(enum usb_token token, struct usb_target to, struct usb_packet *packet)
{
    struct usb_packet sent = *packet;
    for (int errors = 0, naks = 0; errors < 3 && naks < 256;) {
        *packet = sent;
        enum usb_outcome outcome = usb_attempt(token, to, packet);
        if (outcome == USB_NONE)
            errors++;
        else if (outcome == USB_NAK)
            naks++;
        else
            return outcome;
        if (naks == 256)
            return USB_NAK;
    }
    return USB_NONE;
}

static int failed(enum usb_outcome outcome)
{
    return outcome == USB_STALL ? STALLED : outcome == USB_NAK ? BUSY : NO_ANSWER;
}

/* One packet of an IN endpoint whose toggle is `toggle`, which flips. A repeat is dropped. Returns its length. */
static int read_packet(struct usb_target from, uint8_t *toggle, struct usb_packet *packet)
{
    for (int repeats = 0; repeats < 256; repeats++) {
        enum usb_outcome outcome = attempt(USB_IN, from, packet);
        if (outcome != USB_DATA)
            return failed(outcome);
        if (packet->toggle == *toggle) {
            *toggle ^= 1;
            return packet->size;
        }
    }
    return BUSY;
}

/* A request with its data stage, if it reads, and its status stage. Returns how many bytes came. */
static int request(struct usb_target to, unsigned type, unsigned code, unsigned value, unsigned index, unsigned length,
                   uint8_t *bytes)
{
    struct usb_packet packet = {0, 8, {(uint8_t)type, (uint8_t)code, (uint8_t)value, (uint8_t)(value >> 8),
                                       (uint8_t)index, (uint8_t)(index >> 8), (uint8_t)length, (uint8_t)(length >> 8)}};
    struct usb_packet none = {1, 0, {0}};
    uint8_t toggle = 1;
    unsigned came = 0;
    enum usb_outcome outcome = attempt(USB_SETUP, to, &packet);
    if (outcome != USB_ACK)
        return failed(outcome);
    while (came < length) {
        int size = read_packet(to, &toggle, &packet);
        if (size < 0)
            return size;
        if ((unsigned)size > length - came)
            return MALFORMED;
        memcpy(bytes + came, packet.bytes, (size_t)size);
        came += (unsigned)size;
        if (size < to.most)
            break;
    }
    toggle = 1;
    if (length == 0)
        return read_packet(to, &toggle, &packet) < 0 ? NO_ANSWER : 0;
    outcome = attempt(USB_OUT, to, &none);
    return outcome == USB_ACK ? (int)came : failed(outcome);
}

/* Ports */

/* Sets a feature of a port, or clears it; `port` is NO_PORT at a root port. Returns whether that was done. */
static bool call(unsigned root, unsigned port, bool set, unsigned code, const char *feature)
{
    if (port != NO_PORT)
        return request(places[root][0].control, 0x23, set ? 3 : 1, code, port, 0, NULL) == 0;
    if (set)
        usb_port_set(root, feature);
    else
        usb_port_clear(root, feature);
    return true;
}

static bool status_of(unsigned root, unsigned port, struct usb_port *now)
{
    uint8_t bytes[4];
    *now = usb_port_status(root);
    if (port == NO_PORT)
        return true;
    if (request(places[root][0].control, 0xA3, 0, 0, port, 4, bytes) != 4)
        return false;
    now->status = (uint16_t)(bytes[0] | bytes[1] << 8);
    now->change = (uint16_t)(bytes[2] | bytes[3] << 8);
    return true;
}

/* Enumeration */

static void forget(unsigned root, unsigned port)
{
    struct place *place = &places[root][port];
    for (unsigned below = 1; port == NO_PORT && below < PORTS; below++)
        forget(root, below);
    if (place->finding == ACCEPTED)
        taken[place->control.address] = false;
    *place = (struct place){.finding = EMPTY};
}

/* Finds the first bulk IN endpoint. */
static void find_endpoint(struct place *place)
{
    const uint8_t *item = place->config, *end = item + place->length;
    for (; end - item >= 2 && item[0] >= 2 && item[0] <= end - item; item += item[0])
        if (item[1] == 5 && item[0] >= 7 && (item[3] & 3) == 2 && item[2] & 0x80 && place->in_endpoint == 0)
            place->in_endpoint = item[2] & 15;
}

/* Reads the facts of a hub, and switches its ports on. */
static const char *start_hub(struct place *place)
{
    uint8_t hub[9], status[2];
    if (request(place->control, 0x80, 0, 0, 0, 2, status) != 2)
        return "bad hub";
    if (request(place->control, 0xA0, 6, 0x2900, 0, 9, hub) < 7 || hub[2] < 1 || hub[2] >= PORTS)
        return "bad hub";
    place->hub_ports = hub[2];
    place->supply = status[0] & 1 ? 500 : 100;
    for (unsigned port = 1; port <= place->hub_ports; port++)
        if (request(place->control, 0x23, 3, 8, port, 0, NULL) != 0)
            return "bad hub";
    return NULL;
}

/* Reads the first configuration, and sets it if the port can give its power. */
static const char *configure(struct place *place, unsigned supply)
{
    uint8_t *config = place->config;
    if (request(place->control, 0x80, 6, 0x0200, 0, 9, config) != 9)
        return "silent";
    unsigned total = config[2] | (unsigned)config[3] << 8;
    if (config[1] != 2 || config[5] == 0 || total < 9 || total > sizeof place->config)
        return "bad configuration 0";
    place->length = request(place->control, 0x80, 6, 0x0200, 0, total, config);
    if (place->length != (int)total)
        return "silent";
    if (2u * config[8] > supply)
        return "no power";
    if (request(place->control, 0x00, 9, config[5], 0, 0, NULL) != 0)
        return "silent";
    find_endpoint(place);
    return place->device[4] == 9 ? start_hub(place) : NULL;
}

/* Resets the port and enumerates what is there. Returns why it is refused, or NULL. */
static const char *enumerate(unsigned root, unsigned port)
{
    struct place *place = &places[root][port];
    struct usb_port now;
    uint8_t address = 1;
    call(root, port, true, 4, "PORT_RESET");
    call(root, port, false, 20, "C_PORT_RESET");
    if (!status_of(root, port, &now) || !(now.status & ENABLE))
        return "lost";
    enum usb_speed low = port == NO_PORT ? USB_LOW : USB_LOW_BELOW_HUB;
    place->control = (struct usb_target){now.status & LOW_SPEED ? low : USB_FULL, 0, 0, 8};
    if (request(place->control, 0x80, 6, 0x0100, 0, 8, place->device) != 8)
        return "silent";
    if (place->device[1] != 1 || place->device[7] < 8 || place->device[7] > 64)
        return "bad device";
    place->control.most = place->device[7];
    while (address < 127 && taken[address])
        address++;
    if (request(place->control, 0x00, 5, address, 0, 0, NULL) != 0)
        return "silent";
    place->control.address = address;
    if (request(place->control, 0x80, 6, 0x0100, 0, 18, place->device) != 18)
        return "silent";
    return configure(place, port == NO_PORT ? 500 : places[root][0].supply);
}

static void look(unsigned root, unsigned port)
{
    struct place *place = &places[root][port];
    place->why = enumerate(root, port);
    if (place->why == NULL) {
        place->finding = ACCEPTED;
        taken[place->control.address] = true;
        return;
    }
    *place = (struct place){.finding = REFUSED, .why = place->why};
    if (!left_enabled)
        call(root, port, false, 1, "PORT_ENABLE");
}

/* The hub at a root port gave no answer: it is enumerated again, and all below it. */
static bool look_again(unsigned root)
{
    forget(root, NO_PORT);
    look(root, NO_PORT);
    return true;
}

/* Serves the changes of a port. Returns whether it had one. */
static bool serve(unsigned root, unsigned port)
{
    struct usb_port now;
    if (!status_of(root, port, &now))
        return look_again(root);
    if (!(now.change & CONNECTION)) {
        if (port != NO_PORT && now.change & ENABLE)
            call(root, port, false, 17, "C_PORT_ENABLE");
        if (port != NO_PORT && now.change & RESET)
            call(root, port, false, 20, "C_PORT_RESET");
        return port != NO_PORT && now.change != 0;
    }
    if (!late_clear) {
        call(root, port, false, 16, "C_PORT_CONNECTION");
        if (!status_of(root, port, &now))
            return look_again(root);
    }
    forget(root, port);
    if (now.status & CONNECTION)
        look(root, port);
    if (late_clear)
        call(root, port, false, 16, "C_PORT_CONNECTION");
    return true;
}

/* Asks the hub at a root port for its changes, and serves them. One that gives no answer is enumerated again. Returns
 * whether there was something to do. */
static bool poll(unsigned root)
{
    struct place *hub = &places[root][0];
    struct usb_target status = hub->control;
    struct usb_packet packet = {0, 0, {0}};
    enum usb_outcome outcome = USB_NONE;
    status.endpoint = 1;
    status.most = 1;
    for (int tries = 0; tries < 3 && outcome == USB_NONE; tries++)
        outcome = usb_attempt(USB_IN, status, &packet);
    if (outcome == USB_NONE)
        return look_again(root);
    if (outcome != USB_DATA || packet.size != 1)
        return false;
    if (packet.toggle == hub->status_toggle) {
        hub->status_toggle ^= 1;
        for (unsigned port = 1; port <= hub->hub_ports; port++)
            if (packet.bytes[0] >> port & 1)
                serve(root, port);
    }
    return true;
}

/* What is asked for */

static void list(void)
{
    usb_report("listing %u", ++listings);
    for (unsigned root = 1; root <= roots; root++)
        for (unsigned port = 0; port < PORTS; port++) {
            const struct place *place = &places[root][port];
            char path[4] = {(char)('0' + root), port == NO_PORT ? '\0' : '.', (char)('0' + port), '\0'}, bytes[37];
            for (unsigned i = 0; i < 18; i++)
                snprintf(bytes + 2 * i, 3, "%02X", place->device[i]);
            if (place->finding == ACCEPTED)
                usb_report("%s address %u %s %s", path, place->control.address,
                           place->control.speed == USB_FULL ? "full" : "low", bytes);
            if (place->finding == REFUSED)
                usb_report("%s refused %s", path, place->why);
        }
    usb_report("end");
}

/* Takes up to `count` packets from the first bulk IN endpoint of a device at a root port. */
static void receive(struct place *place, unsigned root, unsigned count)
{
    static char bytes[2 * 64 * 1000 + 1];
    struct usb_packet packet = {0, 0, {0}};
    struct usb_target from = place->control;
    unsigned length = 0;
    from.endpoint = place->in_endpoint;
    from.most = 64;
    if (place->in_endpoint == 0 || place->in_broken) {
        usb_report("receive %u failed %s", root, place->in_broken ? "broken" : "no endpoint");
        return;
    }
    for (int size = 64; count > 0 && size == 64; count--) {
        size = read_packet(from, &place->in_toggle, &packet);
        if (size < 0) {
            place->in_broken = true;
            usb_report("receive %u failed %s", root, size == STALLED ? "stalled" : "no answer");
            return;
        }
        for (int i = 0; i < size; i++)
            length += (unsigned)snprintf(bytes + length, 3, "%02X", packet.bytes[i]);
    }
    bytes[length] = '\0';
    usb_report("receive %u done %s", root, length == 0 ? "-" : bytes);
}

/* Clears the halt of that endpoint, named in the request or 0: both toggles begin again. */
static void clear(struct place *place, unsigned root, unsigned endpoint)
{
    char named[12] = "";
    bool done = place->in_endpoint != 0
        && request(place->control, 0x02, 1, 0, 0x80u | place->in_endpoint, 0, NULL) == 0;
    if (done || toggle_reset)
        place->in_toggle = 0;
    place->in_broken = !done && !toggle_reset;
    if (endpoint != 0)
        snprintf(named, sizeof named, " %02X", endpoint);
    usb_report("clear %u%s %s", root, named, done ? "done" : "failed no answer");
}

static void serve_asked(void)
{
    unsigned root, number = 0;
    if (sscanf(usb_asked(), "receive %u %u", &root, &number) == 2 && root <= roots && number <= 1000)
        receive(&places[root][0], root, number);
    else if (sscanf(usb_asked(), "clear %u %x", &root, &number) >= 1 && root <= roots)
        clear(&places[root][0], root, number);
}

int main(int argc, char **argv)
{
    for (int i = 1; i < argc; i++) {
        late_clear |= strcmp(argv[i], "late-clear") == 0;
        left_enabled |= strcmp(argv[i], "left-enabled") == 0;
        toggle_reset |= strcmp(argv[i], "toggle-reset") == 0;
    }
    roots = usb_begin();
    for (unsigned root = 1; root <= roots; root++) {
        usb_port_clear(root, "PORT_POWER");
        usb_port_set(root, "PORT_POWER");
    }
    for (;;) {
        bool worked = false;
        for (unsigned root = 1; root <= roots; root++) {
            worked |= serve(root, NO_PORT);
            worked |= places[root][0].finding == ACCEPTED && places[root][0].hub_ports > 0 && poll(root);
        }
        enum usb_wanted wanted = worked ? USB_NOTHING : usb_wait();
        if (wanted == USB_ASKED)
            serve_asked();
        if (wanted == USB_SHOW || wanted == USB_END)
            list();
        if (wanted == USB_END)
            return 0;
    }
}
