/* A first driver over the host in C (docs/EMBEDDING.md). The four functions of the hardware are yours. */
#include <stdio.h>
#include <string.h>
#include "usb_host.h"

/* The hardware: an attempt with no retry, as enum usb_came; a port's status; a call at a port; a pause. */
uint8_t mine_attempt(const struct usb_question *asked, uint8_t *toggle, uint8_t data[64], uint8_t *length);
uint32_t mine_status(unsigned port);
void mine_port(unsigned port, bool set, unsigned feature);
void mine_pause_ms(unsigned ms);

struct mine {
    struct usb_controller controller; /* first */
    uint8_t setup[128][8];            /* by address: the last request */
};

static void attempt(struct usb_controller *of, const struct usb_question *q, struct usb_answer *answer)
{
    uint8_t *setup = ((struct mine *)of)->setup[q->address];
    if (q->kind == USB_SETUP)
        memcpy(setup, q->data, 8);
    answer->came = mine_attempt(q, &answer->toggle, answer->data, &answer->length);
    if (q->kind != USB_IN || q->endpoint != 0 || answer->came != USB_DATA || (setup[0] & 0x80))
        return;
    if (setup[0] == 0x00 && setup[1] == 5) /* SET_ADDRESS is done */
        mine_pause_ms(10);
    if (setup[0] == 0x23 && setup[1] == 3 && setup[2] == 4) /* a hub has begun a reset of a port */
        mine_pause_ms(30);
}

static uint32_t status(struct usb_controller *of, unsigned port)
{
    (void)of;
    return mine_status(port);
}

static void port(struct usb_controller *of, unsigned number, bool set, unsigned feature)
{
    (void)of;
    mine_port(number, set, feature); /* of a reset: held for 50 ms, and ended */
    if (set && feature == USB_PORT_RESET)
        mine_pause_ms(10);
}

static void show(void *context, const struct usb_device *it)
{
    char path[USB_PATH_TEXT];
    (void)context;
    usb_path_text(&it->path, path);
    printf("%s: address %d\n", path, it->address);
}

int main(void)
{
    static struct mine mine = { { .roots = 2, .attempt = attempt, .status = status, .port = port }, { { 0 } } };
    static struct usb_host host;
    const struct usb_options options = { .is_wide = true, .device_bytes = USB_DEVICE_BYTES };
    const struct usb_visitor visitor = { .device = show };
    struct usb_news news;
    if (usb_open(&host, &mine.controller, &options) || usb_settle(&host) || usb_tree(&host, &visitor))
        return 1;
    for (;; mine_pause_ms(10)) {
        if (usb_round(&host) > USB_QUIET)
            return 1;
        while (usb_news(&host, &news) == USB_DONE)
            printf("root port %d: a device %s\n", news.path.ports[0], news.has_arrived ? "arrived" : "left");
    }
}
