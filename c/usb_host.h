/* A USB 2.0 host for full and low speed, for programs in C.
 *
 * What the host decides is proved code: the archive libusb_handle.a, which tools/c_library makes. usb_host.c turns the
 * calls below into that archive's records. docs/EMBEDDING.md says what is proved, what is assumed, and how to write a
 * driver for a controller.
 *
 * A program that may block writes a `struct usb_controller`: three functions, a fourth if it chooses interface
 * settings, and a fifth if it makes rows of packets. It then calls usb_open, usb_settle, usb_tree and the transfers.
 * Each call returns when it is done.
 *
 * A program that must not block calls usb_start and usb_begin. It takes each question by usb_asked, and answers by
 * usb_answer when it can, from an interrupt or a loop of its own. When nothing is asked, usb_done has the result.
 *
 * Rules of all calls:
 *
 * - One call at a time for one host, from one place: not from a signal handler, and not from a function that the host
 *   calls. Different hosts have nothing in common, and a program may have any number.
 * - A `struct usb_host` may be moved between two calls, and is never copied. Only this library reads or writes it.
 * - A pointer that a call takes needs to be good until the call returns. What it points to stays the caller's.
 * - A call needs at most USB_STACK bytes of stack, and the three functions of heap.c. It keeps no state elsewhere.
 * - USB_NO_MEMORY never harms a host. Make the same call again, with the same arguments, and it goes on where it was:
 *   no attempt is made twice. Until it is done, any other call but usb_close returns USB_OUT_OF_TURN.
 * - Time is the controller's: the host has no clock, and the controller makes all waits.
 */
#ifndef USB_HOST_H
#define USB_HOST_H

#include <stdbool.h>
#include <stddef.h>
#include <stdint.h>

#ifdef __cplusplus
extern "C" {
#endif

enum {
    USB_ROOTS = 7,         /* the most root ports */
    USB_DEPTH = 7,         /* the most port numbers in a path */
    USB_PACKET = 64,       /* the most bytes in a packet */
    USB_ROW = 64,          /* the most packets in a row */
    USB_ROUNDS = 256,      /* the most rounds of usb_settle */
    USB_TRIES = 4096,      /* see usb_open */
    USB_STACK = 128 * 1024 /* enough stack for any call, in bytes: twice what was measured */
};

/* What a call returns. */
enum usb_status {
    USB_DONE = 0,          /* it is done */
    USB_QUIET = 1,         /* it is done, and there was nothing: no work for a round, no packet, no news, no question */
    USB_NO_DEVICE = 2,     /* no accepted device is at the path */
    USB_NO_ENDPOINT = 3,   /* the device is a hub, or has no such endpoint */
    USB_STALLED = 4,       /* the endpoint returned STALL, or the device refused the request */
    USB_BUSY = 5,          /* it returned NAK too often */
    USB_NO_ANSWER = 6,     /* three errors in a row */
    USB_BROKEN = 7,        /* the endpoint must be cleared first, or its interface set */
    USB_RESERVED = 8,      /* only the host may send this request */
    USB_NO_PORT = 9,       /* no root port has this number, and no listed hub has such a port */
    USB_NO_INTERFACE = 10, /* the device is a hub, or has no such interface and setting */
    USB_NO_MEMORY = 40,    /* the heap had no memory: see above */
    USB_OUT_OF_TURN = 41,  /* a call is under way, or nothing was asked */
    USB_UNKNOWN = 42,      /* no call or answer has this number */
    USB_WRONG_LENGTH = 43, /* a length does not fit */
    USB_TOO_MUCH = 44,     /* the data are longer than the maximum of the question */
    USB_BAD_ROOTS = 45,    /* the number of root ports is not 1 to 7 */
    USB_BAD_VALUE = 46,    /* no such path, endpoint or direction, or a field that is not used is not 0 */
    USB_CLOSED = 47,       /* the host is closed */
    USB_NO_ROOM = 64,      /* more bytes came than there is room for (this status and the next are usb_host.c's own) */
    USB_RESTLESS = 65      /* USB_ROUNDS rounds in a row had work to do */
};

/* The name of a status, in English: constant, and "?" for any other number. */
const char *usb_status_text(enum usb_status status);

/* A place in the tree: the number of the root port, then that of a port of each hub on the way. */
struct usb_path {
    uint8_t length;           /* 1 to USB_DEPTH; 0 is no path */
    uint8_t ports[USB_DEPTH]; /* zeros after the last number */
};

/* The path that a text such as "1.12.3" spells. Its length is 0 if the text spells none: each call then returns
 * USB_BAD_VALUE. */
struct usb_path usb_path_of(const char *text);

/* Writes the text of a path, with a zero at its end. Returns its length without the zero. */
enum { USB_PATH_TEXT = 4 * USB_DEPTH };
size_t usb_path_text(const struct usb_path *path, char text[USB_PATH_TEXT]);

/* ---- The controller ---- */

/* What the host asks: one transaction attempt (8.5) with no retry, one call at a root port (11.24.2), or a row. */
enum usb_kind {
    USB_SETUP = 1,
    USB_OUT = 2,
    USB_IN = 3,
    USB_PORT_SET = 4,
    USB_PORT_CLEAR = 5,
    USB_RESTART = 6, /* an endpoint begins again at DATA0, by SET_INTERFACE (9.1.1.5) */
    USB_INS = 7      /* a row: INs of one endpoint, one after the other */
};
enum usb_flag {
    USB_LOW = 1,  /* the device has low speed */
    USB_PRE = 2,  /* the host's packets go with PRE before them: low speed below a hub (8.6.5) */
    USB_DATA1 = 4 /* of SETUP and OUT: the data go as DATA1, else as DATA0; of a row: its first packet is DATA1 */
};
struct usb_question {
    uint8_t kind;     /* of enum usb_kind */
    uint8_t address;  /* the device's, 0 to 127; of a call at a root port the port's number, from 1 */
    uint8_t endpoint; /* its number, 0 to 15; of a root port the feature; of USB_RESTART its address, bit 7 for IN */
    uint8_t flags;    /* of enum usb_flag */
    uint8_t most;     /* of IN and a row: the most bytes in a packet that may come, the endpoint's maximum packet */
    uint8_t length;   /* of SETUP and OUT: the number of bytes that go out, 0 to 64 */
    uint8_t row;      /* of a row: the most packets, 1 to USB_ROW */
    uint8_t unused[1];
    uint8_t data[USB_PACKET]; /* those bytes */
};

/* Features of a root port (table 11-17). The host sets the first two and clears all but USB_PORT_RESET. */
enum usb_feature {
    USB_PORT_POWER = 8,
    USB_PORT_RESET = 4,
    USB_PORT_ENABLE = 1,
    USB_C_PORT_CONNECTION = 16,
    USB_C_PORT_ENABLE = 17,
    USB_C_PORT_RESET = 20
};

/* Bits of a root port's status: wPortStatus, and wPortChange from bit 16 (tables 11-21 and 11-22). */
#define USB_STATUS_CONNECTION UINT32_C(0x00000001)
#define USB_STATUS_ENABLE UINT32_C(0x00000002)
#define USB_STATUS_RESET UINT32_C(0x00000010)
#define USB_STATUS_POWER UINT32_C(0x00000100)
#define USB_STATUS_LOW UINT32_C(0x00000200)
#define USB_CHANGED_CONNECTION UINT32_C(0x00010000)
#define USB_CHANGED_ENABLE UINT32_C(0x00020000)
#define USB_CHANGED_RESET UINT32_C(0x00100000)

/* What came of an attempt. After a call at a root port, or a restart, it is not read. */
enum usb_came {
    USB_NOTHING = 0, /* no good answer: none in time, a wrong check, or more bytes than the maximum */
    USB_ACK = 1,
    USB_NAK = 2,
    USB_STALL = 3,
    USB_DATA = 4 /* good data, which the controller has acknowledged */
};
struct usb_answer {
    uint8_t came;   /* of enum usb_came */
    uint8_t toggle; /* of data: 0 for DATA0, 1 for DATA1 */
    uint8_t length; /* of data: the number of bytes, 0 to the maximum of the question */
    uint8_t data[USB_PACKET];
};

/* A controller: what its driver provides. A driver puts this struct first into a struct of its own. */
struct usb_controller {
    unsigned roots; /* the number of root ports, 1 to 7 */

    /* Makes one attempt, a USB_SETUP, USB_OUT or USB_IN, and sets came, toggle, length and data. The answer is
     * USB_NOTHING when the function is called. It also makes the waits after SET_ADDRESS and a hub's PORT_RESET. */
    void (*attempt)(struct usb_controller *, const struct usb_question *, struct usb_answer *);

    /* Returns the status of a root port, 1 to roots. */
    uint32_t (*status)(struct usb_controller *, unsigned port);

    /* Sets or clears a feature of a root port. A reset has ended, and has had its 10 ms, when this returns. */
    void (*port)(struct usb_controller *, unsigned port, bool set, unsigned feature);

    /* An endpoint, 1 to 15, begins again at DATA0. Only a driver that keeps toggles itself needs it, and only if
     * usb_set_interface is called; else it may be NULL. */
    void (*restart)(struct usb_controller *, unsigned address, unsigned endpoint, bool is_in);

    /* Makes a row, a USB_INS: INs of one endpoint, at least one, and at most question->row. A controller with a queue
     * makes one queue of them. The toggles of the packets alternate, from that of the question on.
     *
     * The row ends after an attempt that brings no full packet (`most` bytes) of the toggle that is due. The driver may
     * also end it after any other attempt. `last` gets what came of the last attempt, as of `attempt`. `room` gets the
     * bytes of the full packets before that one, in order. Returns the number of packets in `room`, which is less than
     * question->row. The room has (USB_ROW - 1) * USB_PACKET bytes.
     *
     * If it is NULL, `attempt` is called in its place, and each row has one packet. */
    unsigned (*ins)(struct usb_controller *, const struct usb_question *, uint8_t *room, struct usb_answer *last);
};

/* ---- A host ---- */

/* The archive's own part of a host. */
struct usb_handle {
    void *at;
    bool is_live;
};
struct usb_host {
    struct usb_handle handle;
    struct usb_controller *controller; /* NULL: the caller answers */
    struct usb_answer kept;            /* an answer that found no memory */
    uint8_t *row;                      /* room for the packets of a row before its last one; NULL: there are no rows */
    size_t kept_length;                /* the number of bytes in it that the kept answer has */
    uint32_t device_bytes;             /* of the options */
    uint64_t most_attempts;            /* to one address in the call that is under way */
    uint32_t attempts[128];            /* those that were made, by address */
    uint8_t begun[24];                 /* the call that is under way */
    bool is_kept, is_begun;
};

/* What a host takes. A NULL pointer to options is { false, USB_DEVICE_BYTES }. */
struct usb_options {
    bool is_wide;          /* also hubs of 8 to 15 ports, and hubs whose status endpoint is not number 1 */
    uint32_t device_bytes; /* the most bytes of all configurations of a device together; USB_ANY_BYTES is no limit */
};
enum { USB_DEVICE_BYTES = 8192 };
#define USB_ANY_BYTES UINT32_MAX

/* Begins a host at a controller, which stays the caller's and must outlive it. The host switches the power of each root
 * port off and on, so a boot loader's host may have had the controller before.
 *
 * A device whose configurations say that they have more bytes than the options allow is refused as too large. Nor may a
 * device fill the heap with NAKs: in one call a device gets at most USB_TRIES attempts, and one for each 8 bytes that
 * the options allow and that the call may move. After them the controller is not asked, and the host hears USB_NOTHING.
 * docs/EMBEDDING.md has the size of a heap that is then enough. With USB_ANY_BYTES there is neither limit.
 *
 * The struct is overwritten: close a host before it is opened again. Returns USB_DONE, USB_BAD_ROOTS or USB_NO_MEMORY.
 * After the last two the host is closed, and holds no memory. */
enum usb_status usb_open(struct usb_host *host, struct usb_controller *controller, const struct usb_options *options);

/* Closes a host at any time, also in the middle of a call, and frees all its memory. Returns USB_DONE, or USB_CLOSED if
 * it was closed. Devices keep their addresses until another host is opened. */
enum usb_status usb_close(struct usb_host *host);

/* ---- Calls of a host with a controller ----
 *
 * Each call returns when it is done. Apart from what its comment says, these may come:
 *
 * - of each call, USB_NO_MEMORY, USB_CLOSED, and USB_OUT_OF_TURN: another call found no memory and is not done, or the
 *   host has no controller;
 * - of each one with a path, USB_BAD_VALUE;
 * - of each transfer, USB_NO_DEVICE, USB_NO_ENDPOINT and USB_BROKEN, after no attempt, and USB_STALLED, USB_BUSY and
 *   USB_NO_ANSWER. */

/* Makes one round over the root ports and the listed hubs: each port that reports a change is handled. USB_DONE:
 * something was done. USB_QUIET: there was nothing to do, and all is as it was. A round asks each listed hub once. */
enum usb_status usb_round(struct usb_host *host);

/* Makes rounds until one is quiet. USB_RESTLESS: USB_ROUNDS rounds in a row had work to do, as happens with a broken
 * port. */
enum usb_status usb_settle(struct usb_host *host);

/* Why a device is refused. */
enum usb_cause {
    USB_CAUSE_NONE = 0,
    USB_CAUSE_SILENT = 1,            /* it gave no answer */
    USB_CAUSE_BUSY = 2,              /* it returned NAK too often */
    USB_CAUSE_STALLED = 3,           /* it refused a request: `of` is of enum usb_request */
    USB_CAUSE_BAD_DEVICE = 4,        /* its device descriptor is malformed */
    USB_CAUSE_TOO_DEEP = 5,          /* it is a hub in the seventh tier */
    USB_CAUSE_BAD_CONFIGURATION = 6, /* the configuration with index `of` is malformed, or repeats a value */
    USB_CAUSE_NO_POWER = 7,          /* no configuration needs as little power as the port gives */
    USB_CAUSE_BAD_HUB = 8,           /* it is a hub that the host does not take */
    USB_CAUSE_LOST = 9,              /* its port was not enabled by the reset */
    USB_CAUSE_NO_ADDRESS = 10,       /* no address was free */
    USB_CAUSE_TOO_LARGE = 11         /* its configurations say that they have more bytes than the host takes */
};
enum usb_request { USB_GET_DEVICE, USB_SET_ADDRESS, USB_GET_CONFIGURATION, USB_SET_CONFIGURATION };

/* The name of a cause, in English: constant, and "?" for any other number. */
const char *usb_cause_text(enum usb_cause cause);

/* A device that is configured. */
struct usb_device {
    struct usb_path path;
    uint64_t number;        /* this host gives no other device the same one */
    uint8_t address;        /* 1 to 127 */
    bool is_low;            /* low speed */
    uint8_t chosen;         /* the index of the configuration that it has */
    uint8_t ports;          /* of a hub; 0 of any other device */
    uint8_t descriptor[18]; /* its device descriptor (9.6.1) */
};

/* A device that is refused. */
struct usb_refused {
    struct usb_path path;
    enum usb_cause cause;
    uint8_t of;          /* what the cause names, else 0 */
    uint8_t said_length; /* the number of bytes of its device descriptor that came, 0 to 18 */
    uint8_t said[18];
};

enum usb_text { USB_MANUFACTURER, USB_PRODUCT, USB_SERIAL_NUMBER };

/* What usb_tree calls. Any member may be NULL. What is pointed to is good until the function returns. None may call the
 * host. */
struct usb_visitor {
    void (*device)(void *context, const struct usb_device *);
    /* Each configuration of that device, by its index: the bytes are whole and well formed (9.6.3). */
    void (*configuration)(void *context, const struct usb_device *, unsigned index, const uint8_t *bytes,
                          size_t length);
    /* Each string that it has: `length` bytes, two for each UTF-16 unit, low byte first (9.6.7). */
    void (*text)(void *context, const struct usb_device *, enum usb_text, const uint8_t *utf16le, size_t length);
    void (*refused)(void *context, const struct usb_refused *);
    void *context;
};

/* Visits what is known of each port, by rising path, and makes no attempt. The heap has room for the listing, and for
 * the longest configuration once more. After USB_NO_MEMORY nobody was visited. */
enum usb_status usb_tree(struct usb_host *host, const struct usb_visitor *visitor);

/* A device that left, or that was accepted. */
struct usb_news {
    bool has_arrived;
    struct usb_path path;
    uint64_t number; /* of a device that arrived */
};

/* Takes the next change of the accepted devices, hubs too, that was not taken yet: first those that left, then those
 * that arrived, each by rising path. USB_QUIET: there is none. It makes no attempt. A device that was enumerated again
 * left and arrived; one that came and left in between is not reported. */
enum usb_status usb_news(struct usb_host *host, struct usb_news *news);

/* What a look finds. */
enum usb_found { USB_EMPTY, USB_ACCEPTED, USB_REFUSED };
struct usb_look {
    enum usb_found found;
    enum usb_cause cause; /* of USB_REFUSED */
    uint8_t of;           /* what the cause names, else 0 */
};

/* Enumerates the port at a path again, as if its connection had changed: rescans a port, resets a device, tries a
 * refused one again. USB_NO_PORT: there is no such port. */
enum usb_status usb_look(struct usb_host *host, struct usb_path path, struct usb_look *look);

/* Sends bytes to the first bulk OUT endpoint of a device, in packets of its maximum; none for no bytes. After a fault
 * the device may have taken a prefix. The heap has room for the bytes. */
enum usb_status usb_send(struct usb_host *host, struct usb_path path, const void *bytes, size_t length);

/* Receives packets of the first bulk IN endpoint, 0 to 65,535 of them, up to the first one that is shorter than the
 * endpoint's maximum. `got` is the number of bytes that came, or 0. USB_NO_ROOM: `room` has the first `length` of them,
 * and usb_received gives all. 64 bytes a packet are always enough. The heap has room for the bytes four times.
 *
 * After each answer the call is made anew over all that was heard in it. So its cost grows with the square of the
 * number of answers. With rows of 64 packets some 256 to 1,024 packets a call cost least, with none some 16 to 64. */
enum usb_status usb_receive(struct usb_host *host, struct usb_path path, void *room, size_t length, unsigned packets,
                            size_t *got);

/* Clears the halts of the first bulk endpoints, if a transfer found them halted. */
enum usb_status usb_clear_halt(struct usb_host *host, struct usb_path path);

/* The same for any bulk or interrupt endpoint, by its address: bit 7 is set for IN (9.6.6). usb_clear_halt_of always
 * sends its request; both ends then begin again at DATA0. */
enum usb_status usb_send_to(struct usb_host *host, struct usb_path path, uint8_t endpoint, const void *bytes,
                            size_t length);
enum usb_status usb_receive_from(struct usb_host *host, struct usb_path path, uint8_t endpoint, void *room,
                                 size_t length, unsigned packets, size_t *got);
enum usb_status usb_clear_halt_of(struct usb_host *host, struct usb_path path, uint8_t endpoint);

/* Asks an interrupt IN endpoint once for a packet. USB_QUIET: it has none. How soon it is asked again is the caller's
 * (bInterval). No poll breaks the endpoint, so after USB_BUSY or USB_NO_ANSWER the caller polls again. */
enum usb_status usb_poll(struct usb_host *host, struct usb_path path, uint8_t endpoint, uint8_t room[USB_PACKET],
                         size_t *got);

/* Gives an interface another alternate setting (9.4.10): its endpoints begin again at DATA0. After USB_BUSY or
 * USB_NO_ANSWER nobody knows which setting it has, and its endpoints are USB_BROKEN until a setting is given. */
enum usb_status usb_set_interface(struct usb_host *host, struct usb_path path, uint8_t interface, uint8_t setting);

/* The eight bytes of a request (9.3). */
struct usb_setup {
    uint8_t request_type; /* bit 7: the data go to the host */
    uint8_t request;
    uint16_t value;
    uint16_t index;
    uint16_t length; /* of the data */
};

/* Makes a request of endpoint 0 whose data come from the device: bit 7 of its type is set. `room` has setup->length
 * bytes, and `got` is the number that came. Hubs take it too. USB_STALLED: the device refused it, and nothing has to be
 * cleared. The heap has room for the bytes four times. */
enum usb_status usb_control_in(struct usb_host *host, struct usb_path path, const struct usb_setup *setup, void *room,
                               size_t *got);

/* Makes a request of endpoint 0 with setup->length bytes for the device, or with none: bit 7 of its type is clear. Once
 * it is done, the device has the bytes once; after a fault it has all or none. USB_RESERVED: only the host may send it.
 * That is SET_ADDRESS, SET_CONFIGURATION, SET_INTERFACE, CLEAR_FEATURE of a halt, and whatever changes a hub. */
enum usb_status usb_control_out(struct usb_host *host, struct usb_path path, const struct usb_setup *setup,
                                const void *bytes);

/* ---- The same with no blocking ---- */

/* Begins a host with no controller, at that many root ports, which have these statuses; the caller then answers. The
 * opening is the first call that is under way. Apart from that, as usb_open. */
enum usb_status usb_start(struct usb_host *host, unsigned roots, const struct usb_options *options,
                          const uint32_t statuses[USB_ROOTS]);

/* A call to begin. */
enum usb_wanted {
    USB_WANT_ROUND = 16,
    USB_WANT_TREE = 17,
    USB_WANT_SEND = 18,
    USB_WANT_RECEIVE = 19,
    USB_WANT_CLEAR_HALT = 20,
    USB_WANT_SEND_TO = 21,
    USB_WANT_RECEIVE_FROM = 22,
    USB_WANT_POLL = 23,
    USB_WANT_CLEAR_HALT_OF = 24,
    USB_WANT_SET_INTERFACE = 25,
    USB_WANT_CONTROL_IN = 26,
    USB_WANT_CONTROL_OUT = 27,
    USB_WANT_LOOK = 28,
    USB_WANT_NEWS = 29
};
struct usb_want {
    enum usb_wanted kind;
    struct usb_path path;   /* of all but a round, the tree and news */
    uint8_t endpoint;       /* its address; of USB_WANT_SET_INTERFACE the interface */
    uint8_t setting;        /* of USB_WANT_SET_INTERFACE */
    unsigned packets;       /* of the two that receive, at most 65,535 */
    struct usb_setup setup; /* of the two control transfers */
    const void *bytes;      /* of the two that send and of USB_WANT_CONTROL_OUT; they are copied */
    size_t length;          /* of those bytes */
};

/* Begins a call; `statuses` are those of the root ports, port 1 first. USB_OUT_OF_TURN: a call is under way.
 * USB_WRONG_LENGTH: there are bytes and the call takes none, or more packets than 65,535. USB_BAD_VALUE: no path, no
 * endpoint, a request of the other direction, or with more or fewer bytes than its length. After any fault nothing was
 * begun. */
enum usb_status usb_begin(struct usb_host *host, const struct usb_want *want, const uint32_t statuses[USB_ROOTS]);

/* Puts the next question there. USB_QUIET: there is none, as the call is done or none was begun.
 * USB_NO_MEMORY: ask again. A question stays the same until it is answered. A row, USB_INS, may always be taken for one
 * USB_IN: one packet is then asked for and answered. */
enum usb_status usb_asked(struct usb_host *host, struct usb_question *question);

/* Answers the question, and says how the root ports are then. USB_NO_MEMORY: answer it again. USB_TOO_MUCH: more data
 * than the maximum, nothing is taken. USB_OUT_OF_TURN: there is no question. */
enum usb_status usb_answer(struct usb_host *host, const struct usb_answer *answer, const uint32_t statuses[USB_ROOTS]);

/* The same for a row of more than one packet. `before` has the `length` bytes of the full packets that came first, and
 * `last` is what came of the attempt after them: see `ins` of struct usb_controller. Apart from what usb_answer
 * returns, USB_OUT_OF_TURN: there are bytes before, and the question is no row. USB_WRONG_LENGTH: they are not full
 * packets. USB_TOO_MUCH: there are more packets than in the row. After each of them nothing is taken. */
enum usb_status usb_answer_row(struct usb_host *host, const void *before, size_t length, const struct usb_answer *last,
                               const uint32_t statuses[USB_ROOTS]);

/* Returns the status of the call that was done last. USB_OUT_OF_TURN: none is done yet. */
enum usb_status usb_done(struct usb_host *host);

/* Take the result of the call that was done last: of what receives, polls or reads, of the tree, a look, and news. They
 * may be called again until the next call begins. `got` is the number of bytes that came in all. USB_NO_ROOM: they are
 * more than `length`, and `room` has the first ones. USB_OUT_OF_TURN: that call has no such result. */
enum usb_status usb_received(struct usb_host *host, void *room, size_t length, size_t *got);
enum usb_status usb_listed(struct usb_host *host, const struct usb_visitor *visitor);
enum usb_status usb_looked(struct usb_host *host, struct usb_look *look);
enum usb_status usb_reported(struct usb_host *host, struct usb_news *news);

/* ---- The archive ----
 *
 * Its seven exports, which usb_host.c calls, for other languages too. A handle is zeroed before it is opened, at that
 * many root ports, with 1 for wide hubs, the most bytes of a device (the greatest number: no limit), and the 28 bytes
 * of the ports' statuses. The others take records. Numbers have their low byte first, and no pointer may be null.
 *
 * A call: 52 bytes, and then its data. An unused field is 0.
 *
 *     0         its number in enum usb_wanted
 *     1 to 8    the path, a struct usb_path
 *     9, 10     the endpoint's address, or the interface; the alternate setting
 *     12, 13    the most packets
 *     16 to 23  the eight bytes of a request
 *     24 to 51  the statuses of root ports 1 to 7, four bytes each
 *     52 ..     the data of calls 18, 21 and 27
 *
 * A question: the 72 bytes of a struct usb_question.
 *
 * An answer: 32 bytes, and then the data that came.
 *
 *     0         its number in enum usb_came; 0 after questions 4 to 6
 *     1         the toggle of data, else 0
 *     2, 3      the number of data bytes, 0 to 64
 *     4 to 31   the statuses of root ports 1 to 7
 *
 * An answer to a row: the bytes of the full packets that came first, and the answer of the attempt after them.
 *
 * What was done: records in a row, each of its kind, its length in four bytes, and its bytes.
 *
 *     32        each call, last: its status, as in enum usb_status
 *     33        tree, a device: path (8), address, 1 for low speed, index of its configuration, ports if it is a hub;
 *               then its number (8) and its device descriptor (18)
 *     34, 35    tree, of that device: a configuration; a string: its number in enum usb_text, then UTF-16
 *     36        tree, a refused device: path (8), cause, what it names, up to 18 bytes that it said of itself
 *     37        receive, poll, control in: the bytes
 *     38        look: its number in enum usb_found; cause, what it names
 *     39        news: 0 left, 1 arrived; path (8), number (8) */
uint8_t usb_handle_open(struct usb_handle *handle, uint8_t roots, uint8_t wide, uint32_t device_bytes,
                        const uint8_t *statuses, size_t length);
uint8_t usb_handle_begin(struct usb_handle *handle, const uint8_t *want, size_t length);
uint8_t usb_handle_question(struct usb_handle *handle, uint8_t *question, size_t room);
uint8_t usb_handle_answer(struct usb_handle *handle, const uint8_t *answer, size_t length);
uint8_t usb_handle_answer_row(struct usb_handle *handle, const uint8_t *before, size_t before_length,
                              const uint8_t *answer, size_t length);
size_t usb_handle_told(struct usb_handle *handle, size_t skip, uint8_t *room, size_t length);
uint8_t usb_handle_close(struct usb_handle *handle);

#ifdef __cplusplus
}
#endif

#endif
