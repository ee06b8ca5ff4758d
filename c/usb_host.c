/* The calls of usb_host.h as records of the archive (usb_host.h, The archive). */
#include "usb_host.h"

#include <stdlib.h>
#include <string.h>

/* Lengths of records, and the places of their parts. All numbers have their low byte first. */
enum { STATUSES = 4 * USB_ROOTS, WANT = 52, WANT_STATUSES = 24, ANSWER = 32, ANSWER_STATUSES = 4, HEAD = 5 };
_Static_assert(sizeof((struct usb_host *)0)->begun == WANT_STATUSES, "what a call is, without statuses and data");
enum { PATH = 8, DEVICE = 38, REFUSED = 10, NEWS = 17, DESCRIPTOR = 18 };

/* Kinds of records that say what was done. */
enum { IS_DONE = 32, IS_DEVICE, IS_CONFIGURATION, IS_TEXT, IS_REFUSED, IS_DATA, IS_LOOK, IS_NEWS };

_Static_assert(sizeof(size_t) == 8, "the archive is for 64 bits");
_Static_assert(sizeof(struct usb_question) == 72, "a question is the archive's record");
_Static_assert(sizeof(struct usb_path) == PATH, "a path is the archive's");

/* A record of what was done: its kind, and the place and number of its bytes. */
struct record {
    uint8_t kind;
    size_t at, length;
};

/* ---- Numbers ---- */

static void put(uint8_t *to, uint64_t number, size_t count)
{
    for (size_t i = 0; i < count; i++)
        to[i] = (uint8_t)(number >> 8 * i);
}

static uint64_t get(const uint8_t *from, size_t count)
{
    uint64_t number = 0;
    for (size_t i = 0; i < count; i++)
        number |= (uint64_t)from[i] << 8 * i;
    return number;
}

static void put_statuses(uint8_t *to, const uint32_t statuses[USB_ROOTS])
{
    for (size_t port = 0; port < USB_ROOTS; port++)
        put(to + 4 * port, statuses[port], 4);
}

static struct usb_path get_path(const uint8_t *from)
{
    struct usb_path path;
    memcpy(&path, from, PATH);
    return path;
}

/* ---- Paths ---- */

struct usb_path usb_path_of(const char *text)
{
    static const struct usb_path none;
    struct usb_path path = none;
    while (path.length < USB_DEPTH && *text >= '0' && *text <= '9') {
        unsigned number = 0;
        for (; *text >= '0' && *text <= '9' && number < 256; text++)
            number = 10 * number + (unsigned)(*text - '0');
        if (number == 0 || number > 255)
            return none;
        path.ports[path.length++] = (uint8_t)number;
        if (*text == '\0')
            return path;
        if (*text++ != '.')
            return none;
    }
    return none;
}

size_t usb_path_text(const struct usb_path *path, char text[USB_PATH_TEXT])
{
    size_t length = 0;
    for (size_t i = 0; i < path->length && i < USB_DEPTH; i++) {
        unsigned number = path->ports[i];
        if (i > 0)
            text[length++] = '.';
        if (number >= 100)
            text[length++] = (char)('0' + number / 100);
        if (number >= 10)
            text[length++] = (char)('0' + number / 10 % 10);
        text[length++] = (char)('0' + number % 10);
    }
    text[length] = '\0';
    return length;
}

/* ---- No blocking ---- */

enum usb_status usb_start(struct usb_host *host, unsigned roots, const struct usb_options *options,
                          const uint32_t statuses[USB_ROOTS])
{
    static const struct usb_options usual = { false, USB_DEVICE_BYTES };
    const struct usb_options *its = options ? options : &usual;
    uint8_t bytes[STATUSES];
    memset(host, 0, sizeof *host);
    if (roots < 1 || roots > USB_ROOTS)
        return USB_BAD_ROOTS;
    put_statuses(bytes, statuses);
    host->device_bytes = its->device_bytes;
    return (enum usb_status)usb_handle_open(&host->handle, (uint8_t)roots, its->is_wide, its->device_bytes, bytes,
                                            sizeof bytes);
}

/* Puts what a call is into its record: all but the statuses and the data. */
static void put_want(uint8_t record[WANT_STATUSES], const struct usb_want *want)
{
    memset(record, 0, WANT_STATUSES);
    record[0] = (uint8_t)want->kind;
    memcpy(record + 1, &want->path, PATH);
    record[9] = want->endpoint;
    record[10] = want->setting;
    put(record + 12, want->packets, 2);
    record[16] = want->setup.request_type;
    record[17] = want->setup.request;
    put(record + 18, want->setup.value, 2);
    put(record + 20, want->setup.index, 2);
    put(record + 22, want->setup.length, 2);
}

enum usb_status usb_begin(struct usb_host *host, const struct usb_want *want, const uint32_t statuses[USB_ROOTS])
{
    uint8_t small[WANT + USB_PACKET], *record = small;
    if (want->packets > UINT16_MAX || want->length > SIZE_MAX - WANT)
        return USB_WRONG_LENGTH;
    if (want->length > USB_PACKET && !(record = malloc(WANT + want->length)))
        return USB_NO_MEMORY;
    put_want(record, want);
    put_statuses(record + WANT_STATUSES, statuses);
    if (want->length > 0)
        memcpy(record + WANT, want->bytes, want->length);
    uint8_t begun = usb_handle_begin(&host->handle, record, WANT + want->length);
    if (record != small)
        free(record);
    return (enum usb_status)begun;
}

enum usb_status usb_asked(struct usb_host *host, struct usb_question *question)
{
    return (enum usb_status)usb_handle_question(&host->handle, (uint8_t *)question, sizeof *question);
}

/* Puts an answer into its record. Returns the record's length, or 0 if there are too many bytes. */
static size_t put_answer(uint8_t record[ANSWER + USB_PACKET], const struct usb_answer *answer,
                         const uint32_t statuses[USB_ROOTS])
{
    bool is_data = answer->came == USB_DATA;
    size_t length = is_data ? answer->length : 0;
    if (length > USB_PACKET)
        return 0;
    record[0] = answer->came;
    record[1] = is_data && answer->toggle;
    put(record + 2, length, 2);
    put_statuses(record + ANSWER_STATUSES, statuses);
    memcpy(record + ANSWER, answer->data, length);
    return ANSWER + length;
}

enum usb_status usb_answer(struct usb_host *host, const struct usb_answer *answer, const uint32_t statuses[USB_ROOTS])
{
    uint8_t record[ANSWER + USB_PACKET];
    size_t length = put_answer(record, answer, statuses);
    return length ? (enum usb_status)usb_handle_answer(&host->handle, record, length) : USB_TOO_MUCH;
}

enum usb_status usb_answer_row(struct usb_host *host, const void *before, size_t length, const struct usb_answer *last,
                               const uint32_t statuses[USB_ROOTS])
{
    uint8_t record[ANSWER + USB_PACKET];
    if (length == 0)
        return usb_answer(host, last, statuses);
    size_t last_length = put_answer(record, last, statuses);
    if (!last_length)
        return USB_TOO_MUCH;
    return (enum usb_status)usb_handle_answer_row(&host->handle, before, length, record, last_length);
}

/* ---- The records of what was done ---- */

/* Copies bytes of the records, from a place on. Returns whether there are that many. */
static bool read_records(struct usb_host *host, size_t at, uint8_t *room, size_t length)
{
    size_t all = usb_handle_told(&host->handle, at, room, length);
    return at <= all && length <= all - at;
}

/* Goes on to the next record. Returns whether there is one. */
static bool next_record(struct usb_host *host, struct record *it)
{
    uint8_t head[HEAD], none;
    size_t at = it->at + it->length;
    if (!read_records(host, at, head, HEAD))
        return false;
    it->kind = head[0];
    it->at = at + HEAD;
    it->length = (size_t)get(head + 1, 4);
    size_t all = usb_handle_told(&host->handle, 0, &none, 0);
    return it->length <= all - it->at;
}

/* Finds the first record of a kind. */
static bool find_record(struct usb_host *host, uint8_t kind, struct record *it)
{
    *it = (struct record) { 0, 0, 0 };
    while (next_record(host, it))
        if (it->kind == kind)
            return true;
    return false;
}

enum usb_status usb_done(struct usb_host *host)
{
    struct record it;
    uint8_t status;
    if (!find_record(host, IS_DONE, &it) || it.length != 1 || !read_records(host, it.at, &status, 1))
        return USB_OUT_OF_TURN;
    return (enum usb_status)status;
}

enum usb_status usb_received(struct usb_host *host, void *room, size_t length, size_t *got)
{
    struct record it;
    *got = 0;
    if (!find_record(host, IS_DATA, &it))
        return USB_OUT_OF_TURN;
    *got = it.length;
    size_t count = it.length < length ? it.length : length;
    if (count > 0 && !read_records(host, it.at, room, count))
        return USB_OUT_OF_TURN;
    return it.length > length ? USB_NO_ROOM : USB_DONE;
}

enum usb_status usb_looked(struct usb_host *host, struct usb_look *look)
{
    struct record it;
    uint8_t body[3] = { 0 };
    if (!find_record(host, IS_LOOK, &it) || it.length < 1)
        return USB_OUT_OF_TURN;
    if (!read_records(host, it.at, body, it.length < sizeof body ? it.length : sizeof body))
        return USB_OUT_OF_TURN;
    *look = (struct usb_look) { (enum usb_found)body[0], (enum usb_cause)body[1], body[2] };
    return USB_DONE;
}

enum usb_status usb_reported(struct usb_host *host, struct usb_news *news)
{
    struct record it;
    uint8_t body[NEWS];
    if (!find_record(host, IS_NEWS, &it) || it.length != NEWS || !read_records(host, it.at, body, NEWS))
        return USB_QUIET;
    *news = (struct usb_news) { body[0] != 0, get_path(body + 1), get(body + 1 + PATH, 8) };
    return USB_DONE;
}

/* ---- The listing ---- */

/* The visitor, the device that is visited, and the number of its configurations that were. */
struct visit {
    const struct usb_visitor *to;
    struct usb_device device;
    unsigned index;
};

static void visit_device(struct visit *visit, const uint8_t *body)
{
    struct usb_device *it = &visit->device;
    it->path = get_path(body);
    it->address = body[8];
    it->is_low = body[9] != 0;
    it->chosen = body[10];
    it->ports = body[11];
    it->number = get(body + 12, 8);
    memcpy(it->descriptor, body + 20, DESCRIPTOR);
    visit->index = 0;
    if (visit->to->device)
        visit->to->device(visit->to->context, it);
}

static void visit_refused(const struct usb_visitor *to, const uint8_t *body, size_t length)
{
    struct usb_refused it = { .path = get_path(body), .cause = (enum usb_cause)body[8], .of = body[9] };
    it.said_length = (uint8_t)(length - REFUSED < DESCRIPTOR ? length - REFUSED : DESCRIPTOR);
    memcpy(it.said, body + REFUSED, it.said_length);
    if (to->refused)
        to->refused(to->context, &it);
}

static void visit_record(struct visit *visit, uint8_t kind, const uint8_t *body, size_t length)
{
    const struct usb_visitor *to = visit->to;
    if (kind == IS_DEVICE && length == DEVICE) {
        visit_device(visit, body);
    } else if (kind == IS_REFUSED && length >= REFUSED) {
        visit_refused(to, body, length);
    } else if (kind == IS_CONFIGURATION) {
        if (to->configuration)
            to->configuration(to->context, &visit->device, visit->index, body, length);
        visit->index++;
    } else if (kind == IS_TEXT && length >= 1 && to->text) {
        to->text(to->context, &visit->device, (enum usb_text)body[0], body + 1, length - 1);
    }
}

/* The length of the longest record. */
static size_t longest_record(struct usb_host *host)
{
    size_t longest = 0;
    for (struct record it = { 0, 0, 0 }; next_record(host, &it);)
        longest = it.length > longest ? it.length : longest;
    return longest;
}

enum usb_status usb_listed(struct usb_host *host, const struct usb_visitor *visitor)
{
    struct visit visit = { .to = visitor };
    struct record it = { 0, 0, 0 };
    uint8_t *body = malloc(longest_record(host) + 1);
    if (!body)
        return USB_NO_MEMORY;
    while (next_record(host, &it))
        if (read_records(host, it.at, body, it.length))
            visit_record(&visit, it.kind, body, it.length);
    free(body);
    return USB_DONE;
}

/* ---- With a controller ---- */

static void read_ports(struct usb_controller *of, uint32_t statuses[USB_ROOTS])
{
    for (unsigned port = 1; port <= USB_ROOTS; port++)
        statuses[port - 1] = port <= of->roots ? of->status(of, port) : 0;
}

/* Lets the controller make a row. Returns the number of packets that came before the last attempt. */
static unsigned ask_row(const struct usb_host *host, const struct usb_question *asked, struct usb_answer *last)
{
    struct usb_controller *to = host->controller;
    if (host->row && to->ins) {
        unsigned count = to->ins(to, asked, host->row, last);
        if (count < asked->row)
            return count;
        last->came = USB_NOTHING; /* there is no such row */
    } else {
        struct usb_question one = *asked;
        one.kind = USB_IN;
        one.flags &= (uint8_t)~USB_DATA1;
        one.row = 0;
        to->attempt(to, &one, last);
    }
    return 0;
}

/* Lets the controller make an attempt or a row, unless the address has had all its attempts in this call. Data that are
 * too long are no good answer (8.7.4), nor is an unknown one. */
static void ask_attempt(struct usb_host *host, const struct usb_question *asked)
{
    struct usb_answer *came = &host->kept;
    uint32_t *made = &host->attempts[asked->address & 127];
    unsigned before = 0;
    if (*made >= host->most_attempts)
        return;
    if (asked->kind == USB_INS)
        before = ask_row(host, asked, came);
    else
        host->controller->attempt(host->controller, asked, came);
    *made += before + 1;
    host->kept_length = (size_t)before * asked->most;
    bool is_in = asked->kind == USB_IN || asked->kind == USB_INS;
    if (came->came > USB_DATA || (came->came == USB_DATA && (!is_in || came->length > asked->most)))
        came->came = USB_NOTHING;
}

/* Lets the controller do what is asked. */
static void ask_controller(struct usb_host *host, const struct usb_question *asked)
{
    struct usb_controller *to = host->controller;
    memset(&host->kept, 0, sizeof host->kept);
    host->kept_length = 0;
    if (asked->kind == USB_PORT_SET || asked->kind == USB_PORT_CLEAR)
        to->port(to, asked->address, asked->kind == USB_PORT_SET, asked->endpoint);
    else if (asked->kind != USB_RESTART)
        ask_attempt(host, asked);
    else if (to->restart)
        to->restart(to, asked->address, asked->endpoint & 15, (asked->endpoint & 0x80) != 0);
}

/* Gives each address its attempts in a call: some for what goes wrong, and one for each least packet. */
static void begin_attempts(struct usb_host *host, const struct usb_want *want)
{
    uint64_t moved = want->length + want->setup.length + (uint64_t)want->packets * USB_PACKET;
    bool is_any = host->device_bytes == USB_ANY_BYTES;
    memset(host->attempts, 0, sizeof host->attempts);
    host->most_attempts = is_any ? UINT64_MAX : USB_TRIES + (host->device_bytes + moved) / 8;
}

/* Answers what is asked until the call is done. An answer that found no memory is kept for the next try, since what was
 * attempted must not be attempted again. */
static enum usb_status finish(struct usb_host *host)
{
    struct usb_question asked;
    uint32_t statuses[USB_ROOTS];
    for (;;) {
        enum usb_status status = host->is_kept ? USB_DONE : usb_asked(host, &asked);
        if (status == USB_QUIET)
            break;
        if (status != USB_DONE)
            return status;
        if (!host->is_kept)
            ask_controller(host, &asked);
        host->is_kept = true;
        read_ports(host->controller, statuses);
        status = usb_answer_row(host, host->row, host->kept_length, &host->kept, statuses);
        if (status != USB_DONE)
            return status;
        host->is_kept = false;
    }
    host->is_begun = false;
    return usb_done(host);
}

enum usb_status usb_open(struct usb_host *host, struct usb_controller *controller, const struct usb_options *options)
{
    uint32_t statuses[USB_ROOTS] = { 0 };
    if (controller->roots >= 1 && controller->roots <= USB_ROOTS)
        read_ports(controller, statuses);
    enum usb_status status = usb_start(host, controller->roots, options, statuses);
    host->controller = controller;
    begin_attempts(host, &(struct usb_want) { .kind = USB_WANT_ROUND });
    if (status == USB_DONE && controller->ins && !(host->row = malloc((USB_ROW - 1) * USB_PACKET)))
        status = USB_NO_MEMORY;
    if (status == USB_DONE)
        status = finish(host);
    if (status != USB_DONE)
        usb_close(host);
    return status;
}

enum usb_status usb_close(struct usb_host *host)
{
    host->is_kept = host->is_begun = false;
    free(host->row);
    host->row = NULL;
    return (enum usb_status)usb_handle_close(&host->handle);
}

/* Makes a call, or goes on with this one if it had no memory. */
static enum usb_status make(struct usb_host *host, const struct usb_want *want)
{
    uint8_t wanted[WANT_STATUSES];
    uint32_t statuses[USB_ROOTS];
    if (!host->controller)
        return USB_OUT_OF_TURN;
    put_want(wanted, want);
    if (host->is_begun && memcmp(wanted, host->begun, sizeof wanted) != 0)
        return USB_OUT_OF_TURN;
    if (!host->is_begun) {
        read_ports(host->controller, statuses);
        enum usb_status begun = usb_begin(host, want, statuses);
        if (begun != USB_DONE)
            return begun;
        memcpy(host->begun, wanted, sizeof wanted);
        host->is_begun = true;
        begin_attempts(host, want);
    }
    return finish(host);
}

/* The same, and takes the bytes that came. */
static enum usb_status make_read(struct usb_host *host, const struct usb_want *want, void *room, size_t length,
                                 size_t *got)
{
    *got = 0;
    enum usb_status status = make(host, want);
    return status == USB_DONE ? usb_received(host, room, length, got) : status;
}

enum usb_status usb_round(struct usb_host *host) { return make(host, &(struct usb_want) { .kind = USB_WANT_ROUND }); }

enum usb_status usb_settle(struct usb_host *host)
{
    for (int round = 0; round < USB_ROUNDS; round++) {
        enum usb_status status = usb_round(host);
        if (status != USB_DONE)
            return status == USB_QUIET ? USB_DONE : status;
    }
    return USB_RESTLESS;
}

enum usb_status usb_tree(struct usb_host *host, const struct usb_visitor *visitor)
{
    enum usb_status status = make(host, &(struct usb_want) { .kind = USB_WANT_TREE });
    return status == USB_DONE ? usb_listed(host, visitor) : status;
}

enum usb_status usb_news(struct usb_host *host, struct usb_news *news)
{
    enum usb_status status = make(host, &(struct usb_want) { .kind = USB_WANT_NEWS });
    return status == USB_DONE ? usb_reported(host, news) : status;
}

enum usb_status usb_look(struct usb_host *host, struct usb_path path, struct usb_look *look)
{
    enum usb_status status = make(host, &(struct usb_want) { .kind = USB_WANT_LOOK, .path = path });
    return status == USB_DONE ? usb_looked(host, look) : status;
}

enum usb_status usb_send(struct usb_host *host, struct usb_path path, const void *bytes, size_t length)
{
    return make(host, &(struct usb_want) { .kind = USB_WANT_SEND, .path = path, .bytes = bytes, .length = length });
}

enum usb_status usb_receive(struct usb_host *host, struct usb_path path, void *room, size_t length, unsigned packets,
                            size_t *got)
{
    struct usb_want want = { .kind = USB_WANT_RECEIVE, .path = path, .packets = packets };
    return make_read(host, &want, room, length, got);
}

enum usb_status usb_clear_halt(struct usb_host *host, struct usb_path path)
{
    return make(host, &(struct usb_want) { .kind = USB_WANT_CLEAR_HALT, .path = path });
}

enum usb_status usb_send_to(struct usb_host *host, struct usb_path path, uint8_t endpoint, const void *bytes,
                            size_t length)
{
    struct usb_want want = { .kind = USB_WANT_SEND_TO, .path = path, .endpoint = endpoint };
    want.bytes = bytes;
    want.length = length;
    return make(host, &want);
}

enum usb_status usb_receive_from(struct usb_host *host, struct usb_path path, uint8_t endpoint, void *room,
                                 size_t length, unsigned packets, size_t *got)
{
    struct usb_want want = { .kind = USB_WANT_RECEIVE_FROM, .path = path, .endpoint = endpoint, .packets = packets };
    return make_read(host, &want, room, length, got);
}

enum usb_status usb_clear_halt_of(struct usb_host *host, struct usb_path path, uint8_t endpoint)
{
    return make(host, &(struct usb_want) { .kind = USB_WANT_CLEAR_HALT_OF, .path = path, .endpoint = endpoint });
}

enum usb_status usb_poll(struct usb_host *host, struct usb_path path, uint8_t endpoint, uint8_t room[USB_PACKET],
                         size_t *got)
{
    struct usb_want want = { .kind = USB_WANT_POLL, .path = path, .endpoint = endpoint };
    return make_read(host, &want, room, USB_PACKET, got);
}

enum usb_status usb_set_interface(struct usb_host *host, struct usb_path path, uint8_t interface, uint8_t setting)
{
    struct usb_want want = { .kind = USB_WANT_SET_INTERFACE, .path = path, .endpoint = interface, .setting = setting };
    return make(host, &want);
}

enum usb_status usb_control_in(struct usb_host *host, struct usb_path path, const struct usb_setup *setup, void *room,
                               size_t *got)
{
    struct usb_want want = { .kind = USB_WANT_CONTROL_IN, .path = path, .setup = *setup };
    return make_read(host, &want, room, setup->length, got);
}

enum usb_status usb_control_out(struct usb_host *host, struct usb_path path, const struct usb_setup *setup,
                                const void *bytes)
{
    struct usb_want want = { .kind = USB_WANT_CONTROL_OUT, .path = path, .setup = *setup };
    want.bytes = bytes;
    want.length = setup->length;
    return make(host, &want);
}

/* ---- Texts ---- */

const char *usb_status_text(enum usb_status status)
{
    static const char *const transfers[] = { "done",      "quiet",  "no device", "no endpoint", "stalled",     "busy",
                                             "no answer", "broken", "reserved",  "no port",     "no interface" };
    static const char *const calls[] = { "out of memory", "out of turn",   "no such call",
                                         "wrong length",  "too much data", "bad number of root ports",
                                         "bad value",     "closed" };
    if (status <= USB_NO_INTERFACE)
        return transfers[status];
    if (status >= USB_NO_MEMORY && status <= USB_CLOSED)
        return calls[status - USB_NO_MEMORY];
    return status == USB_NO_ROOM ? "no room" : status == USB_RESTLESS ? "restless" : "?";
}

const char *usb_cause_text(enum usb_cause cause)
{
    static const char *const texts[] = {
        "accepted",          "silent",   "busy",    "stalled", "bad device", "too deep",
        "bad configuration", "no power", "bad hub", "lost",    "no address",
        "too large"
    };
    return cause <= USB_CAUSE_TOO_LARGE ? texts[cause] : "?";
}
