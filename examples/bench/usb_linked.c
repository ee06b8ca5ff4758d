/* usb_linked.c: the calls of usb_lines.h over the devices of usb_devices.h, in one process and with no pipes.
 *
 * It takes the place of usb_lines.c, which it includes. The environment's USB_PLAN names the plan. The lines of reports
 * go to standard output. As with pipes, the program ends with status 4 if a question has a fault.
 */
#define USB_LINKED
#include "usb_lines.c"

#include "usb_devices.h"

static struct usb_devices devices;
static char answers[1024]; /* some of those that were said */
static size_t next, count; /* the next byte of them, and their number */

/* Reads the file that USB_PLAN names. Returns its text, whose end is `*length`. */
static char *read_plan(size_t *length)
{
    const char *name = getenv("USB_PLAN");
    FILE *file = name == NULL ? NULL : fopen(name, "rb");
    char *text = NULL;
    *length = 0;
    if (file == NULL)
        give_up("USB_PLAN names no file");
    do {
        text = realloc(text, *length + BUFSIZ);
        if (text == NULL)
            give_up("out of memory");
        *length += fread(text + *length, 1, BUFSIZ, file);
    } while (!feof(file) && !ferror(file));
    if (ferror(file) || fclose(file) != 0)
        give_up("the plan cannot be read");
    return text;
}

static void open_devices(void)
{
    size_t length;
    char *text = read_plan(&length);
    uint8_t status = usb_devices_open(&devices, text, length);
    free(text);
    if (status != USB_DEVICES_DONE)
        give_up(status == USB_DEVICES_NO_MEMORY ? "out of memory" : "USB_PLAN names no plan");
}

static bool put_line(const char *text, size_t length)
{
    static bool is_open;
    if (!is_open)
        open_devices();
    is_open = true;
    uint8_t status = usb_devices_ask(&devices, text, length);
    if (status != USB_DEVICES_DONE)
        fprintf(stderr, "usb_linked: status %u of usb_devices_ask\n", status);
    return status == USB_DEVICES_DONE;
}

static bool get_line(char *room, size_t size)
{
    for (size_t length = 0; length + 1 < size;) {
        if (next == count) {
            next = 0;
            count = usb_devices_said(&devices, answers, sizeof answers);
            if (count == 0)
                return false;
        }
        room[length++] = answers[next++];
        room[length] = '\0';
        if (room[length - 1] == '\n')
            return true;
    }
    return false;
}
