/* Asks a simulated device for its descriptor, in this process. Returns the status of the last call. */
#include <stdio.h>
#include <string.h>

#include "usb_devices.h"

static const char plan[] = "limit = 100\n"
                           "roots = 1\n"
                           "event = [{ do = \"plug\", path = \"1\", device = \"lamp\" }]\n"
                           "[[device]]\n"
                           "name = \"lamp\"\n"
                           "speed = \"full\"\n"
                           "descriptor = \"120100020000004034127856000100000001\"\n"
                           "configs = [\"0902120001010080320904000000FF000000\"]\n";
static const char *const lines[] = { "usbplan live 1\n", "port 1 set PORT_POWER\n", "wait\n", "port 1 set PORT_RESET\n",
                                     "SETUP 0.0 / DATA0 8006000100001200\n", "IN 0.0 64\n" };

int main(void)
{
    struct usb_devices devices = { 0 };
    char room[1024];
    uint8_t status = usb_devices_open(&devices, plan, strlen(plan));
    for (size_t i = 0; i < sizeof lines / sizeof *lines && status == USB_DEVICES_DONE; i++) {
        status = usb_devices_ask(&devices, lines[i], strlen(lines[i]));
        for (size_t length; (length = usb_devices_said(&devices, room, sizeof room)) > 0;)
            fwrite(room, 1, length, stdout);
    }
    usb_devices_close(&devices);
    return status;
}
