/* The commands of the host. Each takes its arguments, whose number has been checked, and answers how the host ends. */
#ifndef HOST_COMMANDS_H
#define HOST_COMMANDS_H

#include <stdbool.h>

/* How the host ends: done, granted or accepted; refused by the gate; an error of files or arguments, which has been told. */
enum { ENDED_WELL = 0, ENDED_REFUSED = 1, ENDED_WITH_ERROR = 2 };

/* IMAGE SIZE: makes a new image file. */
int command_new(char **arguments, int count);

/* IMAGE SIZE: turns an image file of edition 1 into one of edition 2 that has so many bytes. */
int command_upgrade(char **arguments, int count);

/* IMAGE KEYS DESCRIPTOR [NOW]: submits a descriptor file to the image file. */
int command_submit(char **arguments, int count);

/* IMAGE KEYS ID FAY TERMINAL RESOURCE MODE NOW SESSION [REVOKED-FILE [LEASE-FILE]]: decides a request for a stored descriptor. */
int command_request(char **arguments, int count);

/* PARENT CHILD: narrows a child's descriptor file under a parent's. */
int command_narrow(char **arguments, int count);

/* DESCRIPTOR: prints what a descriptor file says. */
int command_show(char **arguments, int count);

#endif
