/* Which requests of the second year have landed. Each is one line: 0 before its landing, 1 from then on. A word in front of a mode turns one on or off for
   a run: `with NAME MODE ...`, `without NAME MODE ...`. */
#ifndef SWITCHES_H
#define SWITCHES_H

enum {
    ROTATION_LANDED = 1, /* request 106, `rotation` */
    DESKS_LANDED = 1,    /* request 101, `desks` */
    CLEAN_LANDED = 1,    /* request 102, `clean` */
    FENCES_LANDED = 1,   /* request 104, `fences` */
    QUEUES_LANDED = 0    /* request 113, `queues` */
};

/* How many head lines a machine record's bytes have, cached and persisted: 1; 8 from request 101 on. */
enum { RECORD_HEAD_LINES = 1, RECORD_HEAD_LINES_WITH_DESKS = 8 };

#endif
