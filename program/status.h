/* How the program ends. */
#ifndef STATUS_H
#define STATUS_H

enum status {
    DONE = 0,    /* also PASS */
    FAIL = 1,    /* the frame is not the picture */
    REFUSED = 2, /* the text or the box */
    TROUBLE = 3  /* the command line or a file */
};

#endif
