/* Messages about files and the command line, on standard error. */
#ifndef SAY_H
#define SAY_H

/* What went wrong with a file, by its errno. */
void say_trouble(const char *name, int error);

/* A message of several words, with the program's name before it. */
void say(const char *format, ...)
#ifdef __GNUC__
    __attribute__((format(printf, 1, 2)))
#endif
    ;

#endif
