/* RTKLIB, and the three functions that its library asks of a program: to show a message and how far it is, which these do not. */
#ifndef RTKLIB_ASKS_H
#define RTKLIB_ASKS_H

#include <rtklib.h>

#ifdef __cplusplus
extern "C" {
#endif

int showmsg(const char *format, ...) {
    (void)format;
    return 0;
}

void settspan(gtime_t from, gtime_t to) {
    (void)from;
    (void)to;
}

void settime(gtime_t at) { (void)at; }

#ifdef __cplusplus
}
#endif

#endif
