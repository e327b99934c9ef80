/* The glue of each call: reads the fields of its case, makes the call, writes its answer. */
#ifndef CALLS_H
#define CALLS_H

typedef struct {
    int code;
    void (*answer)(void);
} call;

/* The glue for a code, or null for a code that is not answered. */
const call *call_of(int code);

#endif
