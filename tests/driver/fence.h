/* What valgrind is told of the bytes around a call: which can't be touched, not even to be read, and which count as
   unknown until they were written. Without its header, and outside valgrind, all of this is nothing. */
#ifndef FENCE_H
#define FENCE_H

#ifdef __has_include
#if __has_include(<valgrind/memcheck.h>)
#include <valgrind/memcheck.h>
#endif
#endif

#ifndef VALGRIND_MAKE_MEM_NOACCESS
#define VALGRIND_MAKE_MEM_NOACCESS(bytes, length) ((void)(bytes), (void)(length))
#define VALGRIND_MAKE_MEM_UNDEFINED(bytes, length) ((void)(bytes), (void)(length))
#define VALGRIND_MAKE_MEM_DEFINED(bytes, length) ((void)(bytes), (void)(length))
#endif

#endif
