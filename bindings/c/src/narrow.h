/* The longest list, in blocks, that is faster by narrow calls than by wide ones. Made by bindings/describe of des_fast. */
#ifndef NARROW_H
#define NARROW_H
#define MOST_NARROW 128
#endif
