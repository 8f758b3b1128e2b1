/* One case saved, or refused. */
#ifndef SAVING_H
#define SAVING_H

#include "cases.h"

/* One call with a buffer of this length: it gives this refusal, or writes these bytes. All else that was
 * lent, and the guards, are as they were. */
void saves_into(const held_case *c, size_t room, uint8_t refusal, const uint8_t *bytes, size_t length);

/* The case is saved where its file has room, and refused with 14 where a byte is missing. */
void saves(const held_case *c);

/* The case is refused with this number, and also where 14 would apply. */
void saves_not(const held_case *c, uint8_t refusal);

#endif
