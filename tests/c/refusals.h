/* What the files of refusals share. */
#ifndef REFUSALS_H
#define REFUSALS_H

#include "both.h"

void keep(void);                                                        /* all that is lent, before a call */
void refused(uint8_t number, uint8_t wanted, const char *what);         /* this number came, and all is as it was kept */
void written(lent *buffer, const uint8_t *bytes, size_t length);        /* to its front; what was kept is put back */
taqwelim_fields good_fields(void);

/* ---- several things wrong at once: bit n of a choice stands for what n is given for */
#define WRONG(number) (1u << (number))
unsigned choice_of(const uint8_t *order, unsigned which);               /* the numbers at these places of the order */
uint8_t first_of(const uint8_t *order, unsigned wrong);                 /* an order ends with 0, which is then given */

/* ---- frames and areas */
const uint8_t *area_of(unsigned mark);                                  /* one record with this mark, and zeros */
void forge(uint8_t kind, const uint8_t *area, unsigned wrong);          /* frame 7, with what 7 to 13 are given for */
size_t forge_damaged(uint8_t kind, const uint8_t *area, unsigned wrong); /* and up to 8 wrong bytes in the other words */

void apply_refused(uint8_t wanted, taqwelim_header header, size_t area_length, taqwelim_receiver receiver,
                   size_t hold_length, size_t list_length);
void header_refused(taqwelim_header header); /* by apply, whatever its area: no opening gives it */

void try_opening_refusals(void);
void try_repairing_refusals(void);
void try_applying_refusals(void);
void try_received_refusals(void);

#endif
