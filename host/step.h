/* The scenarios of the step's test, a file for each section of document 01 or part of one, and one for the eCAN. */
#ifndef STEP_H
#define STEP_H

void step_refusals(void);
void step_writing(void);
void step_receiving(void);
void step_sending(void);
void step_modes(void);
void step_ecan(void);

#endif
