/* stack.h: how much stack each function of the codec uses. */
#ifndef BENCH_STACK_H
#define BENCH_STACK_H

/* Run each function on a painted stack, with inputs of every kind, and print the most that it touched. Ends the program
 * if a burst of 16 frames touched more than two nested calls of opening would. */
void print_stack_use(void);

#endif
