/* The reader in plain C: the functions of bystrodol.h, each with the same signature and the same answer. */
#ifndef PLAIN_H
#define PLAIN_H

#include "bystrodol.h"

__typeof__(bystrodol_fresh) plain_fresh;
__typeof__(bystrodol_step) plain_step;
__typeof__(bystrodol_line_switch) plain_line_switch;
__typeof__(bystrodol_receive) plain_receive;
__typeof__(bystrodol_receiver_switch) plain_receiver_switch;
__typeof__(bystrodol_sum) plain_sum;
__typeof__(bystrodol_used) plain_used;
__typeof__(bystrodol_build) plain_build;
__typeof__(bystrodol_count) plain_count;
__typeof__(bystrodol_close_gaps) plain_close_gaps;
__typeof__(bystrodol_salvage) plain_salvage;
__typeof__(bystrodol_compare) plain_compare;
__typeof__(bystrodol_bring_over) plain_bring_over;

#endif
