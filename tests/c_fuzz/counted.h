/*
 * counted.h - counts the calls of a machine that a program makes.
 */
#ifndef COUNTED_H
#define COUNTED_H

#include "gefsunk.h"

static unsigned long calls_seen;

#define gef_machine_answer_done(...) (calls_seen++, gef_machine_answer_done(__VA_ARGS__))
#define gef_machine_answer_failed(...) (calls_seen++, gef_machine_answer_failed(__VA_ARGS__))
#define gef_machine_answer_loaded(...) (calls_seen++, gef_machine_answer_loaded(__VA_ARGS__))
#define gef_machine_discarded(...) (calls_seen++, gef_machine_discarded(__VA_ARGS__))
#define gef_machine_free(...) (calls_seen++, gef_machine_free(__VA_ARGS__))
#define gef_machine_lent(...) (calls_seen++, gef_machine_lent(__VA_ARGS__))
#define gef_machine_new(...) (calls_seen++, gef_machine_new(__VA_ARGS__))
#define gef_machine_next(...) (calls_seen++, gef_machine_next(__VA_ARGS__))
#define gef_machine_no_memory(...) (calls_seen++, gef_machine_no_memory(__VA_ARGS__))
#define gef_machine_offer(...) (calls_seen++, gef_machine_offer(__VA_ARGS__))
#define gef_machine_plug(...) (calls_seen++, gef_machine_plug(__VA_ARGS__))
#define gef_machine_power_on(...) (calls_seen++, gef_machine_power_on(__VA_ARGS__))
#define gef_machine_pull(...) (calls_seen++, gef_machine_pull(__VA_ARGS__))
#define gef_machine_put_device(...) (calls_seen++, gef_machine_put_device(__VA_ARGS__))
#define gef_machine_put_disk(...) (calls_seen++, gef_machine_put_disk(__VA_ARGS__))
#define gef_machine_read(...) (calls_seen++, gef_machine_read(__VA_ARGS__))
#define gef_machine_remove(...) (calls_seen++, gef_machine_remove(__VA_ARGS__))
#define gef_machine_restore(...) (calls_seen++, gef_machine_restore(__VA_ARGS__))
#define gef_machine_save(...) (calls_seen++, gef_machine_save(__VA_ARGS__))
#define gef_machine_state_size(...) (calls_seen++, gef_machine_state_size(__VA_ARGS__))
#define gef_machine_stored(...) (calls_seen++, gef_machine_stored(__VA_ARGS__))
#define gef_machine_supply(...) (calls_seen++, gef_machine_supply(__VA_ARGS__))
#define gef_machine_take_frame(...) (calls_seen++, gef_machine_take_frame(__VA_ARGS__))
#define gef_machine_write(...) (calls_seen++, gef_machine_write(__VA_ARGS__))

#endif
