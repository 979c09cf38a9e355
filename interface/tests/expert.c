#include "hand_written.h"

#define ration_start_format expert_start_format
#define ration_open expert_open
#define ration_find expert_find
#define ration_next expert_next
#define ration_start_insert expert_start_insert
#define ration_start_delete expert_start_delete
#define ration_step expert_step
#define ration_family_total expert_family_total
#define ration_read_dump expert_read_dump
#define ration_write_dump expert_write_dump

#include "../baseline/expert.c"
