#include "hand_written.h"

#define ration_start_format hand_written_start_format
#define ration_open hand_written_open
#define ration_find hand_written_find
#define ration_next hand_written_next
#define ration_start_insert hand_written_start_insert
#define ration_start_delete hand_written_start_delete
#define ration_step hand_written_step
#define ration_family_total hand_written_family_total
#define ration_read_dump hand_written_read_dump
#define ration_write_dump hand_written_write_dump

#include "../baseline/table.c"
