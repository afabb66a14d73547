/* xFileControl: what SQLite asks of an open file beside reading and writing. */
#ifndef LITEFS_FILE_CONTROLS_H
#define LITEFS_FILE_CONTROLS_H

#include "sqlite.h"

int file_control(sqlite3_file *file, int operation, void *argument);

#endif
