/* How a fault is told: a code of SQLite's for the application, a line for SQLite's log (and on standard error where LITEFS_VERBOSE
** is set), and the error number for sqlite3_system_errno. */
#ifndef LITEFS_FAULTS_H
#define LITEFS_FAULTS_H

/* tells it, and answers the code. text: what was tried, of which file */
int tell_fault(int code, int error, const char *text, const char *file);

#define MANY_DATABASES "a commit over several databases is done in WAL mode alone"

/* the code of a write that the node refused: the disk is full, or the one given */
int write_code(int error, int code);

/* the error number that this thread told last */
int last_error(void);

#endif
