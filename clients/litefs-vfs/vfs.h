/* The VFS "litefs" of SQLite: names of a node's database go to the node, all others to the VFS that was the default before. */
#ifndef LITEFS_VFS_H
#define LITEFS_VFS_H

/* registers it once sqlite3_api is set; again where it is to be the default, and the system's VFS is. SQLite's code */
int vfs_register(int is_default);

#endif
