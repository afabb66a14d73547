#define _GNU_SOURCE
#include "places.h"
#include "sqlite.h"

#include <dirent.h>
#include <errno.h>
#include <limits.h>
#include <stdio.h>
#include <stdlib.h>
#include <string.h>
#include <sys/stat.h>

static pthread_once_t once = PTHREAD_ONCE_INIT;
static char folder[PATH_MAX];    /* LITEFS_DIR without links and with a slash behind it, or empty */

static void read_folder(void) {
  const char *named = getenv("LITEFS_DIR");
  if (!named || !*named) return;
  if (!realpath(named, folder)) snprintf(folder, sizeof folder, "%s", named);
  size_t length = strlen(folder);
  while (length > 1 && folder[length - 1] == '/') length--;
  if (length + 1 < sizeof folder) strcpy(folder + length, "/");
}

const char *places_folder(void) {
  pthread_once(&once, read_folder);
  return *folder ? folder : NULL;
}

static int is_below_folder(const char *path) {
  const char *top = places_folder();
  return top && !strncmp(path, top, strlen(top));
}

static int ends_with(const char *text, const char *end) {
  size_t length = strlen(text), ending = strlen(end);
  return length >= ending && !strcmp(text + length - ending, end);
}

static int is_socket(const char *path) {
  struct stat status;
  if (!stat(path, &status)) return S_ISSOCK(status.st_mode);
  return ends_with(path, ".sock");
}

int is_place(const char *path) {
  const char *vfs = sqlite3_uri_parameter(path, "vfs");
  return is_below_folder(path) || (vfs && !strcmp(vfs, "litefs")) || is_socket(path);
}

/* at most room - 1 bytes, and no slash: a name that a node can have */
static int copy_name(char *into, size_t room, const char *name) {
  if (!*name || strchr(name, '/')) return EINVAL;
  return (size_t)snprintf(into, room, "%s", name) < room ? 0 : ENAMETOOLONG;
}

int place_of(const char *path, struct place *place) {
  const char *below = is_below_folder(path) ? path + strlen(places_folder()) : NULL;
  const char *socket = below ? getenv("LITEFS_SOCKET") : path;
  const char *name = below ? below : sqlite3_uri_parameter(path, "name");
  if (!socket || !*socket) return EDESTADDRREQ;
  if ((size_t)snprintf(place->socket, sizeof place->socket, "%s", socket) >= sizeof place->socket) return ENAMETOOLONG;
  *place->name = '\0';
  return name ? copy_name(place->name, sizeof place->name, name) : 0;
}

static int is_known(struct link *link, const char *name) {
  struct fuse_entry_out entry;
  return !link_ask(link, lookup_request(name, &entry));
}

/* a socket /run/app.sock suggests the name app */
static void name_of_socket(struct place *place, size_t folder_length) {
  const char *base = place->socket + folder_length;
  int length = (int)strlen(base) - (ends_with(base, ".sock") ? 5 : 0);
  snprintf(place->name, sizeof place->name, "%.*s", length, base);
}

/* a node keeps its data in dbs/NAME, by default beside its socket */
static int name_in_folder(struct link *link, struct place *place, size_t folder_length) {
  char data[SOCKET_ROOM + 8];
  snprintf(data, sizeof data, "%.*sdbs", (int)folder_length, place->socket);
  DIR *entries = opendir(data);
  int found = 0;
  for (struct dirent *entry; entries && !found && (entry = readdir(entries));) {
    if (*entry->d_name == '.' || copy_name(place->name, sizeof place->name, entry->d_name)) continue;
    found = is_known(link, place->name);
  }
  if (entries) closedir(entries);
  return found;
}

int ask_name(struct link *link, struct place *place) {
  const char *slash = strrchr(place->socket, '/');
  size_t folder_length = slash ? (size_t)(slash - place->socket) + 1 : 0;
  name_of_socket(place, folder_length);
  if (*place->name && is_known(link, place->name)) return 0;
  return name_in_folder(link, place, folder_length) ? 0 : link->is_dead ? ENOTCONN : ENOENT;
}
