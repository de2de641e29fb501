/* Whether nothing has changed: current TOP PATHS STATES
   PATHS lists paths below the folder TOP, each with a NUL behind it, and STATES has a line for each, as `find -L -printf '%i %s %C@\n'` prints it: its inode,
   size and change time. The status is 10 where each is still as its line says. It is no status that something else has by accident, such as a damaged copy of
   this, which a shell would take for a script.
   ./pedrun asks in each call, since find takes 14 ms where this takes 4. The kit's clang compiles it, without headers: what it takes of the C library and of
   Linux stands here. */
struct statx_timestamp {
  long long seconds;
  unsigned nanoseconds, reserved;
};
struct statx {
  unsigned mask, block_size;
  unsigned long long attributes;
  unsigned links, user, group;
  unsigned short mode, spare;
  unsigned long long inode, size, blocks, attributes_mask;
  struct statx_timestamp access, birth, change, modify;
  unsigned long long rest[16];
};
int statx(int folder, const char *path, int flags, unsigned mask, struct statx *room);
int open(const char *path, int flags, ...);
long read(int file, void *room, unsigned long length);
int chdir(const char *path);
int snprintf(char *room, unsigned long length, const char *format, ...);
int strncmp(const char *one, const char *other, unsigned long length);
unsigned long strlen(const char *text);

enum { CURRENT = 10, ROOM = 1 << 20, CURRENT_FOLDER = -100, INODE_SIZE_AND_CHANGE = 0x380 };
static char paths[ROOM + 1], states[ROOM + 1];

/* Reads a file into a room, which has zeros behind it. Returns the length, and 0 where it can't be read or doesn't fit. */
static long fill(char *room, const char *path) {
  int file = open(path, 0);
  long length = 0, more = file < 0 ? -1 : 1;
  while (more > 0 && length < ROOM) {
    more = read(file, room + length, ROOM - length);
    length += more;
  }
  return more == 0 ? length : 0;
}

int main(int count, char **words) {
  long length, at = 0, told = 0;
  if (count != 4 || chdir(words[1]) || !(length = fill(paths, words[2])) || !fill(states, words[3])) return 1;
  while (at < length) {
    struct statx it;
    char line[100];
    if (statx(CURRENT_FOLDER, paths + at, 0, INODE_SIZE_AND_CHANGE, &it)) return 1;
    int size = snprintf(line, sizeof line, "%llu %llu %lld.%09u0\n", it.inode, it.size, it.change.seconds, it.change.nanoseconds);
    if (strncmp(states + told, line, size)) return 1;
    told += size;
    at += strlen(paths + at) + 1;
  }
  return states[told] ? 1 : CURRENT;
}
