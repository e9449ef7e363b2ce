/* A filter driver that gives each content back as it came: at once, or with the word `delay` later, in lists of 500 paths.
   For bench/drivers. */
#include <stdio.h>
#include <stdlib.h>
#include <string.h>

#define MOST 65516

struct late {
  char *path;
  char *content;
  size_t length;
};

static struct late *late;
static size_t count, listed, given;

/* the next payload with a NUL behind it; -1 is a flush. The end of the input ends the driver. */
static long packet(char *into) {
  char digits[5] = {0};
  size_t length;
  if (fread(digits, 1, 4, stdin) < 4) exit(0);
  length = strtoul(digits, NULL, 16);
  if (length == 0) return -1;
  if (fread(into, 1, length - 4, stdin) < length - 4) exit(1);
  into[length - 4] = 0;
  return (long)length - 4;
}

static void put(const char *text, size_t length) {
  printf("%04zx", length + 4);
  fwrite(text, 1, length, stdout);
}

static void line(const char *key, const char *value) {
  printf("%04zx%s%s\n", strlen(key) + strlen(value) + 5, key, value);
}

static void flush(void) {
  fputs("0000", stdout);
}

static void give(const char *content, size_t length) {
  size_t at;
  line("status=", "success");
  flush();
  for (at = 0; at < length; at += MOST) put(content + at, length - at < MOST ? length - at : MOST);
  flush();
  flush();
}

static void list(void) {
  size_t end = listed + 500 < count ? listed + 500 : count;
  for (; listed < end; listed++) line("pathname=", late[listed].path);
  flush();
  line("status=", "success");
  flush();
}

int main(int words, char **word) {
  static char piece[MOST + 1], path[MOST + 1];
  char *content = malloc(1);
  int delays = words > 1 && strcmp(word[1], "delay") == 0;
  while (packet(piece) >= 0) {}
  line("git-filter-", "server");
  line("version=", "2");
  flush();
  fflush(stdout);
  while (packet(piece) >= 0) {}
  line("capability=", "smudge");
  if (delays) line("capability=", "delay");
  flush();
  for (;;) {
    size_t length = 0;
    long size;
    int lists = 0, may_delay = 0;
    fflush(stdout);
    while ((size = packet(piece)) >= 0) {
      if (size > 0 && piece[size - 1] == '\n') piece[size - 1] = 0;
      if (strcmp(piece, "command=list_available_blobs") == 0) lists = 1;
      if (strcmp(piece, "can-delay=1") == 0) may_delay = 1;
      if (strncmp(piece, "pathname=", 9) == 0) strcpy(path, piece + 9);
    }
    if (lists) {
      list();
      continue;
    }
    while ((size = packet(piece)) >= 0) {
      content = realloc(content, length + (size_t)size + 1);
      memcpy(content + length, piece, (size_t)size);
      length += (size_t)size;
    }
    if (may_delay) {
      late = realloc(late, (count + 1) * sizeof *late);
      late[count].path = strdup(path);
      late[count].content = content;
      late[count++].length = length;
      content = malloc(1);
      line("status=", "delayed");
      flush();
    } else if (delays) {
      give(late[given].content, late[given].length);
      free(late[given++].content);
    } else {
      give(content, length);
    }
  }
}
