/* posts PORT FILE COUNT: sends the messages of the file over one link, as fast as they are taken, and reads until so many answers
   with status 201 have come. */
#include <arpa/inet.h>
#include <fcntl.h>
#include <netinet/tcp.h>
#include <poll.h>
#include <stdio.h>
#include <stdlib.h>
#include <string.h>
#include <unistd.h>

static const char WANTED[] = "HTTP/1.1 201";

static void stop(const char *why) {
  fprintf(stderr, "posts: %s\n", why);
  exit(1);
}

static int connected(int port) {
  struct sockaddr_in at = {.sin_family = AF_INET, .sin_port = htons(port), .sin_addr.s_addr = htonl(INADDR_LOOPBACK)};
  for (int tries = 0; tries < 500; tries++) {
    int link = socket(AF_INET, SOCK_STREAM, 0), yes = 1;
    setsockopt(link, IPPROTO_TCP, TCP_NODELAY, &yes, sizeof yes);
    if (connect(link, (struct sockaddr *)&at, sizeof at) == 0) return link;
    close(link);
    usleep(20000);
  }
  stop("no server listens");
  return -1;
}

/* How many answers begin in what came, of which a piece may have come before: `seen` bytes of one. */
static long begun(const char *came, ssize_t length, size_t *seen) {
  long count = 0;
  for (ssize_t at = 0; at < length; at++) {
    *seen = came[at] == WANTED[*seen] ? *seen + 1 : came[at] == WANTED[0];
    if (!WANTED[*seen]) count++, *seen = 0;
  }
  return count;
}

int main(int count, char **words) {
  static char room[1 << 16];
  if (count != 4) stop("PORT FILE COUNT");
  FILE *file = fopen(words[2], "rb");
  if (!file || fseek(file, 0, SEEK_END)) stop("no such file");
  size_t size = ftell(file), sent = 0, seen = 0;
  char *messages = malloc(size);
  rewind(file);
  if (!messages || fread(messages, 1, size, file) != size) stop("the file can't be read");
  int link = connected(atoi(words[1]));
  fcntl(link, F_SETFL, O_NONBLOCK);
  for (long answers = 0, wanted = atol(words[3]); answers < wanted;) {
    struct pollfd at = {.fd = link, .events = POLLIN | (sent < size ? POLLOUT : 0)};
    if (poll(&at, 1, 30000) <= 0) stop("no answer comes");
    if (at.revents & POLLOUT) {
      ssize_t more = write(link, messages + sent, size - sent);
      if (more > 0) sent += more;
    }
    if (at.revents & (POLLIN | POLLHUP)) {
      ssize_t came = read(link, room, sizeof room);
      if (came == 0) stop("the link ended");
      if (came > 0) answers += begun(room, came, &seen);
    }
  }
}
