/* client PORT LINKS MESSAGES FILE: sends the message of the file so often over each of so many links, one after another, each
   message once the answer to the one before is there, and prints the seconds that this took. Every answer has to be as long as
   the first one and to begin with HTTP/1.1 and a status 200 or 201. */
#define _GNU_SOURCE
#include <arpa/inet.h>
#include <netinet/tcp.h>
#include <stdio.h>
#include <stdlib.h>
#include <string.h>
#include <time.h>
#include <unistd.h>

static void stop(const char *why) {
  fprintf(stderr, "client: %s\n", why);
  exit(1);
}

static int connected(int port) {
  struct sockaddr_in at = {.sin_family = AF_INET, .sin_port = htons(port), .sin_addr.s_addr = htonl(INADDR_LOOPBACK)};
  for (int tries = 0; tries < 500; tries++) {
    int link = socket(AF_INET, SOCK_STREAM, 0), yes = 1;
    setsockopt(link, IPPROTO_TCP, TCP_NODELAY, &yes, sizeof yes);
    if (connect(link, (struct sockaddr *)&at, sizeof at) == 0) return link;
    close(link);
    usleep(20000);
  }
  stop("no server listens");
  return -1;
}

/* An answer: its head, and as many bytes as that says. */
static size_t answer(int link, char *room, size_t most) {
  size_t got = 0;
  for (;;) {
    ssize_t more = read(link, room + got, most - 1 - got);
    if (more <= 0) stop("the answer is cut");
    room[got += more] = 0;
    char *end = strstr(room, "\r\n\r\n"), *length = strcasestr(room, "content-length: ");
    if (end && length && got >= (size_t)(end + 4 - room) + atoi(length + 16)) break;
  }
  if (strncmp(room, "HTTP/1.1 20", 11)) stop("another status");
  return got;
}

int main(int count, char **words) {
  static char message[65536], room[65536];
  if (count != 5) stop("PORT LINKS MESSAGES FILE");
  FILE *file = fopen(words[4], "rb");
  size_t size = file ? fread(message, 1, sizeof message, file) : 0, first = 0;
  struct timespec from, to;
  for (int links = atoi(words[2]), link_count = 0; link_count < links; link_count++) {
    int link = connected(atoi(words[1]));
    if (!first) clock_gettime(CLOCK_MONOTONIC, &from);
    for (int messages = atoi(words[3]); messages > 0; messages--) {
      if (write(link, message, size) != (ssize_t)size) stop("the message is cut");
      size_t got = answer(link, room, sizeof room);
      if (!first) first = got;
      if (got != first) stop("an answer of another length");
    }
    close(link);
  }
  clock_gettime(CLOCK_MONOTONIC, &to);
  printf("%.3f\n", to.tv_sec - from.tv_sec + 1e-9 * (to.tv_nsec - from.tv_nsec));
}
