/* Clients in one thread that ask a server over a Unix socket: client PATH CLIENTS WINDOW ROUNDS FIRST FORMAT [REFUSED].

   Each client sends WINDOW requests, reads as many lines as these are, and does so ROUNDS times. A request is FORMAT with the client's
   number (%1$d), the request's own (%2$lu), which begins at FIRST, a number below 64 that goes round with it (%3$lu), and how often it
   has come to that one, if this client alone counts from 1 (%4$lu). It prints the seconds from the first request to the last reply, and
   how many replies held the text REFUSED, or began with '-'. */
#define _GNU_SOURCE
#include <stdio.h>
#include <stdlib.h>
#include <string.h>
#include <sys/epoll.h>
#include <sys/socket.h>
#include <sys/un.h>
#include <time.h>
#include <unistd.h>

struct client {
  int socket, number, waiting, begins_line;
  unsigned long next;
  long rounds;
};

static const char *format, *refused_text;
static int window, lines;
static long refused;

static void fail(const char *what) {
  perror(what);
  exit(1);
}

static void ask(struct client *client) {
  static char text[1 << 17];
  size_t length = 0;
  for (int i = 0; i < window; i++, client->next++) {
    unsigned long place = client->number + client->next;
    length += snprintf(text + length, sizeof text - length, format, client->number, client->next, place % 64, (place + 63) / 64);
  }
  for (size_t sent = 0; sent < length;) {
    ssize_t more = write(client->socket, text + sent, length - sent);
    if (more <= 0) fail("write");
    sent += more;
  }
  client->waiting = window * lines;
}

/* Reads what is there. The answer is whether the client is done. */
static int hear(struct client *client) {
  static char text[1 << 16];
  ssize_t length = read(client->socket, text, sizeof text - 1);
  if (length <= 0) fail("read");
  text[length] = 0;
  for (ssize_t i = 0; i < length; i++) {
    if (client->begins_line && text[i] == '-') refused++;
    client->begins_line = text[i] == '\n';
    if (text[i] == '\n') client->waiting--;
  }
  for (char *at = text; refused_text && (at = strstr(at, refused_text)); at++) refused++;
  if (client->waiting > 0) return 0;
  if (--client->rounds == 0) return 1;
  ask(client);
  return 0;
}

int main(int count, char **words) {
  if (count < 7) return 2;
  int clients = atoi(words[2]), left = clients, all = epoll_create1(0);
  window = atoi(words[3]);
  format = words[6];
  for (const char *at = format; (at = strchr(at, '\n')); at++) lines++;
  refused_text = count > 7 ? words[7] : NULL;
  struct sockaddr_un to = {.sun_family = AF_UNIX};
  strncpy(to.sun_path, words[1], sizeof to.sun_path - 1);
  struct client *each = calloc(clients, sizeof *each);
  for (int i = 0; i < clients; i++) {
    each[i] = (struct client){socket(AF_UNIX, SOCK_STREAM, 0), i, 0, 1, strtoul(words[5], NULL, 10), atol(words[4])};
    if (connect(each[i].socket, (struct sockaddr *)&to, sizeof to)) fail("connect");
    struct epoll_event event = {.events = EPOLLIN, .data.ptr = &each[i]};
    epoll_ctl(all, EPOLL_CTL_ADD, each[i].socket, &event);
  }
  struct timespec began, ended;
  clock_gettime(CLOCK_MONOTONIC, &began);
  for (int i = 0; i < clients; i++) ask(&each[i]);
  while (left > 0) {
    struct epoll_event events[64];
    int ready = epoll_wait(all, events, 64, -1);
    for (int i = 0; i < ready; i++) {
      struct client *client = events[i].data.ptr;
      if (!hear(client)) continue;
      epoll_ctl(all, EPOLL_CTL_DEL, client->socket, NULL);
      left--;
    }
  }
  clock_gettime(CLOCK_MONOTONIC, &ended);
  printf("%f %ld\n", (ended.tv_sec - began.tv_sec) + (ended.tv_nsec - began.tv_nsec) / 1e9, refused);
  return 0;
}
