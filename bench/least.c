/* The least NTP server that checks and makes MACs: one key for MD5 and one for SHA-1, no customers, no budget, no interleaved replies.

     least PORT MD5-KEY SHA1-KEY      serves at 127.0.0.1; the keys are in hexadecimal

   For a query it makes one receive, two readings of the clock, two digests and one send. */
#include <arpa/inet.h>
#include <stdlib.h>
#include <sys/socket.h>
#include <time.h>

#include "mac.h"

static void stamp(uint8_t *at) {
  struct timespec now;
  clock_gettime(CLOCK_REALTIME, &now);
  put(at, 4, now.tv_sec + 2208988800u);
  put(at + 4, 4, ((uint64_t)now.tv_nsec << 32) / 1000000000u);
}

int main(int count, char **words) {
  if (count != 4)
    return 2;
  struct key keys[2] = {key_of(words[2]), key_of(words[3])};
  struct sockaddr_in from, here = {.sin_family = AF_INET, .sin_port = htons(atoi(words[1])), .sin_addr.s_addr = htonl(INADDR_LOOPBACK)};
  int s = socket(AF_INET, SOCK_DGRAM, 0);
  if (bind(s, (struct sockaddr *)&here, sizeof here))
    return perror("least"), 1;
  for (uint8_t query[1024], right[20];;) {
    socklen_t size = sizeof from;
    ssize_t length = recvfrom(s, query, sizeof query, 0, (struct sockaddr *)&from, &size);
    uint8_t reply[72] = {(query[0] & 0x38) | 4, 1, query[2], 0xec, [12] = 'L', 'E', 'A', 'S'};
    int octets = length - 52;
    stamp(reply + 32);
    if ((octets != 16 && octets != 20) || (query[0] & 7) != 3)
      continue;
    digest(octets, &keys[octets == 20], query, right);
    if (memcmp(right, query + 52, octets))
      continue;
    memcpy(reply + 24, query + 40, 8);
    memcpy(reply + 48, query + 48, 4);
    stamp(reply + 40);
    digest(octets, &keys[octets == 20], reply, reply + 52);
    sendto(s, reply, length, 0, (struct sockaddr *)&from, size);
  }
}
