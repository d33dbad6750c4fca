/* Asks a server at 127.0.0.1 as fast as it answers, and prints what came.

     load PORT QUERIES OUTSTANDING basic|interleaved FILE

   FILE has a line for each customer, `ADDRESS NUMBER DIGEST-OCTETS KEY`, and one for each datagram of a flood, `ADDRESS - - OCTETS`. The
   customers ask in turn, with OUTSTANDING queries at a time. All datagrams of the flood go before each query: a server takes datagrams in
   their order, so a reply tells that it has taken them. The MAC of each reply is checked.

   It spins while it waits, so that no send of the server has to wake it. A query is lost after half a second, and all ends after a
   minute. */
#define _GNU_SOURCE
#include <arpa/inet.h>
#include <errno.h>
#include <netinet/in.h>
#include <stdlib.h>
#include <sys/socket.h>
#include <time.h>
#include <unistd.h>

#include "mac.h"

enum { MOST_CUSTOMERS = 64, MOST_FLOOD = 63, BATCH = 128, SLOTS = 128 };

/* The stamp of the last receipt is 0 until a reply has told one. */
static struct customer { struct in_addr address; uint32_t number; int digest; struct key key; uint64_t receipt; } customers[MOST_CUSTOMERS];
static struct datagram { struct in_addr source; uint8_t octets[128]; int length; } flood[MOST_FLOOD], queries[SLOTS];
static struct slot { struct customer *customer; uint64_t receive, transmit; double sent; long turns; } slots[SLOTS];
static int customer_count, flood_count, is_interleaved;
static long asked, answered, lost, odd, interleaved, others;

static double now(void) {
  struct timespec it;
  clock_gettime(CLOCK_MONOTONIC, &it);
  return it.tv_sec + it.tv_nsec * 1e-9;
}

static void read_lines(FILE *file) {
  char address[32], number[16], octets[8], hex[257];
  while (file && fscanf(file, "%31s %15s %7s %256s", address, number, octets, hex) == 4 && customer_count < MOST_CUSTOMERS && flood_count < MOST_FLOOD)
    if (*number == '-') {
      struct datagram *it = &flood[flood_count++];
      inet_pton(AF_INET, address, &it->source);
      while (hex[2 * it->length] && sscanf(hex + 2 * it->length, "%2hhx", &it->octets[it->length]) == 1)
        it->length++;
    } else {
      struct customer *it = &customers[customer_count++];
      inet_pton(AF_INET, address, &it->address);
      it->number = atoi(number), it->digest = atoi(octets), it->key = key_of(hex);
    }
}

/* Puts a datagram into a batch. */
static void add(struct mmsghdr *batch, int at, struct datagram *it) {
  static struct { struct iovec part; union { char octets[CMSG_SPACE(sizeof(struct in_pktinfo))]; struct cmsghdr head; } control; } parts[BATCH];
  struct msghdr *head = &batch[at].msg_hdr;
  parts[at].part = (struct iovec){it->octets, it->length};
  head->msg_iov = &parts[at].part, head->msg_iovlen = 1;
  head->msg_control = parts[at].control.octets, head->msg_controllen = sizeof parts[at].control.octets;
  struct cmsghdr *control = CMSG_FIRSTHDR(head);
  control->cmsg_level = IPPROTO_IP, control->cmsg_type = IP_PKTINFO, control->cmsg_len = CMSG_LEN(sizeof(struct in_pktinfo));
  memcpy(CMSG_DATA(control), &(struct in_pktinfo){.ipi_spec_dst = it->source}, sizeof(struct in_pktinfo));
}

/* Makes the next query of a slot. Its stamps name the slot, and one of them that of the last receipt. */
static struct datagram *next_query(int number, int outstanding, double moment) {
  struct slot *slot = &slots[number];
  struct datagram *it = &queries[number];
  struct customer *customer = slot->customer = &customers[(number + slot->turns++ * outstanding) % customer_count];
  slot->transmit = 0xec00000000000000u | (uint64_t)slot->turns << 8 | number;
  slot->receive = customer->receipt ? slot->transmit | 0x80 : 0;
  slot->sent = moment;
  memset(it->octets, 0, sizeof it->octets);
  it->octets[0] = 0x23;
  put(it->octets + 24, 8, customer->receipt), put(it->octets + 32, 8, slot->receive), put(it->octets + 40, 8, slot->transmit);
  put(it->octets + 48, 4, customer->number);
  digest(customer->digest, &customer->key, it->octets, it->octets + 52);
  it->source = customer->address, it->length = 52 + customer->digest;
  return it;
}

static void send_batch(int s, struct mmsghdr *batch, int count) {
  for (int sent = 0, some; sent < count; sent += some > 0 ? some : 0)
    if ((some = sendmmsg(s, batch + sent, count - sent, 0)) < 0 && errno != EINTR)
      perror("load: send"), exit(1);
}

/* A reply of another length, mode, stratum, number or MAC than it should have is odd; one to no query is another's. */
static void judge(const uint8_t *reply, int length, int outstanding) {
  uint64_t origin = length < 48 ? 0 : get(reply + 24, 8);
  struct slot *slot = &slots[origin & 0x7f];
  int to_transmit = origin == slot->transmit, to_receive = slot->receive && origin == slot->receive;
  if ((origin & 0x7f) >= (uint64_t)outstanding || !slot->sent || !(to_transmit || to_receive)) {
    others++;
    return;
  }
  struct customer *customer = slot->customer;
  uint8_t right[20];
  digest(customer->digest, &customer->key, reply, right);
  int is_time = length == 52 + customer->digest && (reply[0] & 7) == 4 && reply[1] && get(reply + 48, 4) == customer->number;
  odd += !is_time || memcmp(right, reply + 52, customer->digest);
  if (is_interleaved)
    customer->receipt = get(reply + 32, 8);
  slot->sent = 0, answered++, interleaved += to_receive;
}

int main(int count, char **words) {
  if (count != 6)
    return 2;
  long wanted = atol(words[2]);
  int outstanding = atoi(words[3]), s = socket(AF_INET, SOCK_DGRAM, 0);
  struct sockaddr_in server = {.sin_family = AF_INET, .sin_port = htons(atoi(words[1])), .sin_addr.s_addr = htonl(INADDR_LOOPBACK)};
  struct sockaddr_in any = {.sin_family = AF_INET};
  is_interleaved = !strcmp(words[4], "interleaved");
  read_lines(fopen(words[5], "r"));
  if (!customer_count || outstanding < 1 || outstanding > SLOTS || outstanding * (1 + flood_count) > BATCH)
    return 2;
  static struct mmsghdr out[BATCH], in[BATCH];
  static struct iovec parts[BATCH];
  static uint8_t replies[BATCH][256];
  for (int i = 0; i < BATCH; i++) {
    parts[i] = (struct iovec){replies[i], sizeof replies[i]};
    in[i].msg_hdr.msg_iov = &parts[i], in[i].msg_hdr.msg_iovlen = 1;
    out[i].msg_hdr.msg_name = &server, out[i].msg_hdr.msg_namelen = sizeof server;
  }
  if (bind(s, (struct sockaddr *)&any, sizeof any))
    return perror("load"), 1;
  alarm(60);
  double begin = now(), moment = begin;
  while (answered + lost < wanted) {
    int many = 0;
    for (int i = 0; i < outstanding; i++) {
      if (slots[i].sent && moment - slots[i].sent > 0.5)
        slots[i].sent = 0, lost++;
      if (slots[i].sent || asked == wanted)
        continue;
      for (int k = 0; k < flood_count; k++)
        add(out, many++, &flood[k]);
      add(out, many++, next_query(i, outstanding, moment));
      asked++;
    }
    send_batch(s, out, many);
    int came = recvmmsg(s, in, BATCH, MSG_DONTWAIT, NULL);
    moment = now();
    for (int i = 0; i < came; i++)
      judge(replies[i], in[i].msg_len, outstanding);
  }
  printf("{\"asked\": %ld, \"flood\": %ld, \"lost\": %ld, \"odd\": %ld, \"interleaved\": %ld, \"others\": %ld, \"seconds\": %.6f}\n", asked,
         asked * flood_count, lost, odd, interleaved, others, moment - begin);
  fflush(stdout);
  /* Stays until standard input ends, so that its shares of a processor can still be read. */
  while (getchar() != EOF)
    ;
  return 0;
}
