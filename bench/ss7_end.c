/* One end of a set of links by libss7's MTP3 and MTP2, on FIFOs: bench/set_ss7 builds it over Debian's source of libss7, with what it mends there, and has a set of mtp2_play at the
 * other end. What libss7 leaves to a card is here: flags, stuffing, check sequences, and that a line is lost once no correct unit came for 700 ms.
 *
 * usage: ss7_end OWN PEER ORDERS REPORTS IN,OUT [IN,OUT ..]
 * Orders are `send HEX` (a message of ISUP, its service information octet first) and `quit`; reports are as those of `set`: MS L tested, MS L down, MS set up, MS L message HEX,
 * MS ok send HEX, MS refused HEX. */
#include <fcntl.h>
#include <stdio.h>
#include <stdlib.h>
#include <string.h>
#include <sys/socket.h>
#include <time.h>
#include <unistd.h>
#include "ss7_internal.h"
#include "mtp2.h"
#include "mtp3.h"

#define AHEAD 64
#define LOST 700
#define QUIET 1000
#define PART 4096

struct line {
	int in, out, side, ours;        /* the FIFOs; the socket that libss7 has, and the one here */
	unsigned char bits[4096];       /* of the unit that goes out */
	int count, next;
	int ones, open, length;         /* of what comes: 1s in a row, whether a flag came, bits since */
	unsigned char frame[600];
	long heard, came;
	int lost, passed;
};

static struct ss7 *ss7;
static struct line lines[SS7_MAX_LINKS];
static int links, reports, is_up;
static unsigned own, peer;

static long now(void)
{
	static struct timespec begin;
	struct timespec at;
	clock_gettime(CLOCK_MONOTONIC, &at);
	if (!begin.tv_sec)
		begin = at;
	return (at.tv_sec - begin.tv_sec) * 1000 + (at.tv_nsec - begin.tv_nsec) / 1000000;
}

static void tell(const char *text)
{
	char line[1200];
	int length = snprintf(line, sizeof line, "%ld %s\n", now(), text);
	if (write(reports, line, length) < 0)
		exit(4);
}

static void digits(char *to, const unsigned char *octets, int count)
{
	for (int at = 0; at < count; at++)
		sprintf(to + 2 * at, "%02X", octets[at]);
}

/* what libss7 calls of ISUP */
int isup_receive(struct ss7 *set, struct mtp2 *link, struct routing_label *label, unsigned char *octets, int count)
{
	char text[1100];
	unsigned char message[300];
	unsigned word = label->dpc | label->opc << 14 | (unsigned) label->sls << 28;
	message[0] = set->ni << 6 | SIG_ISUP;
	for (int at = 0; at < 4; at++)
		message[1 + at] = word >> 8 * at;
	memcpy(message + 5, octets, count);
	digits(text + sprintf(text, "%d message ", link->slc), message, count + 5);
	tell(text);
	return 0;
}

int isup_dump(struct ss7 *set, struct mtp2 *link, unsigned char *octets, int count)
{
	return 0;
}

void isup_free_all_calls(struct ss7 *set)
{
}

static unsigned check_of(const unsigned char *octets, int count)
{
	unsigned check = 0xffff;
	for (int at = 0; at < count; at++)
		for (int bit = 0; bit < 8; bit++) {
			unsigned low = (check ^ octets[at] >> bit) & 1;
			check = check >> 1 ^ (low ? 0x8408 : 0);
		}
	return check;
}

/* the next unit, after a flag */
static void refill(struct line *line)
{
	unsigned char unit[600];
	int ones = 0, count;
	line->count = line->next = 0;
	for (int bit = 0; bit < 8; bit++)
		line->bits[line->count++] = 0x7e >> bit & 1;
	ss7_write(ss7, line->side);
	count = recv(line->ours, unit, sizeof unit, MSG_DONTWAIT);
	if (count < 5)
		return;
	unsigned check = ~check_of(unit, count - 2);
	unit[count - 2] = check;
	unit[count - 1] = check >> 8;
	for (int at = 0; at < 8 * count; at++) {
		int bit = unit[at / 8] >> at % 8 & 1;
		line->bits[line->count++] = bit;
		ones = bit ? ones + 1 : 0;
		if (ones == 5)
			line->bits[line->count++] = ones = 0;
	}
}

static unsigned char octet_out(struct line *line)
{
	unsigned char octet = 0;
	for (int bit = 0; bit < 8; bit++) {
		if (line->next == line->count)
			refill(line);
		octet |= line->bits[line->next++] << bit;
	}
	return octet;
}

/* a flag came: what is before it is a unit, or nothing */
static void unit_in(struct line *line, int at)
{
	int count = (line->length - 6) / 8;
	if (!line->open || line->length % 8 != 6 || count < 5 || count > 281 || check_of(line->frame, count) != 0xf0b8)
		return;
	line->heard = now();
	if (line->lost) {
		line->lost = 0;
		ss7_link_noalarm(ss7, line->side);
	}
	mtp2_receive(ss7->links[at], line->frame, count);
}

static void bit_in(struct line *line, int at, int bit)
{
	if (line->ones == 5 && !bit) {
		line->ones = 0;
		return;
	}
	if (line->ones == 6 && !bit) {
		unit_in(line, at);
		line->open = 1;
		line->length = line->ones = 0;
		memset(line->frame, 0, sizeof line->frame);
		return;
	}
	line->ones = bit ? line->ones + 1 : 0;
	if (line->ones > 6 || line->length >= 8 * 290)
		line->open = 0;
	if (line->ones <= 5 && line->length < 8 * 290) {
		line->frame[line->length / 8] |= bit << line->length % 8;
		line->length++;
	}
}

static void go_ahead(struct line *line)
{
	unsigned char octets[AHEAD];
	memset(octets, 255, sizeof octets);
	if (write(line->out, octets, sizeof octets) < 0)
		exit(4);
	line->came = now();
}

static void carry(struct line *line, int at)
{
	unsigned char came[PART], gone[PART];
	int count = read(line->in, came, sizeof came);
	for (int octet = 0; octet < count; octet++) {
		for (int bit = 0; bit < 8; bit++)
			bit_in(line, at, came[octet] >> bit & 1);
		gone[octet] = octet_out(line);
	}
	if (count > 0) {
		line->came = now();
		if (write(line->out, gone, count) < 0)
			exit(4);
	}
	if (!line->lost && now() - line->heard > LOST) {
		line->lost = 1;
		ss7_link_alarm(ss7, line->side);
		ss7->links[at]->autotxsutype = LSSU_SIOS;
	}
	if (now() - line->came > QUIET)
		go_ahead(line);
}

static void send_message(char *text)
{
	unsigned char octets[300];
	int count = strlen(text) / 2;
	char told[1100];
	struct routing_label label;
	struct ss7_msg *message;
	for (int at = 0; at < count && at < 300; at++)
		sscanf(text + 2 * at, "%2hhx", octets + at);
	if (count < 5 || count > 273 || ss7->adj_sps[0]->state != MTP3_UP || !(message = ss7_msg_new())) {
		snprintf(told, sizeof told, "refused %s", text);
		tell(told);
		return;
	}
	label.type = SS7_ITU;
	label.dpc = peer;
	label.opc = own;
	label.sls = octets[4] >> 4;
	set_routinglabel(ss7_msg_userpart(message), &label);
	memcpy(ss7_msg_userpart(message) + 4, octets + 5, count - 5);
	ss7_msg_userpart_len(message, count - 1);
	snprintf(told, sizeof told, "%s %s", mtp3_transmit(ss7, SIG_ISUP, label, 0, message, NULL) < 0 ? "refused" : "ok send", text);
	tell(told);
}

/* whether it goes on */
static int obey(int orders)
{
	static char text[1 << 16];
	static int length;
	char *line = text, *end;
	int count = read(orders, text + length, sizeof text - length - 1);
	if (count <= 0)
		return 1;
	length += count;
	text[length] = 0;
	while ((end = strchr(line, '\n'))) {
		*end = 0;
		if (!strcmp(line, "quit"))
			return 0;
		if (!strncmp(line, "send ", 5))
			send_message(line + 5);
		line = end + 1;
	}
	length = strlen(line);
	memmove(text, line, length + 1);
	return 1;
}

static void look(void)
{
	char text[40];
	while (ss7_check_event(ss7))
		;
	for (int at = 0; at < links; at++)
		if (lines[at].passed != ss7->links[at]->std_test_passed) {
			lines[at].passed = ss7->links[at]->std_test_passed;
			sprintf(text, "%d %s", at, lines[at].passed ? "tested" : "down");
			tell(text);
		}
	if (is_up != (ss7->adj_sps[0]->state == MTP3_UP)) {
		is_up = !is_up;
		tell(is_up ? "set up" : "set down");
	}
}

static int open_both(const char *path)
{
	int file = open(path, O_RDWR | O_NONBLOCK);
	if (file < 0) {
		perror(path);
		exit(4);
	}
	return file;
}

static void quiet(struct ss7 *set, char *text)
{
	fputs(text, stderr);
}

int main(int count, char **words)
{
	static char *timers[] = { "t1", "t2", "t3", "t4", "t5", "t19", "t21", "q707_t1", "q707_t2" };
	static int after[] = { 800, 1400, 800, 1000, 1000, 68000, 64000, 8000, 60000 };
	int orders;
	if (count < 6)
		return 3;
	own = atoi(words[1]);
	peer = atoi(words[2]);
	orders = open_both(words[3]);
	reports = open_both(words[4]);
	ss7_set_message(quiet);
	ss7_set_error(quiet);
	ss7 = ss7_new(SS7_ITU);
	ss7_set_network_ind(ss7, 2);
	ss7_set_pc(ss7, own);
	for (unsigned at = 0; at < sizeof after / sizeof *after; at++)
		ss7_set_mtp3_timer(ss7, timers[at], after[at]);
	for (links = 0; links < count - 5 && links < SS7_MAX_LINKS; links++) {
		struct line *line = lines + links;
		int pair[2];
		char *out = strchr(words[5 + links], ',');
		if (!out || socketpair(AF_UNIX, SOCK_SEQPACKET, 0, pair))
			return 3;
		*out = 0;
		line->in = open_both(words[5 + links]);
		line->out = open_both(out + 1);
		line->side = pair[0];
		line->ours = pair[1];
		line->heard = now();
		ss7_add_link(ss7, SS7_TRANSPORT_DAHDIDCHAN, line->side, links, peer);
		go_ahead(line);
	}
	ss7_start(ss7);
	while (obey(orders)) {
		for (int at = 0; at < links; at++)
			carry(lines + at, at);
		ss7_schedule_run(ss7);
		look();
		usleep(1000);
	}
	return 0;
}
