// A simulator of one model Count with the entities 0, 1 and so on: counter HOST:PORT [MS]. Its output is the time of its
// step. With MS it is slow: it reads at most 4,096 bytes at a time, and waits so many milliseconds before each.
#include <arpa/inet.h>
#include <netinet/in.h>
#include <stdio.h>
#include <stdlib.h>
#include <string.h>
#include <sys/socket.h>
#include <unistd.h>

enum { LONGEST = 1 << 20, PIECE = 4096 };
static char payload[LONGEST + 1], answer[LONGEST];
static long pause_ms;

static void whole(int link, char *data, size_t length) {
    for (size_t held = 0; held < length;) {
        size_t most = pause_ms && length - held > PIECE ? PIECE : length - held;
        if (pause_ms) usleep(pause_ms * 1000);
        ssize_t piece = read(link, data + held, most);
        if (piece <= 0) exit(5);
        held += piece;
    }
}

static void say(int link) {
    size_t length = strlen(answer + 4);
    for (int i = 0; i < 4; i++) answer[i] = (char)(length >> (24 - 8 * i));
    if (write(link, answer, length + 4) != (ssize_t)(length + 4)) exit(5);
}

static int put_all(char *to, const char *ends, const char *piece, int count, long time) {
    int length = sprintf(to, "%c", ends[0]);
    for (int i = 0; i < count; i++) length += sprintf(to + length, piece, i ? "," : "", i, time);
    return length + sprintf(to + length, "%c", ends[1]);
}

static void reply(int link, long time, int count) {
    char *to = answer + 4, *rest = strstr(payload, "[\"");
    long id = atol(payload + 3), step = 0;
    to += sprintf(to, "[1,%ld,", id);
    if (!strncmp(rest, "[\"init", 6))
        to += sprintf(to, "{\"api_version\":\"3.0\",\"type\":\"time-based\",\"models\":{\"Count\":"
                          "{\"public\":true,\"params\":[\"start\"],\"attrs\":[\"in\",\"out\"]}}}");
    else if (!strncmp(rest, "[\"create", 8))
        to += put_all(to, "[]", "%s{\"eid\":\"%d\",\"type\":\"Count\"}", count, time);
    else if (sscanf(rest, "[\"step\",[%ld", &step) == 1)
        to += sprintf(to, "%ld", step + 1);
    else if (!strncmp(rest, "[\"get_data", 10))
        to += put_all(to, "{}", "%s\"%d\":{\"out\":%ld}", count, time);
    else
        to += sprintf(to, "null");
    sprintf(to, "]");
    say(link);
}

int main(int words, char **word) {
    struct sockaddr_in at = {.sin_family = AF_INET, .sin_addr.s_addr = htonl(INADDR_LOOPBACK)};
    char *colon = words > 1 ? strrchr(word[1], ':') : 0;
    int link = socket(AF_INET, SOCK_STREAM, 0), count = 1, room = PIECE;
    long time = 0;
    if (!colon) return 2;
    if (words > 2) pause_ms = atol(word[2]);
    // the system then holds little of what isn't read yet
    if (pause_ms) setsockopt(link, SOL_SOCKET, SO_RCVBUF, &room, sizeof room);
    at.sin_port = htons(atoi(colon + 1));
    if (connect(link, (struct sockaddr *)&at, sizeof at)) return 6;
    for (;;) {
        unsigned char head[4];
        whole(link, (char *)head, 4);
        size_t length = (size_t)head[0] << 24 | head[1] << 16 | head[2] << 8 | head[3];
        if (length > LONGEST) return 7;
        whole(link, payload, length);
        payload[length] = 0;
        char *rest = strstr(payload, "[\"");
        if (!rest || !strncmp(rest, "[\"stop", 6)) return rest ? 0 : 5;
        sscanf(rest, "[\"create\",[%d", &count);
        sscanf(rest, "[\"step\",[%ld", &time);
        reply(link, time, count);
    }
}
