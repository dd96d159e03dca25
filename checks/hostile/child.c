// A child program whose link another program serves: child HOST:PORT SOCKET NAME [STATUS]
//
// It connects to the address, hands the link over the local socket together with its name, the address and how many
// files it was started with, and waits until that socket is closed. With STATUS it ends with this one at once.
#include <arpa/inet.h>
#include <netinet/in.h>
#include <stdio.h>
#include <stdlib.h>
#include <string.h>
#include <sys/socket.h>
#include <sys/un.h>
#include <unistd.h>
#include <fcntl.h>

static int inherited(void) {
    int count = 0;
    for (int file = 3; file < 1024; file++) count += fcntl(file, F_GETFD) >= 0;
    return count;
}

static int connected(const char *address) {
    const char *colon = strrchr(address, ':');
    struct sockaddr_in at = {.sin_family = AF_INET, .sin_addr.s_addr = htonl(INADDR_LOOPBACK)};
    int link = socket(AF_INET, SOCK_STREAM, 0);
    if (!colon || link < 0) exit(9);
    at.sin_port = htons(atoi(colon + 1));
    if (connect(link, (struct sockaddr *)&at, sizeof at)) exit(9);
    return link;
}

static int handed(const char *place, int link, const char *line) {
    struct sockaddr_un at = {.sun_family = AF_UNIX};
    char control[CMSG_SPACE(sizeof link)] = {0};
    struct iovec piece = {(void *)line, strlen(line)};
    struct msghdr message = {.msg_iov = &piece, .msg_iovlen = 1};
    message.msg_control = control;
    message.msg_controllen = sizeof control;
    struct cmsghdr *head = CMSG_FIRSTHDR(&message);
    int other = socket(AF_UNIX, SOCK_STREAM, 0);
    strncpy(at.sun_path, place, sizeof at.sun_path - 1);
    head->cmsg_level = SOL_SOCKET;
    head->cmsg_type = SCM_RIGHTS;
    head->cmsg_len = CMSG_LEN(sizeof link);
    memcpy(CMSG_DATA(head), &link, sizeof link);
    if (connect(other, (struct sockaddr *)&at, sizeof at) || sendmsg(other, &message, 0) < 0) exit(9);
    return other;
}

int main(int count, char **words) {
    char line[256], piece[64];
    int files = inherited();
    if (count < 4) return 9;
    if (count > 4) return atoi(words[4]);
    int link = connected(words[1]);
    snprintf(line, sizeof line, "%s %s %d\n", words[3], words[1], files);
    int other = handed(words[2], link, line);
    close(link);
    while (read(other, piece, sizeof piece) > 0) continue;
    return 0;
}
