// Says a script's commands to `scisim talk` one by one, and prints what each prints: talk PROGRAM SCRIPT
// It ends with 0 behind the last command, and with 1 at a refusal or where a pipe or a file fails.
#define _POSIX_C_SOURCE 200809L
#include <signal.h>
#include <stdio.h>
#include <stdlib.h>
#include <string.h>
#include <unistd.h>

// Says a command, of any length and with or without its line feed, and prints what it prints: 0, the number of its refusal, or -1
// where no answer comes, or nobody takes what is printed.
static int say(FILE *to, FILE *from, const char *command, size_t length) {
    static char *line;
    static size_t room;
    int number;
    fwrite(command, 1, length, to);
    if (command[length - 1] != '\n') putc('\n', to);
    if (fflush(to)) return -1;
    while (getline(&line, &room, from) > 0) {
        if (!strcmp(line, "ok\n")) return fflush(stdout) ? -1 : 0;
        if (sscanf(line, "refused %d", &number) == 1) return number;
        if (fputs(line, stdout) < 0) return -1;
    }
    return -1;
}

int main(int count, char **words) {
    int ask[2], answer[2], refused = 0;
    char *command = NULL;
    size_t room = 0;
    ssize_t length;
    if (count != 3 || pipe(ask) || pipe(answer)) return 2;
    if (!fork())
        dup2(ask[0], 0), dup2(answer[1], 1), close(ask[1]), execl(words[1], words[1], "talk", (char *)0), _exit(2);
    close(ask[0]), close(answer[1]);
    signal(SIGPIPE, SIG_IGN); // a closed pipe is an answer that doesn't come
    FILE *script = fopen(words[2], "r"), *to = fdopen(ask[1], "w"), *from = fdopen(answer[0], "r");
    while (script && !refused && (length = getline(&command, &room, script)) > 0)
        refused = say(to, from, command, (size_t)length);
    if (!script || ferror(script)) perror(words[2]);
    if (refused < 0) fputs("talk: no answer, or nobody reads on\n", stderr);
    if (refused > 0) fprintf(stderr, "refused %d: %s", refused, command);
    free(command);
    return script && !refused && !ferror(script) ? 0 : 1;
}
