/* Gives each line of its input to a session by session.h, as a configuration line, and says what came of it. A question behind each line
   shows that the host and the session are still in step. usage: session_lines < LINES */
#define _GNU_SOURCE
#include "../../examples/live/session.h"

int main(void) {
    struct session session = session_start(NULL);
    char *line = NULL;
    size_t room = 0;
    for (ssize_t len; (len = getline(&line, &room, stdin)) > 0;) {
        const char *wrong = session_configure_bytes(&session, line, (size_t)len - (line[len - 1] == '\n'));
        printf("%s", wrong ? wrong : "obeyed");
        session_say(&session, "next\n", 5);
        printf("; %s\n", session_record(&session));
    }
    printf("%s\n", session_configure(&session, "pipe 1 config\npipe 2 config"));
    return session_end(&session);
}
