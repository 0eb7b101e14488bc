/* Plays the run text on standard input and prints its report: what the desktop application does with a file that is dropped on it.
 *
 * Build, where the library is installed:
 *   cc -O2 -o play play.c $(pkg-config --cflags --libs funkenrille)
 *
 * Status: 0 the report was printed; 3 the text is too long (refusal 23); 4 something could not be read or written.
 */
#include <stdio.h>

#include <funkenrille.h>

enum { DONE = 0, TOO_LONG = 3, NO_STREAM = 4 };

static int failed(void)
{
    perror("play");
    return NO_STREAM;
}

int main(void)
{
    /* one byte more than a text may have, to see that it is too long */
    static uint8_t text[FUNKENRILLE_TEXT_MAX + 1];
    static uint8_t room[FUNKENRILLE_REPORT_MAX];

    size_t text_length = fread(text, 1, sizeof text, stdin);
    if (ferror(stdin))
        return failed();
    size_t length = funkenrille_report(text, text_length, room, sizeof room);
    if (length == 0) {
        fprintf(stderr, "play: refusal 23: the text is longer than %u bytes\n", FUNKENRILLE_TEXT_MAX);
        return TOO_LONG;
    }
    if (fwrite(room, 1, length, stdout) != length || fclose(stdout) != 0)
        return failed();
    return DONE;
}
