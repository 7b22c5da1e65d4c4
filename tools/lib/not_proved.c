/* Of a program that is built without a proof: if a person starts `serve` on a terminal, it says so first. */
#include <string.h>
#include <unistd.h>

static const char TEXT[] = "index: NOT PROVED: tools/try built this program without its proofs. Do not serve packages "
                           "by it that somebody needs.\n";

__attribute__((constructor)) static void say_not_proved(int count, char **words) {
    if (count > 1 && !strcmp(words[1], "serve") && isatty(STDERR_FILENO))
        (void)!write(STDERR_FILENO, TEXT, sizeof TEXT - 1);
}
