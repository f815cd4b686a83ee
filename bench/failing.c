/* A small simulation that fails at every other evaluation: failing PARAMETERS RESULTS reads the parameters file, and leaves one
 * value where the number of the evaluation, which stands in its last line, is odd, and that it failed where it is even. */
#include <fcntl.h>
#include <unistd.h>

int main(int count, char **words)
{
    static const char value[] = "1 f\n", failed[] = "FAIL\n", tag[] = " eval_id\n";
    static char text[1 << 16];
    if (count != 3)
        return 1;
    int file = open(words[1], O_RDONLY);
    ssize_t length = read(file, text, sizeof text), behind = sizeof tag - 1;
    if (length <= behind)
        return 1;
    const char *results = text[length - behind - 1] % 2 ? value : failed;
    ssize_t written = results == value ? sizeof value - 1 : sizeof failed - 1;
    file = open(words[2], O_WRONLY | O_CREAT | O_TRUNC, 0666);
    return !(file >= 0 && write(file, results, (size_t)written) == written && close(file) == 0);
}
