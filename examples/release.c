/*
 * Releases a table, as an editor does on any system: the file is read once, checked, and the very bytes that were
 * checked are written to a new file, which takes the place of OUT only when it is whole.
 *
 *     cc release.c $(pkg-config --cflags --libs shuntberry) -o release
 *     ./release pump.table released.table && echo released
 *
 * The file is one for site 0, or for the site behind OUT. The program prints what the program `check` prints, and ends
 * with 0 only where the table is safe and has states and OUT holds it: 1 for unsafe, 2 for refused, 4 for a table without
 * states and for one in which nothing is initial or nothing forbidden, which is safe whatever it does; 3 for anything
 * else. Where it does not end with 0, OUT is as it was, and standard error says why. There is one name for the new file,
 * OUT.new. A file of that name is not written over, since it may be FILE, or another release's: the program fails then.
 */
#if !defined(_WIN32) && !defined(_POSIX_C_SOURCE)
#define _POSIX_C_SOURCE 200809L
#endif
#include "common.h"

#include <fcntl.h>
#include <sys/stat.h>

#ifdef _WIN32
#include <io.h>
#include <windows.h>
static FILE *created(const char *name) /* errno says why it is NULL */
{
    int file = _open(name, _O_WRONLY | _O_CREAT | _O_EXCL | _O_BINARY, _S_IREAD | _S_IWRITE);
    return file < 0 ? NULL : _fdopen(file, "wb");
}
static int to_disk(FILE *file) { return _commit(_fileno(file)); }
static int is_in_place(const char *new_name, const char *out)
{
    if (MoveFileExA(new_name, out, MOVEFILE_REPLACE_EXISTING | MOVEFILE_WRITE_THROUGH))
        return 1;
    const DWORD error = GetLastError(); /* errno says nothing of it */
    char words[256] = "";
    FormatMessageA(FORMAT_MESSAGE_FROM_SYSTEM | FORMAT_MESSAGE_IGNORE_INSERTS | FORMAT_MESSAGE_MAX_WIDTH_MASK, NULL, error,
                   0, words, sizeof words, NULL);
    fprintf(stderr, "%s: Windows error %lu: %s\n", out, (unsigned long)error, words);
    return 0;
}
#else
#include <unistd.h>
static FILE *created(const char *name)
{
    int file = open(name, O_WRONLY | O_CREAT | O_EXCL, S_IRUSR | S_IWUSR | S_IRGRP | S_IWGRP | S_IROTH | S_IWOTH);
    return file < 0 ? NULL : fdopen(file, "wb");
}
static int to_disk(FILE *file) { return fsync(fileno(file)); }
static int is_in_place(const char *new_name, const char *out)
{
    if (rename(new_name, out) == 0)
        return 1;
    perror(out);
    return 0;
}
#endif

static uint8_t input[SHUNTBERRY_FILE_BYTES + 1]; /* one more, so that a longer file is seen to be too long */
static size_t length;

/* Checks the bytes that were read and prints the text; WELL where they may be released. */
static enum status check(size_t site)
{
    static uint8_t text[SHUNTBERRY_CHECK_TEXT];
    static uint64_t store[SHUNTBERRY_STORE_WORDS];
    struct shuntberry_checked checked = shuntberry_check(input, length, site, text, sizeof text);

    if (fwrite(text, 1, checked.length, stdout) != checked.length)
        return FAILED;
    if (checked.refusal != SHUNTBERRY_ACCEPTED)
        return say_refused(checked.refusal);
    if (checked.file_refusal != SHUNTBERRY_ACCEPTED)
        return say_refused(checked.file_refusal);
    if (checked.verdict != SHUNTBERRY_SAFE)
        return checked.verdict == SHUNTBERRY_UNSAFE ? NO : FAILED;
    /* the text has the verdict; whether that says anything is in the table */
    struct shuntberry_table table = shuntberry_read(input, length, site, store, SHUNTBERRY_STORE_WORDS);
    if (table.refusal != SHUNTBERRY_ACCEPTED)
        return FAILED;
    enum status said = says_something(store, table.n);
    return shuntberry_checked_is_safe(checked) ? said : EMPTY;
}

/* The bytes in a new file, all of them on the disk; else there is no new file. */
static int is_written(const char *new_name)
{
    FILE *file = created(new_name);
    if (file == NULL) {
        perror(new_name);
        return 0;
    }
    int whole = fwrite(input, 1, length, file) == length && fflush(file) == 0 && to_disk(file) == 0;
    if (!whole)
        perror(new_name);
    if (fclose(file) != 0 && whole) {
        perror(new_name);
        whole = 0;
    }
    if (!whole)
        remove(new_name);
    return whole;
}

static enum status put(const char *out)
{
    size_t room = strlen(out) + sizeof ".new";
    char *new_name = malloc(room);
    enum status status = FAILED;

    if (new_name == NULL)
        return FAILED;
    snprintf(new_name, room, "%s.new", out);
    if (is_written(new_name)) {
        if (is_in_place(new_name, out))
            status = WELL;
        else
            remove(new_name);
    }
    free(new_name);
    return status;
}

int main(int count, char **words)
{
    size_t site;

    if (count < 3 || count > 4 || !is_site(words[3], &site)) {
        fprintf(stderr, "usage: release FILE OUT [SITE]\n");
        return FAILED;
    }
    FILE *file = opened(words[1], input, sizeof input, &length);
    if (file == NULL || closed(file, words[1]) != WELL)
        return FAILED;
    /* what could not be printed is not released */
    enum status status = printed(check(site));
    if (status == WELL)
        status = put(words[2]);
    if (status != WELL)
        fprintf(stderr, "%s: not released\n", words[1]);
    return status;
}
