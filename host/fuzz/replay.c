/*
 * Runs the fuzz target once for each file of a directory, without libFuzzer.
 * The name of a file is printed before its run, so the last one is at fault.
 */
#define _DEFAULT_SOURCE
#include <dirent.h>
#include <stdint.h>
#include <stdio.h>

#define DATA_LONGEST 65536

int LLVMFuzzerInitialize(int *count, char ***words);
int LLVMFuzzerTestOneInput(const uint8_t *data, size_t size);

static int run_file(const char *directory, const char *name)
{
    static char path[4096];
    static uint8_t data[DATA_LONGEST];
    snprintf(path, sizeof path, "%s/%s", directory, name);
    FILE *file = fopen(path, "rb");
    if (file == NULL) {
        return 0;
    }
    size_t size = fread(data, 1, sizeof data, file);
    fclose(file);
    printf("%s\n", path);
    fflush(stdout);
    LLVMFuzzerTestOneInput(data, size);
    return 1;
}

int main(int count, char **words)
{
    DIR *directory = count == 2 ? opendir(words[1]) : NULL;
    if (directory == NULL) {
        fprintf(stderr, "usage: replay DIR\n");
        return 2;
    }
    LLVMFuzzerInitialize(&count, &words);
    int files = 0;
    for (struct dirent *entry = readdir(directory); entry != NULL; entry = readdir(directory)) {
        files += entry->d_name[0] == '.' ? 0 : run_file(words[1], entry->d_name);
    }
    closedir(directory);
    return files > 0 ? 0 : 1;
}
