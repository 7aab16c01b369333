/* Runs a program and tells which of some places of its code it reaches: marks OFFSETS PROGRAM WORD ..
 * OFFSETS is a file with an offset into the program a line, in hexadecimal. A trap stands at each of them until it is
 * reached for the first time; then the offset is written to the file OFFSETS.hit. Of the run itself nothing changes.
 * For Linux on x86-64, and programs that start no other. */
#include <signal.h>
#include <stdint.h>
#include <stdio.h>
#include <stdlib.h>
#include <string.h>
#include <sys/personality.h>
#include <sys/ptrace.h>
#include <sys/user.h>
#include <sys/wait.h>
#include <unistd.h>

enum { MOST = 1 << 16 };

static uint64_t offsets[MOST];
static unsigned char bytes[MOST];
static int is_set[MOST];
static int count;

static void fail(const char *what)
{
    perror(what);
    exit(70);
}

static void read_offsets(const char *path)
{
    FILE *file = fopen(path, "r");
    if (!file)
        fail(path);
    while (count < MOST && fscanf(file, "%lx", &offsets[count]) == 1)
        count++;
    fclose(file);
}

/* Where the program lies: the start of the first mapping of its file. */
static uint64_t base_of(pid_t child)
{
    char path[64];
    uint64_t base = 0;
    snprintf(path, sizeof path, "/proc/%d/maps", child);
    FILE *maps = fopen(path, "r");
    if (!maps || fscanf(maps, "%lx", &base) != 1)
        fail(path);
    fclose(maps);
    return base;
}

static void put(FILE *memory, uint64_t at, unsigned char byte)
{
    if (fseek(memory, (long)at, SEEK_SET) || fwrite(&byte, 1, 1, memory) != 1 || fflush(memory))
        fail("a trap");
}

static FILE *set_traps(pid_t child, uint64_t base)
{
    char path[64];
    snprintf(path, sizeof path, "/proc/%d/mem", child);
    FILE *memory = fopen(path, "r+");
    if (!memory)
        fail(path);
    setvbuf(memory, NULL, _IONBF, 0);
    for (int i = 0; i < count; i++) {
        if (fseek(memory, (long)(base + offsets[i]), SEEK_SET) || fread(&bytes[i], 1, 1, memory) != 1)
            fail("an offset");
        put(memory, base + offsets[i], 0xcc);
        is_set[i] = 1;
    }
    return memory;
}

static int place_of(uint64_t offset)
{
    for (int i = 0; i < count; i++)
        if (offsets[i] == offset && is_set[i])
            return i;
    return -1;
}

int main(int argc, char **words)
{
    if (argc < 3)
        return 70;
    read_offsets(words[1]);
    pid_t child = fork();
    if (child == 0) {
        personality(ADDR_NO_RANDOMIZE);
        ptrace(PTRACE_TRACEME, 0, 0, 0);
        execv(words[2], words + 2);
        _exit(71);
    }
    int status;
    waitpid(child, &status, 0);
    if (!WIFSTOPPED(status))
        fail(words[2]);
    uint64_t base = base_of(child);
    FILE *memory = set_traps(child, base);
    char path[4096];
    snprintf(path, sizeof path, "%s.hit", words[1]);
    FILE *hit = fopen(path, "w");
    if (!hit)
        fail(path);
    int pass = 0;
    for (;;) {
        ptrace(PTRACE_CONT, child, 0, pass);
        waitpid(child, &status, 0);
        if (!WIFSTOPPED(status))
            break;
        pass = WSTOPSIG(status);
        if (pass != SIGTRAP)
            continue;
        struct user_regs_struct registers;
        ptrace(PTRACE_GETREGS, child, 0, &registers);
        int place = place_of(registers.rip - 1 - base);
        pass = 0;
        if (place < 0)
            continue;
        put(memory, base + offsets[place], bytes[place]);
        is_set[place] = 0;
        registers.rip--;
        ptrace(PTRACE_SETREGS, child, 0, &registers);
        fprintf(hit, "%lx\n", offsets[place]);
    }
    fclose(hit);
    return WIFEXITED(status) ? WEXITSTATUS(status) : 72;
}
