/*
 * The first program of a guest whose memory is to be an image: it does the work that the kernel's command line names (`work=`), says "ready" on the
 * console, and sleeps.
 *
 *   idle       nothing more
 *   files      copies the files of the initial memory disk to another file system in memory
 *   processes  sixteen processes, each with half a megabyte of its own, some of it alike
 *   both       files, and then processes
 */
#include <dirent.h>
#include <fcntl.h>
#include <stdio.h>
#include <stdlib.h>
#include <string.h>
#include <sys/mount.h>
#include <sys/stat.h>
#include <unistd.h>

#define PROCESSES 16
#define OWN (512 << 10)

static int is_asked(const char *work) {
    char words[4096] = "", wanted[64];
    int file = open("/proc/cmdline", O_RDONLY);
    ssize_t length = file < 0 ? 0 : read(file, words, sizeof words - 1);
    words[length > 0 ? length : 0] = 0;
    snprintf(wanted, sizeof wanted, "work=%s", work);
    return strstr(words, wanted) != NULL;
}

static void copy(const char *from, const char *to) {
    static char block[1 << 16];
    int in = open(from, O_RDONLY), out = open(to, O_WRONLY | O_CREAT, 0600);
    for (ssize_t n; in >= 0 && out >= 0 && (n = read(in, block, sizeof block)) > 0;)
        if (write(out, block, (size_t)n) != n)
            break;
    close(in);
    close(out);
}

static void copy_files(void) {
    char from[512], to[512];
    DIR *folder = opendir("/files");
    for (struct dirent *entry; folder && (entry = readdir(folder)) != NULL;) {
        snprintf(from, sizeof from, "/files/%s", entry->d_name);
        snprintf(to, sizeof to, "/memory/%s", entry->d_name);
        if (entry->d_type == DT_REG)
            copy(from, to);
    }
}

static void work(unsigned number) {
    unsigned char *own = malloc(OWN);
    for (size_t i = 0; own && i < OWN; i++)
        own[i] = (unsigned char)(i < OWN / 2 ? i >> 12 : (i * 2654435761u + number) >> 13);
    for (;;)
        pause();
}

int main(void) {
    mount("none", "/proc", "proc", 0, NULL);
    mount("none", "/sys", "sysfs", 0, NULL);
    mount("none", "/memory", "tmpfs", 0, NULL);
    if (is_asked("files") || is_asked("both"))
        copy_files();
    if (is_asked("processes") || is_asked("both"))
        for (unsigned i = 0; i < PROCESSES; i++)
            if (fork() == 0)
                work(i);
    sleep(1);
    puts("ready");
    fflush(stdout);
    for (;;)
        pause();
}
