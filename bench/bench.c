/* The benchmark: `bench` alone prints every table. It starts itself twice for the tables with peers, once with the
 * peers' hardware AES off and once with it on, because nettle chooses its instructions while it is loaded. */
#define _XOPEN_SOURCE 700
#include "codecs.h"
#include "measure.h"
#include "stack.h"
#include "times.h"

#include <stdio.h>
#include <stdlib.h>
#include <string.h>
#include <sys/wait.h>
#include <unistd.h>

#define SOFTWARE "software"
#define HARDWARE "hardware"

/* What nettle finds without its AES instructions; its other choices stay as on such a processor. */
#define NETTLE_WITHOUT_AES "vendor:intel"

static const char NO_AES[] = "libnettle: not using aes instructions.";

static void print_spread(void) {
  printf("\nWidest quartile range of the times above: %.0f %% of the median.\n", 100 * widest_spread());
}

static int software(void) {
  mbedtls_hardware = false;
  if (mbedtls_uses_hardware()) {
    fail("hardware AES is not switched off", "mbedtls");
  }
  compare_with_peers("software AES");
  compare_with_kept_keys("software AES");
  times_alone();
  times_of_senders();
  times_of_journals();
  compare_bursts_with_calls();
  print_spread();
  return 0;
}

static int hardware(void) {
  mbedtls_hardware = true;
  printf("\nmbedtls %s AES instructions.\n", mbedtls_uses_hardware() ? "uses" : "does not use");
  compare_with_peers("hardware AES");
  print_spread();
  return 0;
}

/* In the new process: what nettle says while it is loaded goes into the pipe. */
static _Noreturn void become(const char *way, const char *override, const int ends[2]) {
  dup2(ends[1], STDERR_FILENO);
  close(ends[0]);
  close(ends[1]);
  setenv("NETTLE_FAT_VERBOSE", "1", 1);
  unsetenv("NETTLE_FAT_OVERRIDE");
  if (override) {
    setenv("NETTLE_FAT_OVERRIDE", override, 1);
  }
  execl("/proc/self/exe", "bench", way, (char *)NULL);
  fail("cannot start", way);
}

/* Pass messages on, keep nettle's to ourselves; whether nettle said that it goes without AES instructions. */
static bool listen_to(FILE *messages) {
  bool without = false;
  char line[256];
  while (fgets(line, sizeof line, messages)) {
    if (strncmp(line, NO_AES, strlen(NO_AES)) == 0) {
      without = true;
    } else if (strncmp(line, "libnettle:", 10) != 0) {
      fputs(line, stderr);
    }
  }
  return without;
}

/* Run a part in a process of its own; whether nettle said there that it goes without AES instructions. */
static bool run_part(const char *way, const char *override) {
  int ends[2], status = 0;
  fflush(stdout);
  if (pipe(ends) != 0) {
    fail("no pipe", way);
  }
  pid_t child = fork();
  if (child < 0) {
    fail("no process", way);
  }
  if (child == 0) {
    become(way, override, ends);
  }
  close(ends[1]);
  FILE *messages = fdopen(ends[0], "r");
  bool without = messages && listen_to(messages);
  if (waitpid(child, &status, 0) != child || !WIFEXITED(status) || WEXITSTATUS(status) != 0) {
    fail("ended without success", way);
  }
  return without;
}

static int all(void) {
  printf("nettle %s, mbedtls %s, wolfSSL %s\n", nettle.version, mbedtls.version, wolfssl.version);
  if (!run_part(SOFTWARE, NETTLE_WITHOUT_AES) && nettle.seal) {
    fail("did not say that it goes without AES instructions", "nettle");
  }
  if (run_part(HARDWARE, NULL)) {
    printf("\nnettle does not use AES instructions.\n");
  }
  print_stack_use();
  return 0;
}

int main(int argc, char **argv) {
  if (argc == 1) {
    return all();
  }
  if (argc == 2 && strcmp(argv[1], SOFTWARE) == 0) {
    return software();
  }
  if (argc == 2 && strcmp(argv[1], HARDWARE) == 0) {
    return hardware();
  }
  fail("no arguments, or software or hardware", "usage");
}
