// The program `places` as a whole: it is started, reads the text of a drawing, packs it, lists its map and writes the listing.
#include <fcntl.h>
#include <spawn.h>
#include <sys/resource.h>
#include <sys/wait.h>
#include <unistd.h>

#include <chrono>
#include <cstdio>
#include <cstdlib>

#include "maps.h"
#include "parts.h"
#include "pmap.h"

namespace {

const int RUNS = 300;
const char *const text_file = "target/bench/drawing";

// The text of the drawing that a map unpacks to.
void write_text(const bytes &map)
{
    size_t m = borders(map);
    std::vector<uint16_t> turning(2 * m);
    bytes marks(m);
    uint16_t got = 0;
    pmap_unpack(map.data(), map.size(), turning.data(), 2 * m, marks.data(), m, &got);
    FILE *file = std::fopen(text_file, "w");
    if (!file)
        std::exit(1);
    std::fprintf(file, "border first second mark\n");
    for (size_t e = 0; e < m; e++)
        std::fprintf(file, "%zu %d %d %d\n", e, turning[2 * e], turning[2 * e + 1], marks[e]);
    std::fclose(file);
}

double ms(timeval t)
{
    return 1e3 * double(t.tv_sec) + 1e-3 * double(t.tv_usec);
}

// What one run takes, in ms: the mean of many. A single run is shorter than what the system's clock for user time can tell.
struct taken {
    double user = 0, system = 0, all = 0;
};

taken run(const char *program, int runs)
{
    posix_spawn_file_actions_t files;
    posix_spawn_file_actions_init(&files);
    posix_spawn_file_actions_addopen(&files, 0, text_file, O_RDONLY, 0);
    posix_spawn_file_actions_addopen(&files, 1, "/dev/null", O_WRONLY, 0);
    char *const words[] = { const_cast<char *>(program), nullptr };
    taken t;
    for (int i = 0; i < runs; i++) {
        auto from = std::chrono::steady_clock::now();
        pid_t child;
        int status;
        rusage used;
        if (posix_spawn(&child, program, &files, nullptr, words, environ) != 0 || wait4(child, &status, 0, &used) != child || status != 0)
            std::exit(1);
        t.all += std::chrono::duration<double, std::milli>(std::chrono::steady_clock::now() - from).count() / runs;
        t.user += ms(used.ru_utime) / runs;
        t.system += ms(used.ru_stime) / runs;
    }
    posix_spawn_file_actions_destroy(&files);
    return t;
}

void show(const char *program)
{
    run(program, 10);
    taken t = run(program, RUNS);
    std::printf(" %12.2f %12.2f %12.2f", t.user, t.system, t.all);
}

}  // namespace

void show_program(size_t m)
{
    std::printf("\nthe program places, %zu borders: ms for one run, the mean of %d\n%-12s %12s %12s %12s", m, RUNS, "", "user", "system", "in all");
#ifdef BEFORE
    std::printf(" %12s %12s %12s", "before: user", "system", "in all");
#endif
    std::printf("\n");
    for (int k = 0; k < ALL_KINDS; k++) {
        write_text(make_map(kind(k), m));
        std::printf("%-12s", kind_names[k]);
        show("crates/places/out/places");
#ifdef BEFORE
        show(BEFORE "/crates/places/out/places");
#endif
        std::printf("\n");
    }
    std::remove(text_file);
}
